"""Limits each address: the rate of its requests, and the number of its requests in progress. Gives turns to the
addresses."""

import collections
import functools
import ipaddress
import time
from collections.abc import Callable
from typing import Generic, TypeVar

Thing = TypeVar("Thing")


class Limited(Exception):
    """An address exceeds its share, or there is no room for any request."""

    def __init__(self, of_all: bool, wait: float, what: str = "asks too often, or too much at once") -> None:
        super().__init__(wait)
        self.of_all, self.wait, self.what = of_all, wait, what


@functools.lru_cache(maxsize=10_000)
def share_of(address: str) -> str:
    """The part of an address that has one share: an IPv4 address, or the first 64 bits of an IPv6 address."""
    try:
        found = ipaddress.ip_address(address.strip("[]").partition("%")[0])
    except ValueError:
        return address[:100]
    if isinstance(found, ipaddress.IPv4Address):
        return str(found)
    if found.ipv4_mapped is not None:
        return str(found.ipv4_mapped)
    return str(ipaddress.ip_network((int(found) >> 64 << 64, 64)))


def asker_of(peer: str, forwarded: str, proxies: frozenset[str]) -> str:
    """The address of the client: the peer or, if the peer is the named proxy, the address that the proxy names."""
    if peer not in proxies:
        return share_of(peer)
    named = [it.strip() for it in forwarded.split(",")]
    return share_of(next((it for it in reversed(named) if it and it not in proxies), peer)[:100])


class Buckets:
    """Limits the rate of requests of each address: this many at once, and this many a second."""

    def __init__(
        self, rate: float, burst: float, most: int = 10_000, clock: Callable[[], float] = time.monotonic
    ) -> None:
        self.rate, self.burst, self.most, self.clock = rate, burst, most, clock
        self.left: collections.OrderedDict[str, tuple[float, float]] = collections.OrderedDict()

    def take(self, address: str) -> None:
        """Counts a request, or raises Limited."""
        if not self.rate:
            return
        tokens, now = self._now(address)
        is_taken = tokens >= 1
        self._keep(address, tokens - is_taken, now)
        if not is_taken:
            raise Limited(False, (1 - tokens) / self.rate)

    def _now(self, address: str) -> tuple[float, float]:
        """The present balance of an address, and the present time."""
        now = self.clock()
        tokens, then = self.left.get(address, (self.burst, now))
        return min(self.burst, tokens + (now - then) * self.rate), now

    def _keep(self, address: str, tokens: float, now: float) -> None:
        self.left[address] = (tokens, now)
        self.left.move_to_end(address)
        if len(self.left) > self.most:
            self.left.popitem(last=False)


class Octets(Buckets):
    """Limits the octets of answers to each address. An answer of any size is counted when it is made, and an address in
    debt has to wait."""

    def take(self, address: str) -> None:
        """Raises Limited if the address is in debt. Counts nothing."""
        tokens = self._now(address)[0] if self.rate else 0
        if tokens < 0:
            raise Limited(
                False, -tokens / self.rate, "has taken more octets than its share: a smaller radius takes fewer"
            )

    def spend(self, address: str, octets: int) -> None:
        if self.rate:
            tokens, now = self._now(address)
            self._keep(address, tokens - octets, now)


class Spare:
    """A budget of processor time for optional work: a share of each second, and at most the share of one second in
    advance."""

    def __init__(self, part: float, clock: Callable[[], float] = time.monotonic) -> None:
        self.part, self.clock = part, clock
        self.left, self.then = part, clock()

    def is_left(self) -> bool:
        now = self.clock()
        self.left, self.then = min(self.part, self.left + (now - self.then) * self.part), now
        return self.left > 0

    def spend(self, seconds: float) -> None:
        self.left -= seconds


class Shares:
    """Limits the number of requests in progress, for each address and in total."""

    def __init__(self, by_address: int, of_all: int) -> None:
        self.by_address, self.of_all = by_address, of_all
        self.held: collections.Counter[str] = collections.Counter()
        self.total = 0

    def enter(self, address: str) -> None:
        if self.held[address] >= self.by_address:
            raise Limited(False, 1)
        if self.total >= self.of_all:
            raise Limited(True, 1)
        self.held[address] += 1
        self.total += 1

    def leave(self, address: str) -> None:
        self.total -= 1
        self.held[address] -= 1
        if not self.held[address]:
            del self.held[address]


class Turns(Generic[Thing]):
    """A queue that serves the addresses in turn, so that an address with many requests delays only itself."""

    def __init__(self) -> None:
        self.rows: collections.OrderedDict[str, collections.deque[Thing]] = collections.OrderedDict()

    def __bool__(self) -> bool:
        return bool(self.rows)

    def add(self, address: str, thing: Thing) -> None:
        self.rows.setdefault(address, collections.deque()).append(thing)

    def add_first(self, address: str, thing: Thing) -> None:
        """Puts an item back that has already had its turn."""
        self.rows.setdefault(address, collections.deque()).appendleft(thing)
        self.rows.move_to_end(address, last=False)

    def take(self) -> Thing:
        """Returns the next item in turn. There must be one."""
        address, row = self.rows.popitem(last=False)
        thing = row.popleft()
        if row:
            self.rows[address] = row
        return thing


class Connected(Generic[Thing]):
    """The open connections by address, the oldest first. There is always room for addresses with few connections."""

    def __init__(self, most: int, by_address: int, proxies: frozenset[str], is_idle: Callable[[Thing], bool]) -> None:
        self.most, self.by_address, self.proxies, self.is_idle = most, by_address, proxies, is_idle
        self.held: dict[str, dict[Thing, None]] = {}
        self.total = 0

    def add(self, peer: str, thing: Thing) -> Thing | None:
        """Adds a connection. If there is no room, returns the connection to close for it, which may be the new one."""
        share = peer if peer in self.proxies else share_of(peer)
        row = self.held.setdefault(share, {})
        row[thing] = None
        self.total += 1
        if len(row) > self.by_address and share not in self.proxies:
            return self._first_idle(row) or thing
        if self.total <= self.most:
            return None
        # the address with the most connections makes room, the first of several such; a proxy, which has many clients,
        # only for itself
        others = [it for name, it in self.held.items() if name not in self.proxies]
        greatest = max(others, key=len, default=row)
        return self._first_idle(greatest) or thing

    def _first_idle(self, row: dict[Thing, None]) -> Thing | None:
        return next((it for it in row if self.is_idle(it)), None)

    def drop(self, peer: str, thing: Thing) -> None:
        share = peer if peer in self.proxies else share_of(peer)
        row = self.held.get(share, {})
        if thing in row:
            del row[thing]
            self.total -= 1
            if not row:
                del self.held[share]
