#!/usr/bin/python3
"""Measures the gateway and its replicas, by hand: checks/web/measure.py PROGRAM speed | killed | old | roll | lies |
install | full | alone

speed    answers a second, the median and the 99th percentile: through the cache and past it, with 1, 2 and 3 replicas,
         over streets of 5,000 nodes and the grid of 65,536, under a skewed mix of queries
killed   10,000 queries of 50 clients, while a gateway, a `serve` and nginx are killed twenty times each
old      a replica keeps an older publication
roll     a publication is rolled through three replicas under load: all install it before one announces it
lies     one replica of three lies in one answer of ten, which the cache then keeps
install  the longest wait of a query while a publication under HYP over the grid of 65,536 is installed
full     one gateway whose log is on a full disk
alone    one gateway: slow and hostile clients for an hour (--minutes), with its memory and its open files

Each reply is compared octet for octet with the replies of `prove` and `reach`. All started processes get the priority
of this script's session. Prints lines for docs/BENCHMARKS.md. Ends with status 1 if anything is wrong. The script ends
only processes that it started. No client trusts this file.
"""

import argparse
import concurrent.futures
import gzip
import http.client
import multiprocessing
import os
import pathlib
import random
import re
import signal
import socket
import sys
import threading
import time
from functools import partial

from collections.abc import Callable, Sequence

sys.path.insert(0, str(pathlib.Path(__file__).resolve().parents[1]))

from common.desks import id_of  # noqa: E402
from common.layout import IN_ANSWER, version_of  # noqa: E402
from parties import GRID, STREETS, Client, Gateway, Many, Owner, Place, pass_priority_on, replace, roads, serves_of
from play import LIAR, faults, newest_of, until
from typing import Any

LOADERS, CONNECTIONS = 3, 6
# the start and the end of a query
Ends = tuple[int, int]
METHOD = "ldm"


def mix(count: int, draw: random.Random, asks: int) -> list[int]:
    """The indices of this many queries: the k-th is asked with frequency proportional to 1/k."""
    return draw.choices(range(count), [1 / (place + 1) for place in range(count)], k=asks)


def pairs(owner: Owner, count: int, draw: random.Random, near: int | None = None) -> list[Ends]:
    """Queries with the replies of `prove`."""
    found: list[Ends] = []
    known = set(owner.ids)
    while len(found) < count:
        start = draw.choice(owner.ids)
        end = draw.choice(owner.ids) if near is None else start + draw.randrange(1, near)
        if end in known:
            found.append((start, end))
    return found


class Wire:
    """An address over one kept connection, read by hand, so that the client costs little compared with the server."""

    LENGTH = re.compile(rb"\r\ncontent-length: (\d+)", re.I)

    def __init__(self, address: str) -> None:
        place = Place(address)
        self.room = (place.host, place.port)
        self.socket: socket.socket | None = None

    def ask(self, request: bytes) -> tuple[int, bytes]:
        """Returns the status and the octets. Opens a closed connection again, once."""
        for trial in (1, 2):
            try:
                self.socket = self.socket or socket.create_connection(self.room, 30)
                self.socket.sendall(request)
                return self.read()
            except OSError:
                self.socket = None
                if trial == 2:
                    raise
        raise AssertionError

    def more(self) -> bytes:
        assert self.socket
        part = self.socket.recv(1 << 18)
        if not part:
            raise ConnectionResetError
        return part

    def read(self) -> tuple[int, bytes]:
        got = self.more()
        while (at := got.find(b"\r\n\r\n")) < 0:
            got += self.more()
        parts = [got[at + 4 :]]
        length = self.LENGTH.search(got, 0, at)
        assert length
        left = int(length[1]) - len(parts[0])
        while left > 0:
            parts.append(self.more())
            left -= len(parts[-1])
        return int(got[9:12]), b"".join(parts)


def ask_all(
    addresses: list[str],
    name: str,
    asked: list[Ends],
    wanted: list[bytes],
    order: list[int],
    seconds: float,
    results: Any,
) -> None:
    """Sends queries as browsers do over this many connections. Puts the times and the number of errors into the queue."""
    times: list[float] = []
    wrong: list[int] = []
    lock, end = threading.Lock(), time.monotonic() + seconds
    line = "GET /v1/p/{}/route?from={}&to={} HTTP/1.1\r\nHost: a\r\nAccept-Encoding: gzip\r\n\r\n"
    requests = [line.format(name, *ends).encode() for ends in asked]
    # the right answers by query, so that equal octets are unpacked only once
    known: list[bytes | None] = [None] * len(asked)

    def one(number: int) -> None:
        wire = Wire(addresses[number % len(addresses)])
        mine: list[float] = []
        for at in order[number::CONNECTIONS]:
            if time.monotonic() > end:
                break
            began = time.monotonic()
            found = wire.ask(requests[at])
            mine.append(time.monotonic() - began)
            if found[1] != known[at]:
                plain = gzip.decompress(found[1]) if found[1].startswith(b"\x1f\x8b") else found[1]
                if (found[0], plain) == (200, wanted[at]):
                    known[at] = found[1]
                else:
                    wrong.append(found[0])
        with lock:
            times.extend(mine)

    threads = [threading.Thread(target=one, args=(number,)) for number in range(CONNECTIONS)]
    for thread in threads:
        thread.start()
    for thread in threads:
        thread.join()
    results.put((times, len(wrong)))


def loaded(
    addresses: list[str], name: str, asked: list[Ends], wanted: list[bytes], seconds: float, seed: int
) -> tuple[float, float, float, int]:
    """Answers a second, the median and the 99th percentile in milliseconds, and the number of wrong ones."""
    results: Any = multiprocessing.Queue()
    loaders: list[multiprocessing.Process] = []
    for number in range(LOADERS):
        # more than a loader can ask in this time
        order = mix(len(asked), random.Random(seed + number), int(20_000 * seconds))
        loaders.append(
            multiprocessing.Process(target=ask_all, args=(addresses, name, asked, wanted, order, seconds, results))
        )
    for loader in loaders:
        loader.start()
    told = [results.get() for _ in loaders]
    for loader in loaders:
        loader.join()
    times = sorted(it for found, _ in told for it in found)
    return (
        len(times) / seconds,
        1000 * times[len(times) // 2],
        1000 * times[len(times) * 99 // 100],
        sum(wrong for _, wrong in told),
    )


def prepared(
    program: str, text: bytes, versions: tuple[int, ...] = (3,), method: str = METHOD
) -> tuple[Owner, list[str]]:
    owner = Owner(program, text)
    return owner, [owner.publish(version, method) for version in versions]


def proved(owner: Owner, name: str, ends: Ends) -> bytes:
    return owner.prove(name, *ends)


def speed(program: str, given: argparse.Namespace) -> int:
    bad = 0
    print("| map | replicas | way | answers a second | median | 99th of 100 | octets of a reply |")
    print("|---|---|---|---|---|---|---|")
    maps: tuple[tuple[str, bytes, int | None], ...]
    maps = (("streets, 5,000 nodes", roads(STREETS, 5000), None), ("grid, 65,536 nodes", roads(GRID, 256), 40))
    for title, text, near in maps:
        owner, (name,) = prepared(program, text)
        draw = random.Random(1)
        asked = pairs(owner, given.asks, draw, near)
        with concurrent.futures.ThreadPoolExecutor(3) as pool:
            wanted = list(pool.map(partial(proved, owner, name), asked))
        for replicas in (1, 2, 3):
            started = Many(owner, name, "--replicas", replicas, "--haproxy")
            here = newest_of(started.gateways[0])
            for way, addresses in (("past the cache", started.gateways), ("through the cache", [started.address])):
                if way == "through the cache":
                    for start, end in asked:
                        Place(started.address).ask(f"/v1/p/{here}/route?from={start}&to={end}")
                rate, median, late, wrong = loaded(addresses, here, asked, wanted, given.seconds, replicas)
                bad += wrong
                size = sum(map(len, wanted)) // len(wanted)
                print(
                    f"| {title} | {replicas} | {way} | {rate:.0f} | {median:.1f} ms | {late:.1f} ms | {size:,} |",
                    flush=True,
                )
            started.end()
    return bad


def asks_of_clients(
    owner: Owner,
    address: str,
    asked: list[Ends],
    wanted: Sequence[Sequence[bytes]],
    clients: int,
    stop: Callable[[dict[str, int]], bool],
) -> dict[str, int]:
    """The results of clients, each with one query at a time: the numbers of wrong, lost and repeated ones."""
    counts, lock = {"asks": 0, "wrong": 0, "lost": 0}, threading.Lock()

    def one(number: int) -> None:
        client, draw = Client(owner, address, checks=False), random.Random(number)
        while not stop(counts):
            at = draw.randrange(len(asked))
            try:
                reply = patient(client, "from={}&to={}".format(*asked[at]))
                wrong, lost = reply not in wanted[at], False
            except (OSError, AssertionError, http.client.HTTPException):
                wrong, lost = False, True
            with lock:
                counts["asks"] += 1
                counts["wrong"] += wrong
                counts["lost"] += lost

    with concurrent.futures.ThreadPoolExecutor(clients) as pool:
        for found in [pool.submit(one, number) for number in range(clients)]:
            found.result()
    return counts


def patient(client: Client, words: str) -> bytes:
    """A reply, with a wait of up to five seconds while nothing listens."""
    end = time.monotonic() + 5
    while True:
        try:
            return client.reply(words)
        except ConnectionRefusedError:
            if time.monotonic() > end:
                raise
            time.sleep(0.1)


def killed(program: str, given: argparse.Namespace) -> int:
    owner, (name,) = prepared(program, roads(STREETS, 5000))
    asked = pairs(owner, given.asks, random.Random(2))
    wanted = [(owner.prove(name, *ends),) for ends in asked]
    started = Many(owner, name, "--replicas", 3, "--haproxy")
    done = threading.Event()
    kills: list[str] = []

    def kill() -> None:
        for turn in range(20):
            for what in ("gateway", "serve", "nginx"):
                # the gateway whose `serve` is killed is not the one that was killed last
                gateway = turn % 3 if what == "gateway" else (turn + 1) % 3
                number = started.number_of("nginx" if what == "nginx" else f"gateway-{gateway}")
                try:
                    for pid in serves_of(number) if what == "serve" else [number]:
                        os.kill(pid, signal.SIGKILL)
                        kills.append(what)
                except OSError:
                    pass
                time.sleep(1.0)
        done.set()

    thread = threading.Thread(target=kill)
    thread.start()
    counts = asks_of_clients(
        owner, started.address, asked, wanted, 50, lambda counts: counts["asks"] >= 10_000 and done.is_set()
    )
    thread.join()
    started.end()
    print(f"killed: {counts}, {({what: kills.count(what) for what in set(kills)})}")
    return counts["wrong"] + counts["lost"]


def has_other(one: str, other: str) -> bool:
    """Whether two gateways announce different publications."""
    return newest_of(one) != newest_of(other)


def old(program: str, given: argparse.Namespace) -> int:
    owner, names = prepared(program, roads(STREETS, 5000), (3, 4))
    asked = pairs(owner, given.asks, random.Random(3))
    wanted = [tuple(owner.prove(name, *ends) for name in names) for ends in asked]
    started = Many(owner, names[0], "--replicas", 3)
    for number in (0, 1):
        replace(started.replica(number) / "map.pub", owner.path(names[1]).read_bytes())
        until("rolled", partial(has_other, started.gateways[number], started.gateways[2]))
    end = time.monotonic() + float(given.seconds)
    counts = asks_of_clients(owner, started.address, asked, wanted, 20, lambda _: time.monotonic() > end)
    ids = [newest_of(started.gateways[0]), newest_of(started.gateways[2])]
    wrong = sum(
        Place(started.address).ask("/v1/p/{}/route?from={}&to={}".format(ids[1 - version], *asked[at]))[::2]
        != (200, wanted[at][version])
        for at in range(min(100, len(asked)))
        for version in (0, 1)
    )
    client = Client(owner, started.address, least=4)
    back = sum(client.reply("from={}&to={}".format(*ends)) not in both[1:] for ends, both in zip(asked, wanted))
    started.end()
    print(f"old: {counts}; by ID {wrong} wrong; {back} below the least version")
    return counts["wrong"] + counts["lost"] + wrong + back


def roll(program: str, given: argparse.Namespace) -> int:
    owner, names = prepared(program, roads(STREETS, 5000), (3, 4))
    asked = pairs(owner, given.asks, random.Random(4))
    wanted = [tuple(owner.prove(name, *ends) for name in names) for ends in asked]
    started, turned = Many(owner, names[0], "--replicas", 3, "--haproxy"), threading.Event()
    back: list[int] = []

    def turn() -> None:
        time.sleep(2)
        replace(started.folder / "map.pub", owner.path(names[1]).read_bytes())
        time.sleep(12)
        turned.set()

    def follows() -> None:
        client = Client(owner, started.address, checks=False)
        while not turned.is_set():
            version = version_of(client.reply("from={}&to={}".format(*asked[0])), IN_ANSWER)
            if version < client.least:
                back.append(version)
            client.least = max(client.least, version)

    threads = [threading.Thread(target=turn), *(threading.Thread(target=follows) for _ in range(5))]
    for thread in threads:
        thread.start()
    counts = asks_of_clients(owner, started.address, asked, wanted, 20, lambda _: turned.is_set())
    for thread in threads:
        thread.join()
    started.end()
    print(f"roll: {counts}; {len(back)} went back")
    return counts["wrong"] + counts["lost"] + len(back)


def lies(program: str, given: argparse.Namespace) -> int:
    owner, (name,) = prepared(program, roads(STREETS, 900), method="dij")
    liar = owner.path("liar")
    liar.write_text(LIAR.format(program=owner.program, each=10))
    liar.chmod(0o755)
    started, draw = Many(owner, name, "--replicas", 3, "--haproxy", program=liar), random.Random(5)
    client, counts = Client(owner, started.address), {"accepted": 0, "after more asks": 0, "disagree": 0, "wrong": 0}
    for start, end in pairs(owner, 10 * given.asks, draw):
        before, line = client.asked, client.route(start, end)
        right = owner.verdict(owner.prove(name, start, end), start, end, 3)
        counts["accepted"] += line == right
        counts["after more asks"] += line == right and client.asked > before + 1
        counts["disagree"] += line == "servers disagree"
        counts["wrong"] += line not in (right, "servers disagree")
    started.end()
    print(f"lies: {counts}")
    return counts["wrong"]


def install(program: str, given: argparse.Namespace) -> int:
    owner, _ = prepared(program, roads(GRID, 256), ())
    # two columns and two rows of cells, with 1,020 borders
    names = [owner.publish(version, "hyp", "hilbert 0 2 2 2 0") for version in (3, 4)]
    asked = pairs(owner, 4, random.Random(6), 40)
    wanted = [owner.prove(names[0], *ends) for ends in asked]
    gateway, installed = Gateway(owner, names[0]), threading.Event()
    times: list[float] = []
    wrong: list[Ends] = []
    ids, here = [id_of(owner.path(name).read_bytes()) for name in names], gateway.newest()

    def one(number: int) -> None:
        place, draw = Place(gateway.address), random.Random(number)
        while not installed.is_set():
            at = draw.randrange(len(asked))
            began = time.monotonic()
            found = place.ask("/v1/p/{}/route?from={}&to={}".format(here, *asked[at]))[::2]
            times.append(time.monotonic() - began)
            if found != (200, wanted[at]):
                wrong.append(asked[at])
            time.sleep(0.01)

    threads = [threading.Thread(target=one, args=(number,)) for number in range(4)]
    for thread in threads:
        thread.start()
    time.sleep(1)
    began = time.monotonic()
    replace(gateway.folder / "map.pub", owner.path(names[1]).read_bytes())
    until("installed", lambda: gateway.newest() == ids[1], 120)
    took = time.monotonic() - began
    installed.set()
    for thread in threads:
        thread.join()
    print(
        f"install: {took:.1f} s, {len(times)} asks beside it, {len(wrong)} wrong, {max(times):.2f} s at worst; status {gateway.end()}"
    )
    return len(wrong) + (max(times) > 0.5)


def full(program: str, given: argparse.Namespace) -> int:
    owner, (name,) = prepared(program, roads(STREETS, 900), method="dij")
    gateway = Gateway(owner, name, "--log-requests", log="/dev/full")
    here, asked = gateway.newest(), pairs(owner, given.asks, random.Random(7))
    wrong = sum(
        gateway.place.ask("/v1/p/{}/route?from={}&to={}".format(here, *ends))[::2] != (200, owner.prove(name, *ends))
        for ends in asked
    )
    for pid in gateway.serves():
        os.kill(pid, signal.SIGKILL)
    until("serve is back", lambda: len(gateway.serves()) == 1 and Place(gateway.address).ask("/v1/ready")[0] == 200)
    wrong += sum(
        gateway.place.ask("/v1/p/{}/route?from={}&to={}".format(here, *ends))[::2] != (200, owner.prove(name, *ends))
        for ends in asked[:20]
    )
    status = gateway.end()
    print(f"full: {len(asked) + 20} asks, {wrong} wrong, beside a log that takes nothing; status {status}")
    return wrong + (status != 0)


def alone(program: str, given: argparse.Namespace) -> int:
    owner, (name,) = prepared(program, roads(STREETS, 5000), method="dij")
    gateway = Gateway(owner, name, "--reply-seconds", 20, "--request-seconds", 10)
    here, ends = gateway.newest(), (owner.ids[0], owner.ids[-1])
    wanted, end, worst = owner.prove(name, *ends), time.monotonic() + 60 * given.minutes, 0.0
    seen: list[tuple[float, float, int]] = []
    line = "GET /v1/p/{}/route?from={}&to={} HTTP/1.1\r\nHost: a\r\n\r\n".format(here, *ends).encode()
    # each from its own address of the loopback, or all from the address of the asks
    homes = [("127.0.0.1" if given.one_address else f"127.0.1.{number + 1}", 0) for number in range(200)]
    place = (gateway.place.host, gateway.place.port)
    held = [socket.create_connection(place, source_address=home) for home in homes]
    bad, turn = 0, 0
    while time.monotonic() < end:
        turn += 1
        for number, one in enumerate(held):
            try:
                one.setblocking(False)
                one.send(line[turn % len(line) : turn % len(line) + 1] if number % 2 else line)
            except OSError:
                one.close()
                held[number] = socket.create_connection(place, source_address=homes[number])
        began = time.monotonic()
        status, _, octets = Place(gateway.address).ask("/v1/p/{}/route?from={}&to={}".format(here, *ends))
        if (status, octets) != (200, wanted):
            bad += 1
            print(f"alone: ask {turn} gets {status} with {len(octets)} octets", flush=True)
        worst = max(worst, time.monotonic() - began)
        if turn % 30 == 0:
            seen.append((time.monotonic(), *gateway.memory()))
        time.sleep(0.5)
    for one in held:
        one.close()
    late = [it for it in seen if it[0] > seen[0][0] + 600] or seen[-1:]
    grown = max(it[1] for it in late) - late[0][1]
    print(
        f"alone: {turn} asks beside 200 connections, {bad} wrong, {worst:.2f} s at worst; after ten minutes {grown:.1f} MB more, {min(it[2] for it in late)} to {max(it[2] for it in late)} open files; status {gateway.end()}"
    )
    return bad + (grown > 5) + (worst > 1)


def main(words: list[str]) -> int:
    parser = argparse.ArgumentParser(description=(__doc__ or "").splitlines()[0])
    parser.add_argument("program")
    parser.add_argument("what", choices=("speed", "killed", "old", "roll", "lies", "install", "full", "alone"))
    parser.add_argument("--seconds", type=float, default=20)
    parser.add_argument("--asks", type=int, default=200)
    parser.add_argument("--minutes", type=float, default=60)
    parser.add_argument("--one-address", action="store_true", help="alone: the others share the address of the asks")
    given = parser.parse_args(words)
    pass_priority_on()
    bad: int = globals()[given.what](given.program, given)
    for fault in faults:
        print("DIFFERS", fault)
    return 1 if bad or faults else 0


if __name__ == "__main__":
    sys.exit(main(sys.argv[1:]))
