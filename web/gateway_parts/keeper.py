"""Takes in files that are moved to the publication and the chain, and keeps children running over them, whatever
happens to the children or to the files."""

import asyncio
import collections
import concurrent.futures
import contextlib
import os
import time
from collections.abc import Awaitable, Callable
from typing import Protocol, TypeVar

from .children import Crew, Ended
from .counts import Counts
from .log import tell
from .publications import MOST_CHAIN, MOST_PUBLICATION, Publication, Refused, Stamp, read_file, stamp_of

Result = TypeVar("Result")
# the memory of the gateway without its children: its modules, connections, and answers in progress
OWN_OCTETS = 128 << 20
# the problem type that tells a client that no map is as new as requested (web/age.mjs)
NO_MAP = "urn:problem-type:gogbetiku:no-map-so-new"


class Settings(Protocol):
    """The command's settings for files and children."""

    program: str
    publication: str
    chain: str | None
    key_octets: bytes
    keep: int
    serves: int
    memory: int
    ask_seconds: float
    install_seconds: float
    look_seconds: float
    most_waiting: int
    patience: float
    retry: int
    longest_pause: float


class Missing(Exception):
    """The requested publication is not here: not yet, or not any more."""

    def __init__(self, text: str, for_good: bool = False, kind: str = "about:blank") -> None:
        super().__init__(text)
        self.for_good, self.kind = for_good, kind


class Keeper:
    """The publications, the announced one of them, and the children that answer over them."""

    def __init__(self, options: Settings, counts: Counts) -> None:
        self.options, self.counts = options, counts
        self.crew: Crew | None = None
        self.publications: list[Publication] = []
        self.announced: Publication | None = None
        self.leaving: list[Crew] = []
        self.ending: list[asyncio.Future[int]] = []
        self.gone: collections.deque[str] = collections.deque(maxlen=1_000)
        self.chain, self.seen, self.stopping = b"", tuple[Stamp, ...](), False
        self.begun, self.loss = asyncio.Event(), asyncio.Event()
        # a disk that does not respond delays only this thread
        self.disk = concurrent.futures.ThreadPoolExecutor(1, "disk")

    # ---- calls for requests

    async def _begins(self) -> None:
        """Waits a while for the first publication."""
        if not self.begun.is_set():
            with contextlib.suppress(asyncio.TimeoutError):
                await asyncio.wait_for(self.begun.wait(), self.options.patience)

    async def newest(self, least: int) -> str:
        """The id of the announced publication or, if a client wants a newer one, of an installed publication that is
        new enough."""
        await self._begins()
        for publication in [self.announced, *self.publications]:
            if publication is not None and publication.version >= least:
                return publication.id
        raise Missing("No publication as new as this is here.", kind=NO_MAP)

    async def held(self, name: str) -> Publication:
        """Returns the publication with an id. Raises Missing if it is not here."""
        await self._begins()
        for publication in self.publications:
            if publication.id == name:
                return publication
        if name in self.gone:
            raise Missing("This publication is no longer served.", for_good=True)
        raise Missing("This publication is not here yet.")

    async def ask(self, name: str, code: int, words: bytes, address: str) -> bytes:
        """The reply to a query over a publication."""
        await self.held(name)
        crew = self.crew
        if crew is None or name not in crew.sessions:
            raise Missing("The server is restarting.")
        try:
            async with asyncio.timeout(self.options.ask_seconds + self.options.patience):
                return await crew.ask(name, code, words, address)
        except (Ended, TimeoutError):
            raise Missing("The server is restarting.") from None

    def is_ready(self) -> bool:
        return self.crew is not None and bool(self.crew.children) and not self.stopping

    # ---- its own work

    async def run(self) -> None:
        """Watches the files and the children until it is cancelled."""
        try:
            await asyncio.gather(self._repeat(self._look, None), self._repeat(self._mend, self.loss))
        finally:
            self.disk.shutdown(wait=False, cancel_futures=True)

    async def _repeat(self, work: Callable[[], Awaitable[None]], wake: asyncio.Event | None) -> None:
        pause = 0.0
        while True:
            try:
                await work()
                pause = 0.0
            except Exception as error:  # it continues after any error, and waits longer each time
                tell(f"{error}" if isinstance(error, (Ended, Refused)) else f"{type(error).__name__}: {error}")
                pause = min(self.options.longest_pause, max(0.1, 2 * pause))
            if pause or wake is None:
                await asyncio.sleep(pause or self.options.look_seconds)
            else:
                with contextlib.suppress(asyncio.TimeoutError):
                    await asyncio.wait_for(wake.wait(), self.options.look_seconds)
                wake.clear()

    async def _on_disk(self, work: Callable[[], Result]) -> Result:
        return await asyncio.get_running_loop().run_in_executor(self.disk, work)

    def _files(self) -> list[str]:
        return [
            self.options.publication,
            f"{self.options.publication}.next",
            *([self.options.chain] if self.options.chain else []),
        ]

    async def _look(self) -> None:
        seen = await self._on_disk(lambda: tuple(stamp_of(file) for file in self._files()))
        if seen != self.seen:
            await self._take(is_next_there=seen[1] is not None)
            self.seen = seen

    async def _mend(self) -> None:
        """Replaces a child that has ended or is near its last frame."""
        crew = self.crew
        if crew is None or self.stopping:
            return
        spent = crew.spent()
        if len(crew.children) >= crew.wanted and spent is None:
            return
        child = await crew.pinned()
        self.counts.add("road_gateway_serve_starts_total")
        if crew is not self.crew or crew.is_leaving:
            child.end()
            return
        crew.add(child)
        if spent in crew.children and spent is not None:
            crew.retire(spent)
        if len(crew.children) < crew.wanted:
            self.loss.set()

    # ---- the content of the files

    def _refused(self, why: Exception) -> None:
        self.counts.add("road_gateway_refused_publications_total")
        tell(f"the files are not accepted: {why}")

    async def _take(self, is_next_there: bool) -> None:
        """Takes in the current content of the files. A refused file changes nothing."""
        try:
            fresh = await self._read(self.options.publication)
            file = self.options.chain or ""
            chain = await self._on_disk(lambda: read_file(file, MOST_CHAIN)) if file else b""
            announced = self._announced_of(fresh)
        except (Refused, OSError) as error:
            self._refused(error)
            return
        kept = (
            [it for it in self.publications if it.version < announced.version][-self.options.keep + 1 :]
            if self.options.keep > 1
            else []
        )
        plain = [*kept, announced]
        following = await self._following(announced) if is_next_there else None
        for wanted in [[*plain, following], plain] if following is not None else [plain]:
            try:
                await self._hold(wanted, announced, chain)
                return
            except Refused as error:
                self._refused(error)

    async def _read(self, file: str) -> Publication:
        """The publication in a file. If one with the same octets is already held, returns that one."""
        held = list(self.publications)

        def read() -> Publication:
            octets = read_file(file, MOST_PUBLICATION)
            known = [it for it in held if it.octets == octets]
            return known[0] if known else Publication(octets)

        return await self._on_disk(read)

    def _announced_of(self, fresh: Publication) -> Publication:
        """The publication to announce if the file holds this one."""
        if self.announced is None or fresh.version > self.announced.version:
            return fresh
        if fresh not in self.publications:
            raise Refused(f"version {fresh.version} is not above {self.announced.version}")
        return self.announced

    async def _following(self, announced: Publication) -> Publication | None:
        """The publication in PUB.next, which is installed before it is announced."""
        try:
            found = await self._read(f"{self.options.publication}.next")
            if found.version > announced.version:
                return found
        except FileNotFoundError:
            pass  # it was moved to the publication's place
        except (Refused, OSError) as error:
            self._refused(error)
        return None

    async def _hold(self, wanted: list[Publication], announced: Publication, chain: bytes) -> None:
        """Starts children over these publications, and announces one of them."""
        if self.crew is None or chain != self.chain or any(it not in self.publications for it in wanted):
            await self._build(wanted, chain)
        if self.announced is not announced:
            tell(f"version {announced.version} is announced")
        self.announced = announced
        self.begun.set()

    async def _build(self, publications: list[Publication], chain: bytes) -> None:
        """Replaces the present children by new ones, once each new child holds all the publications."""
        began, options = time.monotonic(), self.options
        crew = Crew(
            options.program, options.key_octets, publications, chain, options.ask_seconds, options.install_seconds
        )
        try:
            # the first child shows whether the publications are accepted, and how much memory a child takes
            crew.add(await crew.pinned())
            crew.wanted = self._serves(crew.children[0].resident())
            more = await asyncio.gather(*(crew.pinned() for _ in range(crew.wanted - 1)), return_exceptions=True)
            for child in more:
                if isinstance(child, BaseException):
                    tell(f"one of {crew.wanted} children does not start: {child}")
                else:
                    crew.add(child)
        except BaseException:
            crew.end()
            raise
        self.counts.add("road_gateway_serve_starts_total", count=len(crew.children))
        crew.on_loss = self._lost
        before, self.crew = self.crew, crew
        self.gone.extend(it.id for it in self.publications if it not in publications)
        self.publications, self.chain = list(publications), chain
        if before is not None:
            before.leave()
            self.leaving = [it for it in [*self.leaving, before] if it.children]
        if len(crew.children) < crew.wanted:
            self.loss.set()
        versions = ", ".join(str(it.version) for it in publications)
        tell(f"serving version {versions} by {len(crew.children)} of serve; built in {time.monotonic() - began:.1f} s")

    def _serves(self, resident: int) -> int:
        """The number of children to start. Each takes this many octets of memory, and twice as many during an
        install."""
        if self.options.serves:
            return self.options.serves
        room = self.options.memory - OWN_OCTETS - self.options.most_waiting
        count = max(1, min(len(os.sched_getaffinity(0)) - 1, room // (2 * max(resident, 1 << 20))))
        tell(f"each serve takes {resident >> 20} MB, and twice that during an install: starting {count} of them")
        return count

    def _lost(self, why: str) -> None:
        tell(f"{why}; it is restarted")
        self.loss.set()

    def end(self) -> None:
        """Makes /v1/ready answer that the gateway is not ready."""
        self.stopping = True

    def close(self) -> None:
        """Ends the children and all queries in progress."""
        for crew in [*self.leaving, *([self.crew] if self.crew else [])]:
            self.ending += [it.gone for it in crew.children]
            crew.on_loss = lambda why: None
            crew.end()

    async def closed(self, seconds: float = 2.0) -> None:
        """Waits until the ended children are gone."""
        if self.ending:
            await asyncio.wait(self.ending, timeout=seconds)
