"""Runs `serve` behind two pipes, and several of them over the same publications. No thread waits for a pipe."""

import asyncio
import collections
import contextlib
import fcntl
import functools
import os
import struct
from collections.abc import Callable
from typing import cast

from .limits import Turns
from .publications import Publication, Refused, in_memory

MOST_FRAMES, SPARE_FRAMES = 1_000_000, 100_000
MOST_REPLY = 1 << 27
SESSIONS = 16
# one frame in progress and one that waits, so that a child never waits for its gateway
ASKS_AT_ONCE = 2
PIPE_OCTETS = 1 << 20
ENDING_SECONDS = 1.0
NOT_INSTALLED = {
    1: "it is no publication",
    2: "it holds no map",
    3: "its method cannot take its map",
    4: "its header is not that of its map",
}
NOT_SIGNED = {1: "BadKey", 2: "BadForm", 3: "NoMatch"}


class Ended(Exception):
    """`serve` has ended, does not answer in time, or sends an answer that it never should."""


# the function that gets the reply to a body, or the reason why there is none
Heard = Callable[[bytes | Ended], None]


class Child(asyncio.SubprocessProtocol):
    """One process `serve PUB PUBKEY CHAIN`. It answers frames in the order of their arrival."""

    def __init__(self, lost: "Callable[[Child], None] | None" = None) -> None:
        self.lost, self.frames, self.why, self.is_retired = lost, 0, "", False
        self.back, self.waiting = bytearray(), collections.deque[tuple[Heard, float]]()
        self.timer: asyncio.TimerHandle | None = None
        self.loop = asyncio.get_running_loop()
        self.gone: asyncio.Future[int] = self.loop.create_future()
        self.transport: asyncio.SubprocessTransport

    @classmethod
    async def start(cls, program: str, *files: bytes) -> "Child":
        """Starts `serve` over the octets of these files."""
        held = [in_memory(octets) for octets in files]
        words = [f"/proc/self/fd/{file}" for file in held]
        try:
            _, child = await asyncio.get_running_loop().subprocess_exec(
                cls,
                program,
                "serve",
                *words,
                stdin=asyncio.subprocess.PIPE,
                stdout=asyncio.subprocess.PIPE,
                stderr=None,
                pass_fds=held,
                start_new_session=True,
            )
        except OSError as error:
            raise Ended(f"{program} does not start: {error.strerror}") from None
        finally:
            for file in held:
                os.close(file)
        return child

    # ---- callbacks of asyncio

    def connection_made(self, transport: asyncio.BaseTransport) -> None:
        self.transport = cast(asyncio.SubprocessTransport, transport)
        for number in (0, 1):
            pipe = self.transport.get_pipe_transport(number)
            if pipe is not None:
                with contextlib.suppress(
                    OSError, ValueError
                ):  # the user may have no more memory in pipes, or the pipe is already closed
                    fcntl.fcntl(pipe.get_extra_info("pipe").fileno(), fcntl.F_SETPIPE_SZ, PIPE_OCTETS)

    def pipe_data_received(self, fd: int, data: bytes) -> None:
        self.back += data
        while len(self.back) >= 4 and not self.why:
            (size,) = struct.unpack_from(">I", self.back)
            if size > MOST_REPLY:
                # it writes why it ends, and then ends
                del self.back[200:]
                return
            if len(self.back) < 4 + size:
                return
            body = bytes(memoryview(self.back)[4 : 4 + size])
            del self.back[: 4 + size]
            if not self.waiting:
                self._end(f"serve sends an answer without a query: {body[:16].hex()}")
                return
            heard, _ = self.waiting.popleft()
            self._wind()
            heard(body)
        if self.is_retired and not self.waiting:
            self.end()

    def pipe_connection_lost(self, fd: int, exc: Exception | None) -> None:
        said = f", and said {bytes(self.back)!r}" if 0 < len(self.back) <= 200 else ""
        self._end(f"serve has ended{said}", ENDING_SECONDS)

    def process_exited(self) -> None:
        status = self.transport.get_returncode()
        if not self.gone.done():
            self.gone.set_result(-1 if status is None else status)
        self._end(f"serve has ended with status {status}")
        self.transport.close()

    # ---- calls for requests

    def tell(self, body: bytes, seconds: float, heard: Heard) -> None:
        """Sends a body. Its answer must come within this many seconds after it has become the first in the queue."""
        pipe = self.transport.get_pipe_transport(0)
        if self.why or pipe is None:
            heard(Ended(self.why or "serve has ended"))
            return
        self.frames += 1
        self.waiting.append((heard, seconds))
        cast(asyncio.WriteTransport, pipe).write(struct.pack(">I", len(body)) + body)
        if len(self.waiting) == 1:
            self._wind()

    async def told(self, body: bytes, seconds: float) -> bytes:
        """The reply to a body."""
        answer: asyncio.Future[bytes | Ended] = self.loop.create_future()
        self.tell(body, seconds, lambda reply: None if answer.done() else answer.set_result(reply))
        reply = await answer
        if isinstance(reply, Ended):
            raise reply
        return reply

    def _wind(self) -> None:
        """Starts the timer of the first body in the queue."""
        if self.timer is not None:
            self.timer.cancel()
        self.timer = (
            self.loop.call_later(self.waiting[0][1], self._end, "serve does not answer in time")
            if self.waiting
            else None
        )

    def _end(self, why: str, patience: float = 0) -> None:
        """Stops using the child. Kills it, at once or if it has not ended by itself after some time."""
        if self.why:
            return
        self.why = why
        if self.timer is not None:
            self.timer.cancel()
        if patience:
            self.loop.call_later(patience, self.transport.close)
        else:
            self.transport.close()
        if self.lost is not None:
            self.lost(self)
        while self.waiting:
            heard, _ = self.waiting.popleft()
            heard(Ended(why))

    def fail(self, why: str) -> None:
        """Ends the child, since it sent an answer that it never should."""
        self._end(why)

    def end(self) -> None:
        """Ends the child, whose end is not a loss."""
        self.lost = None
        self._end("serve was ended")

    def is_alive(self) -> bool:
        """Whether its process runs, even if nothing has come from its pipes yet."""
        try:
            return os.waitid(os.P_PID, self.transport.get_pid(), os.WEXITED | os.WNOHANG | os.WNOWAIT) is None
        except ChildProcessError:
            return False

    async def status(self) -> str:
        """The status with which it ended."""
        try:
            return f"status {await asyncio.wait_for(asyncio.shield(self.gone), 10)}"
        except asyncio.TimeoutError:
            return "no end"

    def resident(self) -> int:
        """The octets of memory that it uses."""
        with contextlib.suppress(OSError, ValueError):
            with open(f"/proc/{self.transport.get_pid()}/statm", encoding="ascii") as it:
                return int(it.read().split()[1]) * os.sysconf("SC_PAGE_SIZE")
        return 0


def not_installed(publication: Publication, reply: bytes) -> str:
    """The reason of a refused install, in words."""
    code = reply[1] if len(reply) > 1 else 0
    if reply[:1] == b"\xe5":
        why = NOT_INSTALLED.get(code, f"code {code}")
    elif reply[:1] == b"\xe6":
        why = f"serve holds version {int.from_bytes(reply[1:9], 'big')} already"
    elif reply[:1] == b"\xe7":
        why = f"it is not signed by the owner's key or chain ({NOT_SIGNED.get(code, code)})"
    else:
        why = f"serve says {reply[:16].hex()}"
    return f"version {publication.version} is not installed: {why}"


class Ask:
    """A query that waits or is being answered, and all requests that wait for its answer."""

    def __init__(self, body: bytes, address: str) -> None:
        self.body, self.address, self.trials = body, address, 0
        self.waiters: list[asyncio.Future[bytes]] = []

    def answered(self, reply: bytes | Ended) -> None:
        for waiter in self.waiters:
            if waiter.done():
                continue
            if isinstance(reply, Ended):
                waiter.set_exception(reply)
            else:
                waiter.set_result(reply)


class Crew:
    """Children over the same publications. A session of its own pins each publication."""

    def __init__(
        self,
        program: str,
        key: bytes,
        publications: list[Publication],
        chain: bytes,
        ask_seconds: float,
        install_seconds: float,
    ) -> None:
        self.program, self.key, self.held, self.chain = program, key, publications, chain
        self.ask_seconds, self.install_seconds = ask_seconds, install_seconds
        self.sessions = {it.id: session for session, it in enumerate(publications)}
        self.children: list[Child] = []
        self.turns, self.under_way = Turns[Ask](), dict[bytes, Ask]()
        self.wanted, self.is_leaving = 1, False
        self.on_loss: Callable[[str], None] = lambda why: None

    # ---- starting and ending children

    async def pinned(self) -> Child:
        """Starts a child that holds all the publications. Raises Refused if the child does not accept one of them."""
        first, *later = self.held
        child = await Child.start(self.program, first.octets, self.key, *([self.chain] if self.chain else []))
        try:
            try:
                await self._begin(child, first, 0)
            except Ended as ended:
                raise Refused(f"version {first.version}: {ended}; {await child.status()}") from None
            for session, publication in enumerate(later, 1):
                reply = await child.told(b"\4" + publication.octets, self.install_seconds)
                if reply[:1] != b"\x84":
                    raise Refused(not_installed(publication, reply))
                await self._begin(child, publication, session)
        except BaseException:
            child.end()
            raise
        return child

    async def _begin(self, child: Child, publication: Publication, session: int) -> None:
        begun = await child.told(bytes([1, session]), self.install_seconds)
        if begun != bytes([0x81, session]) + struct.pack(">Q", publication.version):
            raise Refused(f"serve begins with {begun[:40]!r}")

    def add(self, child: Child) -> None:
        if child.why:
            raise Ended(child.why)
        child.lost = self._lost
        self.children.append(child)
        self._feed()

    def retire(self, child: Child) -> None:
        """Removes a child; it still answers its queries in progress."""
        self.children.remove(child)
        child.lost, child.is_retired = None, True
        if not child.waiting:
            child.end()

    def _lost(self, child: Child) -> None:
        if child in self.children:
            self.children.remove(child)
        self.on_loss(child.why)

    def spent(self) -> Child | None:
        """Returns a child that is near its last frame, if there is one."""
        return next((it for it in self.children if it.frames > MOST_FRAMES - SPARE_FRAMES), None)

    def leave(self) -> None:
        """Ends the child after its queries in progress."""
        self.is_leaving = True
        self._feed()

    def end(self) -> None:
        """Ends the children and all queries in progress."""
        children, self.children = self.children, []
        for child in children:
            child.end()
        for ask in list(self.under_way.values()):
            ask.answered(Ended("serve was ended"))
        self.under_way.clear()

    # ---- queries

    async def ask(self, publication: str, code: int, words: bytes, address: str) -> bytes:
        """The reply to a query. A request for the same query, while it is in progress, gets the same octets or the same
        error."""
        body = bytes([code, self.sessions[publication]]) + words
        waiter: asyncio.Future[bytes] = asyncio.get_running_loop().create_future()
        ask = self.under_way.get(body)
        if ask is None:
            ask = self.under_way[body] = Ask(body, address)
            ask.waiters.append(waiter)
            self.turns.add(address, ask)
            self._feed()
        else:
            ask.waiters.append(waiter)
        return await waiter

    def _feed(self) -> None:
        """Gives the next queries to the children."""
        while self.turns and self.children:
            child = min(self.children, key=lambda it: len(it.waiting))
            if len(child.waiting) >= ASKS_AT_ONCE:
                return
            ask = self.turns.take()
            if all(it.done() for it in ask.waiters):
                # no request waits for it any more
                self.under_way.pop(ask.body, None)
                continue
            if ask.trials and not child.is_alive():
                # several may have died at once, and only the first death is known so far
                self.turns.add_first(ask.address, ask)
                child.fail("serve has ended")
                continue
            child.tell(ask.body, self.ask_seconds, functools.partial(self._answered, ask, child))
        if self.is_leaving and not self.under_way:
            self.end()

    def _answered(self, ask: Ask, child: Child, reply: bytes | Ended) -> None:
        if not isinstance(reply, Ended) and reply[:2] != bytes([0x80 + ask.body[0], ask.body[1]]):
            reply = Ended(f"serve says {reply[:16].hex()}")
            child.fail(str(reply))
        if isinstance(reply, Ended) and ask.trials == 0:
            ask.trials = 1
            self.turns.add_first(ask.address, ask)
        else:
            self.under_way.pop(ask.body, None)
            ask.answered(reply if isinstance(reply, Ended) else reply[2:])
        self._feed()
