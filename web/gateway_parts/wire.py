"""Speaks HTTP over connections, with h11 as the parser. A connection has one request at a time. If a client does not
read, its answer is dropped.

No request has a body here, so a request ends with its head. A request with a body is refused, and its connection is
closed. A head that two readers could split differently, with bare line feeds or folded lines, is refused before it is
parsed."""

import asyncio
import email.utils
import functools
import re
import socket
import time
from typing import Protocol

import h11

from .answers import REASONS, Answer, Answers, Headers, Problem, Request, problem
from .counts import Counts
from .limits import Connected
from .log import tell

MOST_HEAD = 8_192
PIECE = 1 << 16
LINGER_SECONDS = 2.0
SEND_OCTETS = 1 << 18
# a line end that is not CR LF, or a line that begins with a blank
ODD = re.compile(rb"(?<!\r)\n|\r(?!\n)|\n[ \t]|\0")
AUTHORITY = re.compile(r"https?://[^/?#]*", re.I)


class Settings(Protocol):
    """The command's settings for connections."""

    host: str
    port: int
    proxies: frozenset[str]
    connections: int
    connections_by_address: int
    most_waiting: int
    request_seconds: float
    reply_seconds: float
    idle_seconds: float


@functools.lru_cache(maxsize=2)
def date_of(second: int) -> str:
    return email.utils.formatdate(second, usegmt=True)


class Connection(asyncio.BufferedProtocol):
    """One connection. It reads a head, makes the answer, sends it, and only then reads on."""

    # received octets are copied at once, so that all connections can share one buffer
    buffer = bytearray(16_384)

    def __init__(self, server: "Server") -> None:
        self.server, self.head = server, bytearray()
        self.task: asyncio.Task[None] | None = None
        self.left, self.is_sending, self.is_lingering, self.is_paused = memoryview(b""), False, False, False
        self.until, self.peer, self.began = 0.0, "", 0.0
        # whether another request may follow, and whether the client has closed its side
        self.keeps, self.is_ended = True, False
        self.transport: asyncio.Transport

    # ---- callbacks of asyncio

    def connection_made(self, transport: asyncio.BaseTransport) -> None:
        assert isinstance(transport, asyncio.Transport)
        self.transport = transport
        transport.set_write_buffer_limits(high=0)
        self.peer = (transport.get_extra_info("peername") or ("?",))[0]
        self._wait_for_head()
        self.server.came(self)

    def connection_lost(self, exc: Exception | None) -> None:
        if self.task is not None:
            self.task.cancel()
        self._sent_so_far(0)
        self.server.went(self)

    def get_buffer(self, sizehint: int) -> bytearray:
        return self.buffer

    def buffer_updated(self, nbytes: int) -> None:
        if self.is_lingering:
            return
        if not self.is_idle():
            # the next octets wait here until this answer is sent; further ones wait at the client
            self.transport.pause_reading()
        elif not self.head:
            self.until = time.monotonic() + self.server.options.request_seconds
        self.head += memoryview(self.buffer)[:nbytes]
        self._next()

    def eof_received(self) -> bool:
        """Closes this side too, after the answer in progress."""
        self.is_ended = True
        return not self.is_idle()

    def pause_writing(self) -> None:
        self.is_paused = True

    def resume_writing(self) -> None:
        self.is_paused = False
        if self.is_sending:
            self._send_on()

    # ---- requests

    def _wait_for_head(self) -> None:
        options = self.server.options
        self.until = time.monotonic() + (options.request_seconds if self.head else options.idle_seconds)

    def is_idle(self) -> bool:
        """Whether it has no complete request and no answer in progress."""
        return self.task is None and not self.is_sending

    def _next(self) -> None:
        """Takes the next head, if it is complete."""
        if not self.is_idle() or self.is_lingering or self.transport.is_closing():
            return
        if self.head.startswith(b"\r\n"):
            del self.head[:2]
        end = self.head.find(b"\r\n\r\n")
        whole = bytes(self.head[: end + 4] if end >= 0 else self.head)
        if ODD.search(whole.removesuffix(b"\r")):
            self._refuse(Problem(400, "A line of the request does not end in CR LF, or is folded."))
        elif len(whole) > MOST_HEAD:
            self._refuse(Problem(431, f"The request's head has more than {MOST_HEAD} octets."))
        elif end >= 0:
            del self.head[: end + 4]
            self.began = time.monotonic()
            self._take(whole)

    def _take(self, whole: bytes) -> None:
        parser = h11.Connection(h11.SERVER, max_incomplete_event_size=MOST_HEAD)
        try:
            parser.receive_data(whole)
            event = parser.next_event()
            assert isinstance(event, h11.Request)
            headers: dict[bytes, bytes] = {}
            for name, value in event.headers:
                headers[name] = headers[name] + b", " + value if name in headers else value
            has_body = b"transfer-encoding" in headers or headers.get(b"content-length", b"0") != b"0"
            request = Request(event.method.decode("ascii"), event.target.decode("ascii"), self.peer, headers)
        except h11.RemoteProtocolError as error:
            self._refuse(Problem(501 if error.error_status_hint == 501 else 400, "The request is not understood."))
            return
        except (AssertionError, ValueError):
            self._refuse(Problem(400, "The request is not understood."))
            return
        self.keeps = event.http_version == b"1.1" and b"close" not in headers.get(b"connection", b"").lower()
        if has_body:
            status = 400 if request.method in ("GET", "HEAD", "OPTIONS") else 405
            self._refuse(
                Problem(
                    status,
                    "A request with a body is not answered."
                    if status == 400
                    else "Only GET, HEAD and OPTIONS are answered.",
                )
            )
            return
        path, _, query = AUTHORITY.sub("", request.target, count=1).partition("?")
        answer = self.server.answers.at_once(request, path, query)
        if answer is not None:
            self._answer(request, path, answer)
        else:
            self.task = asyncio.get_running_loop().create_task(self._later(request, path, query))

    async def _later(self, request: Request, path: str, query: str) -> None:
        answer = await self.server.answers.later(request, path, query)
        self.task = None
        self._answer(request, path, answer)

    # ---- answers

    def _answer(self, request: Request, path: str, answer: Answer) -> None:
        status, headers, octets = self.server.answers.finished(request, answer)
        self.server.answers.told(request, path, answer, status, time.monotonic() - self.began)
        self._send(status, headers, b"" if request.method == "HEAD" else octets)

    def _refuse(self, why: Problem) -> None:
        """Answers octets that are not a request, and closes the connection."""
        answer = problem(why)
        request = Request("GET", "", self.peer, {})
        status, headers, octets = self.server.answers.finished(request, answer)
        self.server.answers.told(request, "", answer, status, 0.0)
        self.head.clear()
        self.keeps = False
        self._send(status, headers, octets)

    def _send(self, status: int, headers: Headers, octets: bytes) -> None:
        if self.transport.is_closing():
            return
        lines = [
            f"HTTP/1.1 {status} {REASONS[status]}",
            *(f"{name}: {value}" for name, value in headers),
            f"Date: {date_of(int(time.time()))}",
        ]
        lines += ["Connection: close"] * (not self.keeps) + ["", ""]
        head = "\r\n".join(lines).encode("latin-1")
        self.is_sending = True
        self.until = time.monotonic() + self.server.options.reply_seconds
        if len(octets) <= PIECE:
            self.transport.write(head + octets)
        else:
            self.transport.write(head)
            self.left = memoryview(octets)
            self.server.waiting += len(octets)
        self._send_on()

    def _send_on(self) -> None:
        """Sends the rest piece by piece, as the client reads it."""
        while not self.is_paused and self.left and not self.transport.is_closing():
            self.transport.write(self.left[:PIECE])
            self._sent_so_far(max(0, len(self.left) - PIECE))
        if self.left or self.is_paused:
            self.server.hold(self)
            return
        self.is_sending = False
        if not self.keeps:
            self._linger()
            return
        self._wait_for_head()
        if self.head or self.is_ended or self.server.is_stopping:
            asyncio.get_running_loop().call_soon(self._read_on)

    def _sent_so_far(self, left: int) -> None:
        self.server.waiting -= len(self.left) - left
        self.left = self.left[len(self.left) - left :]

    def waits(self) -> int:
        """The number of octets that wait for its reader."""
        return len(self.left) + self.transport.get_write_buffer_size()

    def _read_on(self) -> None:
        """Continues with the octets that came after a request."""
        if self.transport.is_closing() or not self.is_idle():
            return
        self._next()
        if self.is_idle():
            if self.is_ended or self.server.is_stopping:
                self.transport.close()
            else:
                self.transport.resume_reading()

    def _linger(self) -> None:
        """Closes this side, and reads and drops the client's octets for a while, so that no reset destroys the
        answer."""
        self.is_lingering = True
        self.until = time.monotonic() + LINGER_SECONDS
        self.head.clear()
        if self.is_ended:
            self.transport.close()
            return
        self.transport.write_eof()
        self.transport.resume_reading()


class Server:
    """All connections and their limits."""

    def __init__(self, options: Settings, answers: Answers, counts: Counts) -> None:
        self.options, self.answers, self.counts = options, answers, counts
        self.open: set[Connection] = set()
        self.by_address = Connected[Connection](
            options.connections, options.connections_by_address, options.proxies, Connection.is_idle
        )
        self.waiting, self.is_stopping = 0, False
        self.listening: asyncio.Server | None = None
        answers.gauges = lambda: {
            "road_gateway_connections": len(self.open),
            "road_gateway_waiting_octets": self.waiting,
        }

    async def listen(self) -> None:
        loop = asyncio.get_running_loop()
        loop.set_exception_handler(lambda _, found: tell(f"{found.get('message')}: {found.get('exception')!r}"))
        self.listening = await loop.create_server(
            lambda: Connection(self), self.options.host, self.options.port, backlog=1024, family=socket.AF_UNSPEC
        )
        for it in self.listening.sockets:
            # the system's buffer for a slow reader is limited too
            it.setsockopt(socket.SOL_SOCKET, socket.SO_SNDBUF, SEND_OCTETS)

    def came(self, connection: Connection) -> None:
        self.open.add(connection)
        closed = self.by_address.add(connection.peer, connection)
        if closed is not None:
            self.close(closed, "others")

    def went(self, connection: Connection) -> None:
        self.open.discard(connection)
        self.by_address.drop(connection.peer, connection)

    def close(self, connection: Connection, why: str) -> None:
        """Closes a connection now, and frees its octets."""
        self.counts.add("road_gateway_closed_total", f'{{why="{why}"}}')
        connection.transport.abort()
        # it does not count any more, although asyncio calls back later
        self.went(connection)

    def hold(self, _: Connection) -> None:
        """If too many octets wait, drops those of the address with the most."""
        if self.waiting <= self.options.most_waiting:
            return
        sums: dict[str, int] = {}
        for it in self.open:
            sums[it.peer] = sums.get(it.peer, 0) + len(it.left)
        most = max(sums, key=lambda peer: sums[peer])
        for it in sorted((it for it in self.open if it.peer == most and it.left), key=lambda it: it.until):
            if self.waiting <= self.options.most_waiting:
                break
            it._sent_so_far(0)
            self.close(it, "waiting")

    async def sweep(self) -> None:
        """Closes connections that take too long: idle ones, incomplete requests, unread answers."""
        while True:
            now = time.monotonic()
            for it in [it for it in self.open if it.task is None and it.until < now]:
                self.close(it, "reply" if it.is_sending else "request" if it.head else "idle")
            await asyncio.sleep(0.25)

    def is_busy(self) -> bool:
        """Whether an answer is being made or sent."""
        return any(not it.is_idle() for it in self.open)

    def stop(self) -> None:
        """Accepts no new connection, and closes each connection after its answer."""
        self.is_stopping = True
        if self.listening is not None:
            self.listening.close()
        for it in [it for it in self.open if it.is_idle()]:
            it.transport.close()
