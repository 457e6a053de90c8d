"""Requests replies over one publication from a gateway (web/openapi.json), and checks each with the proved client.

    over = Publication(Gateway("https://routes.example"), Path("owner.key").read_text(), least=1)
    found = over.route(346, 18).found

A refused reply is requested again past all caches, at most three times. If the owner may have a later key, the chain is
fetched again. Nobody trusts a gateway. This module is trusted only to ask the client: it returns the answers that the
client accepted. Threads may share a `Gateway` and a `Publication`.
"""

from __future__ import annotations

import contextlib
import hashlib
import http.client
import json
import ssl
import threading
import time
import urllib.parse
from array import array
from collections.abc import Callable, Iterator
from dataclasses import dataclass
from typing import Any, Generic, TypeVar, Union

from . import BadChain, BadSignature, Client, MalformedChain, NoRoute, ReachedNode, Refused, Route, Within, short_name

__all__ = ["Answer", "Gateway", "Gone", "NoAnswer", "NoNode", "OtherPublication", "Publication", "TooMuch", "header_of"]

MOST_OCTETS = 75_000_000
HELD = 256 << 20
TRIALS = 3
# a header's fields, from its first octet on; its length, at which the length of its signature follows; and the signature
METHOD, VERSION, NODES, NODE_ROOT, HEADER, SIGNATURE = 4, 8, 16, 20, 104, 106
# the offset of the header in a publication, in a range reply, and in an answer
IN_PUBLICATION, IN_RANGE_REPLY, IN_ANSWER = 4, 4, 1
# the seed and the parameters, which follow the signature of a publication
SETTINGS = 32
# the statuses with which a server asks to wait, together with `Retry-After`
WAIT = (429, 503)
LONGEST_WAIT = 30.0
# the octets reserved for an answer that does not state its length
UNSAID = 4 << 20
PIECE = 1 << 20
Found = TypeVar("Found")


class NoAnswer(Exception):
    """The server gave no answer that can be checked. The text is one sentence. `status` is the server's, if it gave
    one."""

    def __init__(self, sentence: str, status: int = 0):
        super().__init__(sentence)
        self.status = status


class Gone(NoAnswer):
    """The publication is no longer served."""


class NoNode(NoAnswer):
    """The server says, without proof, that an end is not a node."""


class TooMuch(NoAnswer):
    """The answer is longer than allowed."""


class OtherPublication(Refused):
    """An accepted reply is from another publication than the requested one."""

    def __init__(self, wanted: str, found: str):
        sentence = f"The reply is from the publication {found}, but {wanted} was requested."
        super().__init__(0, 0, 0, sentence, f"refused OtherPublication {found}")

    @property
    def kind(self) -> str:
        return "OtherPublication"


@dataclass(frozen=True)
class Header:
    """The signed header in an accepted reply: the name of the publication, its version, its method, and its number of
    nodes."""

    id: str
    version: int
    method: str
    nodes: int
    octets: bytes


METHODS = {1: "DIJ", 2: "FULL", 3: "LDM", 4: "HYP"}


def behind(octets: bytes, at: int) -> int:
    """The offset behind the signature, if the header begins at this one."""
    return at + SIGNATURE + int.from_bytes(octets[at + HEADER : at + SIGNATURE], "big")


def _leaves_of(octets: bytes) -> int:
    """The number of nodes in a reply for a radius."""
    if octets[:4] != b"RPN1":
        return 0
    at = behind(octets, IN_RANGE_REPLY)
    return int.from_bytes(octets[at : at + 4], "big")


def header_of(octets: bytes) -> Header:
    """The header of an accepted reply of any kind, or of a publication."""
    at = IN_PUBLICATION if octets.startswith(b"RPF1", IN_PUBLICATION) else IN_ANSWER
    header, signature = octets[at : at + HEADER], octets[at + SIGNATURE : behind(octets, at)]
    name = hashlib.sha256(header + signature).hexdigest()[:16]
    return Header(
        name,
        int.from_bytes(header[VERSION:NODES], "big"),
        METHODS.get(header[METHOD], "?"),
        int.from_bytes(header[NODES:NODE_ROOT], "big"),
        header,
    )


@dataclass(frozen=True)
class Answer(Generic[Found]):
    """The accepted answer, its signed header, the number of octets of the reply, and the number of nodes in a reply for
    a radius. The octets themselves are kept only on request."""

    found: Found
    header: Header
    size: int
    leaves: int
    octets: bytes = b""


class Room:
    """Limits the octets that are held at once. A larger answer is held alone."""

    def __init__(self, most: int):
        self._most, self._held, self._given = most, 0, threading.Condition()

    @contextlib.contextmanager
    def held(self, octets: int) -> Iterator[None]:
        with self._given:
            self._given.wait_for(lambda: not octets or not self._held or self._held + octets <= self._most)
            self._held += octets
        try:
            yield
        finally:
            with self._given:
                self._held -= octets
                self._given.notify_all()


class Gateway:
    """A gateway by its address. An answer of more than `most_octets` is refused. All threads together hold at most
    `held` octets at once. If a server asks to wait, this client waits at most this many seconds in total."""

    def __init__(
        self,
        address: str,
        *,
        most_octets: int = MOST_OCTETS,
        held: int = HELD,
        seconds: float = 60.0,
        patience: float = 120.0,
    ):
        parts = urllib.parse.urlsplit(address if "://" in address else f"http://{address}")
        if parts.scheme not in ("http", "https") or not parts.hostname or parts.query or parts.fragment:
            raise ValueError(f"{address} is not the address of a gateway, such as https://routes.example")
        self._host, self._port, self._front = parts.hostname, parts.port, parts.path.rstrip("/")
        self._tls = ssl.create_default_context() if parts.scheme == "https" else None
        self._most, self._room, self._seconds, self._patience = most_octets, Room(held), seconds, patience
        self._own, self._counting = threading.local(), threading.Lock()
        self.asks = self.octets = 0

    @contextlib.contextmanager
    def asked(self, path: str, *, past_caches: bool = False, counts: bool = True) -> Iterator[bytes]:
        """Yields the octets of the answer, which count as held until the end of the block. The octets of a request
        within such a block do not count, since the request would wait for itself."""
        response = self._waited(path, past_caches)
        if response.status != 200:
            raise self._said(response)
        size = response.length
        if size is not None and size > self._most:
            self._drop()
            raise TooMuch(f"the answer to {path} has {size:,} octets, but at most {self._most:,} are allowed")
        with self._room.held((UNSAID if size is None else size) if counts else 0):
            yield self._read(response, path)

    def info(self) -> list[dict[str, Any]]:
        """The publications in the server's list, the newest first. The list is not signed."""
        with self.asked("/v1/info", past_caches=True) as octets:
            try:
                known = json.loads(octets)["publications"]
                return [
                    it
                    for it in known
                    if isinstance(it["id"], str)
                    and isinstance(it["nodes"], int)
                    and int(it["version"]) >= 0
                    and int(it["octets"]) >= 0
                ]
            except (ValueError, KeyError, TypeError):
                raise NoAnswer("the server does not say what it has") from None

    def _waited(self, path: str, past_caches: bool) -> http.client.HTTPResponse:
        until = time.monotonic() + self._patience
        while True:
            response = self._response(path, past_caches)
            wait = response.headers.get("Retry-After", "")
            if response.status not in WAIT or not wait.isdecimal():
                return response
            seconds = min(float(wait), LONGEST_WAIT)
            if time.monotonic() + seconds > until:
                return response
            response.read(PIECE)
            time.sleep(seconds)

    def _response(self, path: str, past_caches: bool) -> http.client.HTTPResponse:
        """Returns the server's response over this thread's connection, which is opened again if it was closed."""
        headers = {"Accept-Encoding": "identity", **({"Cache-Control": "no-cache"} if past_caches else {})}
        for is_last in (False, True):
            try:
                connection = self._connection()
                connection.request("GET", self._front + path, headers=headers)
                response = connection.getresponse()
            except (OSError, http.client.HTTPException) as error:
                self._drop()
                if is_last or isinstance(error, TimeoutError):
                    raise NoAnswer("the server does not answer") from None
            else:
                with self._counting:
                    self.asks += 1
                return response
        raise AssertionError

    def _connection(self) -> http.client.HTTPConnection:
        held: http.client.HTTPConnection | None = getattr(self._own, "connection", None)
        if held is None:
            if self._tls:
                held = http.client.HTTPSConnection(self._host, self._port, timeout=self._seconds, context=self._tls)
            else:
                held = http.client.HTTPConnection(self._host, self._port, timeout=self._seconds)
            self._own.connection = held
        return held

    def _drop(self) -> None:
        held = getattr(self._own, "connection", None)
        if held is not None:
            held.close()
            self._own.connection = None

    def _read(self, response: http.client.HTTPResponse, path: str) -> bytes:
        pieces, count = [], 0
        try:
            # read one piece at a time, so that `read` copies no more than needed
            while piece := response.read(response.length or PIECE):
                pieces.append(piece)
                count += len(piece)
                if count > self._most:
                    self._drop()
                    raise TooMuch(f"the answer to {path} has more than the allowed {self._most:,} octets")
        except (OSError, http.client.HTTPException):
            self._drop()
            raise NoAnswer("the server's answer stops midway") from None
        with self._counting:
            self.octets += count
        return pieces[0] if len(pieces) == 1 else b"".join(pieces)

    def _said(self, response: http.client.HTTPResponse) -> NoAnswer:
        """The server's explanation for a request that it does not answer."""
        try:
            text = response.read(65_536)
            self._drop()
            detail = json.loads(text)["detail"]
            said = "".join(it if it.isprintable() else "?" for it in str(detail)[:200])
        except (OSError, http.client.HTTPException, ValueError, KeyError, TypeError):
            self._drop()
            said = response.reason[:100] if response.reason.isprintable() else ""
        kind = {404: NoNode, 410: Gone}.get(response.status, NoAnswer)
        return kind(f"the server answers with status {response.status}: {said}", response.status)


class Publication:
    """One publication of a gateway: the newest, or the one with an id. Each reply is checked under the key, along
    `chain` or the server's chain. It must belong to this publication, which must have at least the version `least`.
    Further words are those of `Client`. With `max_age` it raises `NoneYoung` if the newest is too old."""

    def __init__(
        self,
        gateway: Gateway,
        key: Union[str, bytes],
        *,
        chain: bytes = b"",
        least: int = 0,
        id: str | None = None,
        **words: Any,
    ):
        self.gateway, self.key, self.least = gateway, short_name(key), least
        self._key, self._words, self._chain = key, words, chain
        self._client, self._following = Client(key, chain, **words), threading.Lock()
        known = gateway.info()
        said = next((it for it in known if id in (None, it["id"])), None)
        if said is None:
            raise NoAnswer(f"the server has no publication {id or ''}".rstrip())
        if id is None and not self._client.is_young(int(said["version"])):
            raise self._client.none_young()
        self.id = str(said["id"])
        # the server's description, which is not signed
        self.said_nodes, self.said_octets = int(said["nodes"]), int(said["octets"])
        self.header: Header | None = None

    def reach(self, start: int, radius: int, ids: array[int]) -> Answer[list[ReachedNode]]:
        """Requests the nodes within a radius. Returns those of a list, the nearest first."""
        return self._accepted(
            f"reach?from={start}&radius={radius}",
            lambda client, octets: nearest(client, octets, start, radius, ids, self.least),
        )

    def within(self, start: int, radius: int) -> Answer[Within]:
        """Requests all nodes within a radius. Returns them with the octets of the reply, which has their roads."""
        return self._accepted(
            f"reach?from={start}&radius={radius}",
            lambda client, octets: client.check_reach(octets, start, radius, self.least),
            keeps=True,
        )

    def route(self, start: int, end: int, *, keeps: bool = False) -> Answer[Union[Route, NoRoute]]:
        """Requests a shortest route, or the proof that no route exists."""
        return self._accepted(
            f"route?from={start}&to={end}",
            lambda client, octets: client.check_route(octets, start, end, self.least),
            keeps=keeps,
        )

    def publication(self) -> bytes:
        """Requests the publication itself, unchecked."""
        with self.gateway.asked(f"/v1/p/{self.id}/publication") as octets:
            return octets

    def _accepted(self, ask: str, check: Callable[[Client, bytes], Found], *, keeps: bool = False) -> Answer[Found]:
        refused: Refused | None = None
        before = b""
        for trial in range(TRIALS):
            try:
                with self.gateway.asked(f"/v1/p/{self.id}/{ask}", past_caches=trial > 0) as octets:
                    if refused and octets == before:
                        break
                    try:
                        found = self._checked(octets, check)
                        return Answer(
                            found, self._header(octets), len(octets), _leaves_of(octets), octets if keeps else b""
                        )
                    except Refused as error:
                        refused, before = error, octets
            except NoAnswer as error:
                raise refused or error from None
        assert refused
        raise refused

    def _checked(self, octets: bytes, check: Callable[[Client, bytes], Found]) -> Found:
        client = self._client
        try:
            return check(client, octets)
        except (BadSignature, BadChain, MalformedChain) as error:
            return self._by_later_key(client, error, octets, check)

    def _header(self, octets: bytes) -> Header:
        """Returns the header of an accepted reply, which must belong to this publication."""
        header = header_of(octets)
        if header.id != self.id:
            raise OtherPublication(self.id, header.id)
        self.header = header
        return header

    def _by_later_key(
        self, client: Client, error: Refused, octets: bytes, check: Callable[[Client, bytes], Found]
    ) -> Found:
        """Checks again with the chain that the server has now. A chain that does not help is not kept."""
        with self._following:
            if self._client is not client:
                return check(self._client, octets)
            try:
                with self.gateway.asked("/v1/chain", past_caches=True, counts=False) as chain:
                    pass
            except NoAnswer:
                raise error from None
            if chain == self._chain:
                raise error
            other = Client(self._key, chain, **self._words)
            try:
                found = check(other, octets)
            except (BadSignature, BadChain, MalformedChain):
                raise error from None
            self._client, self._chain = other, chain
            return found


def nearest(client: Client, octets: bytes, start: int, radius: int, ids: array[int], least: int) -> list[ReachedNode]:
    """The listed nodes among all nodes that a reply proves to be within the radius, the nearest first."""
    return list(client.nearest(octets, start, radius, ids, least).nodes)
