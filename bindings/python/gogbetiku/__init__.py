"""The client of authenticated routes as a Python module, over libgogbetiku.so.0 (bindings/build makes it).

    client = Client.from_file("owner.key", floor="owner.floor")
    found = client.check_route(reply, start, end, least=1)

A check of an accepted reply returns a `Route`, a `NoRoute`, a `Within` or a `Nearest`. A check of any other reply
raises a `Refused`, whose text is a sentence for people. docs/LIBRARY.md says what the client's verdict guarantees, and
what is trusted.
"""

from __future__ import annotations

import ctypes
import fcntl
import hashlib
import json
import operator
import os
import pathlib
import re
import time
from collections.abc import Callable, Iterable
from dataclasses import dataclass
from typing import Any, Union

from .age import Age

__version__ = "0.1.0"
__all__ = [
    "Client",
    "Route",
    "NoRoute",
    "Within",
    "Nearest",
    "Node",
    "ReachedNode",
    "Refused",
    "NotAnswer",
    "Malformed",
    "Stale",
    "BadChain",
    "BadSignature",
    "BadItems",
    "PassesTwice",
    "NoMemory",
    "TooLong",
    "MalformedChain",
    "Ahead",
    "WrongClock",
    "NoneYoung",
    "Unknown",
    "short_name",
]

Octets = Union[bytes, bytearray, memoryview]
FileName = Union[str, "os.PathLike[str]"]

MOST_NODES = 65_536
MOST_OCTETS = 75_000_000
_KEY_OCTETS = 56
_ACCEPTED, _NO_ROUTE, _NONE_WITHIN, _WRONG_CLOCK, _NONE_YOUNG = 1, 2, 19, 33, 34


@dataclass(frozen=True)
class Node:
    """A node with its coordinates in the owner's map."""

    id: int
    x: int
    y: int


@dataclass(frozen=True)
class ReachedNode(Node):
    """A node within a radius, with its distance from the start."""

    distance: int


@dataclass(frozen=True)
class Route:
    """An accepted route: its nodes in order, its length, and the version of its map."""

    nodes: list[Node]
    length: int
    version: int

    @property
    def ids(self) -> list[int]:
        return [node.id for node in self.nodes]


@dataclass(frozen=True)
class NoRoute:
    """The accepted answer that no walk joins the two nodes, with the version of the map."""

    version: int


@dataclass(frozen=True)
class Within:
    """The accepted nodes within a radius, by ascending id, and the version of the map."""

    nodes: list[ReachedNode]
    version: int

    @property
    def distances(self) -> dict[int, int]:
        return {node.id: node.distance for node in self.nodes}


@dataclass(frozen=True)
class Nearest:
    """The nearest of the listed nodes within a radius, the nearest first, ties by ascending id. `inside` is the number
    of listed nodes within the radius, which may be greater. Any other listed id is farther than the radius, not joined
    to the start, or not a node."""

    nodes: list[ReachedNode]
    inside: int
    version: int

    @property
    def distances(self) -> dict[int, int]:
        return {node.id: node.distance for node in self.nodes}


class Refused(Exception):
    """The error for a reply that is not accepted. `kind` is the failed test, `first` and `second` are its two numbers,
    `sentence` is for people, and `line` is the output of the command line."""

    def __init__(self, code: int, first: int, second: int, sentence: str, line: str):
        super().__init__(sentence)
        self.code, self.first, self.second = code, first, second
        self.sentence, self.line = sentence, line

    @property
    def kind(self) -> str:
        return _KINDS.get(self.code, "Unknown")


class NotAnswer(Refused):
    """The reply says without proof that an end is not a node or, from older servers, that no route joins the two."""


class Malformed(Refused):
    """The octets are not a reply."""


class Stale(Refused):
    """The reply is from a version below the minimum version."""


class BadChain(Refused):
    """A link of the chain is not signed under the key before it."""


class BadSignature(Refused):
    """The header is not signed under any of the keys."""


class BadItems(Refused):
    """The items do not match the signed roots, or do not prove the answer."""


class PassesTwice(Refused):
    """The route passes a node twice, and the caller refuses such routes."""


class NoMemory(Refused):
    """Out of memory."""


class TooLong(Refused):
    """The reply or the chain is too long to be checked."""


class MalformedChain(Refused):
    """The octets of the chain are not a chain."""


class Ahead(Refused):
    """The version is dated more than a day ahead of the clock of a client with a greatest age."""


class WrongClock(Refused):
    """The clock for a greatest age cannot be right, so nothing was requested or checked."""


class NoneYoung(Refused):
    """A gateway has no map that is young enough."""


class Unknown(Refused):
    """The library answers with a code that this module does not know."""


_REFUSALS: dict[int, type[Refused]] = {
    3: NotAnswer,
    4: Malformed,
    5: Stale,
    6: BadChain,
    7: BadSignature,
    **dict.fromkeys(range(8, 15), BadItems),
    15: PassesTwice,
    16: NoMemory,
    17: TooLong,
    18: MalformedChain,
    32: Ahead,
    33: WrongClock,
    34: NoneYoung,
}
_KINDS = {
    3: "NotAnswer",
    4: "Malformed",
    5: "Stale",
    6: "BadChain",
    7: "BadSignature",
    8: "BadCover",
    9: "RepeatedNode",
    10: "BadRoute",
    11: "MissingTuple",
    12: "MissingPair",
    13: "Shorter",
    14: "Disagrees",
    15: "PassesTwice",
    16: "NoMemory",
    17: "TooLong",
    18: "MalformedChain",
    32: "Ahead",
    33: "WrongClock",
    34: "NoneYoung",
}


class _Verdict(ctypes.Structure):
    _fields_ = [
        ("code", ctypes.c_uint32),
        ("count", ctypes.c_uint64),
        ("length", ctypes.c_uint64),
        ("version", ctypes.c_uint64),
        ("first", ctypes.c_uint64),
        ("second", ctypes.c_uint64),
        ("line_length", ctypes.c_uint64),
        ("line", ctypes.c_char * 128),
    ]


class _Node(ctypes.Structure):
    _fields_ = [("id", ctypes.c_uint32), ("x", ctypes.c_int32), ("y", ctypes.c_int32)]


class _ReachedNode(ctypes.Structure):
    _fields_ = [*_Node._fields_, ("distance", ctypes.c_uint64)]


class _Buffer(ctypes.Structure):
    """The first fields of CPython's Py_buffer: the address of an object's octets."""

    _fields_ = [
        ("at", ctypes.c_void_p),
        ("object", ctypes.py_object),
        ("length", ctypes.c_ssize_t),
        ("rest", ctypes.c_byte * 128),
    ]


class _Lent:
    """Octets that do not change during a `with` block. The octets of `bytes`, or of a view of `bytes`, are not copied.
    Any other buffer is copied, since another thread or process may write to it."""

    def __init__(self, octets: Octets):
        view = memoryview(octets)
        self._view = view if type(view.obj) is bytes and view.contiguous else memoryview(bytes(view))
        self._buffer = _Buffer()

    def __enter__(self) -> tuple[int | None, int]:
        ctypes.pythonapi.PyObject_GetBuffer(ctypes.py_object(self._view), ctypes.byref(self._buffer), 0)
        return self._buffer.at, self._buffer.length

    def __exit__(self, *_: object) -> None:
        ctypes.pythonapi.PyBuffer_Release(ctypes.byref(self._buffer))


def _copied(octets: Octets) -> bytes:
    """A copy of the octets. A number is refused, because `bytes` would turn it into that many zeros."""
    return bytes(memoryview(octets))


def _found_library(library: FileName | None) -> str:
    """The library's file: the named file, else the file beside this module, else the system's. It never looks in the
    working folder, where anybody may have put a file."""
    if library is not None:
        return str(pathlib.Path(library).resolve())
    beside = pathlib.Path(__file__).resolve().parent / "libgogbetiku.so.0"
    return str(beside) if beside.exists() else "libgogbetiku.so.0"


def _loaded(library: FileName | None) -> ctypes.CDLL:
    name = _found_library(library)
    path = os.environ.get("LD_LIBRARY_PATH", "")
    if "/" not in name and path and not all(entry.startswith("/") for entry in re.split("[:;]", path)):
        raise OSError("LD_LIBRARY_PATH has an entry below the working folder: name the library's file")
    try:
        calls = ctypes.CDLL(name)
    except OSError as error:
        raise OSError(
            f"{name} cannot be loaded ({error}): install the wheel for this platform or the package libgogbetiku0, "
            "or name the library's file as `library`"
        ) from error
    octets: list[Any] = [ctypes.c_void_p, ctypes.c_size_t]
    room: list[Any] = [ctypes.c_void_p, ctypes.c_size_t, ctypes.POINTER(_Verdict)]
    number, long = ctypes.c_uint32, ctypes.c_uint64
    calls.gog_check_route.argtypes = [*3 * octets, number, number, long, number, *room]
    calls.gog_check_reach.argtypes = [*3 * octets, number, long, long, *room]
    calls.gog_nearest.argtypes = [*3 * octets, number, long, long, *octets, *room]
    calls.gog_accepted.argtypes = [ctypes.POINTER(_Verdict)]
    calls.gog_sentence.argtypes = [number, long, long, ctypes.c_char_p, ctypes.c_size_t]
    calls.gog_sentence.restype = ctypes.c_size_t
    calls.gog_version.restype = ctypes.c_char_p
    calls.gog_least_of_age.argtypes = [*3 * [long], *2 * [ctypes.POINTER(long)]]
    calls.gog_refuse_ahead.argtypes = [ctypes.POINTER(_Verdict), long]
    calls.gog_refuse_ahead.restype = number
    for call in (calls.gog_check_route, calls.gog_check_reach, calls.gog_nearest):
        call.restype = number
    return calls


def _key_of(key: Octets | str) -> bytes:
    if isinstance(key, str):
        key = bytes.fromhex(key) if len(key.strip()) == 2 * _KEY_OCTETS else b""
    octets = _copied(key)
    if len(octets) != _KEY_OCTETS:
        raise ValueError("a public key has 56 octets, or 112 hex digits")
    return octets


def short_name(key: Octets | str) -> str:
    """The first 8 hex digits of the SHA-256 of a public key. They tell keys apart for people, but prove nothing."""
    return hashlib.sha256(_key_of(key)).hexdigest()[:8]


def _number(name: str, value: int, bits: int) -> int:
    number = operator.index(value)
    if not 0 <= number < 1 << bits:
        raise ValueError(f"{name} is {number}, which is not an unsigned number of {bits} bits")
    return number


def _listed(ids: Iterable[int]) -> ctypes.Array[ctypes.c_uint32]:
    """A copy of ids for C. Octets are refused, because each octet would become an id."""
    if isinstance(ids, (str, bytes, bytearray)):
        raise TypeError("ids is a list of numbers")
    numbers = [_number("an id", id, 32) for id in ids]
    return (ctypes.c_uint32 * len(numbers))(*numbers)


class _Floor:
    """A file with the greatest version accepted under each key. Processes may share it."""

    def __init__(self, path: FileName, key: bytes):
        self._path, self._key = pathlib.Path(path), key.hex()

    def _kept(self) -> dict[str, int]:
        try:
            kept = json.loads(self._path.read_text())
        except FileNotFoundError:
            return {}
        if not isinstance(kept, dict) or not all(
            type(version) is int and 0 <= version < 1 << 64 for version in kept.values()
        ):
            raise ValueError(f"{self._path}: not a file of accepted versions")
        return kept

    def least(self, least: int) -> int:
        return max(least, self._kept().get(self._key, 0))

    def keep(self, version: int) -> None:
        with open(f"{self._path}.lock", "w") as lock:
            fcntl.flock(lock, fcntl.LOCK_EX)
            kept = self._kept()
            if kept.get(self._key, 0) >= version:
                return
            kept[self._key] = version
            part = pathlib.Path(f"{self._path}.part")
            with open(part, "w") as file:
                file.write(json.dumps(kept, indent=1) + "\n")
                file.flush()
                os.fsync(file.fileno())
            part.replace(self._path)


class Client:
    """Checks replies under a public key of 56 octets or 112 hex digits; `chain` has the octets of a chain file that
    leads from it to the owner's later keys. `floor` names a file that keeps the greatest version accepted under the
    key; lower versions are refused. A reply of more than `most_octets` is not read. `library` names the library's file,
    if it is neither beside this module nor among the system's libraries. `max_age` is for owners whose versions are
    dates: a map that is older by `clock` than this many seconds is refused, and so is a map dated more than a day
    ahead. `name` is the map's name, which comes from the owner with the key; no reply has a name. Threads may share a
    client."""

    def __init__(
        self,
        key: Octets | str,
        chain: Octets = b"",
        *,
        floor: FileName | None = None,
        library: FileName | None = None,
        most_octets: int = MOST_OCTETS,
        max_age: int | None = None,
        clock: Callable[[], float] = time.time,
        name: str = "",
    ):
        self._key, self._chain, self._most = _key_of(key), _copied(chain), _number("most_octets", most_octets, 64)
        self._floor = None if floor is None else _Floor(floor, self._key)
        self._age = None if max_age is None else Age(_number("max_age", max_age, 64), clock)
        self._calls, self.name = _loaded(library), name

    @classmethod
    def from_file(cls, key: FileName, chain: FileName | None = None, **words: Any) -> Client:
        """Makes a client with the key from a file of hex digits, and the chain from another file."""
        text = pathlib.Path(key).read_text(encoding="ascii").strip()
        return cls(text, b"" if chain is None else pathlib.Path(chain).read_bytes(), **words)

    @property
    def library_version(self) -> str:
        return str(self._calls.gog_version().decode("ascii"))

    def check_route(self, reply: Octets, start: int, end: int, least: int, *, simple: bool = False) -> Route | NoRoute:
        """Returns the route that a reply proves to be a shortest one, or a `NoRoute` if it proves that no route exists.
        Raises `Refused`; with `simple` also if the route passes a node twice."""
        words = (_number("start", start, 32), _number("end", end, 32), self._least(least), 1 if simple else 0)
        room, verdict = self._checked(self._calls.gog_check_route, reply, words, _Node, none=_NO_ROUTE)
        if verdict.code == _NO_ROUTE:
            return NoRoute(verdict.version)
        return Route([Node(node.id, node.x, node.y) for node in room], verdict.length, verdict.version)

    def check_reach(self, reply: Octets, start: int, radius: int, least: int) -> Within:
        """Returns the nodes that a reply proves to be all those within a radius. Raises `Refused`."""
        words = (_number("start", start, 32), _number("radius", radius, 64), self._least(least))
        room, verdict = self._checked(self._calls.gog_check_reach, reply, words, _ReachedNode)
        return Within([ReachedNode(node.id, node.x, node.y, node.distance) for node in room], verdict.version)

    def least_to_ask(self, least: int = 0) -> int:
        """Returns the version to request from a gateway as `least`. An age is rounded up to the minute, so that
        requests repeat. Raises `WrongClock`."""
        return self._leasts(least)[1]

    def is_young(self, version: int) -> bool:
        """Whether a version is young enough to be requested from a gateway; without an age each is. Raises
        `WrongClock`."""
        return self._age is None or version >= self._of_age(0)[1]

    def none_young(self) -> NoneYoung:
        """Returns the meaning of a gateway's status 503 on `least_to_ask`, if its problem type says that no map is as
        new."""
        if self._age is None:
            raise ValueError("this client accepts maps of any age")
        return NoneYoung(_NONE_YOUNG, self._age.seconds, 0, self._sentence(_NONE_YOUNG, self._age.seconds, 0), "")

    def nearest(
        self, reply: Octets, start: int, radius: int, ids: Iterable[int], least: int, *, count: int | None = None
    ) -> Nearest:
        """Returns the nearest of the listed nodes that a reply to a range query proves to be within the radius, at most
        `count` of them. The ids may be in any order; an id listed twice counts once. Raises `Refused`."""
        listed = _listed(ids)
        most = len(listed) if count is None else _number("count", count, 64)
        words = (
            _number("start", start, 32),
            _number("radius", radius, 64),
            self._least(least),
            ctypes.addressof(listed),
            len(listed),
        )
        call, most = self._calls.gog_nearest, min(most, MOST_NODES)
        room, verdict = self._checked(call, reply, words, _ReachedNode, most, none=_NONE_WITHIN)
        nodes = [ReachedNode(node.id, node.x, node.y, node.distance) for node in room]
        return Nearest(nodes, verdict.count, verdict.version)

    def _least(self, least: int) -> int:
        return self._leasts(least)[0]

    def _leasts(self, least: int) -> tuple[int, int]:
        """The minimum version, and the version to request. The range of `least` is checked last, because C would
        truncate a larger number to 64 bits."""
        number = _number("least", least, 64)
        if self._floor is not None:
            number = _number("least", self._floor.least(number), 64)
        return (number, number) if self._age is None else self._of_age(number)

    def _of_age(self, floor: int) -> tuple[int, int]:
        """The minimum version by the clock, and the version to request, which are never below a floor."""
        assert self._age is not None
        found = self._age.least(self._calls, floor)
        if found is None:
            now = self._age.now()
            raise WrongClock(_WRONG_CLOCK, now, 0, self._sentence(_WRONG_CLOCK, now, 0), "")
        return found

    def _checked(
        self,
        call: Callable[..., int],
        reply: Octets,
        words: tuple[int, ...],
        node: type[Any],
        most: int = MOST_NODES,
        none: int = _ACCEPTED,
    ) -> tuple[list[Any], _Verdict]:
        """Runs a call. Returns its nodes, at most `most` of them, and its verdict. `none` is the code that accepts
        without a node."""
        with _Lent(reply) as (at, length):
            if length > self._most:
                raise TooLong(17, 0, 0, f"A reply of more than {self._most:,} octets is not read.", "")
            room, verdict = (node * most)(), _Verdict()
            code = call(
                self._key,
                len(self._key),
                self._chain,
                len(self._chain),
                at,
                length,
                *words,
                ctypes.addressof(room),
                len(room),
                ctypes.byref(verdict),
            )
        if self._age is not None and code == verdict.code:
            code = self._calls.gog_refuse_ahead(ctypes.byref(verdict), self._age.now())
        if code != verdict.code or not self._calls.gog_accepted(ctypes.byref(verdict)):
            raise self._refusal(code, verdict)
        if code not in (_ACCEPTED, none) or verdict.count > MOST_NODES:
            raise self._refusal(0, verdict)
        if self._floor is not None:
            self._floor.keep(verdict.version)
        return room[: min(verdict.count, most)], verdict

    def _sentence(self, code: int, first: int, second: int) -> str:
        text = ctypes.create_string_buffer(256)
        self._calls.gog_sentence(code, first, second, text, len(text))
        return text.value.decode("ascii")

    def _refusal(self, code: int, verdict: _Verdict) -> Refused:
        refused, (first, second) = _REFUSALS.get(code, Unknown), (verdict.first, verdict.second)
        return refused(
            code, first, second, self._sentence(code, first, second), verdict.line.decode("ascii").rstrip("\n")
        )
