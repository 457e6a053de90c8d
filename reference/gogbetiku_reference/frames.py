"""The service: sessions over publications, and the frames that it reads and writes.

docs/SPEC.md, 6.5 Frames. Part of the reference: tested, not proved, and trusted by no client.
"""
from collections.abc import Sequence
from dataclasses import dataclass

from .chains import Link
from .clients import test_header
from .faults import Fault, Refused
from .octets import Malformed, Reader, u8, u32, u64
from .publications import Publication, read_publication
from .servers import Held, answer, answer_near, install, is_known

SESSIONS, MOST_OCTETS, MOST_FRAMES = 16, 4_194_304, 1_000_000
BEGIN, ASK, FINISH, INSTALL, NEAR = 1, 2, 3, 4, 5
LENGTHS = {BEGIN: 2, ASK: 10, FINISH: 2}
GUARDED_LENGTHS = LENGTHS | {NEAR: 14}
CAUSES = {"BadKey": 1, "BadForm": 2, "NoMatch": 3}
UNKNOWN_START = b"\x01"
MAP_FAULTS = {"Empty", "TooMany", "RepeatedNode", "UnknownEnd", "SelfRoad", "Crowded"}


@dataclass(frozen=True)
class Guard:
    """A public key, and the links from it: a guarded service installs only publications that are signed along them."""

    public: bytes
    chain: Sequence[Link]

    def cause(self, publication: Publication) -> int | None:
        """The reason why a publication is not signed."""
        try:
            test_header(self.public, self.chain, publication.header, publication.signature, 0)
        except Refused as refused:
            return CAUSES[str(refused.fields[-1])]
        return None


class Service:
    """The newest publication, and the publication of each session."""

    def __init__(self, first: Held, guard: Guard | None = None):
        self.newest = first
        self.guard = guard
        self.lengths = GUARDED_LENGTHS if guard else LENGTHS
        self.pins: dict[int, Held] = {}

    def step(self, body: bytes) -> bytes:
        """The reply to a body. A refused body changes nothing."""
        kind = body[0] if body else 0
        if kind == INSTALL:
            return self.install(body[1:])
        if self.lengths.get(kind) != len(body):
            return b"\xe1"
        return self.session(kind, body[1], body[2:])

    def session(self, kind: int, session: int, rest: bytes) -> bytes:
        if session >= SESSIONS:
            return b"\xe2" + u8(session)
        if kind == BEGIN and session in self.pins:
            return b"\xe3" + u8(session)
        if kind != BEGIN and session not in self.pins:
            return b"\xe4" + u8(session)
        return {BEGIN: self.begin, ASK: self.ask, FINISH: self.finish, NEAR: self.near}[kind](session, rest)

    def begin(self, session: int, _rest: bytes) -> bytes:
        self.pins[session] = self.newest
        return b"\x81" + u8(session) + u64(self.newest.publication.header.version)

    def ask(self, session: int, rest: bytes) -> bytes:
        start, end = int.from_bytes(rest[:4], "big"), int.from_bytes(rest[4:], "big")
        return b"\x82" + u8(session) + answer(self.pins[session], start, end)

    def near(self, session: int, rest: bytes) -> bytes:
        start, radius = int.from_bytes(rest[:4], "big"), int.from_bytes(rest[4:], "big")
        held = self.pins[session]
        return b"\x85" + u8(session) + (answer_near(held, start, radius) if is_known(held, start) else UNKNOWN_START)

    def finish(self, session: int, _rest: bytes) -> bytes:
        del self.pins[session]
        return b"\x83" + u8(session)

    def install(self, octets: bytes) -> bytes:
        try:
            publication = read_publication(Reader(octets))
        except Malformed:
            return b"\xe5\x01"
        newest = self.newest.publication.header.version
        if publication.header.version <= newest:
            return b"\xe6" + u64(newest)
        cause = self.guard.cause(publication) if self.guard else None
        if cause is not None:
            return b"\xe7" + u8(cause)
        try:
            self.newest = install(publication)
        except Fault as fault:
            return b"\xe5" + u8(install_code(fault))
        return b"\x84" + u64(publication.header.version)


def install_code(fault: Fault) -> int:
    """The reason why a publication that can be read is not installed."""
    return 2 if fault.name in MAP_FAULTS else 4 if fault.name == "HeaderWrong" else 3


def framed(body: bytes) -> bytes:
    return u32(len(body)) + body


def next_frame(text: bytes, at: int) -> bytes:
    """The body of the frame at a place."""
    length = int.from_bytes(text[at : at + 4], "big")
    if len(text) - at < 4:
        raise Fault("TruncatedFrame")
    if length > MOST_OCTETS:
        raise Fault("FrameTooLong")
    if len(text) - at - 4 < length:
        raise Fault("TruncatedFrame")
    return text[at + 4 : at + 4 + length]


def bodies_of(text: bytes) -> tuple[list[bytes], Fault | None]:
    """The bodies of all whole frames, and the fault if the input does not end after one."""
    bodies: list[bytes] = []
    at = 0
    while at < len(text):
        if len(bodies) == MOST_FRAMES:
            return bodies, Fault("TooManyFrames")
        try:
            bodies.append(next_frame(text, at))
        except Fault as fault:
            return bodies, fault
        at += 4 + len(bodies[-1])
    return bodies, None
