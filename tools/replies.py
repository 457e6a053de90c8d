"""Reads publications and replies by docs/SPEC.md. It checks nothing: anybody may have sent the content.
No client trusts it; `proved` asks the proved client.
"""
import struct
from dataclasses import dataclass, field
from typing import Any

from offsets import HEADER, IN_ANSWER, IN_PUBLICATION, IN_RANGE_REPLY, METHOD, NODES, SETTINGS
from roads import Place, Roads, Trouble

METHODS = {1: "DIJ", 2: "FULL", 3: "LDM", 4: "HYP"}
ROUTE, APART, RADIUS = "a route", "no route", "a radius"
PUBLICATION, ON_A_RADIUS = b"RPP1", b"RPN1"


class Octets:
    """A reader of octets, from the first one on."""

    def __init__(self, octets: bytes, path: str):
        self.octets, self.path, self.at = octets, path, 0

    def take(self, form: str) -> Any:
        try:
            values = struct.unpack_from(">" + form, self.octets, self.at)
        except struct.error:
            raise Trouble(f"{self.path}: it ends within a field, at offset {self.at}") from None
        self.at += struct.calcsize(">" + form)
        return values if len(values) > 1 else values[0]

    def skip(self, count: int) -> None:
        self.at += count

    def end(self) -> None:
        if self.at != len(self.octets):
            raise Trouble(f"{self.path}: octets follow its end, from offset {self.at} on")


@dataclass
class Reply:
    """The content of a reply: the number of nodes in its map, as its header counts them, the route, the leaves by their
    nodes, and the pairs. A leaf has its place and the lengths of its arcs by their target nodes."""

    kind: str
    method: str
    count: int = 0
    route: list[int] = field(default_factory=list)
    places: dict[int, Place] = field(default_factory=dict)
    arcs: dict[int, dict[int, int]] = field(default_factory=dict)
    pairs: list[tuple[int, int]] = field(default_factory=list)


def map_of(octets: bytes, path: str) -> Roads:
    """The nodes and roads of a publication."""
    it, found = Octets(octets, path), Roads()
    if octets[:4] != PUBLICATION:
        raise Trouble(f"{path}: not a publication")
    it.skip(IN_PUBLICATION + HEADER)
    it.skip(it.take("H"))
    it.skip(SETTINGS)
    for _ in range(it.take("I")):
        node, x, y = it.take("Iii")
        found.nodes[node] = (x, y)
    found.roads = [it.take("III") for _ in range(it.take("I"))]
    it.end()
    return found


def reply_of(octets: bytes, path: str) -> Reply:
    """A reply of any kind."""
    it = Octets(octets, path)
    kind = {b"\0": ROUTE, b"\3": APART, ON_A_RADIUS[:1]: RADIUS}.get(octets[:1])
    if kind is None or (kind is RADIUS and octets[:4] != ON_A_RADIUS):
        raise Trouble(f"{path}: not a reply with a proof")
    it.skip(IN_RANGE_REPLY if kind is RADIUS else IN_ANSWER)
    method = octets[it.at + METHOD : it.at + METHOD + 1]
    count = int.from_bytes(octets[it.at + NODES : it.at + NODES + 4], "big")
    it.skip(HEADER)
    it.skip(it.take("H"))
    reply = Reply(kind, METHODS.get(method[0] if method else 0, "no method"), count)
    if kind is ROUTE:
        reply.route = [it.take("I") for _ in range(it.take("I"))]
    for _ in range(it.take("I")):
        _, length = it.take("IH")
        begins = it.at
        _, node, x, y, count = it.take("BIiiH")
        reply.places[node] = (x, y)
        reply.arcs[node] = dict(it.take("II") for _ in range(count))
        it.at = begins + length
    if kind is not RADIUS:
        reply.pairs = [it.take("IBIIQ")[2:4] for _ in range(it.take("I"))]
        it.skip(32 * it.take("I"))
    it.skip(32 * it.take("I"))
    it.end()
    return reply
