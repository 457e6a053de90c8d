"""Headers, which an owner signs.

docs/SPEC.md, 6.1 Headers. Part of the reference: tested, not proved, and trusted by no client.
"""
from dataclasses import dataclass

from .leaves import CELL, PLAIN, VECTOR, Kind
from .octets import Reader, u8, u32, u64

HEADER = b"RPF1"
DIJ, FULL, LDM, HYP = 1, 2, 3, 4
METHODS = {"dij": DIJ, "full": FULL, "ldm": LDM, "hyp": HYP}
NONE = range(1)
PAIRS = {DIJ: NONE, FULL: range(523_777), LDM: NONE, HYP: range(2_096_129)}
FIRST = {DIJ: NONE, FULL: NONE, LDM: range(1, 2**64), HYP: range(1, 1025)}
SECOND = {DIJ: NONE, FULL: NONE, LDM: range(1, 65), HYP: range(1, 1025)}
NO_ROOT = bytes(32)


@dataclass(frozen=True)
class Header:
    method: int
    order: int
    fan: int
    version: int
    nodes: int
    node_root: bytes
    pairs: int
    pair_root: bytes
    first: int
    second: int

    def octets(self) -> bytes:
        return (
            HEADER
            + u8(self.method)
            + u8(self.order)
            + u8(self.fan)
            + u8(0)
            + u64(self.version)
            + u32(self.nodes)
            + self.node_root
            + u32(self.pairs)
            + self.pair_root
            + u64(self.first)
            + u64(self.second)
        )

    def kind(self) -> Kind:
        """The kind of extra fields in the leaves of nodes."""
        if self.method == LDM:
            return Kind(VECTOR, self.second)
        return Kind(CELL if self.method == HYP else PLAIN)


def read_header(reader: Reader) -> Header:
    reader.take(4, HEADER)
    method = reader.number(1, range(1, 5))
    order = reader.number(1, range(6))
    fan = reader.number(1, range(2, 33))
    reader.take(1, u8(0))
    version = reader.number(8)
    nodes, node_root = reader.number(4, range(1, 65_537)), reader.take(32)
    pairs = reader.number(4, PAIRS[method])
    pair_root = reader.take(32, NO_ROOT if pairs == 0 else None)
    first = reader.number(8, FIRST[method])
    second = reader.number(8, SECOND[method])
    return Header(method, order, fan, version, nodes, node_root, pairs, pair_root, first, second)
