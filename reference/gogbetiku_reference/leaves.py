"""The leaves of nodes and of pairs, read and written.

docs/SPEC.md, 3.1 Node leaves and 3.2 Pair leaves. Part of the reference: tested, not proved, and trusted by no client.
"""
from dataclasses import dataclass

from .octets import Malformed, Reader, i32, u8, u16, u32, u64

NO_WALK = 2**64 - 1
PLAIN, VECTOR, CELL = "plain", "vector", "cell"
PAIR_OCTETS = 17


@dataclass(frozen=True)
class Kind:
    """The extra fields of a node's leaf: none, the codes of this many landmarks, or a cell."""

    name: str
    landmarks: int = 0


@dataclass(frozen=True)
class Own:
    """A node's own codes, one for each landmark."""

    codes: tuple[int, ...]


@dataclass(frozen=True)
class Near:
    """A node whose codes are used instead, and their greatest error."""

    reference: int
    error: int


@dataclass(frozen=True)
class InCell:
    cell: int
    border: bool


Added = Own | Near | InCell | None


@dataclass(frozen=True)
class NodeLeaf:
    """The place of a node, its arcs by ascending neighbour, and the extra fields."""

    id: int
    x: int
    y: int
    arcs: tuple[tuple[int, int], ...]
    added: Added = None

    def text(self) -> bytes:
        head = b"N" + u32(self.id) + i32(self.x) + i32(self.y) + u16(len(self.arcs))
        return head + b"".join(u32(there) + u32(length) for there, length in self.arcs) + added_text(self.added)


@dataclass(frozen=True)
class PairLeaf:
    """The distance of two nodes; `a` is the lesser id, and `NO_WALK` means that no walk joins them."""

    a: int
    b: int
    distance: int

    def text(self) -> bytes:
        return b"P" + u32(self.a) + u32(self.b) + u64(self.distance)


def added_text(added: Added) -> bytes:
    match added:
        case Own(codes):
            return u8(0) + b"".join(map(u16, codes))
        case Near(reference, error):
            return u8(1) + u32(reference) + u16(error)
        case InCell(cell, border):
            return u32(cell) + u8(border)
    return b""


def read_arcs(reader: Reader, own: int) -> tuple[tuple[int, int], ...]:
    """The arcs by strictly ascending ids, without the node's own."""
    arcs: list[tuple[int, int]] = []
    for _ in range(reader.number(2, range(256))):
        begin = reader.at
        arc = (reader.number(4), reader.number(4))
        if arc[0] == own:
            raise Malformed(begin)
        if arcs and arc[0] <= arcs[-1][0]:
            raise Malformed(begin)
        arcs.append(arc)
    return tuple(arcs)


def read_added(reader: Reader, kind: Kind) -> Added:
    if kind.name == CELL:
        return InCell(reader.number(4), reader.number(1, range(2)) == 1)
    if kind.name == VECTOR:
        if reader.number(1, range(2)) == 0:
            return Own(tuple(reader.number(2) for _ in range(kind.landmarks)))
        return Near(reader.number(4), reader.number(2))
    return None


def read_node_leaf(text: bytes, kind: Kind) -> NodeLeaf:
    """The leaf of this kind in a whole text. Raises `Malformed` if the text is not such a leaf."""
    reader = Reader(text)
    reader.take(1, b"N")
    node, x, y = reader.number(4), reader.signed(4), reader.signed(4)
    arcs = read_arcs(reader, node)
    leaf = NodeLeaf(node, x, y, arcs, read_added(reader, kind))
    reader.end()
    return leaf


def read_pair_leaf(text: bytes) -> PairLeaf:
    """The leaf of a pair in 17 octets. Raises `Malformed` if they are not such a leaf."""
    reader = Reader(text)
    reader.take(1, b"P")
    a, b, distance = reader.number(4), reader.number(4), reader.number(8)
    if a >= b:
        raise Malformed(0)
    reader.end()
    return PairLeaf(a, b, distance)
