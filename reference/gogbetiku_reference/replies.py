"""Replies to queries for routes and for the nodes within a radius, read and written.

docs/SPEC.md, 6.3 Replies and 6.4 Range replies. Part of the reference: tested, not proved, and trusted by no client.
"""
from collections.abc import Callable, Sequence
from dataclasses import dataclass
from typing import TypeVar

from .chains import MOST_SIGNATURE
from .headers import Header, read_header
from .leaves import PAIR_OCTETS, Kind, NodeLeaf, PairLeaf, read_node_leaf, read_pair_leaf
from .octets import Malformed, Reader, u8, u16, u32

ROUTE, UNKNOWN_NODE, NO_ROUTE, APART = 0, 1, 2, 3
RADIUS = b"RPN1"
DIGEST = 32


@dataclass(frozen=True)
class NodeItem:
    place: int
    leaf: NodeLeaf
    text: bytes


@dataclass(frozen=True)
class PairItem:
    place: int
    leaf: PairLeaf
    text: bytes


@dataclass(frozen=True)
class Answer:
    """An answer with a route or, of kind `APART`, without one because no walk joins the two ends."""

    kind: int
    header: Header
    signature: bytes
    route: tuple[int, ...]
    nodes: tuple[NodeItem, ...]
    pairs: tuple[PairItem, ...]
    node_cover: tuple[bytes, ...]
    pair_cover: tuple[bytes, ...]

    def octets(self) -> bytes:
        route = u32(len(self.route)) + b"".join(map(u32, self.route)) if self.kind == ROUTE else b""
        return (
            u8(self.kind)
            + signed_text(self.header, self.signature)
            + route
            + node_items_text(self.nodes)
            + pair_items_text(self.pairs)
            + cover_text(self.node_cover)
            + cover_text(self.pair_cover)
        )


@dataclass(frozen=True)
class NearReply:
    """The leaves of the nodes within a radius, with their cover."""

    header: Header
    signature: bytes
    nodes: tuple[NodeItem, ...]
    node_cover: tuple[bytes, ...]

    def octets(self) -> bytes:
        return (
            RADIUS
            + signed_text(self.header, self.signature)
            + node_items_text(self.nodes)
            + cover_text(self.node_cover)
        )


def signed_text(header: Header, signature: bytes) -> bytes:
    return header.octets() + u16(len(signature)) + signature


def node_items_text(items: Sequence[NodeItem]) -> bytes:
    return u32(len(items)) + b"".join(u32(item.place) + u16(len(item.text)) + item.text for item in items)


def pair_items_text(items: Sequence[PairItem]) -> bytes:
    return u32(len(items)) + b"".join(u32(item.place) + item.text for item in items)


def cover_text(cover: Sequence[bytes]) -> bytes:
    return u32(len(cover)) + b"".join(cover)


def read_signature(reader: Reader) -> bytes:
    return reader.take(reader.number(2, range(MOST_SIGNATURE + 1)))


def read_route(reader: Reader) -> tuple[int, ...]:
    return tuple(reader.number(4) for _ in range(reader.number(4, range(1, 65_537))))


def read_place(reader: Reader, before: int | None) -> int:
    """The place of an item, which is greater than that of the previous item."""
    return reader.number(4, range(0 if before is None else before + 1, 2**32))


Leaf = TypeVar("Leaf", NodeLeaf, PairLeaf)


def read_leaf(reader: Reader, length: int, read: Callable[[bytes], Leaf]) -> tuple[Leaf, bytes]:
    """A whole leaf as one field, with its text."""
    begin = reader.at
    text = reader.take(length)
    try:
        return read(text), text
    except Malformed:
        raise Malformed(begin) from None


def read_node_items(reader: Reader, kind: Kind) -> tuple[NodeItem, ...]:
    items: list[NodeItem] = []
    for _ in range(reader.number(4)):
        place = read_place(reader, items[-1].place if items else None)
        leaf, text = read_leaf(reader, reader.number(2), lambda octets: read_node_leaf(octets, kind))
        items.append(NodeItem(place, leaf, text))
    return tuple(items)


def read_pair_items(reader: Reader) -> tuple[PairItem, ...]:
    items: list[PairItem] = []
    for _ in range(reader.number(4)):
        place = read_place(reader, items[-1].place if items else None)
        leaf, text = read_leaf(reader, PAIR_OCTETS, read_pair_leaf)
        items.append(PairItem(place, leaf, text))
    return tuple(items)


def read_cover(reader: Reader) -> tuple[bytes, ...]:
    return tuple(reader.take(DIGEST) for _ in range(reader.number(4)))


def read_reply(reader: Reader) -> Answer | int:
    """An answer, or the kind of a reply of one octet."""
    kind = reader.number(1, range(4))
    if kind in (UNKNOWN_NODE, NO_ROUTE):
        reader.end()
        return kind
    header, signature = read_header(reader), read_signature(reader)
    route = read_route(reader) if kind == ROUTE else ()
    nodes, pairs = read_node_items(reader, header.kind()), read_pair_items(reader)
    node_cover, pair_cover = read_cover(reader), read_cover(reader)
    reader.end()
    return Answer(kind, header, signature, route, nodes, pairs, node_cover, pair_cover)


def read_near_reply(reader: Reader) -> NearReply:
    reader.take(4, RADIUS)
    header, signature = read_header(reader), read_signature(reader)
    nodes, node_cover = read_node_items(reader, header.kind()), read_cover(reader)
    reader.end()
    return NearReply(header, signature, nodes, node_cover)
