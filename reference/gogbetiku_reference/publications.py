"""Publications, read and written.

docs/SPEC.md, 6.2 Publications. Part of the reference: tested, not proved, and trusted by no client.
"""
from dataclasses import dataclass

from .headers import Header, read_header
from .maps import MOST_NODES, MOST_ROADS, Parts
from .octets import Reader, i32, u32, u64
from .replies import read_signature, signed_text

PUBLICATION = b"RPP1"


@dataclass(frozen=True)
class Settings:
    """The settings of a book."""

    method: int
    version: int
    order: int
    seed: int
    fan: int
    p1: int
    p2: int
    p3: int


@dataclass(frozen=True)
class Publication:
    """A signed header, with its settings and its map."""

    header: Header
    signature: bytes
    seed: int
    p1: int
    p2: int
    p3: int
    parts: Parts

    def settings(self) -> Settings:
        header = self.header
        return Settings(header.method, header.version, header.order, self.seed, header.fan, self.p1, self.p2, self.p3)

    def octets(self) -> bytes:
        settings = u64(self.seed) + u64(self.p1) + u64(self.p2) + u64(self.p3)
        nodes = b"".join(u32(node) + i32(x) + i32(y) for node, x, y in self.parts.nodes)
        roads = b"".join(u32(a) + u32(b) + u32(length) for a, b, length in self.parts.roads)
        return (
            PUBLICATION
            + signed_text(self.header, self.signature)
            + settings
            + u32(len(self.parts.nodes))
            + nodes
            + u32(len(self.parts.roads))
            + roads
        )


def read_publication(reader: Reader) -> Publication:
    reader.take(4, PUBLICATION)
    header, signature = read_header(reader), read_signature(reader)
    seed, p1, p2, p3 = (reader.number(8) for _ in range(4))
    nodes = tuple(
        (reader.number(4), reader.signed(4), reader.signed(4)) for _ in range(reader.number(4, range(MOST_NODES + 1)))
    )
    roads = tuple(
        (reader.number(4), reader.number(4), reader.number(4)) for _ in range(reader.number(4, range(MOST_ROADS + 1)))
    )
    reader.end()
    return Publication(header, signature, seed, p1, p2, p3, Parts(nodes, roads))
