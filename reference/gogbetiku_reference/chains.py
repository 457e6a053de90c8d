"""Links from an owner's key to the next one, and chain files.

docs/SPEC.md, 4.4 Links and chain files. Part of the reference: tested, not proved, and trusted by no client.
"""
from collections.abc import Sequence
from dataclasses import dataclass

from .lms import PUBLIC_OCTETS
from .octets import Malformed, Reader, u16

MOST_LINKS, MOST_SIGNATURE = 7, 1452
LINK_TEXT, LINK = b"RPK1", b"RPL1"


@dataclass(frozen=True)
class Link:
    """The next public key, and the signature of its link text."""

    key: bytes
    signature: bytes

    def octets(self) -> bytes:
        return LINK + self.key + u16(len(self.signature)) + self.signature


def link_text(key: bytes) -> bytes:
    return LINK_TEXT + key


def is_link_text(text: bytes) -> bool:
    return len(text) == len(LINK_TEXT) + PUBLIC_OCTETS and text.startswith(LINK_TEXT)


def read_chain(octets: bytes) -> tuple[Link, ...]:
    """The links that a chain file lists."""
    reader = Reader(octets)
    links: list[Link] = []
    while reader.at < len(octets):
        if len(links) == MOST_LINKS:
            raise Malformed(reader.at)
        reader.take(4, LINK)
        key = reader.take(PUBLIC_OCTETS)
        links.append(Link(key, reader.take(reader.number(2, range(MOST_SIGNATURE + 1)))))
    return tuple(links)


def write_chain(links: Sequence[Link]) -> bytes:
    return b"".join(link.octets() for link in links)
