"""The owner's disk: keys in areas, and slots with the signed texts.

docs/SPEC.md, 4.3 The desk and 4.4 Links and chain files. An image is the content of `owner.desk`; each call gives the
image that is left where nothing fails. Of crashes and of the order of device calls nothing is said here. Part of the
reference: tested, not proved; no owner signs with it.
"""
from collections.abc import Sequence
from dataclasses import dataclass
from functools import lru_cache

from .chains import Link, is_link_text, link_text
from .faults import Fault
from .layout import BLOCK, KIND, LENGTH, MOST_TEXT, NAME, SLOT, SPARE, TEXT
from .lms import HEIGHTS, Key, key_of
from .octets import u8, u32

MOST_AREAS = 8


def area_octets(kind: int) -> int:
    return int(BLOCK + SLOT * 2 ** HEIGHTS[kind])


@dataclass(frozen=True)
class Area:
    """An open area: its place, its key, and the text of each slot, None for a free slot."""

    at: int
    key: Key
    texts: tuple[bytes | None, ...]

    def end(self) -> int:
        return self.at + area_octets(self.key.kind)

    def is_linked(self) -> bool:
        """Whether its last slot has signed the next key."""
        return self.texts[-1] is not None and is_link_text(self.texts[-1])

    def free(self) -> list[int]:
        """The slots that may sign a header."""
        return [slot for slot, text in enumerate(self.texts[:-1]) if text is None]


@dataclass(frozen=True)
class Desk:
    """The open areas of an image; the last one is current."""

    areas: tuple[Area, ...]

    def current(self) -> Area:
        return self.areas[-1]

    def has_signed(self, text: bytes) -> bool:
        """Whether a spent slot has this text."""
        return any(text in area.texts for area in self.areas)

    def area_of(self, public: bytes) -> Area:
        """The area of a key."""
        for area in self.areas:
            if area.key.public == public:
                return area
        raise Fault("OtherKey")

    def links(self) -> tuple[Link, ...]:
        """The chain from the first key to the current one."""
        return tuple(
            Link(after.key.public, before.key.sign(before.key.slots - 1, link_text(after.key.public)))
            for before, after in zip(self.areas, self.areas[1:])
        )


def slot_text(image: bytes, at: int) -> bytes | None:
    """The text of the slot at a place; None if it is not spent."""
    length = min(image[at + LENGTH], MOST_TEXT)
    return image[at + TEXT : at + TEXT + length] if image[at] != 0 else None


def read_area(image: bytes, at: int) -> Area:
    """The area at a place."""
    kind = int.from_bytes(image[at + KIND : at + NAME], "big")
    if kind not in HEIGHTS or at + area_octets(kind) > len(image):
        raise Fault("BadBlock")
    key = key_of(kind, image[at + NAME : at + SPARE])
    texts = tuple(slot_text(image, at + BLOCK + SLOT * slot) for slot in range(key.slots))
    if any(text is not None and is_link_text(text) for text in texts[:-1]):
        raise Fault("BadBlock")
    return Area(at, key, texts)


@lru_cache(maxsize=256)
def open_desk(image: bytes) -> Desk:
    """The open areas. Raises the reason if the disk cannot be used."""
    if len(image) < BLOCK or image[0] == 0:
        raise Fault("NoKey")
    areas = [read_area(image, 0)]
    while areas[-1].is_linked():
        if len(areas) == MOST_AREAS:
            raise Fault("BadBlock")
        area = read_area(image, areas[-1].end())
        if area.key.name in [earlier.key.name for earlier in areas]:
            raise Fault("BadBlock")
        if areas[-1].texts[-1] != link_text(area.key.public):
            raise Fault("BadBlock")
        areas.append(area)
    return Desk(tuple(areas))


def written(image: bytes, at: int, octets: bytes) -> bytes:
    """An image after a write at a place up to its end."""
    return image[:at] + octets + image[at + len(octets) :]


def blank_area(kind: int, secret: bytes, gate: int) -> bytes:
    block = u8(gate) + u32(kind) + secret
    return block + bytes(area_octets(kind) - len(block))


def create(image: bytes, kind: int, secret: bytes) -> bytes:
    """The image with a key at a place without one."""
    if len(image) >= BLOCK and image[0] != 0:
        raise Fault("Held")
    return written(image, 0, blank_area(kind, secret, 1))


def spend(image: bytes, area: Area, slot: int, text: bytes) -> bytes:
    """The image in which a slot has a text."""
    return written(image, area.at + BLOCK + SLOT * slot, u8(1) + u8(len(text)) + text)


def sign(image: bytes, text: bytes) -> tuple[bytes, bytes]:
    """The image after the first free slot signed a text, and the signature."""
    area = open_desk(image).current()
    if not area.free():
        raise Fault("KeysUsedUp")
    slot = area.free()[0]
    return spend(image, area, slot, text), area.key.sign(slot, text)


def succeed(image: bytes, kind: int, secret: bytes) -> bytes:
    """The image with one more key, which the last slot of the current key has signed."""
    desk = open_desk(image)
    if len(desk.areas) == MOST_AREAS:
        raise Fault("TooManyKeys")
    last = desk.current()
    if last.texts[-1] is not None:
        raise Fault("NoSuccession")
    if secret[:16] in [area.key.name for area in desk.areas]:
        raise Fault("SameSecret")
    grown = written(image, last.end(), blank_area(kind, secret, 0))
    return spend(grown, last, last.key.slots - 1, link_text(key_of(kind, secret).public))


def spent_by(area: Area, signature: bytes) -> bytes | None:
    """The text that the slot named in a signature has signed."""
    slot = int.from_bytes(signature[:4], "big")
    return area.texts[slot] if len(signature) >= 4 and slot < len(area.texts) else None


def keys_of(desk: Desk) -> Sequence[bytes]:
    return [area.key.public for area in desk.areas]
