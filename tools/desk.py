"""Reads the keys in the file `owner.desk` and the texts that they have signed (docs/SPEC.md, "The desk").

It writes nothing. No client trusts it, and no key depends on it: only the proved program signs.
"""
from dataclasses import dataclass

from offsets import BLOCK, HEADER, KIND, LENGTH, MOST_TEXT, NAME, SEED, SLOT, TEXT
from roads import Trouble
from signed import version_of

MOST_KEYS = 8
SLOTS = {5: 32, 6: 1024}
HEADER_MARK, LINK_MARK = b"RPF1", b"RPK1"


@dataclass(frozen=True)
class Area:
    """A key of a desk: its type and its identifier in the form of a public key, and the text of each spent slot."""

    name: bytes
    texts: tuple[bytes | None, ...]
    # the header in the first slot that is not spent, if that slot has one
    waiting: bytes | None

    def spent(self) -> int:
        """The number of used one-time keys among those that sign maps."""
        return sum(text is not None for text in self.texts[:-1])

    def left(self) -> int:
        return len(self.texts) - 1 - self.spent()

    def headers(self) -> list[bytes]:
        """The headers of the spent slots in the order of signing, and a header whose gate is not open yet."""
        return [
            text
            for text in (*self.texts, self.waiting)
            if text is not None and text.startswith(HEADER_MARK) and len(text) == HEADER
        ]

    def is_linked(self) -> bool:
        last = self.texts[-1]
        return last is not None and last.startswith(LINK_MARK)


@dataclass(frozen=True)
class Desk:
    """The keys of a desk; the last one signs."""

    areas: tuple[Area, ...]

    @property
    def current(self) -> Area:
        return self.areas[-1]

    def versions(self) -> list[int]:
        """The versions that the desk has signed, in the order of signing."""
        return [version_of(header) for area in self.areas for header in area.headers()]

    def is_new(self) -> bool:
        """Whether nothing has been signed yet."""
        return len(self.areas) == 1 and self.current.spent() == 0

    def has_signed(self, key: str, slot: int, header: bytes) -> bool:
        """Whether a spent slot of a key holds the header."""
        name = bytes.fromhex(key)[:4] + bytes.fromhex(key)[8:24]
        return any(area.name == name and slot < len(area.texts) and area.texts[slot] == header for area in self.areas)


def _text(slot: bytes) -> bytes:
    return slot[TEXT : TEXT + min(slot[LENGTH], MOST_TEXT)]


def _area(image: bytes, at: int, path: str) -> tuple[Area, int]:
    """Returns the area that begins at an offset, and the offset where it ends."""
    kind = int.from_bytes(image[at + KIND : at + NAME], "big")
    end = at + BLOCK + SLOT * SLOTS.get(kind, 0)
    if kind not in SLOTS or len(image) < end:
        raise Trouble(f"{path}: its key at offset {at} cannot be used")
    slots = [image[place : place + SLOT] for place in range(at + BLOCK, end, SLOT)]
    texts = tuple(_text(slot) if slot[0] else None for slot in slots)
    free = next((slot for slot in slots[:-1] if not slot[0]), None)
    return Area(image[at + KIND : at + SEED], texts, _text(free) if free else None), end


def read_desk(path: str) -> Desk:
    """The open areas of a desk."""
    with open(path, "rb") as file:
        image = file.read((BLOCK + SLOT * SLOTS[6]) * MOST_KEYS)
    if len(image) < BLOCK or image[0] == 0:
        raise Trouble(f"{path}: it holds no key. `road_proof key` makes one")
    area, end = _area(image, 0, path)
    areas = [area]
    while areas[-1].is_linked() and len(areas) < MOST_KEYS:
        area, end = _area(image, end, path)
        areas.append(area)
    return Desk(tuple(areas))
