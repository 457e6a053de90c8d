"""Numbers and pieces taken from the front of octets, field by field.

docs/SPEC.md, 1.1 Notation: a reader returns the offset of the first field that cannot be read. Part of the reference:
tested, not proved, and trusted by no client.
"""


class Malformed(Exception):
    """A field cannot be read: too few octets are left for it, its value is out of range, or octets follow the last field."""

    def __init__(self, at: int):
        super().__init__(at)
        self.at = at


class Reader:
    """Octets, and the place of the next field. `begins` lists the places of all fields read so far."""

    def __init__(self, octets: bytes):
        self.octets = octets
        self.at = 0
        self.begins: list[int] = []

    def take(self, count: int, wanted: bytes | None = None) -> bytes:
        """A field of this many octets; with `wanted`, only these octets are in range."""
        self.begins.append(self.at)
        if len(self.octets) - self.at < count:
            raise Malformed(self.at)
        piece = self.octets[self.at : self.at + count]
        if wanted is not None and piece != wanted:
            raise Malformed(self.at)
        self.at += count
        return piece

    def number(self, width: int, values: range | None = None) -> int:
        """A number of this many octets, which must be one of `values`."""
        begin = self.at
        value = int.from_bytes(self.take(width), "big")
        if values is not None and value not in values:
            raise Malformed(begin)
        return value

    def signed(self, width: int) -> int:
        """A number in two's complement."""
        return int.from_bytes(self.take(width), "big", signed=True)

    def end(self) -> None:
        """Tests that no octets follow."""
        if self.at != len(self.octets):
            raise Malformed(self.at)


def u8(value: int) -> bytes:
    return value.to_bytes(1, "big")


def u16(value: int) -> bytes:
    return value.to_bytes(2, "big")


def u32(value: int) -> bytes:
    return value.to_bytes(4, "big")


def u64(value: int) -> bytes:
    return value.to_bytes(8, "big")


def i32(value: int) -> bytes:
    return value.to_bytes(4, "big", signed=True)
