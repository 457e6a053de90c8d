"""Reads publications and their files. Nothing is verified here."""

import hashlib
import os
import stat
import struct
import time
import zlib

MOST_PUBLICATION = 4_194_303
MOST_CHAIN = 1 << 16
# the header in a publication; its fields, from there on; its length, at which the length of its signature follows; and the
# signature (docs/SPEC.md, 6.1 and 6.2)
IN_PUBLICATION = 4
METHOD, VERSION, HEADER, SIGNATURE = 4, 8, 104, 106
METHODS = {1: "dij", 2: "full", 3: "ldm", 4: "hyp"}
# a version from the first second of 2020 to the greatest number of 34 bits counts as the date of signing; counts are
# below
FIRST_DATE, LAST_DATE = 1_577_836_800, 2**34 - 1


class Refused(Exception):
    """A publication or a chain is refused."""


class Publication:
    """The octets of a publication, and the content of its header."""

    def __init__(self, octets: bytes) -> None:
        header, signature = IN_PUBLICATION, IN_PUBLICATION + SIGNATURE
        if len(octets) < signature or octets[:8] != b"RPP1RPF1":
            raise Refused("it is no publication")
        if len(octets) > MOST_PUBLICATION:
            raise Refused(f"it has {len(octets)} octets, but a frame holds at most {MOST_PUBLICATION}")
        (length,) = struct.unpack_from(">H", octets, header + HEADER)
        self.octets = octets
        self.method = METHODS.get(octets[header + METHOD], "?")
        self.version: int
        self.nodes: int
        self.version, self.nodes = struct.unpack_from(">QI", octets, header + VERSION)
        signed = octets[header : header + HEADER] + octets[signature : signature + length]
        self.id = hashlib.sha256(signed).hexdigest()[:16]
        self.tag = hashlib.sha256(octets).hexdigest()[:32]
        self.packed = pack(octets)

    def age(self) -> int | None:
        """Its age in seconds by this machine's clock, if its version is a date."""
        return int(time.time()) - self.version if FIRST_DATE <= self.version <= LAST_DATE else None


def pack(octets: bytes) -> bytes | None:
    """The octets in gzip, the same each time, if that saves at least a tenth of them.

    Digests and signatures do not compress, so a piece from the middle is tried first."""
    if len(octets) < 1_000:
        return None
    if len(octets) > 16_384:
        middle = len(octets) // 2
        piece = octets[middle - 1_024 : middle + 1_024]
        if 100 * len(gzip_of(piece)) > 97 * len(piece):
            return None
    packed = gzip_of(octets)
    return packed if 10 * len(packed) <= 9 * len(octets) else None


def gzip_of(octets: bytes) -> bytes:
    """The octets in gzip. It uses only runs and Huffman codes: without a search for repeats it takes half the time and
    a hundredth more octets."""
    packer = zlib.compressobj(1, zlib.DEFLATED, 31, 8, zlib.Z_RLE)
    return packer.compress(octets) + packer.flush()


Stamp = tuple[int, int, int] | None


def stamp_of(file: str) -> Stamp:
    """A stamp that changes when a file is replaced, or None if there is no file."""
    try:
        found = os.stat(file)
    except OSError:
        return None
    return found.st_mtime_ns, found.st_size, found.st_ino


def read_file(file: str, most: int) -> bytes:
    """The octets of a regular file. Anything else in its place is refused, without waiting for it."""
    held = os.open(file, os.O_RDONLY | os.O_NONBLOCK | os.O_CLOEXEC | os.O_NOCTTY)
    with open(held, "rb") as it:
        if not stat.S_ISREG(os.fstat(held).st_mode):
            raise Refused(f"{file} is not a regular file")
        octets = it.read(most + 1)
    if len(octets) > most:
        raise Refused(f"{file} has more than {most} octets")
    return octets


def in_memory(octets: bytes) -> int:
    """A file in memory, which is on no disk."""
    file = os.memfd_create("gateway")
    with open(os.dup(file), "wb") as it:
        it.write(octets)
    os.lseek(file, 0, os.SEEK_SET)
    return file
