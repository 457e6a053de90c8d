"""The log of released publications, which shows that a desk has gone back: used by `release` and `publish`.

Each line is `KEY SLOT VERSION HEADER`: the 112 hex digits of the public key that signed, two numbers, and the SHA-256
of the 104 signed octets. The log only grows: each line is added with one write and one sync. Whoever uses the log holds
its lock. A log with any other line, or without its last line end, is refused. No client trusts this file.
"""
import fcntl
import os
import re
import stat
from typing import NamedTuple

from replies import map_of
from roads import Trouble
from signed import Signed

LINE = re.compile(rb"([0-9a-f]{112}) (0|[1-9][0-9]{0,3}) (0|[1-9][0-9]{0,19}) ([0-9a-f]{64})")
MOST_SLOT, MOST_VERSION = 1023, 2**64 - 1


class Out(NamedTuple):
    """A released publication: the key that signed it, its one-time key, its version, and its header's digest."""

    key: str
    slot: int
    version: int
    digest: str

    def line(self) -> bytes:
        return f"{self.key} {self.slot} {self.version} {self.digest}\n".encode("ascii")


def out_of(signed: Signed, key: str) -> Out:
    return Out(key, signed.slot, signed.version, signed.digest)


class Back(Exception):
    """Why a publication shows that its desk has gone back: its slot has signed another header, or a later slot was
    released."""

    def __init__(self, why: str, is_broken: bool):
        super().__init__(why)
        self.is_broken = is_broken


def lines_of(octets: bytes, path: str) -> list[Out]:
    """The lines of a log."""
    if octets and not octets.endswith(b"\n"):
        begins = octets.rfind(b"\n") + 1
        number = octets.count(b"\n") + 1
        raise Trouble(
            f"{path}: line {number} has no line end. A run was stopped while it wrote this line, or something else has written the line. "
            f"If the line is the beginning of the one that the run had to write, remove it with `truncate -s {begins} {path}`"
        )
    found = []
    for number, line in enumerate(octets.split(b"\n")[:-1], 1):
        parts = LINE.fullmatch(line)
        if parts is None or int(parts[2]) > MOST_SLOT or int(parts[3]) > MOST_VERSION:
            raise Trouble(
                f"{path}: line {number} is not of the form KEY SLOT VERSION HEADER, so nobody can tell what was released"
            )
        found.append(Out(parts[1].decode(), int(parts[2]), int(parts[3]), parts[4].decode()))
    return found


class Log:
    """An open and locked log."""

    def __init__(self, path: str, may_begin: bool):
        """Opens a log. Creates a missing log if `may_begin` says that nothing can have been released before."""
        self.path = path
        self.begins = not os.path.lexists(path)
        if self.begins and not may_begin:
            raise Trouble(
                f"{path}: there is no such log, but the owner has signed before. Is its disk there? "
                f"If nothing was ever released through it, `touch {path}` begins it"
            )
        self.handle = os.open(path, os.O_RDWR | os.O_APPEND | os.O_CREAT, 0o644)
        if not stat.S_ISREG(os.fstat(self.handle).st_mode):
            raise Trouble(f"{path}: it is not a regular file")
        try:
            fcntl.flock(self.handle, fcntl.LOCK_EX | fcntl.LOCK_NB)
        except BlockingIOError:
            raise Trouble(f"{path}: another run is using it, or a stopped one has not ended yet. Try again") from None
        if self.begins:
            synced_folder(path)
        self.lines = lines_of(self._octets(), path)

    def _octets(self) -> bytes:
        octets = b""
        while piece := os.pread(self.handle, 1 << 20, len(octets)):
            octets += piece
        return octets

    def has(self, out: Out) -> bool:
        return out in self.lines

    def judge(self, out: Out, keys: list[str]) -> None:
        """Raises `Back` for a header that a desk with these keys, in this order, cannot have signed after the released
        ones."""
        if self.has(out):
            return
        place = keys.index(out.key)
        for known in self.lines:
            if known.key not in keys:
                continue
            if (known.key, known.slot) == (out.key, out.slot):
                raise Back(
                    f"one-time key {out.slot} has already signed another header, of version {known.version}: "
                    "the desk has gone back, and the key is broken if both are released",
                    True,
                )
        for known in self.lines:
            if known.key in keys and (keys.index(known.key), known.slot) > (place, out.slot):
                later = f"{known.slot}" if known.key == out.key else f"{known.slot} of a later key"
                raise Back(
                    f"one-time key {out.slot} is earlier than {later}, which was already released: the desk has gone back",
                    False,
                )

    def greatest(self, keys: list[str]) -> int | None:
        """The greatest version released under these keys."""
        return max((known.version for known in self.lines if known.key in keys), default=None)

    def append(self, out: Out) -> None:
        """Adds a line if the log does not have it yet, and syncs."""
        if not self.has(out):
            line, size = out.line(), os.fstat(self.handle).st_size
            if os.write(self.handle, line) != len(line):
                os.ftruncate(self.handle, size)
                raise Trouble(f"{self.path}: there is no room for its line, so nothing was released")
            self.lines.append(out)
        os.fsync(self.handle)


def synced_folder(path: str) -> None:
    """Syncs the names in the folder of a file."""
    folder = os.open(os.path.dirname(os.path.abspath(path)), os.O_RDONLY)
    try:
        os.fsync(folder)
    finally:
        os.close(folder)


def octets_to_release(path: str) -> bytes:
    """Syncs a regular file with one name, and returns its octets. It is the file to release or to destroy."""
    handle = os.open(path, os.O_RDWR | os.O_NOFOLLOW)
    with os.fdopen(handle, "rb") as file:
        looked = os.fstat(handle)
        if not stat.S_ISREG(looked.st_mode) or looked.st_nlink != 1:
            raise Trouble(f"{path}: it is not a regular file with one name")
        os.fsync(handle)
        return file.read()


def is_whole(octets: bytes) -> bool:
    """Whether octets are a complete publication."""
    try:
        map_of(octets, "publication")
    except Trouble:
        return False
    return True


def let_out(new: str, name: str) -> None:
    """Gives a publication its name atomically, and syncs the folder."""
    os.replace(new, name)
    synced_folder(name)


def destroy(path: str) -> None:
    """Overwrites a file and removes its name."""
    with open(path, "r+b") as file:
        file.write(bytes(os.path.getsize(path)))
        file.flush()
        os.fsync(file.fileno())
    os.remove(path)
    synced_folder(path)
