"""Runs `serve` behind two pipes, with the frames of docs/SPEC.md."""
import struct
import subprocess
from collections.abc import Sequence
from pathlib import Path
from typing import IO


def framed(*bodies: bytes) -> bytes:
    """Bodies as frames, one after the other."""
    return b"".join(struct.pack(">I", len(body)) + body for body in bodies)


def begin(session: int) -> bytes:
    return bytes([1, session])


def ask(session: int, start: int, end: int) -> bytes:
    return struct.pack(">BBII", 2, session, start, end)


def near(session: int, start: int, radius: int) -> bytes:
    return struct.pack(">BBIQ", 5, session, start, radius)


def finish(session: int) -> bytes:
    return bytes([3, session])


def install(publication: bytes) -> bytes:
    return b"\4" + publication


class Served:
    """A `serve` over a publication, with further words of its command, and under another program if one is given."""

    def __init__(self, program: str | Path, publication: str | Path, *more: str, under: Sequence[str] = ()) -> None:
        self.child = subprocess.Popen(
            [*under, str(program), "serve", str(publication), *more], stdin=subprocess.PIPE, stdout=subprocess.PIPE
        )

    @property
    def words(self) -> IO[bytes]:
        assert self.child.stdin
        return self.child.stdin

    @property
    def answers(self) -> IO[bytes]:
        assert self.child.stdout
        return self.child.stdout

    def send(self, *bodies: bytes) -> None:
        for body in bodies:
            self.words.write(framed(body))
        self.words.flush()

    def reply(self) -> bytes:
        """The next reply. Raises `struct.error` if the server has ended."""
        (size,) = struct.unpack(">I", self.answers.read(4))
        return self.answers.read(size)

    def told(self, body: bytes) -> bytes:
        """The reply to a body."""
        self.send(body)
        return self.reply()

    def seconds(self) -> float:
        """The processor time that it has used so far."""
        with open(f"/proc/{self.child.pid}/schedstat", encoding="ascii") as file:
            return int(file.read().split()[0]) / 1e9

    def close(self) -> None:
        self.words.close()
        self.child.wait()
        self.answers.close()
