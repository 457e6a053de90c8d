#!/usr/bin/env python3
"""Plays lives of a desk with crashes: checks/owner/lives.py PROGRAM [--lives N] [--seed N]

A life is forty commands of an owner under strace: `publish`, `desk`, `links` and sometimes `succeed`. Many are killed
after a random call, or have a random call fail. After a kill the file `owner.desk` gets a content that the stated crash
model allows: each range that was written since the last successful sync may have any octets, and the length may be any
between. Then the script tests all publications whose signature was written: no one-time key has signed two headers, and
each header is in its slot of the desk. Nobody trusts this script.
"""
import argparse
import os
import pathlib
import random
import re
import shutil
import subprocess
import sys
import tempfile
from collections import Counter

sys.path.insert(0, str(pathlib.Path(__file__).resolve().parents[1]))

from common.desks import AREA, HEADER, SIGNED, SLOTS, key_number, slot_at  # noqa: E402
from common.layout import LENGTH, TEXT  # noqa: E402
from common.maps import THREE  # noqa: E402

COMMANDS = 40
CALLS = ["openat", "lseek", "read", "write", "fsync"]
LINE = re.compile(r"^\d+ +(\w+)\((\d+)<([^>]*)>(?:, (.*))?\) += (-?\d+)")


class Disk:
    """The stable content of the file, and the writes since."""

    def __init__(self, folder: pathlib.Path) -> None:
        self.path = folder / "owner.desk"
        self.stable, self.now = b"", b""
        self.places: dict[str, int] = {}
        self.written: list[tuple[int, int]] = []

    def begin(self) -> None:
        self.now = self.stable = self.path.read_bytes() if self.path.exists() else b""
        self.places, self.written = {}, []

    def follow(self, trace: str) -> None:
        """Follows the calls of a trace: seeks, writes and syncs of the desk."""
        for line in trace.splitlines():
            found = LINE.match(line)
            if not found or not found[3].endswith("/owner.desk"):
                continue
            call, fd, rest, result = found[1], found[2], found[4] or "", int(found[5])
            if call == "lseek" and result >= 0:
                self.places[fd] = result
            elif call == "read" and result > 0:
                self.places[fd] = self.places.get(fd, 0) + result
            elif call == "write":
                self.write(fd, rest, result)
            elif call == "fsync" and result == 0:
                self.stable, self.written = self.now, []

    def write(self, fd: str, rest: str, result: int) -> None:
        octets = bytes(int(pair, 16) for pair in re.findall(r"\\x([0-9a-f]{2})", rest))
        at = self.places.get(fd, 0)
        count = max(result, 0)
        self.written.append((at, len(octets)))
        self.now = self.now[:at].ljust(at, b"\0") + octets[:count] + self.now[at + count :]
        self.places[fd] = at + count

    def crash(self, rng: random.Random) -> None:
        """Gives the file a content that a crash may leave."""
        end = max([len(self.stable), *(at + count for at, count in self.written)])
        image = bytearray(self.stable.ljust(end, b"\0"))
        for at, count in self.written:
            how = rng.randrange(4)
            for place in range(at, at + count):
                if how == 1 and place < len(self.now):
                    image[place] = self.now[place]
                elif how == 2:
                    image[place] = rng.randrange(256)
                elif how == 3 and rng.random() < 0.5 and place < len(self.now):
                    image[place] = self.now[place]
        length = rng.randint(len(self.stable), end)
        self.path.write_bytes(bytes(image[:length]))


class Life:
    """One desk, and the publications that left it."""

    def __init__(self, program: str, folder: pathlib.Path, rng: random.Random) -> None:
        self.program, self.folder, self.rng = program, folder, rng
        self.disk, self.version, self.counts = Disk(folder), 0, Counter[str]()
        self.released: dict[tuple[int, int], bytes] = {}
        (folder / "map.roads").write_text(THREE, encoding="ascii")

    def run(self, words: list[str]) -> subprocess.CompletedProcess[bytes]:
        """Runs a command: to its end, or with a kill or a failure at a random call."""
        self.disk.begin()
        how = self.rng.choice(["whole", "killed", "killed", "failed"])
        call, number = self.rng.choice(CALLS[2:] if how != "whole" else CALLS), self.rng.randint(1, 12)
        inject = (
            []
            if how == "whole"
            else ["-e", f"inject={call}:{'signal=KILL' if how == 'killed' else 'error=EIO'}:when={number}"]
        )
        trace = self.folder / "trace"
        strace = [
            "strace",
            "-f",
            "-y",
            "-xx",
            "-s",
            "300000",
            "-e",
            f"trace={','.join(CALLS)}",
            *inject,
            "-o",
            str(trace),
        ]
        done = subprocess.run([*strace, self.program, *words], cwd=self.folder, capture_output=True, check=False)
        self.disk.follow(unhexed(trace.read_text(encoding="ascii", errors="replace")))
        self.counts[how] += 1
        if how == "killed" and done.returncode not in range(0, 16):
            self.counts["crashes"] += 1
            self.disk.crash(self.rng)
        return done

    def publish(self) -> None:
        self.version += 1
        words = f"publish map.roads dij {self.version} id 0 2 0 0 0"
        done = self.run(words.split())
        if len(done.stdout) >= SIGNED:
            self.take(done.stdout)

    def take(self, publication: bytes) -> None:
        """Takes a publication: its one-time key has signed nothing else, and its header is in the slot."""
        header, slot = publication[HEADER], key_number(publication)
        known = self.released.setdefault((self.keys(), slot), header)
        if known != header:
            raise SystemExit(f"one-time key {slot} has signed two headers: {known.hex()} and {header.hex()}")
        self.counts["let out"] += 1

    def keys(self) -> int:
        """The number of keys that the desk has."""
        image, base = self.disk.path.read_bytes(), 0
        number = 1
        while len(image) >= base + AREA:
            last = base + slot_at(SLOTS - 1)
            if not image[last] or image[last + TEXT : last + TEXT + 4] != b"RPK1":
                break
            base += AREA
            number += 1
        return number

    def look(self) -> None:
        """Tests that each published header is in its slot."""
        image = self.disk.path.read_bytes()
        for (number, slot), header in self.released.items():
            at = slot_at(slot, number - 1)
            if not image[at] or image[at + TEXT : at + TEXT + image[at + LENGTH]] != header:
                raise SystemExit(f"the header of one-time key {slot} of key {number} does not stand in its slot")

    def live(self) -> Counter[str]:
        (self.folder / "secret").write_text(self.rng.randbytes(48).hex(), encoding="ascii")
        while subprocess.run(
            [self.program, "key", "secret", "h5"], cwd=self.folder, capture_output=True, check=False
        ).returncode not in (0, 12):
            pass
        for _ in range(COMMANDS):
            turn = self.rng.random()
            if turn < 0.8:
                self.publish()
            elif turn < 0.85:
                (self.folder / "next").write_text(self.rng.randbytes(48).hex(), encoding="ascii")
                self.run(["succeed", "next", "h5"])
            else:
                self.run([self.rng.choice(["desk", "links"])])
            self.look()
        return self.counts


def unhexed(trace: str) -> str:
    """A trace with plain paths, also if strace wrote them in hex."""

    def plain(found: re.Match[str]) -> str:
        return "<" + bytes.fromhex(found[1].replace("\\x", "")).decode("utf-8", "replace") + ">"

    return re.sub(r"<((?:\\x[0-9a-f]{2})+)>", plain, trace)


def main() -> None:
    parser = argparse.ArgumentParser(description=__doc__.split("\n", maxsplit=1)[0])
    parser.add_argument("program")
    parser.add_argument("--lives", type=int, default=1000)
    parser.add_argument("--seed", type=int, default=1)
    given = parser.parse_args()
    if shutil.which("strace") is None:
        print("skipped: checks/owner/lives.py, since this machine has no strace")
        return
    os.umask(0o077)
    counts = Counter[str]()
    for number in range(given.lives):
        with tempfile.TemporaryDirectory() as folder:
            life = Life(os.path.abspath(given.program), pathlib.Path(folder), random.Random(f"{given.seed} {number}"))
            counts += life.live()
    print(f"{given.lives} lives: " + ", ".join(f"{name} {count}" for name, count in sorted(counts.items())))


if __name__ == "__main__":
    main()
