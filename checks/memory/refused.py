#!/usr/bin/env python3
"""Makes each allocation of each command fail, one in each run: checks/memory/refused.py PROGRAM [FIRST] [MORE] [WORD]

Each command runs once, which counts its allocations. Then it runs once for each of the first FIRST allocations (1,000
if not given, which are all of them), and for MORE others (60) in even steps up to the last. In each run that allocation
fails: refuse.c, loaded before the C library, refuses it. The run must end as the first one did, or with status 9 and a
prefix of the same output. With status 9 `owner.desk` must be unchanged, so that no one-time key was spent, and each
mirror must be unchanged. With WORD only the commands that begin with it run.

For each command the script prints the number of allocations, of failed ones, of runs that ended with status 9, and of
runs that ended as the first. Ends with status 1 if anything differs.

2026-11-28: 31 commands, 4,623 allocations, all of them failed once: 4,512 runs ended with status 9, 111 as the first,
none differs. That took a quarter of an hour on a busy machine. `survey`, `reach`, `check-reach` and `audit-reach` ran
in a program with the same commands and without the messages on standard error: 682 allocations, none differs.
2026-11-29: `prove` and `check` without a route, under each method: 1,268 allocations, all of them failed once: 1,243
runs ended with status 9, 25 as the first, none differs.
"""
import os
import subprocess
import sys
import tempfile
from pathlib import Path

sys.path.insert(0, str(Path(__file__).resolve().parents[1]))

from common.desks import HEADER, SIGNED, SIGNED_AT, ZEROS  # noqa: E402
from common.served import ask, begin, finish, framed, install  # noqa: E402

HERE = os.path.dirname(os.path.abspath(__file__))
METHODS = {"dij": "0 0 0", "full": "0 0 0", "ldm": "3 4 1", "hyp": "2 2 0"}
KEPT = ("owner.desk", "mirror-1", "mirror-2")


def road_file(width: int = 4) -> bytes:
    """A grid with roads of changing lengths, and one node without roads."""
    lines = ["roads 1"]
    for id in range(width * width):
        lines.append(f"node {id + 1} {id % width} {id // width}")
    for id in range(width * width):
        for there, is_there in ((id + 1, id % width < width - 1), (id + width, id + width < width * width)):
            if is_there:
                lines.append(f"road {id + 1} {there + 1} {1 + id * 7 % 5}")
    return "\n".join(lines + ["node 99 50 50", ""]).encode()


class Folder:
    """A folder with the program's files, in which it runs with refuse.c loaded."""

    def __init__(self, program: str, path: str) -> None:
        self.program, self.path = os.path.abspath(program), path
        self.shim = os.path.join(path, "refuse.so")
        source = os.path.join(HERE, "refuse.c")
        subprocess.run(["cc", "-O2", "-Wall", "-Werror", "-fPIC", "-shared", "-o", self.shim, source], check=True)

    def name(self, name: str) -> str:
        return os.path.join(self.path, name)

    def read(self, name: str) -> bytes | None:
        try:
            with open(self.name(name), "rb") as file:
                return file.read()
        except FileNotFoundError:
            return None

    def octets(self, name: str) -> bytes:
        """The octets of a file, if it exists."""
        return Path(self.path, name).read_bytes()

    def write(self, name: str, octets: bytes | None) -> None:
        if octets is None:
            if os.path.exists(self.name(name)):
                os.remove(self.name(name))
            return
        with open(self.name(name), "wb") as file:
            file.write(octets)

    def run(self, line: str, refused: int = 0, octets: bytes = b"") -> tuple[int, bytes, int]:
        """The status, the output and the number of allocations of a command line. With status 9 it must say "Out of memory."."""
        more = {"LD_PRELOAD": self.shim, "REFUSE": str(refused), "COUNTED": self.name("counted")}
        ended = subprocess.run(
            [self.program, *line.split()],
            cwd=self.path,
            env={**os.environ, **more},
            input=octets,
            capture_output=True,
            check=False,
            timeout=60,
        )
        if ended.returncode == 9 and not ended.stderr.endswith(b"Out of memory.\n"):
            sys.exit(f"{line}: status 9 says {ended.stderr!r}")
        return ended.returncode, ended.stdout, int(self.read("counted") or 0)

    def must(self, line: str, name: str | None = None, status: int = 0) -> None:
        ended, octets, _ = self.run(line)
        if ended != status:
            sys.exit(f"{line}: status {ended}")
        if name:
            self.write(name, octets)


def prepared(folder: Folder) -> None:
    """The files of an owner, with publications of each method and replies to them."""
    folder.write("map.roads", road_file())
    folder.write("secret", ZEROS.encode())
    folder.write("other", b"1" * 96)
    folder.write("small.gr", b"p sp 3 4\na 1 2 4\na 2 1 4\na 2 3 5\na 3 2 5\n")
    folder.write("small.co", b"p aux sp co 3\nv 1 0 0\nv 2 10 0\nv 3 20 -5\n")
    folder.must("key secret h5", "owner.key")
    for version, (method, numbers) in enumerate(METHODS.items(), 1):
        folder.must(f"publish map.roads {method} {version} hilbert 0 3 {numbers}", f"{method}.pub")
        folder.must(f"prove {method}.pub 1 16", f"{method}.reply")
        folder.must(f"prove {method}.pub 1 99", f"{method}.none")
    folder.must("reach dij.pub 6 4", "near.reply")
    folder.write("cut.reply", folder.octets("dij.reply")[:-1])
    publication = folder.octets("dij.pub")
    folder.write("header.hex", publication[HEADER].hex().encode())
    folder.write("signature.hex", publication[SIGNED_AT:SIGNED].hex().encode())


def commands(folder: Folder) -> list[tuple[str, bytes, bool]]:
    """The command lines with their standard input, and whether the desk is empty before."""
    rows = [
        ("route map.roads 1 16", b"", False),
        ("route map.roads 1 99", b"", False),
        ("root map.roads 3", b"", False),
        ("dimacs small.gr small.co", b"", False),
        ("key secret h5", b"", True),
        ("key secret h5", b"", False),
        ("desk", b"", False),
        ("links", b"", False),
        ("succeed other h5", b"", False),
    ]
    for method, numbers in METHODS.items():
        rows += [
            (f"publish map.roads {method} 9 kd 0 2 {numbers}", b"", False),
            (f"prove {method}.pub 1 16", b"", False),
            (f"check owner.key {method}.reply 1 16 1", b"", False),
            (f"audit owner.key {method}.pub {method}.reply 1 16", b"", False),
            (f"prove {method}.pub 1 99", b"", False),
            (f"check owner.key {method}.none 1 99 1", b"", False),
        ]
    asks = framed(
        begin(0),
        ask(0, 1, 16),
        install(folder.octets("hyp.pub")),
        begin(1),
        ask(1, 16, 1),
        ask(0, 2, 15),
        finish(0),
        b"\5",
    )
    return rows + [
        ("prove dij.pub 1 98", b"", False),
        ("check owner.key cut.reply 1 16 1", b"", False),
        ("audit owner.key ldm.pub dij.reply 1 16", b"", False),
        ("serve ldm.pub", asks, False),
        ("reduce owner.key header.hex signature.hex", b"", False),
        ("survey 2 0 hyp 2", b"", False),
        ("reach dij.pub 6 4", b"", False),
        ("check-reach owner.key near.reply 6 4 1", b"", False),
        ("audit-reach owner.key dij.pub near.reply 6 4", b"", False),
    ]


def numbers_of(count: int, first: int, more: int) -> list[int]:
    """The first numbers, and this many others in even steps, including the last."""
    rest = range(first + 1, count + 1)
    strides = {rest[at * (len(rest) - 1) // max(more - 1, 1)] for at in range(more)} if rest else set()
    return sorted(set(range(1, min(first, count) + 1)) | strides)


def play(folder: Folder, line: str, octets: bytes, first: int, more: int) -> int:
    """Runs a command once for each of these allocations, and counts the results. Returns the number of differences."""
    entry = {name: folder.read(name) for name in KEPT}
    status, output, count = folder.run(line, 0, octets)
    numbers, same, nine, wrong = numbers_of(count, first, more), 0, 0, 0
    for number in numbers:
        for name in KEPT:
            folder.write(name, entry[name])
        ended, written, _ = folder.run(line, number, octets)
        if (ended, written) == (status, output):
            same += 1
        elif ended == 9 and output.startswith(written) and all(folder.read(name) == entry[name] for name in KEPT):
            nine += 1
        else:
            wrong += 1
            print(f"DIFFERS {line}, allocation {number}: status {ended}, {len(written)} octets", flush=True)
    for name in KEPT:
        folder.write(name, entry[name])
    print(
        f"{line}: status {status}, {count} allocations, {len(numbers)} refused: {nine} with 9, {same} as before",
        flush=True,
    )
    return wrong


def main() -> None:
    program, first = sys.argv[1], int(sys.argv[2]) if len(sys.argv) > 2 else 1000
    more, word = int(sys.argv[3]) if len(sys.argv) > 3 else 60, sys.argv[4] if len(sys.argv) > 4 else ""
    wrong = 0
    os.umask(0o077)
    with tempfile.TemporaryDirectory() as path:
        folder = Folder(program, path)
        prepared(folder)
        desk = folder.read("owner.desk")
        for line, octets, is_empty in commands(folder):
            if line.split()[0].startswith(word):
                folder.write("owner.desk", None if is_empty else desk)
                wrong += play(folder, line, octets, first, more)
        folder.write("owner.desk", desk)
        for name in ("mirror-1", "mirror-2"):
            folder.write(name, b"before")
        if "publish".startswith(word):
            wrong += play(folder, "publish map.roads dij 9 id 0 2 0 0 0", b"", first, more)
    sys.exit(1 if wrong else 0)


if __name__ == "__main__":
    main()
