#!/usr/bin/env python3
"""Runs each command over hostile files and limits its cost: checks/files/hostile.py PROGRAM [MEGABYTES]

The road files have MEGABYTES MB (64 if not given): one line, one number, empty lines, comments, words, too many nodes,
or NUL octets. There are files of the same kinds in the form of the DIMACS challenge, and as secrets, keys, chains,
signatures, publications, replies and frames. In other publications, replies, frames and graphs the counts exceed the
items, up to the greatest number of their width. Each run must end with the status that docs/SPEC.md and
docs/COMMANDS.md give, within one CPU second and 0.15 s more for each MB of its files. It may use at most 64 MB of
memory and four times the octets of its files. For each run the script prints CPU seconds, peak memory and the octets
that the run read. Memory below some 10 MB is that of the process that starts the runs. Ends with status 1 if anything
differs.

2026-11-28: 91 runs, none differs. The slowest took 1.2 s (`serve` over 64 MB of empty frames, status 13), the largest
257 MB (a road file of 268,435,457 octets, status 3). Files of 64 MB took at most 0.8 s and 129 MB, except for a graph
with too many arcs: 161 MB. All of it took a minute and a half.
"""
import json
import os
import struct
import subprocess
import sys
import tempfile
from collections.abc import Iterator, Sequence
from pathlib import Path

sys.path.insert(0, str(Path(__file__).resolve().parents[1]))

from common import layout  # noqa: E402
from common.desks import ZEROS  # noqa: E402
from common.maps import THREE  # noqa: E402
from common.served import framed, install  # noqa: E402

MB = 1 << 20
SECOND_OF_ALL, SECONDS_A_MB = 1.0, 0.15
MEMORY_OF_ALL, TIMES_THE_OCTETS = 64 * MB, 4
LAUNCH = """
import json, os, sys
for line in sys.stdin:
    words = json.loads(line)
    child = os.fork()
    if child == 0:
        for name, number, how in (("input", 0, os.O_RDONLY), ("output", 1, os.O_WRONLY | os.O_CREAT | os.O_TRUNC),
                                  ("told", 2, os.O_WRONLY | os.O_CREAT | os.O_TRUNC)):
            os.dup2(os.open(name, how, 0o600), number)
        os.execv(words[0], words)
    _, status, used = os.wait4(child, 0)
    print(os.waitstatus_to_exitcode(status), used.ru_utime + used.ru_stime, used.ru_maxrss * 1024, flush=True)
"""
ROADS = THREE.encode()


class Play:
    """Runs the program from a small process, because a child's peak memory begins with its parent's."""

    def __init__(self, program: str, folder: str) -> None:
        self.program, self.folder = os.path.abspath(program), folder
        self.wrong, self.slowest, self.largest = 0, (0.0, ""), (0.0, "")
        launcher = subprocess.Popen(
            [sys.executable, "-S", "-E", "-c", LAUNCH],
            cwd=folder,
            text=True,
            stdin=subprocess.PIPE,
            stdout=subprocess.PIPE,
        )
        assert launcher.stdin and launcher.stdout
        self.launcher, self.words, self.ends = launcher, launcher.stdin, launcher.stdout

    def write(self, name: str, octets: bytes) -> None:
        with open(os.path.join(self.folder, name), "wb") as file:
            file.write(octets)

    def run(self, words: Sequence[str], octets: bytes = b"") -> tuple[int, float, int]:
        """The status, the CPU seconds and the peak memory of a run."""
        self.write("input", octets)
        self.words.write(json.dumps([self.program, *words]) + "\n")
        self.words.flush()
        status, seconds, memory = self.ends.readline().split()
        return int(status), float(seconds), int(memory)

    def must(self, name: str, *words: str) -> bytes:
        status, _, _ = self.run(words)
        assert status == 0, words
        with open(os.path.join(self.folder, "output"), "rb") as file:
            octets = file.read()
        self.write(name, octets)
        return octets

    def play(self, what: str, line: str, status: int, octets: bytes = b"") -> None:
        """Runs a command line, and compares its status and cost with the limits."""
        words = line.split()
        size = len(octets) + sum(
            os.path.getsize(os.path.join(self.folder, word))
            for word in set(words)
            if os.path.exists(os.path.join(self.folder, word))
        )
        ended, seconds, memory = self.run(words, octets)
        may_take = SECOND_OF_ALL + SECONDS_A_MB * size / MB, MEMORY_OF_ALL + TIMES_THE_OCTETS * size
        good = ended == status and seconds <= may_take[0] and memory <= may_take[1]
        self.wrong += not good
        self.slowest = max(self.slowest, (seconds, what))
        self.largest = max(self.largest, (memory / MB, what))
        print(
            f"{'ok     ' if good else 'DIFFERS'} {what}: status {ended}, {seconds:.2f} s, {memory / MB:.0f} MB for {size / MB:.2f} MB",
            flush=True,
        )


def long_files(size: int) -> Iterator[tuple[str, bytes]]:
    """Each file with a description of its content, one at a time."""
    node = b"node 1234567 -1000000 1000000\n"
    yield "one word", b"a" * size
    yield "a title and one word", b"roads 1\n" + b"a" * size
    yield "one line of many words", b"roads 1\n" + b"a " * (size // 2)
    yield "one number of many digits", b"roads 1\nnode " + b"0" * size + b"1 0 0\n"
    yield "one number that is too great", b"roads 1\nnode " + b"9" * size + b" 0 0\n"
    yield "empty lines", b"\n" * size
    yield "a map behind empty lines", b"\n" * size + ROADS
    yield "blanks in a line", b"roads 1" + b" " * size + b"\n" + ROADS[8:]
    yield "a map behind a long comment", b"# " + b"c" * size + b"\n" + ROADS
    yield "comments", b"# c\n" * (size // 4)
    yield "NUL octets", bytes(size)
    yield "nodes with one id", b"roads 1\n" + node * (size // len(node))
    yield "roads between unknown nodes", b"roads 1\nnode 1 0 0\n" + b"road 1 2 3\n" * (size // 11)


# the end of `route long 1 3` over the files that hold a map; the others are not road files, or not valid maps
ENDS = {
    "one number of many digits": 11,
    "a map behind empty lines": 0,
    "blanks in a line": 0,
    "a map behind a long comment": 0,
}


def long_lines(play: Play, size: int) -> None:
    """Long files in the places of each command's files."""
    for what, octets in long_files(size):
        play.write("long", octets)
        play.play(f"route over {what}", "route long 1 3", ENDS.get(what, 3))
        if what in ("one word", "empty lines", "NUL octets"):
            play.play(f"publish of {what}", "publish long dij 1 id 0 2 0 0 0", 3)
            play.play(f"dimacs of {what}", "dimacs long long", 3)
            play.play(f"key from {what}", "key long h5", 3)
            play.play(f"prove over {what}", "prove long 1 3", 3)
            play.play(f"check of {what}", "check owner.key long 1 3 0", 1)
            play.play(f"check-reach of {what}", "check-reach owner.key long 1 3 0", 1)
            play.play(f"check under {what}", "check long a.reply 1 3 0", 3)
            play.play(f"check along {what}", "check owner.key a.reply 1 3 0 long", 3)
            play.play(f"audit of {what}", "audit owner.key a.pub long 1 3", 1)
            play.play(f"audit-reach of {what}", "audit-reach owner.key a.pub long 1 3", 1)
            play.play(f"reduce of {what}", "reduce owner.key long long", 1 if what == "one word" else 3)
            empty = 13 if size > 4_000_000 else 0
            play.play(f"serve of frames of {what}", "serve a.pub", empty if what == "NUL octets" else 3, octets)
    challenge = b"p sp 65536 524288\n" + b"a 1 2 3\n" * (size // 8)
    play.write("long", challenge)
    play.play("dimacs of arcs that are too many", "dimacs long small.co", 3)


def patched(octets: bytes, place: int, count: int) -> bytes:
    return octets[:place] + struct.pack(">I", count) + octets[place + 4 :]


def lying_counts(play: Play, publication: bytes, reply: bytes, near: bytes) -> None:
    """Files whose counts exceed their items."""
    behind = layout.behind(publication, layout.IN_PUBLICATION) + layout.SETTINGS
    route = layout.behind(reply, layout.IN_ANSWER)
    (ids,) = struct.unpack_from(">I", reply, route)
    items = layout.behind(near, layout.IN_RANGE_REPLY)
    for count in (65_536, 262_144, 2**31, 2**32 - 1):
        play.write("lie", patched(publication, behind, count))
        play.play(f"a publication that says {count} nodes", "prove lie 1 3", 3)
        play.write("lie", patched(publication, behind + 4 + 36, count))
        play.play(f"a publication that says {count} roads", "prove lie 1 3", 3)
        play.play(f"serve over a publication that says {count} roads", "serve lie", 3)
        for place, name in ((route, "ids"), (route + 4 + 4 * ids, "items")):
            play.write("lie", patched(reply, place, count))
            play.play(f"a reply that says {count} {name}", "check owner.key lie 1 3 0", 1)
        play.write("lie", reply[:-4] + struct.pack(">I", count))
        play.play(f"a reply that says {count} digests", "check owner.key lie 1 3 0", 1)
        play.write("lie", patched(near, items, count))
        play.play(f"a reply on a radius that says {count} items", "check-reach owner.key lie 1 4 0", 1)
        play.play(f"a frame that says {count} octets", "serve a.pub", 3, struct.pack(">I", count) + b"\4" * 100)
        play.write("lying.gr", b"p sp 65536 %d\na 1 2 3\n" % count)
        play.play(f"a graph that says {count} arcs", "dimacs lying.gr small.co", 3)
    play.play(
        "60 installs that say 65536 nodes", "serve a.pub", 0, framed(install(patched(publication, behind, 65_536))) * 60
    )


def at_the_limits(play: Play) -> None:
    """Files with the largest allowed map, and files that are one octet too long."""
    nodes = b"".join(b"node %d %d %d\n" % (k, k % 256, k // 256) for k in range(65_536))
    roads = b"".join(b"road %d %d 1\n" % (k % 65_536, (k + 1 + k // 65_536) % 65_536) for k in range(262_144))
    play.write("long", b"roads 1\n" + nodes + roads)
    play.play("route over 65,536 nodes and 262,144 roads", "route long 0 32768", 0)
    play.play("publish of 65,536 nodes and 262,144 roads", "publish long dij 1 hilbert 0 2 0 0 0", 0)
    star = b"".join(b"road 0 %d 1\n" % k for k in range(1, 65_536))
    play.write("long", b"roads 1\n" + nodes + star)
    play.play("route over a node with 65,535 roads", "route long 0 1", 3)
    with open(os.path.join(play.folder, "long"), "wb") as file:
        file.truncate(268_435_457)
    play.play("route over 268,435,457 octets", "route long 0 1", 3)


def main() -> None:
    size = (int(sys.argv[2]) if len(sys.argv) > 2 else 64) * MB
    with tempfile.TemporaryDirectory() as folder:
        play = Play(sys.argv[1], folder)
        play.write("a.roads", ROADS)
        play.write("secret", ZEROS.encode())
        play.must("owner.key", "key", "secret", "h5")
        publication = play.must("a.pub", *"publish a.roads dij 1 id 0 2 0 0 0".split())
        reply, near = play.must("a.reply", "prove", "a.pub", "1", "3"), play.must(
            "near.reply", "reach", "a.pub", "1", "4"
        )
        play.write("small.co", b"p aux sp co 1\nv 1 0 0\n")
        lying_counts(play, publication, reply, near)
        long_lines(play, size)
        at_the_limits(play)
        print(
            f"the slowest: {play.slowest[0]:.2f} s, {play.slowest[1]}; the largest: {play.largest[0]:.0f} MB, {play.largest[1]}"
        )
        sys.exit(1 if play.wrong else 0)


if __name__ == "__main__":
    main()
