#!/usr/bin/env python3
"""Compares the times of an owner's commands with an earlier program, by hand: checks/owner/times.py PROGRAM BEFORE
[--pairs N]

Both programs run `key h5`, `key h10`, and `publish` over the grid of 64 by 64 nodes with an h10 key, in turn. The
median of the ratios of N pairs must be at most 1.1. Then PROGRAM runs `check` on a reply over the grid of 256 by 256
nodes, as it is and with one octet of its last digest changed. The refused one may take at most 1.1 times the accepted
one. Ends with status 1 if a ratio is too high. Run it on a quiet machine. Nobody trusts this script.
"""
import argparse
import os
import pathlib
import sys
import tempfile
import time

sys.path.insert(0, str(pathlib.Path(__file__).resolve().parents[1]))

from common.maps import made  # noqa: E402
from common.runs import Seconds, median_ratio, written  # noqa: E402

MOST = 1.1


def timed(program: str, words: str, status: int = 0) -> tuple[float, bytes]:
    begun = time.monotonic()
    told = written([program, *words.split()], status=status)
    return time.monotonic() - begun, told


def ratio(what: str, first: Seconds, second: Seconds, pairs: int) -> bool:
    """Whether the first takes at most MOST times as long as the second, by the median of pairs of runs."""
    found = median_ratio(first, second, pairs)
    print(f"{what}: {found:.3f}")
    return found <= MOST


def commands(program: str, before: str, pairs: int) -> bool:
    """Runs the owner's commands in both programs, each in its own folder."""

    def key(it: tuple[str, str], kind: str) -> Seconds:
        def run() -> float:
            os.chdir(it[1])
            pathlib.Path("owner.desk").unlink(missing_ok=True)
            return timed(it[0], f"key ../secret {kind}")[0]

        return run

    def publish(it: tuple[str, str]) -> Seconds:
        def run() -> float:
            os.chdir(it[1])
            return timed(it[0], "publish ../small.roads dij 1 id 0 2 0 0 0")[0]

        return run

    new, old = (program, os.path.abspath("new")), (before, os.path.abspath("old"))
    good = [ratio(f"key {kind}", key(new, kind), key(old, kind), pairs) for kind in ("h5", "h10")]
    good.append(ratio("publish", publish(new), publish(old), pairs))
    return all(good)


def replies(program: str, pairs: int) -> bool:
    """An accepted and a refused reply from corner to corner."""
    public = timed(program, "key ../secret h5")[1]
    pathlib.Path("key").write_bytes(public)
    pathlib.Path("pub").write_bytes(timed(program, "publish ../large.roads dij 1 id 0 2 0 0 0")[1])
    reply = timed(program, "prove pub 1 65536")[1]
    pathlib.Path("good").write_bytes(reply)
    pathlib.Path("bad").write_bytes(reply[:-1] + bytes([reply[-1] ^ 1]))
    print(f"a reply of {len(reply)} octets")
    return ratio(
        "check, refused by accepted",
        lambda: timed(program, "check key bad 1 65536 1", 1)[0],
        lambda: timed(program, "check key good 1 65536 1")[0],
        pairs,
    )


def main() -> int:
    parser = argparse.ArgumentParser(description=__doc__.split("\n", maxsplit=1)[0])
    parser.add_argument("program")
    parser.add_argument("before")
    parser.add_argument("--pairs", type=int, default=11)
    given = parser.parse_args()
    program, before = os.path.abspath(given.program), os.path.abspath(given.before)
    os.umask(0o077)
    with tempfile.TemporaryDirectory() as folder:
        os.chdir(folder)
        pathlib.Path("secret").write_text(bytes(range(48)).hex(), encoding="ascii")
        for name in ("new", "old", "replies"):
            os.mkdir(name)
        pathlib.Path("small.roads").write_bytes(made("grid", 64))
        pathlib.Path("large.roads").write_bytes(made("grid", 256))
        is_good = commands(program, before, given.pairs)
        os.chdir(f"{folder}/replies")
        is_good = replies(program, given.pairs) and is_good
        os.chdir("/")
    return 0 if is_good else 1


if __name__ == "__main__":
    sys.exit(main())
