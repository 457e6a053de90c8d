#!/usr/bin/env python3
"""Tests the message of a slow `prove` that recommends `serve`: checks/serve/hint.py PROGRAM

Publishes a grid of 128 by 128 nodes in four by four cells under HYP, whose book takes more than a second to prepare,
and a map of five nodes under DIJ. At a pseudo-terminal, `prove` over the grid must name `serve` on standard error.
Through a pipe it must say nothing, and neither over the five nodes. Nobody trusts this script.
"""
import os
import pty
import subprocess
import sys
import tempfile
import time
from pathlib import Path

sys.path.insert(0, str(Path(__file__).resolve().parents[1]))

from common.desks import Desk  # noqa: E402
from common.maps import FIVE, made  # noqa: E402


def drained(end: int) -> bytes:
    """All output to a pseudo-terminal whose other end is closed."""
    said = b""
    while True:
        try:
            piece = os.read(end, 4096)
        except OSError:
            return said
        if not piece:
            return said
        said += piece


def at_terminal(words: list[str]) -> tuple[str, float]:
    """Runs a program with a pseudo-terminal as its standard error. Returns its messages, and the seconds it took."""
    ours, theirs = pty.openpty()
    begun = time.monotonic()
    child = subprocess.Popen(words, stdout=subprocess.DEVNULL, stderr=theirs)
    os.close(theirs)
    said = drained(ours)
    if child.wait():
        sys.exit(f"{' '.join(words)}: status {child.returncode}")
    os.close(ours)
    return said.decode(), time.monotonic() - begun


def main() -> None:
    program = os.path.abspath(sys.argv[1])
    with tempfile.TemporaryDirectory() as folder:
        os.chdir(folder)
        Path("grid.roads").write_bytes(made("grid", 128))
        Path("five.roads").write_text(FIVE, encoding="ascii")
        desk = Desk(program)
        desk.make_key()
        desk.done("publish grid.roads hyp 1 id 0 2 4 4 0", "grid.pub")
        desk.done("publish five.roads dij 1 id 0 2 0 0 0", "five.pub")
        slow = [program, "prove", "grid.pub", "1", "16384"]
        piped = subprocess.Popen(slow, stdout=subprocess.DEVNULL, stderr=subprocess.PIPE)
        said, seconds = at_terminal(slow)
        silent = piped.communicate()[1]
        quick, _ = at_terminal([program, "prove", "five.pub", "1", "3"])
    if seconds > 1.5 and "road_proof serve" not in said:
        sys.exit(f"A prove of {seconds:.1f} s at a terminal said {said!r}.")
    if seconds < 1 and said:
        sys.exit(f"A prove of {seconds:.1f} s at a terminal said {said!r}.")
    if silent or quick:
        sys.exit(f"Through a pipe prove said {silent!r}, and of five nodes {quick!r}.")
    print(
        f"prove took {seconds:.1f} s and said {said.strip()!r}; through a pipe, and when it was quick, it said nothing"
    )


if __name__ == "__main__":
    main()
