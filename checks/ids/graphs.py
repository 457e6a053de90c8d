#!/usr/bin/env python3
"""Compares the time of `dimacs` over ordered arcs with its time over shuffled ids and arcs.

    checks/ids/graphs.py PROGRAM [WIDTH]

PROGRAM is the built program (crates/road_proof/out/road_proof after `rt run`). The graph is a grid of WIDTH by WIDTH
crossings with diagonals and an arc in each direction. It is written twice: with ids by rows and arcs by rising ends,
and with ids and arcs shuffled, as the author of a map could do. With the default width of 256 it has 521,220 arcs.

Each graph is converted three times. While the shuffled one takes more than twice the time of the other, both are
converted again, up to 36 times, because other programs can slow the machine for a while. The script prints the least
CPU seconds. Ends with status 1 if the shuffled graph stays too slow, or at the first failure of the program. No client
trusts it.
"""
import os
import random
import sys
import tempfile
from functools import partial
from pathlib import Path

sys.path.insert(0, str(Path(__file__).resolve().parents[1]))

from common.runs import least_in_turn, processor_seconds  # noqa: E402

Arc = tuple[int, int, int]


def arcs_of(width: int, ids: list[int]) -> list[Arc]:
    """Both arcs of each street of the grid, with random lengths from a fixed seed."""
    draw = random.Random(5)
    arcs: list[Arc] = []
    for row in range(width):
        for column in range(width):
            for down, right in ((0, 1), (1, 0), (1, 1), (1, -1)):
                if row + down < width and 0 <= column + right < width:
                    here, there = ids[row * width + column], ids[(row + down) * width + column + right]
                    length = draw.randint(1, 1000)
                    arcs += [(here, there, length), (there, here, length)]
    return arcs


def write(folder: str, width: int, arcs: list[Arc]) -> None:
    count = width * width
    with open(os.path.join(folder, "graph.gr"), "w") as graph:
        graph.write(f"p sp {count} {len(arcs)}\n")
        graph.writelines("a %d %d %d\n" % arc for arc in arcs)
    with open(os.path.join(folder, "graph.co"), "w") as places:
        places.write(f"p aux sp co {count}\n")
        places.writelines(f"v {number} {number % width} {number // width}\n" for number in range(1, count + 1))


def turned(program: str, folder: str) -> float:
    """The processor seconds of one run."""
    return processor_seconds([program, "dimacs", "graph.gr", "graph.co"], folder=folder)


def is_good(seconds: dict[str, float]) -> bool:
    return seconds["shuffled"] <= 2 * seconds["in order"]


def main() -> None:
    program = os.path.abspath(sys.argv[1])
    width = int(sys.argv[2]) if len(sys.argv) > 2 else 256
    ids = list(range(1, width * width + 1))
    ordered = sorted(arcs_of(width, ids))
    draw = random.Random(7)
    draw.shuffle(ids)
    shuffled = arcs_of(width, ids)
    draw.shuffle(shuffled)
    with tempfile.TemporaryDirectory() as top:
        folders = {"in order": os.path.join(top, "ordered"), "shuffled": os.path.join(top, "shuffled")}
        for folder, arcs in zip(folders.values(), (ordered, shuffled)):
            os.mkdir(folder)
            write(folder, width, arcs)
        seconds = least_in_turn({what: partial(turned, program, folder) for what, folder in folders.items()}, is_good)
    for what, spent in seconds.items():
        print(f"{len(ordered)} arcs, {what}: {spent:.3f} s")
    if not is_good(seconds):
        sys.exit("shuffled arcs take more than twice the time")


if __name__ == "__main__":
    main()
