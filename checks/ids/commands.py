#!/usr/bin/env python3
"""Compares the time of each command over ordinary ids with its time over hostile ids.

    checks/ids/commands.py PROGRAM [WIDTH]

PROGRAM is the built program (crates/road_proof/out/road_proof after `rt run`). A grid of WIDTH by WIDTH crossings is
written five times: with the ids 1 to n by rows; with ids that share a few initial places in the standard library's hash
map, whose hasher has no key, so that a loop of ten lines finds them; with odd ids and one distant id, so that dividing
all ids by equal widths does not help; with many such groups, so that a second division does not help either; and with
the first ids shuffled. The default width of 256 gives 65,536 nodes, the limit of a map. The gate takes a width of 96,
for some ten seconds.

Each command runs three times over each map in turn. While one is too slow, it runs again, up to 36 times, because other
programs on the machine can double the time of the same work. The script prints the least CPU seconds. `serve` answers
queries from corner to corner, and 200 queries between neighbours, and installs the map once more. Ends with status 1 if
shuffled ids take more than 2.5 times the time of the ids 1 to n, or others more than 1.5 times, plus 0.03 s, or at the
first failure of the program. No client trusts it.
"""
import os
import random
import sys
import tempfile
from collections.abc import Iterator
from functools import partial
from pathlib import Path

sys.path.insert(0, str(Path(__file__).resolve().parents[1]))

from common.desks import ZEROS  # noqa: E402
from common.runs import least_in_turn, processor_seconds  # noqa: E402
from common.served import framed, install  # noqa: E402

MOST = {"meet": 1.5, "far": 1.5, "rows": 1.5, "shuffled": 2.5}
# the seconds that a busy machine can add to any time
SLACK = 0.03


def meeting(count: int) -> list[int]:
    """Rising ids whose hashes begin in one 128th of the places of a table of COUNT entries."""
    places = 1
    while 9 * places < count:
        places *= 2
    ids: list[int] = []
    number = 0
    while len(ids) < count:
        number += 1
        product = (0x243F6A8885A308D3 ^ (number | number << 32)) * 0x9E3779B97F4A7C1D
        folded = (product ^ product >> 64) & 0xFFFFFFFFFFFFFFFF
        if ((folded ^ folded >> 32) & (places - 1)) * 128 < places:
            ids.append(number)
    return ids


def rows(count: int) -> list[int]:
    """Rising ids: each of many spans of one width has 127 odd ids at its beginning and one at its end."""
    ids: list[int] = []
    width = 2**32 // -(-count // 128)
    while len(ids) < count:
        start = len(ids) // 128 * width
        ids += [*range(start + 1, start + 255, 2), start + width - 1]
    return ids[:count]


def write(path: str, width: int, ids: list[int]) -> None:
    """The grid as a road file, with random lengths from a fixed seed."""
    draw = random.Random(5)
    with open(path, "w") as roads:
        roads.write("roads 1\n")
        roads.writelines(f"node {node} {at % width} {at // width}\n" for at, node in enumerate(ids))
        for at, node in enumerate(ids):
            if at % width + 1 < width:
                roads.write(f"road {node} {ids[at + 1]} {draw.randint(1, 1000)}\n")
            if at + width < len(ids):
                roads.write(f"road {node} {ids[at + width]} {draw.randint(1, 1000)}\n")


def taken(program: str, folder: str, words: list[str], read: str = os.devnull, written: str = os.devnull) -> float:
    """The processor seconds of one run."""
    return processor_seconds([program, *words], read, written, silent=True, folder=folder)


def frame(kind: int, session: int, *numbers: int) -> bytes:
    return framed(bytes([kind, session]) + b"".join(number.to_bytes(4, "big") for number in numbers))


def runs(folder: str, width: int, ids: list[int]) -> Iterator[tuple[str, list[str], str, str]]:
    """The timed commands over the map in a folder: name, words, and the files that are read and written."""
    start, end = str(ids[0]), str(ids[-1])
    yield "route", ["route", "m.roads", start, end], os.devnull, os.devnull
    plans = {"dij": ("0", "0", "0"), "ldm": ("8", "8", "0")}
    if width <= 512:
        plans["hyp"] = ("2", "2", "0")
    for method, plan in plans.items():
        book, reply = f"{method}.pub", f"{method}.reply"
        yield f"publish {method}", ["publish", "m.roads", method, "1", "id", "0", "2", *plan], os.devnull, book
        yield f"prove {method}", ["prove", book, start, end], os.devnull, reply
        yield f"check {method}", ["check", "owner.key", reply, start, end, "1"], os.devnull, os.devnull
    later = ["publish", "m.roads", "ldm", "2", "id", "0", "2", *plans["ldm"]]
    yield "publish 2", later, os.devnull, "later.pub"
    with open(os.path.join(folder, "later.pub"), "rb") as later_book, open(
        os.path.join(folder, "install"), "wb"
    ) as frames:
        frames.write(framed(install(later_book.read())))
    for name in ("asks", "near", "install"):
        yield f"serve {name}", ["serve", "ldm.pub"], name, os.devnull


def prepare(program: str, folder: str, width: int, ids: list[int]) -> None:
    write(os.path.join(folder, "m.roads"), width, ids)
    with open(os.path.join(folder, "zeros.hex"), "w") as secret:
        secret.write(ZEROS)
    draw = random.Random(11)
    starts = [draw.randrange(width) * width + draw.randrange(width - 1) for _ in range(200)]
    asks = {"asks": 3 * [(ids[0], ids[-1])], "near": [(ids[at], ids[at + 1]) for at in starts]}
    for name, ends in asks.items():
        with open(os.path.join(folder, name), "wb") as frames:
            frames.write(frame(1, 0) + b"".join(frame(2, 0, *pair) for pair in ends) + frame(3, 0))
    taken(program, folder, ["key", "zeros.hex", "h5"], written="owner.key")


def too_slow(seconds: dict[str, float]) -> list[str]:
    """The kinds of ids that take too long, compared with the ids 1 to n."""
    return [kind for kind, most in MOST.items() if seconds[kind] > most * seconds["plain"] + SLACK]


def main() -> None:
    program = os.path.abspath(sys.argv[1])
    width = int(sys.argv[2]) if len(sys.argv) > 2 else 256
    ids = {"plain": list(range(1, width * width + 1)), "meet": meeting(width * width)}
    ids["far"] = [*range(1, 2 * width * width - 1, 2), 2**32 - 2]
    ids["shuffled"] = list(ids["plain"])
    random.Random(7).shuffle(ids["shuffled"])
    ids["rows"] = rows(width * width)
    late: list[str] = []
    with tempfile.TemporaryDirectory() as top:
        folders = {kind: os.path.join(top, kind) for kind in ids}
        for kind, numbers in ids.items():
            os.mkdir(folders[kind])
            prepare(program, folders[kind], width, numbers)
        print(f"{'seconds':12}" + "".join(f"{kind:>10}" for kind in ids))
        for steps in zip(*(runs(folders[kind], width, numbers) for kind, numbers in ids.items())):
            timed = {kind: partial(taken, program, folders[kind], *step[1:]) for kind, step in zip(ids, steps)}
            seconds = least_in_turn(timed, lambda least: not too_slow(least))
            name = steps[0][0]
            print(f"{name:12}" + "".join(f"{spent:10.3f}" for spent in seconds.values()), flush=True)
            late += [f"{name}: {kind}" for kind in too_slow(seconds)]
    if late:
        sys.exit("too slow: " + ", ".join(late))


if __name__ == "__main__":
    main()
