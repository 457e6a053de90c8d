#!/usr/bin/env python3
"""Compares answers and checks with their least possible costs: checks/speed/far.py [--program FILE] [--pairs N] [--runs
N] [--small | --grid] [--counted] [--hold] [--write]

Over street-like maps it draws pairs of places at given distances (a street has length 100). `serve` answers queries for
routes between them under each method, and for the nodes within such a radius. An answer is compared with a plain
program in Rust that searches for the same pairs (floor.rs, built by rustc -O): by Dijkstra's search, or for LDM by A*
over codes of landmarks. A check is compared with the compressions of SHA-256 that the replies and their signatures need
(needed.py), at their cost in `key h5`. The cost of a check is that of `check` less that of `check` on an empty reply.
Without rustc the searches are left out.

Costs are the least CPU time of the runs on one processor. With --counted they are instructions under valgrind, which do
not depend on other work. --small takes 1,024 nodes, --grid only a grid of 65,536 nodes, from corner to corner. --hold
ends with status 1 if a ratio is above its limit. --write puts the table into docs/BENCHMARKS.md. No client trusts it.
"""
import argparse
import math
import os
import random
import shutil
import subprocess
import sys
import tempfile
from collections.abc import Callable, Iterable, Iterator
from typing import NamedTuple

import needed
from measure import HERE, PROGRAM, made, note, owner, pin, publishing, put_tables, run, seconds, table
from meters import Counted, Meter, Timed, compression

from common.served import ask, near  # noqa: E402

SETTINGS = {
    "DIJ": "dij hilbert 2 0 0 0",
    "LDM": "ldm hilbert 2 16 12 0",
    "HYP": "hyp hilbert 2 3 3 0",
    "FULL": "full hilbert 2 0 0 0",
}
RANGES = [100, 500, 4000]
MOST_OF_FULL = 1024
# the number of replies of a range that are checked
CHECKED = 5
RADIUS = "radius"
# the limit of an answer at distance 4,000, in plain searches: by CPU time, with room for a busy machine, and counted
MOST = {"DIJ": (6.0, 4.5), "LDM": (14.0, 9.0), "HYP": (9.0, 6.0), "FULL": (2.0, 2.0), RADIUS: (6.0, 4.5)}
# the limit of a check at every length, as a multiple of its hashing: only counted, since it is too short for timing
# while other programs run
MOST_HASHED = (math.inf, 1.5)
HEADING = "What each method costs"

Pairs = list[tuple[int, int]]


class Cell(NamedTuple):
    """The costs of answers and checks of a range, and their ratios with the limits."""

    shown: str
    ratios: list[tuple[str, float, float]]


def places_of(roads: str) -> dict[int, tuple[int, int]]:
    with open(roads, encoding="ascii") as file:
        words = (line.split() for line in file if line.startswith("node "))
        return {int(it[1]): (int(it[2]), int(it[3])) for it in words}


def drawn(places: dict[int, tuple[int, int]], apart: int, count: int) -> Pairs:
    """Pairs of places at about this distance, always the same ones."""
    drawing, ids = random.Random(5), sorted(places)
    found: Pairs = []
    while len(found) < count:
        start = drawing.choice(ids)
        those = (
            it
            for it in (drawing.choice(ids) for _ in range(3000))
            if 0.9 * apart <= math.dist(places[start], places[it]) <= 1.1 * apart
        )
        found.extend((start, end) for end in [next(those, None)] if end is not None)
    return found


def floor_of(folder: str) -> str | None:
    """The plain program, if it can be built."""
    if shutil.which("rustc") is None:
        return None
    subprocess.run(["rustc", "-O", "--edition", "2021", "-o", f"{folder}/floor", f"{HERE}/floor.rs"], check=True)
    return f"{folder}/floor"


def searched(meter: Meter, floor: str | None, roads: str, pairs: Pairs, kind: str) -> float | None:
    """The cost of a plain search for a pair."""
    if floor is None:
        return None
    with open("pairs.txt", "w", encoding="ascii") as file:
        file.writelines(f"{start} {end}\n" for start, end in pairs)
    return meter.search(floor, roads, kind)


class Bench(NamedTuple):
    """The measured program, the meter, and the program to compare with."""

    program: str
    floor: str | None
    meter: Meter
    pairs: int
    # the costs of a compression and of a check of an empty reply
    hashed: float
    begun: float

    def check(self, command: str, name: str, start: int, end: int) -> float:
        return self.meter.command([self.program, command, "owner.key", name, str(start), str(end), "1"]) - self.begun

    def checks(self, command: str, pairs: Pairs, replies: list[bytes]) -> tuple[float, float]:
        """The cost of a check of a reply, and of the hashing that it needs."""
        key = bytes.fromhex(open("owner.key", encoding="ascii").read().split()[0])
        of_reply = needed.of_near if command == "check-reach" else needed.of_answer
        costs, counts = 0.0, 0
        for (start, end), reply in zip(pairs, replies):
            with open("one.reply", "wb") as file:
                file.write(reply)
            costs += self.check(command, "one.reply", start, end)
            counts += of_reply(key, reply)
        return costs / len(replies), counts / len(replies)


def bench_of(asked: argparse.Namespace, folder: str) -> Bench:
    meter: Meter = Counted() if asked.counted else Timed(asked.runs)
    program = os.path.abspath(asked.program)
    owner(program, folder)
    with open("empty.reply", "wb"):
        pass
    begun = meter.command([program, "check", "owner.key", "empty.reply", "1", "2", "1"], wanted=1)
    return Bench(program, floor_of(folder), meter, asked.pairs, compression(meter, program), begun)


def asked_of(
    bench: Bench, publication: str, body: Callable[[int, int, int], bytes], ranges: dict[str, Pairs]
) -> Iterator[tuple[str, float, list[bytes]]]:
    """The cost of an answer, and the replies, for each range: the least of the runs."""
    server = bench.meter.serve(bench.program, publication, "owner.key")
    for name, pairs in ranges.items():
        costs, replies = [], []
        for _ in range(bench.meter.runs):
            before = server.spent()
            replies = [server.told(body(0, start, end))[2:] for start, end in pairs]
            costs.append((server.spent() - before) / len(pairs))
        yield name, min(costs), replies
    server.close()


def cell_of(
    bench: Bench, what: str, method: str, pairs: Pairs, floor: float | None, cost: float, replies: list[bytes]
) -> Cell:
    """The costs of answers compared with a plain search, and of a few checks compared with their hashing."""
    told, which, step = bench.meter.told, int(isinstance(bench.meter, Counted)), -(-len(replies) // CHECKED)
    command = "check-reach" if method == RADIUS else "check"
    check, count = bench.checks(command, pairs[::step], replies[::step])
    hashed = check / (count * bench.hashed)
    ratios = [(f"a check {what}", hashed, MOST_HASHED[which])]
    shown = [told(cost)]
    if floor is not None:
        far = what.endswith(f" {RANGES[-1]} apart")
        ratios.append((f"an answer {what}", cost / floor, MOST[method][which] if far else math.inf))
        shown += [told(floor), f"{cost / floor:.1f}"]
    reply = f"{sum(map(len, replies)) / len(replies) / 1e3:.1f} kB"
    return Cell("; ".join([reply, ", ".join(shown), f"{told(check)}, {hashed:.2f}"]), ratios)


def row_of(bench: Bench, roads: str, method: str, ranges: dict[str, Pairs]) -> tuple[str, list[Cell]]:
    """The time of `publish`, and a cell for each range."""
    within, nodes = method == RADIUS, len(places_of(roads))
    note(f"{nodes} nodes, {method}")
    kind = {"LDM": "codes", RADIUS: "within"}.get(method, "plain")
    wanted = {name: [(start, int(name)) for start, _ in pairs] if within else pairs for name, pairs in ranges.items()}
    publish = run(publishing(bench.program, roads, SETTINGS["DIJ" if within else method]), "map.pub")
    cells = [
        cell_of(
            bench,
            f"under {method} over {nodes} nodes, {name} apart",
            method,
            wanted[name],
            searched(bench.meter, bench.floor, roads, wanted[name], kind),
            cost,
            replies,
        )
        for name, cost, replies in asked_of(bench, "map.pub", near if within else ask, wanted)
    ]
    return "" if within else seconds(publish), cells


def table_of(ranges: list[str], rows: list[list[str]]) -> list[str]:
    first = f"{ranges[0]} apart: reply; answer, search, ratio; check, ratio"
    return table(["nodes", "method", "`publish`", first, *(f"{name} apart" for name in ranges[1:])], rows)


def maps_of(bench: Bench, small: bool, grid: bool) -> Iterator[tuple[str, dict[str, Pairs], list[str]]]:
    """Maps with the pairs of each range, and the methods."""
    if grid:
        yield made("grid", "256"), {"corners": [(1, 65536)]}, ["DIJ", "LDM", "HYP"]
        return
    for count in [1024] if small else [1024, 10000, 65536]:
        roads = made("streets", str(count))
        places = places_of(roads)
        ranges = {str(apart): drawn(places, apart, bench.pairs) for apart in RANGES}
        yield roads, ranges, [name for name in MOST if name != "FULL" or len(places) <= MOST_OF_FULL]


def arguments() -> argparse.Namespace:
    reader = argparse.ArgumentParser()
    reader.add_argument("--program", default=PROGRAM)
    reader.add_argument("--pairs", type=int, default=200)
    reader.add_argument("--runs", type=int, default=3)
    for name in ("small", "grid", "counted", "hold", "write"):
        reader.add_argument(f"--{name}", action="store_true")
    return reader.parse_args()


def main() -> None:
    asked = arguments()
    if asked.counted and shutil.which("valgrind") is None:
        print("skipped: the instructions of checks/speed/far.py, since this machine has no valgrind")
        return
    pin()
    rows: list[list[str]] = []
    ratios: list[tuple[str, float, float]] = []
    with tempfile.TemporaryDirectory() as folder:
        bench = bench_of(asked, folder)
        for roads, ranges, methods in maps_of(bench, asked.small, asked.grid):
            for method in methods:
                publish, cells = row_of(bench, roads, method, ranges)
                rows.append([f"{len(places_of(roads)):,}", method, publish, *(cell.shown for cell in cells)])
                ratios.extend(ratio for cell in cells for ratio in cell.ratios)
        os.chdir("/")
    print("\n".join(table_of(list(ranges), rows)))
    if bench.floor is None:
        print("skipped: the plain searches of checks/speed/far.py, since this machine has no rustc")
    if asked.write:
        put_tables(HEADING, [table_of(list(ranges)[1:], [[*row[:3], *row[4:]] for row in rows if row[1] != RADIUS])])
    over = [f"{what} costs {ratio:.2f} times as much" for what, ratio, most in ratios if ratio > most]
    sys.exit(f"far: {', '.join(over)}" if asked.hold and over else 0)


if __name__ == "__main__":
    main()
