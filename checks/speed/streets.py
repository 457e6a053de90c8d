#!/usr/bin/env python3
"""Writes the road file of a street-like map of about COUNT nodes: checks/speed/streets.py COUNT [SEED] > FILE

Crossings are about 100 apart, and some are moved a little. One street in seven is missing, and there are a few
diagonals. The length of a street is its length on the plane; one in ten is up to half as long again. Only the part that
is connected with the first crossing is written.
"""
import math
import random
import sys
from collections.abc import Iterator


def crossings(side: int, draw: random.Random) -> dict[int, tuple[int, int]]:
    return {
        row * side + column + 1: (column * 100 + draw.randrange(-35, 36), row * 100 + draw.randrange(-35, 36))
        for row in range(side)
        for column in range(side)
    }


def streets(side: int, places: dict[int, tuple[int, int]], draw: random.Random) -> Iterator[tuple[int, int, int]]:
    for row in range(side):
        for column in range(side):
            here = row * side + column + 1
            for step, exists, share in (
                (1, column + 1 < side, 0.86),
                (side, row + 1 < side, 0.86),
                (side + 1, column + 1 < side and row + 1 < side, 0.05),
            ):
                if exists and draw.random() < share:
                    length = math.dist(places[here], places[here + step])
                    winding = 1 + draw.random() / 2 if draw.random() < 0.1 else 1
                    yield here, here + step, max(1, round(length * winding))


def joined(roads: list[tuple[int, int, int]], start: int) -> set[int]:
    ends: dict[int, list[int]] = {}
    for a, b, _ in roads:
        ends.setdefault(a, []).append(b)
        ends.setdefault(b, []).append(a)
    seen, left = {start}, [start]
    while left:
        for there in ends.get(left.pop(), []):
            if there not in seen:
                seen.add(there)
                left.append(there)
    return seen


def main() -> None:
    count, seed = int(sys.argv[1]), int(sys.argv[2]) if len(sys.argv) > 2 else 1
    draw = random.Random(seed)
    side = math.ceil(math.sqrt(count))
    places = crossings(side, draw)
    roads = list(streets(side, places, draw))
    kept = joined(roads, min(roads)[0])
    print("roads 1")
    for node in sorted(kept):
        print("node", node, *places[node])
    for a, b, length in roads:
        if a in kept:
            print("road", a, b, length)


if __name__ == "__main__":
    main()
