#!/usr/bin/env python3
"""Makes a made-up town in the mountains, for demonstrations: tools/mountain.py FOLDER

It writes these files into FOLDER: `summer.roads`; `winter.roads`, which lacks the road over the pass; `town.ids`, the
table of streets; `town.shapes`, the bends of roads between crossings; and `walk.json`, the places of a tour through the
owner's page. The town lies at a lake. It has a ferry, which is a road of the map, and an island that no road reaches.
Each run makes the same town. No client trusts it.
"""
import argparse
import json
import math
import pathlib
import random
from dataclasses import dataclass, field
from itertools import pairwise

import geodesic
from roads import Place, Roads, end_of, write_table

TOOL = "mountain.py"
LONGITUDE, LATITUDE = -20.0, 46.0  # in the Atlantic
DEGREE_NORTH = 111_150.0
DEGREE_EAST = DEGREE_NORTH * math.cos(math.radians(LATITUDE))
DEGREE = 10_000_000
WIDE, HIGH = 2_900.0, 1_900.0
CENTRE = (-250.0, -250.0)
LAKE, ISLAND = ((-900.0, -1_150.0), (1_150.0, 430.0)), (-1_250.0, -1_120.0)
# a line that only two roads cross: the one over the pass, and the one through the gorge past its western end
RIDGE = [(-1_900.0, 620.0), (-1_000.0, 820.0), (-150.0, 640.0), (700.0, 830.0), (1_700.0, 560.0), (2_950.0, 700.0)]
RIVER = [(2_950.0, 60.0), (1_700.0, -20.0), (900.0, -260.0), (250.0, -420.0), (-250.0, -760.0)]
BRIDGES = 6
MOST_ROOM, TRIES = 330.0, 14_000
NAMES = (
    "Larch Arolla Gentian Arnica Juniper Rowan Alder Edelweiss Saxifrage Crocus Primrose Anemone Thyme Campion Bilberry Heather Spruce Fir Pine Yarrow "
    "Chough Raven Eagle Marmot Ibex Chamois Ermine Dipper Wren Siskin Nuthatch Swift Martin Finch Owl Kestrel Plover Ouzel Pipit Grouse"
).split()
KINDS = ("Street", "Lane", "Way", "Rise", "Path", "Steps")

Spot = tuple[float, float]


@dataclass
class Country:
    """The crossings, with ids from 1 on, and the ways between them. A way has the spots that it passes, and a name."""

    spots: dict[int, Spot] = field(default_factory=dict)
    ways: dict[tuple[int, int], list[Spot]] = field(default_factory=dict)
    names: dict[tuple[int, int], str] = field(default_factory=dict)

    def add(self, spot: Spot) -> int:
        self.spots[len(self.spots) + 1] = spot
        return len(self.spots)

    def join(self, a: int, b: int, name: str = "", between: list[Spot] | None = None) -> None:
        ends = (a, b) if a < b else (b, a)
        inner = list(between or [])
        self.ways[ends] = [self.spots[ends[0]], *(inner if a < b else inner[::-1]), self.spots[ends[1]]]
        self.names[ends] = name


def is_in_lake(spot: Spot, times: float = 1.0) -> bool:
    (x, y), (wide, high) = LAKE
    angle = math.atan2(spot[1] - y, spot[0] - x)
    return math.hypot((spot[0] - x) / wide, (spot[1] - y) / high) < times * (1 + 0.12 * math.sin(3 * angle + 1))


def crosses(a: Spot, b: Spot, line: list[Spot]) -> bool:
    def side(p: Spot, q: Spot, r: Spot) -> float:
        return (q[0] - p[0]) * (r[1] - p[1]) - (q[1] - p[1]) * (r[0] - p[0])

    return any(side(a, b, p) * side(a, b, q) < 0 and side(p, q, a) * side(p, q, b) < 0 for p, q in pairwise(line))


def far(a: Spot, b: Spot) -> float:
    return math.hypot(b[0] - a[0], b[1] - a[1])


def room(spot: Spot) -> float:
    """The distance between crossings near a spot. Crossings are close together in the town and in its hamlets."""
    villages = [
        (CENTRE, 60, 560),
        ((1_650, 200), 85, 200),
        ((-2_300, -350), 85, 220),
        ((350, 1_380), 80, 240),
        ((-1_250, 1_350), 95, 180),
        ((1_500, -1_150), 85, 220),
        ((2_350, 1_250), 95, 160),
    ]
    return min(min(MOST_ROOM, least + 1.15 * max(0.0, far(spot, middle) - wide)) for middle, least, wide in villages)


def lay_crossings(country: Country, draw: random.Random) -> None:
    """Places crossings on land, at the distances that `room` gives."""
    squares: dict[tuple[int, int], list[Spot]] = {}
    for _ in range(TRIES):
        spot = ((2 * draw.random() - 1) * WIDE, (2 * draw.random() - 1) * HIGH)
        column, row = int(spot[0] // MOST_ROOM), int(spot[1] // MOST_ROOM)
        near = [
            other for right in (-1, 0, 1) for up in (-1, 0, 1) for other in squares.get((column + right, row + up), [])
        ]
        if not is_in_lake(spot, 1.07) and all(far(spot, other) >= room(spot) for other in near):
            country.add(spot)
            squares.setdefault((column, row), []).append(spot)


def lay_ways(country: Country, draw: random.Random) -> None:
    """Lays a way between two crossings if no third one is nearer to both. It crosses no ridge and no lake, and a river
    only by a bridge."""
    bridges = []
    spots = country.spots
    for a in spots:
        near = [b for b in spots if far(spots[a], spots[b]) < 2 * MOST_ROOM]
        for b in (b for b in near if b > a):
            middle, long = ((spots[a][0] + spots[b][0]) / 2, (spots[a][1] + spots[b][1]) / 2), far(spots[a], spots[b])
            share = 0.78 if long < 110 else 0.97
            is_clear = all(
                max(far(spots[a], spots[c]), far(spots[b], spots[c])) >= share * long for c in near if c not in (a, b)
            )
            if not is_clear or is_in_lake(middle) or crosses(spots[a], spots[b], RIDGE):
                continue
            if crosses(spots[a], spots[b], RIVER):
                bridges.append((a, b))
            elif draw.random() < 0.93 or long > 110:
                country.join(a, b)
    bridges.sort(key=lambda ends: spots[ends[0]][0])
    for a, b in bridges[:: max(1, len(bridges) // BRIDGES)]:
        country.join(a, b, "Bridge Street")


def reached(country: Country, start: int) -> set[int]:
    beside: dict[int, list[int]] = {node: [] for node in country.spots}
    for a, b in country.ways:
        beside[a].append(b)
        beside[b].append(a)
    found, open_nodes = {start}, [start]
    while open_nodes:
        fresh = set(beside[open_nodes.pop()]) - found
        found |= fresh
        open_nodes += fresh
    return found


def nearest(country: Country, spot: Spot) -> int:
    return min(country.spots, key=lambda node: far(country.spots[node], spot))


def hairpins(a: Spot, b: Spot, count: int, aside: float) -> list[Spot]:
    """Bends that climb from one spot to another."""
    long = far(a, b)
    along, across = ((b[0] - a[0]) / long, (b[1] - a[1]) / long), (-(b[1] - a[1]) / long, (b[0] - a[0]) / long)
    found = []
    for turn in range(count):
        side = aside * (1 if turn % 2 else -1) * (0.75 + 0.25 * math.sin(2.3 * turn + 1))
        for step in (-0.22, 0.0, 0.22):
            share, out = (turn + 1 + step) / (count + 1), side * (1.0 if step == 0 else 0.86)
            found.append(
                (a[0] + along[0] * long * share + across[0] * out, a[1] + along[1] * long * share + across[1] * out)
            )
    return found


def bend(country: Country, draw: random.Random) -> None:
    """Bends each straight way. A longer or higher way gets more bends."""
    for ends, line in country.ways.items():
        a, b = line[0], line[-1]
        long = far(a, b)
        if len(line) > 2 or long < 60:
            continue
        height = min(1.0, abs(a[1] + b[1]) / 2 / HIGH + long / 700)
        count = max(1, round(long / 75))
        phase, swing = draw.random() * 6.3, long * (0.05 + 0.07 * height)
        inner = []
        for step in range(1, 3 * count):
            share = step / (3 * count)
            out = swing * math.sin(math.pi * share) * math.sin(phase + share * count * 2.1)
            inner.append(
                (
                    a[0] + (b[0] - a[0]) * share - (b[1] - a[1]) / long * out,
                    a[1] + (b[1] - a[1]) * share + (b[0] - a[0]) / long * out,
                )
            )
        country.ways[ends] = [a, *inner, b]


def turn_between(country: Country, here: int, before: int, after: int) -> float:
    """The angle by which a walk turns at a crossing."""
    (x, y), (u, v), (p, q) = (country.spots[node] for node in (here, before, after))
    one, two = math.atan2(y - v, x - u), math.atan2(q - y, p - x)
    return abs((two - one + math.pi) % (2 * math.pi) - math.pi)


def name_streets(country: Country) -> None:
    """Names the streets. A street continues straight over crossings as long as possible."""
    beside: dict[int, list[int]] = {node: [] for node in country.spots}
    for a, b in country.ways:
        beside[a].append(b)
        beside[b].append(a)
    count = 0
    for a, b in sorted(country.ways, key=lambda ends: far(country.spots[ends[0]], CENTRE)):
        if country.names[a, b]:
            continue
        name = f"{NAMES[count % len(NAMES)]} {KINDS[count // len(NAMES) % len(KINDS)]}"
        count += 1
        country.names[a, b] = name
        for before, here in ((a, b), (b, a)):
            go_on(country, beside, before, here, name)


def go_on(country: Country, beside: dict[int, list[int]], before: int, here: int, name: str) -> None:
    while True:
        free = [node for node in beside[here] if not country.names[min(here, node), max(here, node)]]
        after = min(free, key=lambda node: turn_between(country, here, before, node), default=None)
        if after is None or turn_between(country, here, before, after) > 0.6:
            return
        country.names[min(here, after), max(here, after)] = name
        before, here = here, after


def made() -> tuple[Country, dict[str, int], tuple[int, int]]:
    """Returns the country, the nodes of the tour through the page by their names, and the ends of the road over the
    pass."""
    draw, laid = random.Random(11), Country()
    lay_crossings(laid, draw)
    lay_ways(laid, draw)
    kept = reached(laid, nearest(laid, CENTRE))
    order = {
        node: place
        for place, node in enumerate(sorted(kept, key=lambda node: (-laid.spots[node][1], laid.spots[node][0])), 1)
    }
    country = Country({order[node]: laid.spots[node] for node in sorted(kept, key=order.__getitem__)})
    for (a, b), name in laid.names.items():
        if a in order and b in order:
            country.join(order[a], order[b], name)
    foot, top = nearest(country, (180, 520)), nearest(country, (330, 1_120))
    country.join(foot, top, "Pass Road", hairpins(country.spots[foot], country.spots[top], 7, 150))
    quay, shore = nearest(country, (-500, -560)), nearest(country, (-1_050, -1_720))
    country.join(quay, shore, "Ferry")
    bend_but(country, (quay, shore), draw)
    name_streets(country)
    island = add_island(country)
    return (
        country,
        {"from": nearest(country, (-420, -420)), "to": nearest(country, (430, 1_400)), "island": island},
        (min(foot, top), max(foot, top)),
    )


def bend_but(country: Country, ends: tuple[int, int], draw: random.Random) -> None:
    """Bends all ways except the ferry's."""
    straight = (min(ends), max(ends))
    line = country.ways.pop(straight)
    bend(country, draw)
    country.ways[straight] = line


def add_island(country: Country) -> int:
    """Adds seven crossings on an island that no road reaches. Returns the crossing in the middle."""
    x, y = ISLAND
    middle = country.add((x, y))
    ring = [
        country.add((x + 150 * math.cos(turn), y + 85 * math.sin(turn)))
        for turn in (step * math.pi / 3 + 0.3 for step in range(6))
    ]
    for a, b in zip(ring, [*ring[1:], ring[0]]):
        country.join(a, b, "Island Walk")
    for node in ring[::2]:
        country.join(middle, node, "Chapel Path")
    return middle


def place_of(spot: Spot) -> Place:
    return round((LONGITUDE + spot[0] / DEGREE_EAST) * DEGREE), round((LATITUDE + spot[1] / DEGREE_NORTH) * DEGREE)


def length_of(line: list[Place]) -> int:
    """The length of a line in decimetres, rounded up."""
    degrees = [(x / DEGREE, y / DEGREE) for x, y in line]
    return math.ceil(sum(geodesic.metres(a, b) or 0.0 for a, b in pairwise(degrees)) * 10)


def write(folder: pathlib.Path, country: Country, walk: dict[str, int], winter: tuple[int, int]) -> None:
    lines = {ends: [place_of(spot) for spot in line] for ends, line in sorted(country.ways.items())}
    nodes = {node: place_of(spot) for node, spot in country.spots.items()}
    for name, closed in (("summer", None), ("winter", winter)):
        roads = [(*ends, length_of(line)) for ends, line in lines.items() if ends != closed]
        with open(folder / f"{name}.roads", "w", encoding="utf-8") as file:
            Roads(
                nodes,
                roads,
                [
                    "a made-up town in the mountains that does not exist",
                    "lengths in decimetres, coordinates in 1e-7 degrees",
                ],
            ).write(file)
    streets: dict[int, set[str]] = {node: set() for node in nodes}
    for ends, name in country.names.items():
        for node in ends:
            streets[node].add(name)
    write_table(
        str(folder / "town.ids"),
        ("node", "streets"),
        ((node, "; ".join(sorted(names))) for node, names in streets.items()),
    )
    shapes = ",\n".join(
        f'"{a} {b}": {json.dumps(line, separators=(",", ":"))}' for (a, b), line in lines.items() if len(line) > 2
    )
    (folder / "town.shapes").write_text(f'{{"shapes": 1, "lines": {{\n{shapes}\n}}}}\n', encoding="utf-8")
    (folder / "walk.json").write_text(json.dumps(walk) + "\n", encoding="utf-8")


def main() -> None:
    parser = argparse.ArgumentParser(
        description="Makes a town in the mountains: two road files, streets, bends and a walk."
    )
    parser.add_argument("folder", metavar="FOLDER", type=pathlib.Path)
    folder = parser.parse_args().folder
    folder.mkdir(parents=True, exist_ok=True)
    write(folder, *made())


if __name__ == "__main__":
    end_of(TOOL, main)
