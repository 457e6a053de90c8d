#!/usr/bin/env python3
"""Makes a made-up town as an OpenStreetMap extract or a road file: tools/town.py [--roads] > FILE

The town has streets, squares, a park, a river with bridges, a bypass, and an island that only a ferry reaches. Odd Lane
has every odd case that the tools must handle; a `note` names each case. Each run makes the same town. No client trusts
it: it is for docs/MAPS.md, pictures, demonstrations and tests.
"""
import argparse
import os
import random
import tempfile
from math import atan2, cos, exp, hypot, pi, sin
from xml.sax.saxutils import quoteattr

from network import Told
from roads import OSM_LICENCE, end_of, output

TOOL = "town.py"
LONGITUDE, LATITUDE = 3.0, 54.0  # in the North Sea
DEGREE_NORTH = 111_300.0
FIRST_NODE = 1001
DEGREE_EAST = DEGREE_NORTH * cos(LATITUDE * pi / 180)
COLUMNS, ROWS, BLOCK, RADIUS = 33, 31, 64.0, 900.0
RIVER = 11.4
TREES = (
    "Acorn Alder Apple Ash Aspen Bay Beech Birch Box Cedar Cherry Elder Elm Fir Hawthorn Hazel Holly Juniper Larch Lime "
    "Maple Oak Pear Pine Plum Poplar Rowan Spruce Walnut Willow Yew"
).split()
BIRDS = (
    "Bunting Bittern Coot Crane Crow Curlew Dove Dunlin Finch Gull Heron Jay Kestrel Kite Knot Lark Linnet Magpie Martin Owl "
    "Plover Quail Raven Robin Rook Ruff Snipe Starling Swan Swift Tern Thrush Wren"
).split()

Spot = tuple[float, float]


class Town:
    """The nodes and ways made so far, with ids from 1 on. A spot is in metres east and north of the middle."""

    def __init__(self) -> None:
        self.spots: list[Spot] = []
        self.tags: dict[int, dict[str, str]] = {}
        self.ways: list[tuple[list[int], dict[str, str]]] = []
        self.draw = random.Random(1)

    def node(self, spot: Spot, **tags: str) -> int:
        self.spots.append(spot)
        if tags:
            self.tags[len(self.spots)] = tags
        return len(self.spots)

    def way(self, nodes: list[int], highway: str = "", name: str = "", **tags: str) -> None:
        said = {"highway": highway, "name": name, **{key.replace("__", ":"): value for key, value in tags.items()}}
        self.ways.append((nodes, {key: value for key, value in said.items() if value}))

    def shaken(self, most: float) -> float:
        return (2 * self.draw.random() - 1) * most

    def bent(self, a: int, b: int, most: float) -> list[int]:
        """The nodes of a street from a to b, with a node between them that is off the straight line."""
        (x, y), (u, v) = self.spots[a - 1], self.spots[b - 1]
        aside, along = self.shaken(most), 0.5 + self.shaken(0.15)
        return [a, self.node((x + (u - x) * along - (v - y) * aside, y + (v - y) * along + (u - x) * aside)), b]


def river_row(column: int) -> float:
    """Returns the row after which the river flows in a column."""
    return RIVER + 1.7 * sin(column / 3.7) + 0.5 * sin(column / 1.9)


def crossing(town: Town, column: int, row: int) -> Spot:
    """The spot where two streets cross. The grid is wide outside, turned in the middle, waved, and shaken."""
    x, y = (column - COLUMNS / 2) * BLOCK, (row - ROWS / 2) * BLOCK
    y += 26 if row > river_row(column) else -26
    far = hypot(x, y) / RADIUS
    turn, wide = 0.55 * exp(-(far**2) * 2.2), 0.78 + 0.3 * far
    x, y = wide * (x * cos(turn) - y * sin(turn)), wide * (x * sin(turn) + y * cos(turn))
    return (x + 34 * sin(y / 330 + 1) + town.shaken(9), y + 34 * sin(x / 290 + 2) + town.shaken(9))


def is_in_town(spot: Spot) -> bool:
    angle = atan2(spot[1], spot[0])
    return hypot(*spot) < RADIUS * (0.86 + 0.1 * sin(3 * angle + 1) + 0.05 * sin(5 * angle))


def is_main(line: int) -> bool:
    return line % 5 == 1


def in_park(column: int, row: int) -> bool:
    return 19 <= column <= 23 and 19 <= row <= 22


class Streets:
    """The streets of the grid; some are missing."""

    def __init__(self, town: Town) -> None:
        self.town = town
        spots = {(column, row): crossing(town, column, row) for row in range(ROWS) for column in range(COLUMNS)}
        self.nodes = {at: town.node(spot) for at, spot in spots.items() if is_in_town(spot)}

    def is_there(self, at: tuple[int, int], to: tuple[int, int], main: bool) -> bool:
        if at not in self.nodes or to not in self.nodes or (in_park(*at) and in_park(*to)):
            return False
        is_over_river = (at[1] > river_row(at[0])) != (to[1] > river_row(to[0]))
        return main or (not is_over_river and self.town.draw.random() < 0.83)

    def kind(self, at: tuple[int, int], main: bool) -> str:
        if main:
            return "secondary"
        far = hypot(at[0] - COLUMNS / 2, at[1] - ROWS / 2)
        return "pedestrian" if far < 2.2 else "living_street" if far < 4 else "residential"

    def lay(self, line: int, spots: list[tuple[int, int]], name: str) -> None:
        """Lays one street of the grid, with a way for each stretch of one kind."""
        main, last = is_main(line), ""
        stretch: list[int] = []
        for at, to in zip(spots, [*spots[1:], (-1, -1)]):
            there = self.is_there(at, to, main)
            kind = self.kind(at, main)
            if stretch and not (there and kind == last):
                self.town.way(stretch, last, name)
                stretch = []
            if there:
                a, b = self.nodes[at], self.nodes[to]
                piece = self.town.bent(a, b, 0.16) if self.town.draw.random() < 0.35 else [a, b]
                stretch, last = [*stretch, *piece[bool(stretch) :]], kind

    def lay_all(self) -> None:
        for row in range(ROWS):
            self.lay(row, [(column, row) for column in range(COLUMNS)], f"{TREES[row]} Street")
        for column in range(COLUMNS):
            self.lay(column, [(column, row) for row in range(ROWS)], f"{BIRDS[column]} Lane")

    def outermost(self) -> list[int]:
        """The ends of the main streets, by their angle."""
        ends: set[int] = set()
        for line in filter(is_main, range(COLUMNS)):
            for across in (0, 1):
                on = sorted(at for at in self.nodes if at[across] == line)
                ends.update(self.nodes[at] for at in (on[:1] + on[-1:]))
        return sorted(ends, key=lambda node: atan2(*reversed(self.town.spots[node - 1])))


def add_park(town: Town, streets: Streets) -> None:
    """Adds footpaths from the edge of the park to a pond in its middle, and a path around the pond."""
    gates = [streets.nodes[at] for at in ((19, 19), (23, 19), (23, 22), (19, 22))]
    x, y = (sum(town.spots[gate - 1][axis] for gate in gates) / 4 for axis in (0, 1))
    pond = [town.node((x + 52 * cos(turn * pi / 4), y + 44 * sin(turn * pi / 4))) for turn in range(8)]
    town.way([*pond, pond[0]], "footway", "Pond Walk", note="a loop of which four nodes are junctions")
    for gate in gates:
        near = min(
            pond,
            key=lambda node: hypot(
                town.spots[node - 1][0] - town.spots[gate - 1][0], town.spots[node - 1][1] - town.spots[gate - 1][1]
            ),
        )
        town.way(town.bent(gate, near, 0.2), "footway", "Park Walk")


def add_bypass(town: Town, streets: Streets) -> int:
    """Adds a road around the town, and extends the main streets to it. Returns its junction in the west."""
    ring: list[tuple[int, float]] = []
    for gate in streets.outermost():
        x, y = town.spots[gate - 1]
        far, angle = hypot(x, y), atan2(y, x)
        if ring and angle - ring[-1][1] < 0.16:
            continue
        radius = max(far + 50, RADIUS * 0.98)
        ring.append((town.node((radius * cos(angle), radius * sin(angle))), angle))
        town.way(town.bent(gate, ring[-1][0], 0.1), "secondary", "Gate Road")
    for (a, start), (b, end) in zip(ring, [*ring[1:], (ring[0][0], ring[0][1] + 2 * pi)]):
        radius = (hypot(*town.spots[a - 1]) + hypot(*town.spots[b - 1])) / 2 + 12
        parts = max(1, round((end - start) / 0.16))
        turns = [start + (end - start) * part / parts for part in range(1, parts)]
        nodes = [a, *(town.node((radius * cos(angle), radius * sin(angle))) for angle in turns), b]
        for piece in zip(nodes, nodes[1:]):
            town.way(list(piece), "trunk", "Bypass")
    return min((node for node, _ in ring), key=lambda node: town.spots[node - 1][0])


def add_island(town: Town, from_node: int) -> None:
    """Adds an island of nine crossings that only a ferry reaches."""
    x, y = 960.0, -620.0
    nodes = [
        town.node((x + 62 * column + town.shaken(12), y - 58 * row + town.shaken(12)))
        for row in range(3)
        for column in range(3)
    ]
    for line in range(3):
        town.way(nodes[3 * line : 3 * line + 3], "residential", f"{('North', 'Middle', 'South')[line]} Quay")
        town.way(nodes[line::3], "residential", f"{('West', 'Church', 'East')[line]} Row")
    town.way([from_node, nodes[0]], route="ferry", name="Island Ferry", note="a ferry, which is no road")


class OddLane:
    """A lane around the town, outside the bypass. Each of its crossings has an odd case."""

    def __init__(self, town: Town, begin: int, name: str) -> None:
        self.town, self.name, self.nodes = town, name, [begin]
        self.begins = atan2(*reversed(town.spots[begin - 1])) % (2 * pi)

    def spot(self, place: float, out: float) -> Spot:
        """The spot this many crossings along the lane, and this many metres outside of it."""
        angle, radius = self.begins + place * 0.056, 1.13 * RADIUS + out
        return radius * cos(angle), radius * sin(angle)

    def next(self, **tags: str) -> int:
        """Adds the lane's next node, and a stretch to it. Returns the node."""
        self.nodes.append(self.town.node(self.spot(len(self.nodes), 0), **tags))
        self.town.way(self.nodes[-2:], "unclassified", self.name)
        return self.nodes[-1]

    def beside(self, node: int, *offsets: Spot) -> list[int]:
        """Adds nodes beside a node of the lane, each by metres along the lane and metres outside of it."""
        place = self.nodes.index(node)
        return [self.town.node(self.spot(place + along / (0.056 * RADIUS), out)) for along, out in offsets]


def add_odd_shapes(town: Town, lane: OddLane) -> None:
    """Adds loops, twins, doubles, and nodes at the places of other nodes."""
    at = lane.next()
    town.way(
        [at, *lane.beside(at, (-24, 40), (0, 66), (24, 40)), at],
        "residential",
        "Loop Close",
        note="a loop that begins and ends at one junction",
    )
    at, to = lane.next(), lane.next()
    town.way(
        [at, *lane.beside(at, (8, 46), (44, 46)), to],
        "residential",
        "Twin Lane",
        note="a second way between the same two junctions",
    )
    town.way([at, to], "unclassified", lane.name, note="the same straight piece twice")
    at = lane.next()
    cross, *rest = lane.beside(at, (0, 40), (-22, 66), (0, 90), (22, 66))
    town.way([at, cross, *rest, cross], "residential", "Spoon Close", note="a way that passes one of its nodes twice")
    at = lane.next()
    same, end = lane.beside(at, (0, 0), (0, 50))
    town.way([at, same, end], "residential", "Same Place", note="two nodes at one place, no length between them")
    at = lane.next()
    (end,) = lane.beside(at, (0, 50))
    town.way([at, at, end, end], "residential", "Stutter Close", note="a way that names a node twice in a row")
    town.way([end], "residential", "Nowhere", note="a way of one node")


def add_odd_barriers(town: Town, lane: OddLane) -> None:
    """Adds ways that are closed."""
    for barrier in ("gate", "bollard", "wall"):
        at = lane.next()
        between, end = lane.beside(at, (0, 30), (0, 60))
        town.tags[between] = {"barrier": barrier, "note": f"a {barrier} on a path"}
        town.way([at, between, end], "service", f"{barrier.title()} Path")
    lane.next(highway="crossing", note="a node with tags that close nothing")
    lane.next(barrier="lift_gate", access="no", emergency="yes", note="a lift gate for the fire brigade alone")
    for tags in ({"access": "no"}, {"access": "private", "foot": "yes"}, {"access": "no", "emergency": "yes"}):
        at = lane.next()
        (end,) = lane.beside(at, (0, 55))
        said = " and ".join(f"{key}={value}" for key, value in tags.items())
        town.way([at, end], "service", "Closed Drive", note=f"a way with {said}", **tags)


def add_odd_ways(town: Town, lane: OddLane) -> None:
    """Adds one-way streets, ways that only some may use, and elements that are not ways."""
    for tags in (
        {"oneway": "yes"},
        {"oneway": "-1", "oneway__bicycle": "no"},
        {"oneway": "yes", "cycleway": "opposite_lane"},
    ):
        at = lane.next()
        (end,) = lane.beside(at, (0, 55))
        town.way([at, end], "residential", "One Way", note="a one-way street", **tags)
    at = lane.next()
    circle = lane.beside(at, (-16, 16), (0, 32), (16, 16))
    town.way([at, *circle, at], "tertiary", "Roundabout", junction="roundabout", note="a roundabout, which is one-way")
    for highway in ("steps", "motorway", "construction", "bridleway"):
        at = lane.next()
        (end,) = lane.beside(at, (0, 45))
        town.way([at, end], highway, "Some Alone", note=f"highway={highway}")
    at = lane.next()
    town.way([at, *lane.beside(at, (-20, 30), (20, 30)), at], "pedestrian", "Lane Square", area="yes", note="an area")
    at = lane.next()
    (end,) = lane.beside(at, (0, 45))
    town.way([at, end], "residential", 'Käthe & Ölper "Straße" <1>', note="a name with every kind of letter")
    town.node((0, 0), shop="bakery", note="a node on no way")


def made() -> Town:
    town = Town()
    streets = Streets(town)
    streets.lay_all()
    add_park(town, streets)
    west = add_bypass(town, streets)
    add_island(town, max(streets.nodes.values(), key=lambda node: town.spots[node - 1][0] - town.spots[node - 1][1]))
    lane = OddLane(town, west, "Odd Lane")
    add_odd_shapes(town, lane)
    add_odd_barriers(town, lane)
    add_odd_ways(town, lane)
    return town


def degrees(spot: Spot) -> tuple[str, str]:
    return f"{LONGITUDE + spot[0] / DEGREE_EAST:.7f}", f"{LATITUDE + spot[1] / DEGREE_NORTH:.7f}"


def tag_lines(tags: dict[str, str]) -> str:
    return "".join(f"    <tag k={quoteattr(key)} v={quoteattr(value)}/>\n" for key, value in tags.items())


def extract_of(town: Town) -> str:
    """The town as OpenStreetMap's XML."""
    parts = ['<?xml version="1.0" encoding="UTF-8"?>\n<osm version="0.6" generator="tools/town.py">\n']
    for number, spot in enumerate(town.spots, 1):
        longitude, latitude = degrees(spot)
        inner = tag_lines(town.tags.get(number, {}))
        head = f'  <node id="{FIRST_NODE - 1 + number}" version="1" lat="{latitude}" lon="{longitude}"'
        parts.append(f"{head}>\n{inner}  </node>\n" if inner else f"{head}/>\n")
    for number, (nodes, tags) in enumerate(town.ways, 1):
        steps = "".join(f'    <nd ref="{FIRST_NODE - 1 + node}"/>\n' for node in nodes)
        parts.append(f'  <way id="{number}" version="1">\n{steps}{tag_lines(tags)}  </way>\n')
    return "".join([*parts, "</osm>\n"])


def road_file_of(extract: str, profile: str) -> None:
    """Writes the road file that tools/osm_roads.py makes of the extract."""
    from osm_roads import network_in

    with tempfile.TemporaryDirectory() as folder:
        path = os.path.join(folder, "town.osm")
        with open(path, "w", encoding="utf-8") as file:
            file.write(extract)
        asked = argparse.Namespace(
            box=None,
            around=None,
            largest=False,
            licence=OSM_LICENCE,
            every_bend=None,
            shapes=None,
            ferries=False,
            speeds=None,
            cost="decimetres",
        )
        network_in(path, profile, asked, Told())[0].roads.write(output())


def main() -> None:
    parser = argparse.ArgumentParser(description="Makes one town as an OpenStreetMap extract, on standard output.")
    parser.add_argument("--roads", action="store_true", help="as a road file instead, as tools/osm_roads.py makes it")
    parser.add_argument("--profile", default="walk", help="who goes there, with --roads (walk)")
    asked = parser.parse_args()
    extract = extract_of(made())
    if asked.roads:
        road_file_of(extract, asked.profile)
    else:
        output().write(extract)


if __name__ == "__main__":
    end_of(TOOL, main)
