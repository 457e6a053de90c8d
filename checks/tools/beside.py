#!/usr/bin/python3
"""Compares the tools with other programs, by hand: checks/tools/beside.py [EXTRACT.osm[.bz2]]

It compares the lengths of 1,000 random ways anywhere on earth with geographiclib (Karney's algorithm) and PROJ. It
compares the distances between 200 pairs of the made-up town's nodes with networkx over the script's own graph of every
point of the extract, with osmnx's graph of the same extract, and with routino. Differences must be within the possible
rounding: up to decimetres, and for routino to metres.

With EXTRACT it uses 300 pairs of its nodes instead. Routino then also searches by its own table of tags; the script
only prints the number of shorter and longer routes. Routino's search misses some shortest routes in one direction, so
each pair is searched both ways, and the shorter answer counts. Programs that the machine lacks are skipped by name
(Debian: python3-geographiclib, python3-pyproj, python3-networkx, python3-osmnx, routino). Ends with status 1 if
anything differs. No client trusts this file.
"""
import bz2
import importlib
import pathlib
import random
import shutil
import subprocess
import sys
import tempfile
import xml.etree.ElementTree as ElementTree
from collections import Counter
from collections.abc import Callable
from itertools import pairwise
from typing import Any

TOOLS = pathlib.Path(__file__).resolve().parents[2] / "tools"
sys.path.insert(0, str(TOOLS))

import network  # noqa: E402
import profiles  # noqa: E402
import roads  # noqa: E402

PAIRS, EXTRACT_PAIRS = 200, 300
# routino measures on a sphere, some thousandths longer or shorter, and rounds each segment down to a metre
BALL = 0.004
faults = 0


def said(what: str, is_right: bool, outcome: str) -> None:
    global faults
    faults += not is_right
    print(f"{'agrees' if is_right else 'DIFFERS'}: {what}: {outcome}")


def module(name: str) -> Any:
    try:
        return importlib.import_module(name)
    except ImportError:
        print(f"skipped: {name}, which this python3 lacks")
        return None


def drawn_ways(draw: random.Random, count: int) -> list[list[tuple[int, int]]]:
    """Ways of 2 to 30 points, steps of a metre to 10 km, from pole to pole and across the date line."""
    ways = []
    for _ in range(count):
        x, y, step = draw.uniform(-180, 180), draw.uniform(-89.9, 89.9), 10 ** draw.uniform(-5, -1)
        way = []
        for _ in range(draw.randrange(2, 31)):
            way.append((round(x * roads.DEGREE), round(y * roads.DEGREE)))
            x = (x + draw.uniform(-step, step) + 180) % 360 - 180
            y = max(-90.0, min(90.0, y + draw.uniform(-step, step)))
        ways.append(way)
    return ways


def beside_geodesics() -> None:
    ways = drawn_ways(random.Random(1), 1000)
    of = [network.Measure(dict(enumerate(way))).of(tuple(range(len(way))), "way") for way in ways]
    places = [[network.in_degrees(place) for place in way] for way in ways]
    if karney := module("geographiclib.geodesic"):
        other = [
            sum(karney.Geodesic.WGS84.Inverse(a[1], a[0], b[1], b[0])["s12"] for a, b in pairwise(way))
            for way in places
        ]
        compare_lengths("geographiclib", of, other)
    if pyproj := module("pyproj"):
        earth = pyproj.Geod(ellps="WGS84")
        compare_lengths("PROJ", of, [earth.line_length([x for x, _ in way], [y for _, y in way]) for way in places])


def compare_lengths(name: str, of: list[float], other: list[float]) -> None:
    worst = max(abs(a - b) for a, b in zip(of, other))
    said(
        f"lengths of {len(of):,} ways, {sum(of) / 1000:,.0f} km, beside {name}",
        worst < 0.1,
        f"at most {worst * 1000:.6f} mm apart",
    )


# for each pair of nodes the metres between them and the number of roads; None if nothing joins them
Distances = dict[tuple[int, int], tuple[float, int] | None]
Place = tuple[float, float]


def tags_of(element: ElementTree.Element) -> dict[str, str]:
    return {tag.attrib["k"]: tag.attrib["v"] for tag in element.iter("tag")}


class Town:
    """The made-up town, or the given extract: its road file for walkers, and random pairs of its nodes."""

    def __init__(self, folder: pathlib.Path, extract: str | None):
        self.osm, self.name, self.is_made = (
            folder / "town.osm",
            "the town" if extract is None else pathlib.Path(extract).name,
            extract is None,
        )
        self.osm.write_bytes(
            octets_of(extract)
            if extract
            else subprocess.run([TOOLS / "town.py"], capture_output=True, check=True).stdout
        )
        made = subprocess.run(
            [TOOLS / "osm_roads.py", self.osm, "--ids", folder / "town.ids"], capture_output=True, check=True
        ).stdout
        (folder / "town.roads").write_bytes(made)
        self.chart = roads.read_roads(str(folder / "town.roads"))
        self.osm_of = {int(row["node"]): int(row["osm_node"]) for row in roads.read_table(str(folder / "town.ids"))}
        times = Counter(self.osm_of.values())
        single = [node for node, osm in self.osm_of.items() if times[osm] == 1]
        draw = random.Random(2)
        # for each pair the number of points on the way, if counted
        self.steps: dict[tuple[int, int], int] = {}
        self.pairs = [
            (draw.choice(single), draw.choice(single)) for _ in range(PAIRS if self.is_made else EXTRACT_PAIRS)
        ]

    def metres(self, networkx: Any) -> Distances:
        """The distance by the road file and the number of roads, for each pair; None without a route."""
        graph = networkx.Graph()
        graph.add_nodes_from(self.chart.nodes)
        for a, b, length in sorted(self.chart.roads, key=lambda road: -road[2]):
            graph.add_edge(a, b, weight=length)
        found: Distances = {}
        for pair in self.pairs:
            if networkx.has_path(graph, *pair):
                path = networkx.dijkstra_path(graph, *pair)
                found[pair] = sum(graph[a][b]["weight"] for a, b in pairwise(path)) / 10, len(path)
            else:
                found[pair] = None
        return found


def octets_of(extract: str) -> bytes:
    octets = pathlib.Path(extract).read_bytes()
    return bz2.decompress(octets) if extract.endswith(".bz2") else octets


def is_taken(town: Town, tags: dict[str, str]) -> bool:
    """Whether walkers take a way: in the town by this script's rules, in an extract by the tools' table."""
    walk = profiles.PROFILES["walk"]
    if not town.is_made:
        return "highway" in tags and not profiles.refused(walk, tags)
    return (
        tags.get("highway") in walk.taken
        and tags.get("area") != "yes"
        and (tags.get("access") not in ("no", "private") or "foot" in tags)
    )


def is_closed(town: Town, tags: dict[str, str]) -> bool:
    return (
        tags.get("barrier") in ("wall", "lift_gate")
        if town.is_made
        else profiles.blocked(profiles.PROFILES["walk"], tags) is not None
    )


def whole_graph(town: Town, networkx: Any, length: Callable[[Place, Place], float]) -> Any:
    """The graph of every point on the extract's ways for walkers. Closed points end the ways."""
    root = ElementTree.parse(town.osm).getroot()
    tags = {element: tags_of(element) for element in root}
    places: dict[int, Place] = {}
    closed: set[int] = set()
    graph = networkx.Graph()
    for node in root.iter("node"):
        places[int(node.attrib["id"])] = float(node.attrib["lat"]), float(node.attrib["lon"])
        if is_closed(town, tags[node]):
            closed.add(int(node.attrib["id"]))
    for way in root.iter("way"):
        if is_taken(town, tags[way]):
            steps = [int(step.attrib["ref"]) for step in way.iter("nd")]
            for a, b in pairwise(steps):
                ends = [(end, way.get("id"), at) if end in closed else end for at, end in ((0, a), (1, b))]
                if a != b:
                    graph.add_edge(*ends, weight=length(places[a], places[b]))
    return graph


def compare_distances(
    name: str, town: Town, by_roads: Distances, other: Callable[[int, int], float | None], share: float = 0.0
) -> None:
    """Each pair is joined by both or neither; a road adds less than a decimetre by rounding, and the other program may be
    off by a share of the length, and then by a metre between any two points of the way."""
    over: list[tuple[float, float]] = []
    apart = 0
    for pair, ours in by_roads.items():
        theirs = other(*(town.osm_of[node] for node in pair))
        if (ours is None) != (theirs is None):
            return said(f"distances beside {name}", False, f"from {pair[0]} to {pair[1]}: {ours} and {theirs}")
        if ours is None or theirs is None:
            apart += 1
            continue
        more, slack = ours[0] - theirs, share * ours[0] + town.steps.get(pair, 2 * ours[1]) * (share > 0)
        if not -slack - 0.001 <= more <= ours[1] * 0.1 + slack:
            return said(f"distances beside {name}", False, f"from {pair[0]} to {pair[1]}: {ours} and {theirs}")
        over.append((more, more / theirs if theirs else 0.0))
    metres, shares = [more for more, _ in over], [share for _, share in over]
    said(
        f"{len(by_roads)} distances over {town.name} beside {name}",
        True,
        f"{min(metres):.2f} to {max(metres):.2f} m longer, by at most "
        f"{100 * max(abs(share) for share in shares):.2f} percent, and {apart} pairs that neither joins",
    )


def beside_networkx(town: Town, networkx: Any, by_roads: Distances) -> None:
    karney = module("geographiclib.geodesic")
    if not karney:
        return
    graph = whole_graph(town, networkx, lambda a, b: float(karney.Geodesic.WGS84.Inverse(*a, *b)["s12"]))

    node_of = {osm: node for node, osm in town.osm_of.items()}

    def distance(a: int, b: int) -> float | None:
        if a == b:
            return 0.0
        if a not in graph or b not in graph or not networkx.has_path(graph, a, b):
            return None
        far, path = networkx.single_source_dijkstra(graph, a, b)
        town.steps[node_of[a], node_of[b]] = len(path)
        return float(far)

    compare_distances("networkx", town, by_roads, distance)


def for_walkers(town: Town) -> tuple[pathlib.Path, set[int]]:
    """The extract with only the ways that walkers take, each tagged as open to them; and the closed nodes."""
    tree = ElementTree.parse(town.osm)
    root, walk = tree.getroot(), profiles.PROFILES["walk"]
    for way in root.findall("way"):
        tags = tags_of(way)
        if "highway" not in tags or profiles.refused(walk, tags) or len(way.findall("nd")) < 2:
            root.remove(way)
        elif "foot" not in tags:
            ElementTree.SubElement(way, "tag", k="foot", v="yes")
    closed = [node for node in root.iter("node") if is_closed(town, tags_of(node))]
    for node in closed:
        ElementTree.SubElement(node, "tag", k="foot", v="no")
    filtered = town.osm.with_suffix(".walk.osm")
    tree.write(filtered, encoding="utf-8", xml_declaration=True)
    return filtered, {int(node.attrib["id"]) for node in closed}


def beside_osmnx(town: Town, networkx: Any, by_roads: Distances) -> None:
    """osmnx takes every way with a highway tag, passes every barrier, and measures on a sphere. So its edges are measured anew."""
    osmnx, karney = module("osmnx"), module("geographiclib.geodesic")
    if not osmnx or not karney:
        return
    filtered, barriers = for_walkers(town)
    directed = osmnx.graph_from_xml(str(filtered), bidirectional=True, simplify=False, retain_all=True)
    graph = networkx.Graph()
    for a, b in osmnx.get_undirected(directed).edges(keys=False):
        ends = [(end, other) if end in barriers else end for end, other in ((a, b), (b, a))]
        here, there = directed.nodes[a], directed.nodes[b]
        graph.add_edge(*ends, weight=karney.Geodesic.WGS84.Inverse(here["y"], here["x"], there["y"], there["x"])["s12"])

    def distance(a: int, b: int) -> float | None:
        if a == b:
            return 0.0
        return (
            networkx.dijkstra_path_length(graph, a, b)
            if a in graph and b in graph and networkx.has_path(graph, a, b)
            else None
        )

    compare_distances("osmnx", town, by_roads, distance)


ALIKE = [
    *(
        f"--highway-{kind}={0 if kind in ('motorway', 'ferry') else 100}"
        for kind in "primary secondary tertiary unclassified residential service track cycleway path steps trunk motorway ferry".split()
    ),
    *(f"--property-{kind}=50" for kind in ("paved", "multilane", "bridge", "tunnel", "footroute", "bicycleroute")),
]


class Routino:
    """Shortest ways on foot by routino, over an extract, whose kinds of ways it likes alike. `unlike` counts the pairs
    whose two directions differ by more than a metre for each point, though no way has a direction."""

    def __init__(self, town: Town, extract: pathlib.Path):
        self.folder, self.prefix = town.osm.parent, extract.stem.replace(".", "_")
        split = [
            "planetsplitter",
            f"--dir={self.folder}",
            f"--prefix={self.prefix}",
            "--tagging=/usr/share/routino/tagging.xml",
            "--prune-none",
            str(extract),
        ]
        subprocess.run(split, cwd=self.folder, capture_output=True, check=True)
        self.place = {osm: town.chart.nodes[node] for node, osm in town.osm_of.items()}
        self.unlike = 0

    def distance(self, a: int, b: int) -> float | None:
        if a == b:
            return 0.0
        found = [one for one in (self.directed(a, b), self.directed(b, a)) if one]
        far = [metres for metres, _ in found]
        self.unlike += len(found) == 1 or (found != [] and max(far) - min(far) > max(points for _, points in found))
        return min(far, default=None)

    def directed(self, a: int, b: int) -> tuple[float, int] | None:
        """The metres of its way from one point to another, and the number of points on it."""
        ends = [
            f"--{name}{number}={self.place[node][axis] / roads.DEGREE:.7f}"
            for number, node in ((1, a), (2, b))
            for axis, name in enumerate(("lon", "lat"))
        ]
        ask = [
            "routino-router",
            f"--dir={self.folder}",
            f"--prefix={self.prefix}",
            "--transport=foot",
            "--shortest",
            "--exact-nodes-only",
            "--oneway=0",
            "--output-text-all",
            "--output-stdout",
            *ALIKE,
            *ends,
        ]
        done = subprocess.run(ask, cwd=self.folder, capture_output=True, text=True, check=False)
        rows = [line.split("\t") for line in done.stdout.splitlines() if line and not line.startswith("#")]
        return (sum(float(row[4]) for row in rows) * 1000, len(rows)) if rows else None


def beside_routino(town: Town, by_roads: Distances) -> None:
    if not shutil.which("routino-router") or not shutil.which("planetsplitter"):
        print("skipped: routino, which this machine lacks")
        return
    alike = Routino(town, for_walkers(town)[0])
    compare_distances("routino", town, by_roads, alike.distance, BALL)
    print(f"pairs whose way routino finds longer in one direction: {alike.unlike}")
    if not town.is_made:
        by_its_table(town, by_roads)


def by_its_table(town: Town, by_roads: Distances) -> None:
    """Prints the lengths of the ways by routino's own table of tags, without a judgement."""
    own, counts = Routino(town, town.osm), Counter[str]()
    for (a, b), ours in by_roads.items():
        theirs = own.distance(town.osm_of[a], town.osm_of[b])
        if ours is None or theirs is None:
            counts[
                "joined by neither"
                if ours is None and theirs is None
                else "joined by the road file alone"
                if ours
                else "joined by routino alone"
            ] += 1
        else:
            slack = BALL * ours[0] + town.steps.get((a, b), 2 * ours[1])
            counts[
                "longer by its table"
                if theirs > ours[0] + slack
                else "shorter by its table"
                if theirs < ours[0] - slack
                else "alike"
            ] += 1
    print(
        f"beside routino by its own table of tags: {', '.join(f'{count} {what}' for what, count in sorted(counts.items()))}"
    )


def main() -> None:
    beside_geodesics()
    networkx = module("networkx")
    if networkx:
        with tempfile.TemporaryDirectory() as folder:
            town = Town(pathlib.Path(folder), sys.argv[1] if len(sys.argv) > 1 else None)
            by_roads = town.metres(networkx)
            beside_networkx(town, networkx, by_roads)
            beside_osmnx(town, networkx, by_roads)
            beside_routino(town, by_roads)
    sys.exit(1 if faults else 0)


if __name__ == "__main__":
    main()
