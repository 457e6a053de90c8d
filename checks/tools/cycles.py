#!/usr/bin/python3
"""Compares routes for cycles with the whole extract, by hand: checks/tools/cycles.py EXTRACT.osm[.bz2]

A road file has no directions, so tools/osm_roads.py leaves one-way streets out where possible. For 300 pairs of nodes
of its road file for cycles, this script compares the distances with networkx's over every point of the extract: first
with one-way streets in both directions, then only in their direction. No pair that the extract joins both ways may lose
its route. It prints how much longer the routes are, how many are longer by over 5 percent, and how many pass a piece on
which a cycle is pushed. Ends with status 1 if a route is lost, or if one is shorter than over streets in both
directions. Needs Debian's python3-networkx and python3-geographiclib. No client trusts this file.
"""
import pathlib
import random
import statistics
import subprocess
import sys
import tempfile
import xml.etree.ElementTree as ElementTree
from collections import Counter
from itertools import pairwise
from typing import Any

import networkx
from geographiclib.geodesic import Geodesic

TOOLS = pathlib.Path(__file__).resolve().parents[2] / "tools"
sys.path[:0] = [str(TOOLS), str(pathlib.Path(__file__).parent)]

import profiles  # noqa: E402
import roads  # noqa: E402
from beside import octets_of, tags_of  # noqa: E402
from shapes import read_pushed  # noqa: E402

PAIRS, MUCH = 300, 0.05
CYCLE = profiles.PROFILES["cycle"]
BACK = {"-1", "reverse"}
ON = {"yes", "true", "1", "reversible"}


class Chart:
    """The road file for cycles of an extract, the pieces on which a cycle is pushed, and random pairs of its nodes."""

    def __init__(self, folder: pathlib.Path, extract: str) -> None:
        self.osm = folder / "whole.osm"
        self.osm.write_bytes(octets_of(extract))
        words = ["--profile", "cycle", "--ids", str(folder / "ids"), "--shapes", str(folder / "shapes")]
        done = subprocess.run([TOOLS / "osm_roads.py", self.osm, *words], capture_output=True, check=True)
        (folder / "roads").write_bytes(done.stdout)
        self.told = done.stderr.decode()
        self.pushed = read_pushed(str(folder / "shapes"))
        self.graph = networkx.Graph()
        for a, b, length in roads.read_roads(str(folder / "roads")).roads:
            self.graph.add_edge(a, b, weight=length / 10)
        self.osm_of = {int(row["node"]): int(row["osm_node"]) for row in roads.read_table(str(folder / "ids"))}
        times = Counter(self.osm_of.values())
        single = [node for node, osm in sorted(self.osm_of.items()) if times[osm] == 1]
        draw = random.Random(2)
        self.pairs = [(draw.choice(single), draw.choice(single)) for _ in range(PAIRS)]

    def pushes(self) -> str:
        metres = sum(self.graph[a][b]["weight"] for a, b in self.pushed)
        return f"{len(self.pushed)} pieces to be pushed along, {metres:,.0f} m together"

    def route(self, a: int, b: int) -> tuple[float, bool] | None:
        """The metres of a route, and whether it passes a piece on which a cycle is pushed."""
        if not networkx.has_path(self.graph, a, b):
            return None
        path = networkx.dijkstra_path(self.graph, a, b)
        metres = sum(self.graph[here][there]["weight"] for here, there in pairwise(path))
        return metres, any((min(hop), max(hop)) in self.pushed for hop in pairwise(path))


def directions(tags: dict[str, str]) -> tuple[bool, bool]:
    """Whether bicycles may use a way in its direction, and against it."""
    against = tags.get("oneway:bicycle") == "no" or any(
        value.startswith("opposite") for key, value in tags.items() if key.startswith("cycleway")
    )
    is_round = tags.get("junction") in ("roundabout", "circular")
    word = tags.get("oneway:bicycle", tags.get("oneway", "yes" if is_round else "no"))
    if word in BACK:
        return against, True
    return True, against or word not in ON


def whole(osm: pathlib.Path) -> tuple[Any, Any]:
    """The graphs over every point of the extract: both ways, and by direction. A closed point ends each way."""
    root = ElementTree.parse(osm).getroot()
    places: dict[int, tuple[float, float]] = {}
    closed: set[int] = set()
    both, directed = networkx.Graph(), networkx.DiGraph()
    for node in root.iter("node"):
        places[int(node.attrib["id"])] = float(node.attrib["lat"]), float(node.attrib["lon"])
        if profiles.blocked(CYCLE, tags_of(node)):
            closed.add(int(node.attrib["id"]))
    for way in root.iter("way"):
        tags = tags_of(way)
        if "highway" not in tags or profiles.refused(CYCLE, tags):
            continue
        along, against = directions(tags)
        for a, b in pairwise(int(step.attrib["ref"]) for step in way.iter("nd")):
            here, there = [(end, way.get("id"), a, b) if end in closed else end for end in (a, b)]
            metres = Geodesic.WGS84.Inverse(*places[a], *places[b])["s12"]
            both.add_edge(here, there, weight=metres)
            for is_open, edge in ((along, (here, there)), (against, (there, here))):
                if is_open:
                    directed.add_edge(*edge, weight=metres)
    return both, directed


def compare(name: str, chart: Chart, graph: Any) -> int:
    """Prints how much longer the routes are than over a graph. Returns the number of lost or too short ones."""
    more: list[tuple[float, float]] = []
    lost = short = pushed = apart = 0
    for a, b in chart.pairs:
        ends = chart.osm_of[a], chart.osm_of[b]
        is_there = all(end in graph for end in ends) and networkx.has_path(graph, *ends)
        ours = chart.route(a, b)
        if ours is None or not is_there:
            lost += is_there
            apart += not is_there
            continue
        theirs = networkx.dijkstra_path_length(graph, *ends)
        more.append((ours[0] - theirs, (ours[0] - theirs) / theirs if theirs else 0.0))
        pushed += ours[1]
        short += not graph.is_directed() and ours[0] < theirs - 0.001
    metres, shares = [one for one, _ in more], [share for _, share in more]
    print(
        f"beside {name}: {len(more)} pairs, {min(metres):.2f} to {max(metres):.2f} m longer, median {statistics.median(metres):.1f} m; "
        f"{sum(share > MUCH for share in shares)} by over 5 percent, {1 + max(shares):.2f} times at most; {lost} lose their route, "
        f"{apart} are not joined there; {pushed} pass a piece that is pushed along"
    )
    return lost + short


def main() -> None:
    if len(sys.argv) != 2:
        sys.exit("usage: checks/tools/cycles.py EXTRACT.osm[.bz2]")
    with tempfile.TemporaryDirectory() as folder:
        chart = Chart(pathlib.Path(folder), sys.argv[1])
        print(chart.told + chart.pushes())
        both, directed = whole(chart.osm)
        faults = compare("streets used both ways", chart, both)
        compare("one-way streets in their direction", chart, directed)
    sys.exit(1 if faults else 0)


if __name__ == "__main__":
    main()
