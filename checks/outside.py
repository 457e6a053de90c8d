#!/usr/bin/python3
"""Compares the reference with other programs: checks/outside.py [--lms]

Over twenty random maps, the distances, shortest routes and nodes within radii must be those of networkx (Debian's
python3-networkx, which only /usr/bin/python3 finds). With --lms, the public keys and whole signatures of both heights
must be those that Bouncy Castle makes from the same I and SEED, by checks/lms/run (Debian's default-jdk-headless and
libbcprov-java); the greater height takes a minute. Nothing here is proved, and no client trusts it. Ends with status 1
if anything differs.
"""
import hashlib
import pathlib
import random
import re
import subprocess
import sys

import networkx

TOP = pathlib.Path(__file__).resolve().parent.parent
sys.path[:0] = [str(TOP / "reference"), str(TOP / "checks")]

from cross import made_map  # noqa: E402
from gogbetiku_reference.faults import Fault  # noqa: E402
from gogbetiku_reference.lms import KINDS, key_of  # noqa: E402
from gogbetiku_reference.maps import Map, map_of  # noqa: E402


def graph_of(chart: Map) -> networkx.Graph:
    graph = networkx.Graph()
    graph.add_nodes_from(chart.places)
    graph.add_weighted_edges_from((here, there, length) for here, arcs in chart.arcs.items() for there, length in arcs)
    return graph


def compare_map(chart: Map, radius: int) -> int:
    """The number of distances, routes and radii of a map that differ."""
    graph, wrong = graph_of(chart), 0
    for start in chart.places:
        distances = networkx.single_source_dijkstra_path_length(graph, start)
        wrong += distances != chart.distances(start)
        wrong += set(networkx.ego_graph(graph, start, radius=radius, distance="weight")) != {
            node for node, length in chart.distances(start).items() if length <= radius
        }
        for end in chart.places:
            route = chart.route(start, end)
            wrong += (route is None) != (end not in distances)
            wrong += route is not None and (
                chart.length_of(route) != distances[end] or not chart.is_shortest(start, end, route)
            )
    return wrong


def compare_maps(rng: random.Random, count: int) -> int:
    wrong = made = 0
    while made < count:
        try:
            chart = map_of(made_map(rng))
        except Fault:
            continue
        made += 1
        wrong += compare_map(chart, rng.choice((0, 5, 30, 2**33)))
    return wrong


def compare_signatures() -> int:
    """The number of keys and signatures that differ from Bouncy Castle's."""
    said = subprocess.run([TOP / "checks/lms/run"], capture_output=True, check=True, text=True).stdout
    wrong = 0
    for part in re.split(r"^(?=H)", said, flags=re.M)[1:]:
        kind, secret = re.findall(r"^(H\d+) secret ([0-9a-f]+)", part)[0]
        key = key_of(KINDS[kind.lower()], bytes.fromhex(secret))
        wrong += key.public.hex() != re.findall(r"public ([0-9a-f]+)", part)[0]
        for slot, text, digest in re.findall(
            r"slot (\d+) text '(\w*)' octets \d+ sha256 ([0-9a-f]+) verifies true", part
        ):
            wrong += hashlib.sha256(key.sign(int(slot), text.encode())).hexdigest() != digest
    return wrong


def main() -> int:
    wrong = compare_maps(random.Random(1), 20)
    print(f"outside: {wrong} differ from networkx over 20 maps")
    if "--lms" in sys.argv:
        differ = compare_signatures()
        print(f"outside: {differ} keys and signatures differ from Bouncy Castle's")
        wrong += differ
    return 1 if wrong else 0


if __name__ == "__main__":
    sys.exit(main())
