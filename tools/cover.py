#!/usr/bin/env python3
"""Writes what some stations cover within a limit: tools/cover.py GATEWAY KEY STATIONS LIMIT > cover.geojson

The GeoJSON has the nodes within the limit of a station, each with its nearest station (the lower id of two). It also has
the roads, each with the length of its covered part. For a road of length L from a to b this is min(L, max(0, r - d(a)) + max(0, r - d(b))).
The count of nodes that no station reaches is proved: it is the signed count less the count of reached nodes. Their ids
and the length of the whole map come from the publication. They are not proved, unless --recompute names the program,
which then recomputes the signed root from the publication. Every road can be used in both directions: there are no
one-way streets and no turns.
"""
import argparse
import os
import subprocess
import tempfile

from asking import (
    Feature,
    add_arguments,
    count,
    feature,
    in_one_sentence,
    parser_of,
    publication_of,
    read_ids,
    said_of,
    spot,
    tell,
    write,
)
from reached import Reached, narrow_of, pieces, reached
from replies import map_of
from roads import UNITS, Roads, Trouble, command_line, end_of
from shapes import read_shapes
from signed import program_of

from bands import drawn
from gogbetiku.gateway import Publication, header_of

TOOL = "cover.py"
Nearest = dict[int, tuple[int, int]]


def union(over: Publication, stations: list[int], limit: int) -> tuple[Reached, Nearest]:
    """Returns all that lies within the limit of any station, and for each node its nearest station and the distance to
    it."""
    whole = Reached({}, {}, {})
    nearest: Nearest = {}
    for station in stations:
        found = reached(over, station, limit)
        whole.places |= found.places
        whole.arcs |= found.arcs
        for node, cost in found.costs.items():
            nearest[node] = min(nearest.get(node, (cost, station)), (cost, station))
    whole.costs = {node: cost for node, (cost, _) in nearest.items()}
    return whole, nearest


def covered(found: Reached, a: int, b: int, length: int, limit: int) -> int:
    return min(length, sum(max(0, limit - found.costs[end]) for end in (a, b) if end in found.costs))


def is_recomputed(program: str, octets: bytes, over: Publication, node: int) -> bool:
    """Whether the signed header, with its root, matches the publication's nodes and roads. The program answers only if
    it does."""
    with tempfile.TemporaryDirectory() as folder:
        path = os.path.join(folder, "map.pub")
        with open(path, "wb") as file:
            file.write(octets)
        done = subprocess.run(
            [program_of(program), "prove", path, str(node), str(node)], capture_output=True, check=False
        )
    if (
        done.returncode == 0
        and over.header
        and header_of(done.stdout).octets == header_of(octets).octets == over.header.octets
    ):
        return True
    raise Trouble("the publication is not the map whose root was signed, so nothing from it is used")


def least_roads(chart: Roads) -> dict[tuple[int, int], int]:
    """The length of each road; of parallel roads only the shortest counts."""
    found: dict[tuple[int, int], int] = {}
    for a, b, length in chart.roads:
        pair = min(a, b), max(a, b)
        found[pair] = min(length, found.get(pair, length))
    return found


def of_publication(over: Publication, found: Reached, asked: argparse.Namespace) -> tuple[Feature, list[Feature]]:
    """Returns the uncovered nodes of the publication, marked as unproved unless its root was recomputed."""
    octets = over.publication()
    is_proved = bool(asked.recompute) and is_recomputed(asked.recompute, octets, over, min(found.costs))
    chart, word = (
        map_of(octets, "the publication"),
        "its signed root was recomputed" if is_proved else "not proved: from the publication as the server sent it",
    )
    left = sorted(set(chart.nodes) - set(found.costs))
    whole = sum(least_roads(chart).values())
    features = [
        feature(
            "Point", spot(chart.nodes[node], asked, f"node {node}"), {"node": node, "reached by": None, "source": word}
        )
        for node in left
    ]
    return {"whole length": whole, "unreached nodes": left, "of the whole length and these nodes": word}, features


def features_of(over: Publication, names: dict[int, str], asked: argparse.Namespace) -> tuple[list[Feature], Feature]:
    found, nearest = union(over, list(names), asked.limit)
    shapes = read_shapes(asked.shapes) if asked.shapes else {}
    narrow = narrow_of(found.places[min(names)], UNITS[asked.unit])
    features = [
        feature(
            "Point",
            spot(found.places[node], asked, f"node {node}"),
            {"node": node, "station": station, "name": names[station], "distance": cost},
        )
        for node, (cost, station) in sorted(nearest.items())
    ]
    sum_covered = 0
    for a, b, length in sorted(found.roads()):
        part = covered(found, a, b, length, asked.limit)
        sum_covered += part
        road = Reached({a: 0}, found.places, {a: {b: length}})
        lines = (
            list(pieces(road, found.costs, -1, asked.limit, shapes, asked.unit, asked.lengths, narrow))
            if b in found.places
            else []
        )
        said: Feature = {"road": [a, b], "length": length, "covered": part}
        features.append(
            feature(
                "MultiLineString",
                drawn(lines, asked),
                said if b in found.places else {**said, "lacks": "the end of the road that is not cut"},
            )
        )
    count_of_all = over.header.nodes if over.header else 0
    head: Feature = {
        "stations": list(names),
        "limit": asked.limit,
        **said_of(over, asked),
        "nodes": count_of_all,
        "reached": len(nearest),
        "reached by none": count_of_all - len(nearest),
        "covered length": sum_covered,
    }
    more, left = of_publication(over, found, asked)
    return features + left, {**head, **more}


def main() -> None:
    parser = parser_of("Writes the nodes and roads that some stations cover within a limit, as GeoJSON.")
    parser.add_argument("stations", metavar="STATIONS", help="a file of nodes with an id and a name in each line")
    parser.add_argument("limit", metavar="LIMIT", type=count, help="in the map's unit")
    parser.add_argument(
        "--recompute", metavar="PROGRAM", help="road_proof, which recomputes the signed root from the publication"
    )
    add_arguments(parser, has_places=True)
    asked = parser.parse_args(command_line())
    names = read_ids(asked.stations)
    over = publication_of(asked)
    with in_one_sentence():
        features, head = features_of(over, names, asked)
        write(features, asked, **{"cover": head})
    tell(TOOL, over, f"{head['reached']:,} of {head['nodes']:,} nodes are reached, {head['reached by none']:,} by none")


if __name__ == "__main__":
    end_of(TOOL, main)
