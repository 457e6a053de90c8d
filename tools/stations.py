#!/usr/bin/env python3
"""Writes the stations nearest to a node, and the ways there: tools/stations.py GATEWAY KEY FROM STATIONS --count 3

STATIONS is a file of nodes with an id and a name in each line. A reply for a radius lists all nodes within it, so it
leaves out no nearer station. The radius grows until it contains enough stations. A reply for a route gives the way to
each station, as GeoJSON. If no station is joined to FROM, replies without a route prove that. Of two equally near
stations the one with the lower id counts as nearer. Every road can be used in both directions: there are no one-way
streets and no turns.
"""
from __future__ import annotations

import argparse
import sys
from array import array
from itertools import pairwise

from asking import (
    Feature,
    add_arguments,
    cost_of,
    count,
    feature,
    in_one_sentence,
    node,
    nowhere,
    parser_of,
    publication_of,
    read_ids,
    said_of,
    spot,
    tell,
    write,
)
from replies import reply_of
from roads import Place, Trouble, command_line, end_of
from shapes import Shapes, line_of, read_shapes

from gogbetiku import NoRoute, ReachedNode, Route
from gogbetiku.gateway import NoNode, Publication
from gogbetiku.table import GREATEST, radius_from

TOOL = "stations.py"
JOINED = "no station is joined to it"


def inside(over: Publication, start: int, ids: array[int], wanted: int) -> list[ReachedNode]:
    """The stations within the first radius that contains enough of them, or within the greatest radius, the nearest
    first."""
    alone = over.within(start, 0)
    arcs = [length for arcs in reply_of(alone.octets, "the reply").arcs.values() for length in arcs.values()]
    radius, leaves = radius_from(4 * max(arcs, default=1)), 0
    while True:
        answer = over.reach(start, radius, ids)
        if len(answer.found) >= wanted or radius == GREATEST:
            return answer.found
        # if a greater radius has no more nodes, only the greatest radius can show more
        radius = GREATEST if answer.leaves == leaves else radius_from(1.4 * radius)
        leaves = answer.leaves


def way(
    over: Publication, start: int, station: ReachedNode, asked: argparse.Namespace, shapes: Shapes
) -> tuple[Route, list[Place]]:
    """The proved way to a station, and its line."""
    answer = over.route(start, station.id, keeps=True)
    if not isinstance(answer.found, Route) or answer.found.length != station.distance:
        raise Trouble(f"station {station.id}: two accepted replies disagree on its distance: keep both for an audit")
    arcs, places = reply_of(answer.octets, "the reply").arcs, {one.id: (one.x, one.y) for one in answer.found.nodes}
    line = [places[start]]
    for a, b in pairwise(answer.found.ids):
        line += line_of(shapes, (a, b), (places[a], places[b]), arcs[a][b], asked.unit, asked.lengths)[1:]
    return answer.found, line


def unjoined(over: Publication, start: int, names: dict[int, str]) -> tuple[list[int], list[int]]:
    """The stations to which replies prove that no route leads, and those that the server says are not nodes."""
    apart, unknown = [], []
    for station in names:
        try:
            if not isinstance(over.route(start, station).found, NoRoute):
                raise Trouble(
                    f"station {station}: two accepted replies disagree on whether it is joined: keep both for an audit"
                )
            apart.append(station)
        except NoNode:
            unknown.append(station)
    return apart, unknown


def features_of(over: Publication, asked: argparse.Namespace, names: dict[int, str]) -> tuple[list[Feature], str]:
    """Returns the ways to the nearest stations, or features that say that there is none, and the line for standard
    error."""
    found = inside(over, asked.start, array("I", names), min(asked.count, len(names)))
    if not found:
        apart, unknown = unjoined(over, asked.start, names)
        answer = (
            JOINED
            if not unknown
            else f"{JOINED}, of those that are nodes; which are nodes is the server's word and not proved"
        )
        return [
            nowhere(
                {
                    **said_of(over, asked, asked.start),
                    "answer": answer,
                    "no route to": apart,
                    "no node, by the server": unknown,
                }
            )
        ], answer
    shapes = read_shapes(asked.shapes) if asked.shapes else {}
    features = []
    for rank, station in enumerate(found[: asked.count], 1):
        route, line = way(over, asked.start, station, asked, shapes)
        said: Feature = {
            **said_of(over, asked, asked.start),
            "station": station.id,
            "name": names[station.id],
            "rank": rank,
            **cost_of("length", route.length, asked.lengths),
            "nodes": route.ids,
        }
        places = [spot(place, asked, f"station {station.id}") for place in line]
        features.append(feature("LineString", places, said) if len(places) > 1 else feature("Point", places[0], said))
    is_cut = len(features) < min(asked.count, len(names))
    few = "; no other is joined to it, or is a node" if is_cut else ""
    return features, f"{len(features)} of {len(names)} stations, and none of the list is nearer{few}"


def main() -> None:
    parser = parser_of("Writes the ways to the nearest stations as GeoJSON.")
    parser.add_argument("start", metavar="FROM", type=node)
    parser.add_argument("stations", metavar="STATIONS", help="a file of nodes with an id and a name in each line")
    parser.add_argument("--count", type=count, default=3, help="how many (3)")
    add_arguments(parser, has_places=True)
    asked = parser.parse_args(command_line())
    names = read_ids(asked.stations)
    over = publication_of(asked)
    with in_one_sentence():
        features, said = features_of(over, asked, names)
        write(features, asked)
    sys.stdout.flush()
    tell(TOOL, over, said)


if __name__ == "__main__":
    end_of(TOOL, main)
