#!/usr/bin/env python3
"""Writes the roads within given costs of a node: tools/bands.py GATEWAY KEY FROM 300,600,900 > bands.geojson

Costs are in the map's unit, which the owner gives with the key (--lengths). The output is GeoJSON: the reached roads,
which are the arcs of the accepted reply's leaves. Each road is cut where a band ends. The place of a cut is drawn
between the places of the road's ends. If no leaf has a road's other end, the road is listed and not cut. The outline
around the roads is only a drawing. Every road can be used in both directions: there are no one-way streets and no
turns.
"""
import argparse
from functools import partial

from asking import (
    Feature,
    add_arguments,
    cost_of,
    count,
    feature,
    in_one_sentence,
    node,
    parser_of,
    publication_of,
    said_of,
    spot,
    tell,
    write,
)
from outline import outline
from reached import Line, Reached, narrow_of, pieces, reached
from roads import UNITS, Trouble, command_line, end_of
from shapes import read_shapes

from gogbetiku.gateway import Publication

TOOL = "bands.py"


def costs(word: str) -> list[int]:
    found = [count(one) for one in word.split(",")]
    if found != sorted(set(found)):
        raise argparse.ArgumentTypeError(f"{word}: the costs must rise from band to band")
    return found


def drawn(lines: list[Line], asked: argparse.Namespace) -> list[object]:
    """The lines, with coordinates as longitude and latitude."""
    scale = UNITS[asked.unit]
    if scale is None:
        raise Trouble("its coordinates are on a plane, so they are not longitude and latitude")
    return [[[x / scale, y / scale] for x, y in line] for line in lines]


def lacks(found: Reached, limit: int, asked: argparse.Namespace, said: Feature) -> list[Feature]:
    """A point for each road that leads past the limit to an end that no leaf has. The point is where the road
    begins."""
    return [
        feature(
            "Point",
            spot(found.places[a], asked, f"node {a}"),
            {
                **said,
                "lacks": "the end of a road that is not cut",
                "road": [a, b],
                "length": length,
                "reached": min(length, limit - found.costs[a]),
            },
        )
        for a, b, length in found.lacking()
    ]


def features_of(over: Publication, asked: argparse.Namespace) -> list[Feature]:
    found = reached(over, asked.start, asked.costs[-1])
    said, narrow = said_of(over, asked, asked.start), narrow_of(found.places[asked.start], UNITS[asked.unit])
    of_band = partial(
        pieces,
        found,
        found.costs,
        shapes=read_shapes(asked.shapes) if asked.shapes else {},
        unit=asked.unit,
        lengths=asked.lengths,
        narrow=narrow,
    )
    features, inner, all_lines = [], -1, []
    for cost in asked.costs:
        lines = list(of_band(inner, cost))
        all_lines += lines
        nodes = sum(one <= cost for one in found.costs.values())
        here: Feature = {**said, **cost_of("cost", cost, asked.lengths), "nodes": nodes}
        features.append(
            feature("MultiLineString", drawn(lines, asked), {**here, "above": max(inner, 0), "shows": "reached roads"})
        )
        around = outline(all_lines, narrow) if all_lines else []
        features.append(
            feature(
                "MultiPolygon",
                [drawn(polygon, asked) for polygon in around],
                {**here, "shows": "an outline, which is only a drawing"},
            )
        )
        inner = cost
    return features + lacks(found, asked.costs[-1], asked, said)


def main() -> None:
    parser = parser_of("Writes the roads that can be reached within given costs, as GeoJSON.")
    parser.add_argument("start", metavar="FROM", type=node)
    parser.add_argument(
        "costs",
        metavar="COSTS",
        type=costs,
        help="the costs at which bands end, such as 300,600,900, in the map's unit",
    )
    add_arguments(parser, has_places=True)
    asked = parser.parse_args(command_line())
    over = publication_of(asked)
    with in_one_sentence():
        features = features_of(over, asked)
        write(features, asked)
    listed = len(features) - 2 * len(asked.costs)
    tell(
        TOOL,
        over,
        f"{len(asked.costs)} bands" + (f", {listed:,} roads are listed without their other end" if listed else ""),
    )


if __name__ == "__main__":
    end_of(TOOL, main)
