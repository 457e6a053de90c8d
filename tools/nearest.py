#!/usr/bin/env python3
"""Finds the node of a road file nearest to a place: tools/nearest.py ROADS LON LAT, or --name STREET --ids FILE

It writes the node's id to standard output and the distance to standard error. It refuses a place more than --within
metres from every node; swapped latitude and longitude may cause that. With --name it writes the nodes of a street, from
the owner's table of ids. With --name twice it writes the nodes where the two streets meet.

No client trusts it: it helps a person to name the start of a route.
"""
import argparse
import math
import sys

import geodesic
from roads import UNITS, Place, Trouble, degrees, command_line, end_of, read_roads, read_table

TOOL = "nearest.py"
WITHIN = 5_000.0


def distance(place: Place, spot: tuple[float, float], unit: str, what: str) -> float:
    """The distance to the spot, in metres or in units of the plane."""
    if UNITS[unit] is None:
        return math.dist(place, spot)
    far = geodesic.metres(degrees(place, unit, what), spot)
    return math.inf if far is None else far


def nearest(asked: argparse.Namespace) -> list[int]:
    spot = asked.place[0], asked.place[1]
    nodes = read_roads(asked.roads).nodes
    if UNITS[asked.unit] and not (-180 <= spot[0] <= 180 and -90 <= spot[1] <= 90):
        raise Trouble(f"longitude {spot[0]}, latitude {spot[1]} is not a place on earth")
    far, node = min(
        ((distance(place, spot, asked.unit, f"{asked.roads}: node {node}"), node) for node, place in nodes.items()),
        default=(math.inf, 0),
    )
    if math.isinf(far):
        raise Trouble(f"{asked.roads}: it has no node near that place")
    is_earth = UNITS[asked.unit] is not None
    most = asked.within if asked.within is not None else WITHIN if is_earth else math.inf
    away = f"node {node} is {far:,.1f}{' m' if is_earth else ''} away"
    if not far <= most:
        raise Trouble(
            f"{asked.roads}: {away}, and --within allows {most:,.0f}"
            + (": did you give the longitude first?" if is_earth else "")
        )
    sys.stderr.write(f"{TOOL}: {away}\n")
    return [node]


def named(asked: argparse.Namespace) -> list[int]:
    """The nodes that lie on all of these streets, from the table of ids. Upper and lower case count as equal."""
    if not asked.ids:
        raise Trouble("--name needs a table of ids: --ids FILE")
    rows = {
        int(row["node"]): {street.strip().lower() for street in row["streets"].split(";")}
        for row in read_table(asked.ids)
    }
    found = [
        node for node, streets in sorted(rows.items()) if all(name.strip().lower() in streets for name in asked.name)
    ]
    if not found:
        raise Trouble(f"{asked.ids}: no node is on {' and '.join(asked.name)}")
    return found


def main() -> None:
    parser = argparse.ArgumentParser(
        description="Writes the id of the node nearest to a place, or the ids of the nodes of a street."
    )
    parser.add_argument("roads", metavar="ROADS", help="a road file")
    parser.add_argument("place", metavar="LON LAT", nargs="*", type=float, help="a place")
    parser.add_argument(
        "--unit", choices=UNITS, default="1e-7", help="the unit of a coordinate of the map, in degrees (1e-7)"
    )
    parser.add_argument(
        "--within",
        type=float,
        metavar="METRES",
        help=f"the greatest distance of the node ({WITHIN:,.0f}, or any on a plane)",
    )
    parser.add_argument(
        "--name", metavar="STREET", action="append", help="a street; given twice, the nodes where both meet"
    )
    parser.add_argument("--ids", metavar="FILE", help="the owner's table of ids, with --name")
    asked = parser.parse_args(command_line())
    if len(asked.place) != (0 if asked.name else 2):
        parser.error("give a longitude and a latitude, or --name")
    print(*(named if asked.name else nearest)(asked), sep="\n")


if __name__ == "__main__":
    end_of(TOOL, main)
