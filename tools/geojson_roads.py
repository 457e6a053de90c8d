#!/usr/bin/env python3
"""Makes a road file from the LineStrings of a GeoJSON file: tools/geojson_roads.py FILE.geojson > FILE.roads

Lines meet where they share a point, to 1e-7 degrees. A line has its length on the ellipsoid or, with --length, the
length or the time that a property gives, in metres or another unit; a line without this property is then an error. A
given length is divided among the pieces of its line in proportion to their lengths on the ellipsoid. Standard error
reports what was dropped or changed.

No client trusts it: an owner looks at its output before signing it.
"""
import argparse
import json
import math
from typing import Any, Iterator

from network import COSTS, Line, Told, add_arguments, comments_of, network_of, write
from osm import place_of
from roads import MOST_LENGTH, Place, Trouble, command_line, end_of, write_table

TOOL = "geojson_roads.py"
Feature = dict[str, Any]
# metres, or seconds, in a unit of the given length
METRES = {"metres": 1.0, "kilometres": 1_000.0, "feet": 0.3048, "miles": 1_609.344}
SECONDS = {"seconds": 1.0, "minutes": 60.0}


class Survey:
    """The lines of a GeoJSON file. The key of a point is its longitude and latitude in 1e-7 degrees."""

    def __init__(self, path: str, asked: argparse.Namespace, told: Told):
        self.path, self.asked, self.told = path, asked, told
        self.places: dict[int, Place] = {}

    def lines(self) -> Iterator[Line]:
        for number, feature in enumerate(self.features()):
            where = f"feature {number}"
            try:
                yield from self.lines_of(feature, where)
            except (KeyError, TypeError, ValueError, AttributeError):
                raise Trouble(f"{self.path}: {where}: not a GeoJSON feature (RFC 7946)") from None

    def features(self) -> list[Feature]:
        try:
            with open(self.path, encoding="utf-8") as file:
                whole = json.load(file)
        except (ValueError, RecursionError) as error:
            raise Trouble(f"{self.path}: not valid JSON: {error}") from None
        if not isinstance(whole, dict) or not isinstance(whole.get("features"), list):
            raise Trouble(f"{self.path}: not a GeoJSON feature collection")
        found: list[Feature] = whole["features"]
        return found

    def lines_of(self, feature: Feature, where: str) -> Iterator[Line]:
        geometry, properties = feature["geometry"] or {"type": "none"}, feature["properties"] or {}
        many = geometry["type"] == "MultiLineString"
        if geometry["type"] != "LineString" and not many:
            self.told.add(f"features dropped, {geometry['type']}", where)
            return
        lines = geometry["coordinates"] if many else [geometry["coordinates"]]
        told = self.told_length(properties, where)
        if told is not None and len(lines) > 1:
            raise Trouble(f"{self.path}: {where}: one length for {len(lines)} lines")
        name = properties.get(self.asked.name)
        for line in lines:
            yield Line(where, tuple(self.key(point, where) for point in line), "" if name is None else str(name), told)

    def told_length(self, properties: Feature, where: str) -> float | None:
        if not self.asked.length:
            return None
        try:
            told = float(properties[self.asked.length])
        except (KeyError, TypeError, ValueError, OverflowError):
            raise Trouble(f"{self.path}: {where}: its property {self.asked.length} is not a number") from None
        if not 0 <= told < math.inf:
            raise Trouble(f"{self.path}: {where}: {told} is not a length")
        told *= (METRES | SECONDS)[self.asked.length_unit]
        if told * COSTS[self.asked.cost] > MOST_LENGTH:
            raise Trouble(
                f"{self.path}: {where}: {told:.6g} {'seconds' if self.asked.cost == 'seconds' else 'metres'} is longer than a road file can express"
            )
        return told

    def key(self, point: list[float], where: str) -> int:
        place = place_of(point[0], point[1], f"{self.path}: {where}")
        key = (place[0] + 2**31) << 32 | (place[1] + 2**31)
        self.places[key] = place
        return key


def main() -> None:
    parser = argparse.ArgumentParser(
        description="Makes a road file from the LineStrings of a GeoJSON file, on standard output."
    )
    parser.add_argument("survey", metavar="FILE", help="a feature collection (RFC 7946)")
    parser.add_argument(
        "--length", metavar="NAME", help="the property that gives a line's length (measured without it)"
    )
    parser.add_argument(
        "--length-unit",
        choices=METRES | SECONDS,
        default="metres",
        help="the unit of that length (metres); seconds or minutes make a map of seconds",
    )
    parser.add_argument("--name", metavar="NAME", default="name", help="the property that gives a street's name (name)")
    parser.add_argument("--licence", default="", help="the licence of the data, for the first comment line")
    add_arguments(parser)
    asked = parser.parse_args(command_line())
    asked.cost = "seconds" if asked.length_unit in SECONDS else "decimetres"
    if asked.cost == "seconds" and not asked.length:
        parser.error("--length-unit needs --length")
    told = Told()
    survey = Survey(asked.survey, asked, told)
    network = network_of(asked.survey, list(survey.lines()), survey.places, asked, told)
    network.roads.comments = comments_of("made by tools/geojson_roads.py", asked.licence, asked)
    if asked.ids:
        write_table(
            asked.ids,
            ("node", "streets"),
            ((node, "; ".join(names)) for node, names in sorted(network.streets.items())),
        )
    network.write_shapes(asked.shapes)
    write(TOOL, network.roads, told, asked.cost)


if __name__ == "__main__":
    end_of(TOOL, main)
