#!/usr/bin/env python3
"""Writes what a reply proves as GeoJSON or GPX: tools/geojson.py PUBKEY REPLY FROM TO LEAST [CHAIN] > FILE

The arguments are those of `road_proof check`, or with --reach those of `check-reach`. The proved client checks the
reply first. If it refuses the reply, the tool writes the refusal and no geometry, with status 1. Each coordinate comes
from a leaf of the accepted reply. No client trusts this file: it shows what the client accepted.

With --shapes a road is drawn along its line if the line's ends are the places of the road's leaves. For lengths in
metres, the line must also be no longer than the signed length. Shapes, and the places where a cycle is pushed, are not
proved; the output says so.
"""
import argparse
import json
import pathlib
from itertools import pairwise
from xml.sax.saxutils import escape, quoteattr

from proved import Accepted, Question, accepted, add_arguments
from replies import RADIUS, ROUTE, reply_of
from roads import OSM_LICENCE, UNITS, degrees, end_of, output, read_table
from shapes import PER_METRE, line_of, read_pushed, read_shapes

TOOL = "geojson.py"
OSM_PAGE = "https://www.openstreetmap.org/copyright"
Place = tuple[float, float]
# how many units of a length make a second
PER_SECOND = {"milliseconds": 1_000, "seconds": 1}


def told(found: Accepted, asked: argparse.Namespace) -> dict[str, object]:
    """The proved answer, without the places."""
    said: dict[str, object] = {
        "from": asked.start,
        ("radius" if found.kind is RADIUS else "to"): asked.end,
        "proved": found.kind,
        "version": found.version,
    }
    if found.kind is ROUTE:
        said |= {"length": found.length, "nodes": found.nodes} | in_words("", found.length, asked.lengths)
        if asked.shapes:
            pushed = read_pushed(asked.shapes)
            said |= {
                "drawn": "along shapes, which are not proved",
                "push": [[a, b] for a, b in pairwise(found.nodes) if (min(a, b), max(a, b)) in pushed],
            }
    return said


def in_words(what: str, length: int, lengths: str) -> dict[str, object]:
    """A length in minutes, if the owner says that lengths are times, otherwise in kilometres."""
    if lengths in PER_SECOND:
        return {f"{what}minutes": round(length / PER_SECOND[lengths] / 60, 2)}
    return {f"{what}kilometres": length / PER_METRE[lengths] / 1_000} if lengths in PER_METRE else {}


def along(found: Accepted, places: dict[int, Place], asked: argparse.Namespace) -> list[Place]:
    """The places along a route: the places of its nodes and, with --shapes, the bends between them."""
    if not asked.shapes:
        return [places[node] for node in found.nodes]
    shapes, arcs = read_shapes(asked.shapes), reply_of(pathlib.Path(asked.reply).read_bytes(), asked.reply).arcs
    line = [places[found.nodes[0]]]
    for a, b in pairwise(found.nodes):
        step = line_of(shapes, (a, b), (found.places[a], found.places[b]), arcs[a][b], asked.unit, asked.lengths)
        line += [degrees(spot, asked.unit, asked.shapes) for spot in step[1:]]
    return line


def of_node(node: int, found: Accepted, streets: dict[int, str], lengths: str) -> dict[str, object]:
    """The properties of one node. The names of streets are not signed."""
    said: dict[str, object] = {"node": node}
    if found.distances is not None:
        said |= {"distance": found.distances[node]} | in_words("", found.distances[node], lengths)
    return said | ({"streets": streets[node]} if streets.get(node) else {})


def feature(kind: str, coordinates: object, properties: dict[str, object]) -> dict[str, object]:
    return {"type": "Feature", "properties": properties, "geometry": {"type": kind, "coordinates": coordinates}}


def geojson_of(found: Accepted, places: dict[int, Place], streets: dict[int, str], asked: argparse.Namespace) -> str:
    """A feature collection (RFC 7946): a line for a route of two nodes or more, otherwise a point for each node."""
    said = told(found, asked)
    if found.kind is ROUTE and len(found.nodes) > 1:
        features = [feature("LineString", along(found, places, asked), said)]
    else:
        features = [
            feature("Point", places[node], said | of_node(node, found, streets, asked.lengths)) for node in found.nodes
        ]
    head = {"type": "FeatureCollection"} | ({"attribution": asked.licence} if asked.licence else {})
    lines = ",\n".join(json.dumps(one, ensure_ascii=False) for one in features)
    return json.dumps(head, ensure_ascii=False)[:-1] + f', "features": [\n{lines}\n]}}\n'


def point(tag: str, node: int, found: Accepted, place: Place, streets: dict[int, str], lengths: str) -> str:
    said = " ".join(f"{key} {value}" for key, value in of_node(node, found, streets, lengths).items())
    return f'<{tag} lat="{place[1]:.7f}" lon="{place[0]:.7f}"><name>{node}</name><desc>{escape(said)}</desc></{tag}>'


def gpx_of(found: Accepted, places: dict[int, Place], streets: dict[int, str], asked: argparse.Namespace) -> str:
    """GPX 1.1: a route, or a waypoint for each node."""
    said = escape(" ".join(f"{key} {value}" for key, value in told(found, asked).items() if key != "nodes"))
    tag = "rtept" if found.kind is ROUTE else "wpt"
    points = "\n".join(point(tag, node, found, places[node], streets, asked.lengths) for node in found.nodes)
    page = f"<license>{OSM_PAGE}</license>" if asked.licence == OSM_LICENCE else ""
    copyright = f"<copyright author={quoteattr(asked.licence)}>{page}</copyright>" if asked.licence else ""
    inner = f"<rte><desc>{said}</desc>\n{points}\n</rte>" if found.kind is ROUTE else points
    return (
        '<?xml version="1.0" encoding="UTF-8"?>\n<gpx xmlns="http://www.topografix.com/GPX/1/1" version="1.1" creator="tools/geojson.py">\n'
        f"<metadata><desc>{said}</desc>{copyright}</metadata>\n{inner}\n</gpx>\n"
    )


def arguments() -> argparse.Namespace:
    parser = argparse.ArgumentParser(
        description="Writes what a reply proves as GeoJSON, after the proved client has accepted the reply."
    )
    parser.add_argument("key", metavar="PUBKEY", help="the owner's public key")
    parser.add_argument("reply", metavar="REPLY")
    parser.add_argument("start", metavar="FROM", type=int)
    parser.add_argument("end", metavar="TO", type=int)
    parser.add_argument("least", metavar="LEAST", type=int, help="the minimum version of the map")
    parser.add_argument("chain", metavar="CHAIN", nargs="?", help="the chain file of an owner with later keys")
    parser.add_argument("--gpx", action="store_true", help="GPX 1.1 instead")
    parser.add_argument(
        "--unit", choices=UNITS, default="1e-7", help="the unit of a coordinate of the map, in degrees (1e-7)"
    )
    parser.add_argument(
        "--lengths",
        default="decimetres",
        metavar="WORD",
        help="the unit of lengths, which the owner gives with the key (decimetres): "
        f"for {', '.join(PER_METRE)} it writes kilometres, for {', '.join(PER_SECOND)} minutes",
    )
    parser.add_argument(
        "--shapes",
        metavar="FILE",
        help="the lines of roads and the roads on which a cycle is pushed, which are not signed",
    )
    parser.add_argument(
        "--ids", metavar="FILE", help="the owner's table of ids, for the names of streets, which are not signed"
    )
    parser.add_argument(
        "--licence", default="", metavar="TEXT", help=f"the licence of the map's data, such as {OSM_LICENCE!r}"
    )
    add_arguments(parser)
    return parser.parse_args()


def main() -> None:
    asked = arguments()
    found = accepted(
        Question(
            asked.key,
            asked.reply,
            asked.start,
            asked.end,
            asked.least,
            asked.chain,
            asked.reach,
            asked.library,
            asked.max_age,
        )
    )
    places = {node: degrees(found.places[node], asked.unit, f"{asked.reply}: node {node}") for node in found.nodes}
    streets = {int(row["node"]): row["streets"] for row in read_table(asked.ids)} if asked.ids else {}
    output().write((gpx_of if asked.gpx else geojson_of)(found, places, streets, asked))


if __name__ == "__main__":
    end_of(TOOL, main)
