#!/usr/bin/env python3
"""Draws a map, and over it the content of a reply: tools/draw.py PUB|ROADS [REPLY] > FILE.svg

Orange points are the nodes whose leaves are in the reply. Blue lines are the pairs whose distances are in the reply;
each is a straight line between the two nodes. The dark line is the route. It is hollow along a one-way street of the
--shapes file on which a cycle is pushed. All places come from the reply's leaves. The given map is grey, since it is
not proved. It is drawn below a reply only if each leaf agrees with it in place, roads and lengths. With --check the
proved client checks the reply first. If it refuses the reply, the tool writes the refusal and no picture. With --check
the dark points are both ends of the question, or the centre of the radius. Without --check the picture shows the
content of the files, true or not. No client trusts this file.
"""
import argparse
import pathlib
import sys
from dataclasses import dataclass, field
from itertools import pairwise
from math import cos, radians
from typing import Iterable
from xml.sax.saxutils import escape

from proved import Question, accepted, add_arguments
from replies import APART, PUBLICATION, RADIUS, ROUTE, Reply, map_of, reply_of
from roads import UNITS, Place, Roads, Trouble, end_of, read_roads
from shapes import PER_METRE, Shapes, line_of, read_pushed, read_shapes

TOOL = "draw.py"
WIDTH, EDGE, LINE = 640, 12, 24
GREY, POINT, BLUE, ORANGE, DARK, HOLLOW = "#d8d8d8", "#b0b0b0", "#4a90d9", "#f08c2e", "#202040", "white"

Pair = tuple[int, int]


class Paper:
    """Maps the places of the map to the picture. On a map y grows upwards, on the picture downwards. A degree of
    longitude is shorter than a degree of latitude by the cosine of the middle latitude."""

    def __init__(self, places: Iterable[Place], unit: str):
        xs, ys = zip(*places)
        scale = UNITS[unit]
        self.narrow = cos(radians((min(ys) + max(ys)) / 2 / scale)) if scale else 1.0
        self.left, self.top = min(xs), max(ys)
        self.scale = (WIDTH - 2 * EDGE) / max(1, (max(xs) - min(xs)) * self.narrow)
        self.height = round((max(ys) - min(ys)) * self.scale) + 2 * EDGE

    def at(self, place: Place) -> str:
        return f"{EDGE + (place[0] - self.left) * self.narrow * self.scale:.0f} {EDGE + (self.top - place[1]) * self.scale:.0f}"

    def line(self, places: Iterable[Place]) -> str:
        return "M" + "L".join(map(self.at, places))


@dataclass
class Bends:
    """The unsigned lines of roads between their ends, the roads on which a cycle is pushed, and the units of a
    coordinate and of a length."""

    unit: str
    lengths: str
    shapes: Shapes = field(default_factory=dict)
    pushed: set[Pair] = field(default_factory=set)

    def line(self, ends: Pair, places: dict[int, Place], length: int) -> list[Place]:
        return line_of(self.shapes, ends, (places[ends[0]], places[ends[1]]), length, self.unit, self.lengths)

    def pushes(self, route: list[int]) -> list[Pair]:
        """The roads of a route on which a cycle may have to be pushed."""
        return [hop for hop in pairwise(route) if (min(hop), max(hop)) in self.pushed]


@dataclass
class Drawn:
    """The content drawn over a map: a reply, the nodes of its route, and the ends of the question."""

    reply: Reply
    route: list[int]
    ends: list[int]


def unlike(chart: Roads, reply: Reply) -> str | None:
    """How the map differs from the first leaf of a reply with which it disagrees."""
    roads: dict[int, dict[int, int]] = {node: {} for node in reply.places}
    for a, b, length in chart.roads:
        for here, there in ((a, b), (b, a)):
            if here in roads:
                roads[here][there] = min(length, roads[here].get(there, length))
    for node, place in reply.places.items():
        if chart.nodes.get(node) != place:
            return f"it has node {node} at {chart.nodes.get(node, 'no place')}, but the reply's leaf has it at {place}"
        for other in sorted(roads[node].items() ^ reply.arcs[node].items()):
            whose = "the reply's leaf" if other in reply.arcs[node].items() else "this map alone"
            return f"a road of length {other[1]:,} between the nodes {node} and {other[0]} is in {whose}"
    return None


def points_of(paper: Paper, places: Iterable[Place]) -> str:
    """Points, written as lines of length 0 with round ends, which is the shortest form."""
    return " ".join(f"M{paper.at(place)}h0" for place in places)


def layers_of(paper: Paper, chart: Roads, over: Drawn | None, bends: Bends) -> list[tuple[str, float, str]]:
    """The colour, width and path of each layer, the lowest first. A reply is drawn only from its leaves."""
    grey = " ".join(paper.line(bends.line((a, b), chart.nodes, length)) for a, b, length in chart.roads)
    layers: list[tuple[str, float, str]] = [(GREY, 1, grey), (POINT, 2.2, points_of(paper, chart.nodes.values()))]
    if not over:
        return layers
    places, arcs = over.reply.places, over.reply.arcs
    pairs = " ".join(paper.line((places[a], places[b])) for a, b in over.reply.pairs if a in places and b in places)
    layers += [(BLUE, 0.35, pairs), (ORANGE, 4, points_of(paper, places.values()))]
    lines = {hop: bends.line(hop, places, arcs[hop[0]].get(hop[1], 0)) for hop in pairwise(over.route)}
    if lines:
        layers.append(
            (
                DARK,
                3,
                paper.line(
                    [places[over.route[0]], *(place for hop in pairwise(over.route) for place in lines[hop][1:])]
                ),
            )
        )
        layers.append((HOLLOW, 1.4, " ".join(paper.line(lines[hop]) for hop in bends.pushes(over.route))))
    return [*layers, (DARK, 9, points_of(paper, (places[node] for node in over.ends)))]


def brought(reply: Reply, size: int) -> str:
    """The content of a reply, in one line. The number of all nodes is that of its header, which the owner signs."""
    pairs = "" if reply.kind is RADIUS else f", {len(reply.pairs)} pair{'' if len(reply.pairs) == 1 else 's'}"
    return f"{reply.method}: {len(reply.places)} of {reply.count} nodes{pairs}, {size:,} octets"


def picture_of(chart: Roads, over: Drawn | None, told: list[str], bends: Bends) -> str:
    paper = Paper(chart.nodes.values(), bends.unit)
    paths = "\n".join(
        f'<path d="{path}" stroke="{colour}" stroke-width="{width}"/>'
        for colour, width, path in layers_of(paper, chart, over, bends)
        if path
    )
    words = "\n".join(
        f'<text x="{EDGE}" y="{paper.height + EDGE + at * LINE}" font-family="sans-serif" font-size="14" fill="{DARK}">{escape(line)}</text>'
        for at, line in enumerate(told)
    )
    return (
        f'<svg xmlns="http://www.w3.org/2000/svg" width="{WIDTH}" height="{paper.height + LINE * len(told)}" fill="none" '
        f'stroke-linecap="round" stroke-linejoin="round">\n<title>{escape(told[0])}</title>\n'
        f'<rect width="100%" height="100%" fill="white"/>\n{paths}\n{words}\n</svg>\n'
    )


def checked(asked: argparse.Namespace, reply: Reply) -> tuple[Drawn, str]:
    """The answer that the proved client accepted from the reply, and a line that states it."""
    key, *numbers = asked.check
    try:
        start, end, least = map(int, numbers)
    except ValueError:
        raise Trouble("--check: FROM, TO and LEAST must be numbers") from None
    found = accepted(
        Question(key, asked.reply, start, end, least, asked.chain, asked.reach, asked.library, asked.max_age)
    )
    if any(reply.places[node] != place for node, place in found.places.items()):
        raise Trouble(f"{asked.reply}: this tool reads its leaves differently from the client")
    if found.kind is RADIUS:
        return (
            Drawn(reply, [], [start]),
            f"checked: {len(found.nodes)} nodes lie within {end:,} of node {start}, by version {found.version} of the map",
        )
    said = "no route joins nodes" if found.kind is APART else f"the shortest route, {found.length:,}, joins nodes"
    return (
        Drawn(reply, found.nodes if found.kind is ROUTE else [], [start, end]),
        f"checked: {said} {start} and {end}, by version {found.version} of the map",
    )


def drawn(asked: argparse.Namespace, chart: Roads) -> tuple[Drawn, list[str]]:
    """Draws a reply over the map, and returns the lines below the picture."""
    octets = pathlib.Path(asked.reply).read_bytes()
    reply = reply_of(octets, asked.reply)
    over, verdict = checked(asked, reply) if asked.check else (Drawn(reply, reply.route, []), "")
    difference = unlike(chart, reply)
    if difference:
        raise Trouble(f"{asked.map}: {difference}: it is not the map of {asked.reply}")
    lacking = [node for node in over.route if node not in reply.places]
    if lacking:
        raise Trouble(f"{asked.reply}: its route passes node {lacking[0]}, but its leaf is missing")
    behind = "grey: the rest of the map, not proved" if asked.check else ""
    return over, [line for line in (verdict, brought(reply, len(octets)), behind) if line]


def pushing(over: Drawn, bends: Bends) -> list[str]:
    """The length along the route for which a cycle may have to be pushed, in one line."""
    hops = bends.pushes(over.route)
    far = sum(over.reply.arcs[a].get(b, 0) for a, b in hops)
    return [f"push (hollow): {far:,} {bends.lengths} of one-way streets, not proved"] if hops else []


def arguments() -> argparse.Namespace:
    parser = argparse.ArgumentParser(
        description="Draws a map, and over it the content of a reply, as SVG on standard output."
    )
    parser.add_argument("map", metavar="PUB|ROADS", help="a publication or a road file")
    parser.add_argument(
        "reply", metavar="REPLY", nargs="?", help="a reply with a route, without a route, or for a radius"
    )
    parser.add_argument(
        "--check",
        nargs=4,
        metavar=("PUBKEY", "FROM", "TO", "LEAST"),
        help="check the reply with the proved client first",
    )
    parser.add_argument("--chain", metavar="FILE", help="the chain file of an owner with later keys, with --check")
    parser.add_argument(
        "--unit", choices=UNITS, default="1e-7", help="the unit of a coordinate of the map, in degrees (1e-7)"
    )
    parser.add_argument(
        "--shapes",
        metavar="FILE",
        help="the bends of roads, not signed; a line is drawn only if it has the road's ends and is no longer",
    )
    parser.add_argument(
        "--lengths",
        default="decimetres",
        metavar="WORD",
        help=f"the unit of lengths (decimetres); with {', '.join(PER_METRE)} shapes are measured",
    )
    parser.add_argument(
        "--licence", default="", metavar="TEXT", help="the licence of the map's data, written below the picture"
    )
    add_arguments(parser)
    return parser.parse_args()


def main() -> None:
    asked = arguments()
    octets = pathlib.Path(asked.map).read_bytes()
    chart = map_of(octets, asked.map) if octets.startswith(PUBLICATION) else read_roads(asked.map)
    if not chart.nodes:
        raise Trouble(f"{asked.map}: it has no node")
    if asked.check and not asked.reply:
        raise Trouble("--check: there is no reply to check")
    over, told = (
        drawn(asked, chart) if asked.reply else (None, [f"{len(chart.nodes):,} nodes, {len(chart.roads):,} roads"])
    )
    bends = Bends(asked.unit, asked.lengths)
    if asked.shapes:
        bends.shapes, bends.pushed = read_shapes(asked.shapes), read_pushed(asked.shapes)
    told += pushing(over, bends) if over else []
    told += ["bends between nodes: not proved"] * bool(asked.shapes) + [asked.licence] * bool(asked.licence)
    sys.stdout.buffer.write(picture_of(chart, over, told, bends).encode())


if __name__ == "__main__":
    end_of(TOOL, main)
