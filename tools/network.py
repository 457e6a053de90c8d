"""Makes a network of roads from lines: cuts them where they meet, measures them, and numbers the nodes from 1.

No client trusts it: an owner looks at its output before signing it. A key names a point of a line; lines meet
where they share a key. A place is a longitude and a latitude in 1e-7 degrees. The order of the lines does not
change the result.
"""
import argparse
import math
import sys
from collections import Counter, defaultdict
from dataclasses import dataclass, field, replace
from itertools import groupby, pairwise
from typing import Callable, Iterable, Iterator

import bends
import geodesic
from roads import DEGREE, MOST_LENGTH, MOST_NODES, MOST_ROADS, Place, Roads, Trouble, output, plain

# how many lengths make a metre or a second, by the unit of a length
COSTS = {"decimetres": 10, "seconds": 1}
SMALLER = "cut a piece with --box or --around"


@dataclass(frozen=True, slots=True)
class Line:
    """A line through points. `told` is its given length in metres or in seconds, if it has one. `speed` is the speed in
    metres per second, if lengths are seconds. `push` says that a cycle is pushed against its direction, so it is used
    only if nothing else joins its ends."""

    source: str
    keys: tuple[int, ...]
    name: str = ""
    told: float | None = None
    speed: float | None = None
    push: bool = False


@dataclass(frozen=True, slots=True)
class Road:
    """A piece of a line between two of its ends."""

    keys: tuple[int, ...]
    metres: float
    line: Line

    def ends(self) -> tuple[int, int]:
        return min(self.keys[0], self.keys[-1]), max(self.keys[0], self.keys[-1])


@dataclass
class Told:
    """The dropped or changed elements by reason: the count, and the first of them."""

    counts: Counter[str] = field(default_factory=Counter)
    first: dict[str, str] = field(default_factory=dict)

    def add(self, reason: str, where: str = "") -> None:
        self.counts[reason] += 1
        self.first[reason] = min(self.first.get(reason, where), where, key=_by_number)

    def lines(self) -> list[str]:
        return [
            f"{reason}: {self.counts[reason]:,}" + (f" (first {self.first[reason]})" if self.first[reason] else "")
            for reason in sorted(self.counts)
        ]


def _by_number(where: str) -> tuple[str, int, str]:
    """Orders `way 9` before `way 10`."""
    kind, _, number = where.partition(" ")
    return kind, int(number) if number.lstrip("-").isdecimal() else 0, where


def in_degrees(place: Place) -> tuple[float, float]:
    return place[0] / DEGREE, place[1] / DEGREE


@dataclass(frozen=True)
class Cut:
    """The part of the earth that is kept: a box, or the area around a place."""

    box: tuple[float, float, float, float] | None = None
    around: tuple[float, float, float] | None = None

    def holds(self, place: Place) -> bool:
        longitude, latitude = in_degrees(place)
        if self.box:
            west, south, east, north = self.box
            across = west <= longitude <= east if west <= east else longitude >= west or longitude <= east
            return across and south <= latitude <= north
        if self.around:
            east, north, most = self.around
            return geodesic.is_within((east, north), (longitude, latitude), most)
        return True

    def told(self) -> str | None:
        if self.box:
            return "cut to the box %r,%r,%r,%r" % self.box
        if self.around:
            return "cut to the area around %r,%r within a distance of %r metres" % self.around
        return None


def numbers(count: int) -> Callable[[str], tuple[float, ...]]:
    """Returns a parser of a word with this many numbers, separated by commas."""

    def read(word: str) -> tuple[float, ...]:
        found = tuple(float(part) for part in word.split(","))
        if len(found) != count or not all(map(math.isfinite, found)):
            raise ValueError
        return found

    read.__name__ = f"{count} numbers separated by commas"
    return read


def add_arguments(parser: argparse.ArgumentParser) -> None:
    """Adds the arguments of every tool that makes a network."""
    where = parser.add_mutually_exclusive_group()
    where.add_argument(
        "--box", type=numbers(4), metavar="W,S,E,N", help="keep only the part within this box, in degrees"
    )
    where.add_argument(
        "--around",
        type=numbers(3),
        metavar="LON,LAT,METRES",
        help="keep only the part within a number of metres of a place",
    )
    parser.add_argument("--largest", action="store_true", help="keep only the largest connected component")
    parser.add_argument(
        "--ids", metavar="FILE", help="write a table from node ids to the ids of the source and the names of streets"
    )
    parser.add_argument(
        "--every-bend",
        type=numbers(1),
        metavar="METRES",
        help="keep enough bends as nodes that no dropped bend is more than METRES from its road",
    )
    parser.add_argument("--shapes", metavar="FILE", help="write the lines of the roads, which are not signed")


def within(lines: Iterable[Line], places: dict[int, Place], cut: Cut, told: Told) -> Iterator[Line]:
    """The parts of the lines within the cut that have at least two points."""
    for line in lines:
        runs: list[list[int]] = [[]]
        for key in line.keys:
            if not cut.holds(places[key]):
                runs.append([])
            elif runs[-1][-1:] != [key]:
                runs[-1].append(key)
        kept = [run for run in runs if len(run) > 1]
        if not kept:
            outside = len(runs) > 1
            told.add(
                "lines dropped, outside the cut" if outside else "lines dropped, of fewer than two points", line.source
            )
        elif len(runs) > 1:
            told.add("lines cut at the edge", line.source)
        yield from (replace(line, keys=tuple(run)) for run in kept)


class Meetings:
    """Finds `met`: the ends of lines, and the points that two lines share or one line passes twice."""

    def __init__(self) -> None:
        self.seen: set[int] = set()
        self.met: set[int] = set()

    def take(self, keys: Iterable[int]) -> None:
        alone = [key for key, _ in groupby(keys)]
        if len(alone) < 2:
            return
        self.met.update((alone[0], alone[-1]))
        for key in alone:
            (self.met if key in self.seen else self.seen).add(key)


def meetings(lines: Iterable[Line]) -> set[int]:
    found = Meetings()
    for line in lines:
        found.take(line.keys)
    return found.met


class Parts:
    """The connected components, each with its least key."""

    def __init__(self, keys: Iterable[int] = ()):
        self.parent = {key: key for key in keys}

    def top(self, key: int) -> int:
        parent = self.parent
        parent.setdefault(key, key)
        while parent[key] != key:
            parent[key] = parent[parent[key]]
            key = parent[key]
        return key

    def join(self, a: int, b: int) -> bool:
        """Joins the components of two keys. Returns whether they were separate before."""
        a, b = self.top(a), self.top(b)
        self.parent[max(a, b)] = min(a, b)
        return a != b

    def sizes(self) -> Counter[int]:
        return Counter(self.top(key) for key in self.parent)

    def largest(self) -> set[int]:
        """The keys of the largest component. Of two equally large components it takes the one with the least key."""
        sizes = self.sizes()
        best = min(sizes, key=lambda key: (-sizes[key], key), default=None)
        return {key for key in self.parent if self.top(key) == best}

    def told(self) -> str:
        sizes = self.sizes()
        share = 100 * max(sizes.values(), default=0) / (len(self.parent) or 1)
        return f"parts that hang together: {len(sizes):,}, the largest with {math.floor(share * 10) / 10:.1f} percent of the nodes"


def steps(line: Line, met: set[int]) -> Iterator[tuple[int, ...]]:
    """The keys of a line in pieces, each from a point where lines meet to the next such point."""
    begins = 0
    for at in range(1, len(line.keys)):
        if line.keys[at] in met:
            yield line.keys[begins : at + 1]
            begins = at


class Measure:
    """Measures lengths along lines on the ellipsoid."""

    def __init__(self, places: dict[int, Place]):
        self.places = places

    def of(self, keys: tuple[int, ...], source: str) -> float:
        steps = []
        for here, there in pairwise(in_degrees(self.places[key]) for key in keys):
            step = geodesic.metres(here, there)
            if step is None:
                raise Trouble(
                    f"{source}: two of its points in a row, {here} and {there}, lie on opposite sides of the earth"
                )
            steps.append(step)
        return math.fsum(steps)

    def road(self, keys: tuple[int, ...], line: Line, share: float) -> Road:
        return Road(keys, self.of(keys, line.source) * share, line)

    def share(self, line: Line) -> float:
        """The length that a measured metre of the line stands for. A given length is divided among the roads of the
        line."""
        if line.told is None:
            return 1 / line.speed if line.speed else 1.0
        whole = self.of(line.keys, line.source)
        return line.told / whole if whole else 0.0


def pieces(line: Line, met: set[int], measure: Measure) -> Iterator[Road]:
    """The line, cut where lines meet. A piece that returns to its start is cut in two."""
    share = measure.share(line)
    for keys in steps(line, met):
        road = measure.road(keys, line, share)
        yield from halves(road, measure, share) if road.keys[0] == road.keys[-1] else (road,)


def halves(road: Road, measure: Measure, share: float) -> tuple[Road, Road]:
    """The two halves of a road with inner points, cut at the middle point."""
    middle = len(road.keys) // 2
    return measure.road(road.keys[: middle + 1], road.line, share), measure.road(road.keys[middle:], road.line, share)


def apart(roads: Iterable[Road], measure: Measure, told: Told) -> list[Road]:
    """Makes sure that no two roads have the same ends. The shortest road between two ends stays whole. Each other road
    between them is cut in two. A road without an inner point is dropped, since it follows the same line."""
    by_ends = defaultdict(list)
    for road in roads:
        by_ends[road.ends()].append(road)
    kept = []
    for same in by_ends.values():
        same.sort(key=lambda road: (len(road.keys) > 2, round(road.metres, 5), road.keys))
        kept.append(same[0])
        for road in same[1:]:
            if len(road.keys) > 2:
                told.add("roads cut in two, beside a shorter one between the same ends", road.line.source)
                kept.extend(halves(road, measure, road.metres / (measure.of(road.keys, "") or 1.0)))
            else:
                told.add("roads dropped, the same straight piece twice", road.line.source)
    return kept


def parts_of(keys: Iterable[int], pairs: Iterable[tuple[int, int]]) -> Parts:
    parts = Parts(keys)
    for a, b in pairs:
        parts.join(a, b)
    return parts


def counted(lines: Iterable[Line], is_largest: bool) -> None:
    """Refuses, before any measuring, a network that is too large for a road file. The network has at least one node for
    each point where lines meet, and one road for each pair of these points that a piece of a line joins."""
    lines = list(lines)
    met = meetings(lines)
    pairs = {(min(keys[0], keys[-1]), max(keys[0], keys[-1])) for line in lines for keys in steps(line, met)}
    if is_largest:
        met = parts_of(met, pairs).largest()
        pairs = {pair for pair in pairs if pair[0] in met}
    if len(met) > MOST_NODES or len(pairs) > MOST_ROADS:
        raise Trouble(
            f"there are at least {len(met):,} nodes and {len(pairs):,} roads, but a road file holds at most {MOST_NODES:,} and {MOST_ROADS:,}: {SMALLER}"
        )


def joined(lines: list[Line], measure: Measure, told: Told) -> list[Line]:
    """The lines. Of lines on which a cycle is pushed, only the shortest pieces that hold a component together stay."""
    held: list[Line] = []
    met, parts = meetings(lines), Parts()
    for line in lines:
        for keys in steps(line, met):
            if line.push:
                held.append(replace(line, keys=keys))
            else:
                parts.join(keys[0], keys[-1])
    taken = []
    for line in sorted(held, key=lambda line: (round(measure.of(line.keys, line.source), 5), line.keys)):
        if parts.join(line.keys[0], line.keys[-1]):
            taken.append(line)
            told.add("pieces of one-way ways taken both ways, to be pushed along against their direction", line.source)
        else:
            told.add("pieces of one-way ways dropped", line.source)
    return [line for line in lines if not line.push] + taken


def bent(roads: Iterable[Road], measure: Measure, most: float) -> Iterator[Road]:
    """The roads, cut at bends so that no other bend of a road is more than the given number of metres from it."""
    for road in roads:
        kept = bends.needed([in_degrees(measure.places[key]) for key in road.keys], most)
        share = road.metres / (measure.of(road.keys, "") or 1.0)
        yield from (measure.road(road.keys[a : b + 1], road.line, share) for a, b in pairwise(kept))


def largest(roads: list[Road], told: Told) -> list[Road]:
    """The roads of the largest connected component."""
    kept = parts_of((), (road.ends() for road in roads)).largest()
    for road in roads:
        if road.keys[0] not in kept:
            told.add("roads dropped, apart from the largest part", road.line.source)
    return [road for road in roads if road.keys[0] in kept]


def length_of(road: Road, places: dict[int, Place], cost: str) -> int:
    """The length in decimetres or seconds, rounded up. An excess of less than a hundred-thousandth is a rounding error
    and is ignored. The length is 0 only between two points at one place."""
    length = math.ceil(round(road.metres * COSTS[cost], 5))
    if length > MOST_LENGTH:
        raise Trouble(f"{road.line.source}: a road of {length:,} {cost} is longer than a road file can express")
    return max(length, int(places[road.keys[0]] != places[road.keys[-1]]))


@dataclass
class Network:
    """A network of roads: its content in a road file, the key and the street names of each node, the line of each road
    that bends, and the roads on which a cycle is pushed in one direction."""

    roads: Roads
    keys: dict[int, int]
    streets: dict[int, list[str]]
    lines: dict[tuple[int, int], list[Place]]
    pushed: list[tuple[int, int]]

    def write_shapes(self, path: str | None) -> None:
        if path:
            bends.write(path, self.lines, self.pushed)


def network_of(
    path: str, lines: Iterable[Line], places: dict[int, Place], asked: argparse.Namespace, told: Told
) -> Network:
    """Returns the network of a file's lines within the cut. Records in `told` what was dropped and what was cut."""
    try:
        network = _network(lines, places, asked, told)
    except Trouble as trouble:
        raise Trouble(f"{path}: {trouble}") from None
    if not network.roads.roads:
        raise Trouble(f"{path}: no road is left")
    if network.roads.too_much():
        raise Trouble(
            f"{path}: {network.roads.too_much()}: {SMALLER}" + (", or keep fewer bends" if asked.every_bend else "")
        )
    return network


def _network(lines: Iterable[Line], places: dict[int, Place], asked: argparse.Namespace, told: Told) -> Network:
    cut = Cut(asked.box, asked.around)
    kept = sorted(within(lines, places, cut, told), key=lambda line: (_by_number(line.source), line.keys))
    measure = Measure(places)
    counted((line for line in kept if not line.push), asked.largest)
    if any(line.push for line in kept):
        kept = sorted(joined(kept, measure, told), key=lambda line: (_by_number(line.source), line.keys))
    met = meetings(kept)
    found = apart((road for line in kept for road in pieces(line, met, measure)), measure, told)
    if asked.largest:
        found = largest(found, told)
    if asked.every_bend:
        found = list(bent(found, measure, asked.every_bend[0]))
    ids = {key: number for number, key in enumerate(sorted({key for road in found for key in road.ends()}), 1)}
    streets = defaultdict(set)
    for road in found:
        for key in road.ends():
            streets[ids[key]].add(road.line.name)
    # ids rise with keys, so a road's ends are in order
    roads = Roads(
        {number: places[key] for key, number in ids.items()},
        sorted((ids[road.ends()[0]], ids[road.ends()[1]], length_of(road, places, asked.cost)) for road in found),
    )
    lines_of = {}
    for road in found if asked.shapes else ():
        keys = road.keys if road.keys[0] < road.keys[-1] else road.keys[::-1]
        lines_of[ids[keys[0]], ids[keys[-1]]] = [places[key] for key in keys]
    pushed = sorted((ids[road.ends()[0]], ids[road.ends()[1]]) for road in found if road.line.push)
    return Network(
        roads,
        {number: key for key, number in ids.items()},
        {number: sorted(names - {""}) for number, names in streets.items()},
        lines_of,
        pushed,
    )


def comments_of(what: str, licence: str, asked: argparse.Namespace) -> list[str]:
    """The comment lines of a road file: its licence, how it was made, and where it was cut."""
    cut = Cut(asked.box, asked.around).told()
    made = [f"{what}; lengths in {asked.cost}, coordinates in 1e-7 degrees"]
    return [licence] * bool(licence) + made + ([f"{cut}: its routes are the shortest within the cut"] if cut else [])


def write(tool: str, roads: Roads, told: Told, cost: str) -> None:
    """Writes the road file to standard output, and what was dropped or changed to standard error."""
    length = sum(road[2] for road in roads.roads)
    long = f"{length / 3_600:,.1f} hours" if cost == "seconds" else f"{length / 10_000:,.1f} km"
    parts = parts_of(roads.nodes, (road[:2] for road in roads.roads)).told()
    cut = [comment for comment in roads.comments if comment.startswith("cut ")]
    lines = [f"{len(roads.nodes):,} nodes, {len(roads.roads):,} roads, {long}", parts, *told.lines(), *cut]
    sys.stderr.writelines(f"{tool}: {plain(line)}\n" for line in lines)
    roads.write(output())
