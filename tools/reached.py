"""Finds the pieces of roads that can be reached within a limit, by their cost, along the roads of an accepted reply's
leaves.

The cost of a place on a road is the cost of the road's nearer end plus the cost from there to the place. It uses only
replies that the proved client accepted. No client trusts it.
"""
import math
from collections.abc import Iterator
from dataclasses import dataclass
from itertools import pairwise

from replies import reply_of
from roads import Place
from shapes import Shapes, line_of

from gogbetiku.gateway import Publication, TooMuch

Point = tuple[float, float]
Line = list[Point]


@dataclass
class Reached:
    """All nodes within a limit with their costs, the places of leaves, and the arcs of each leaf. Leaves past the limit
    are included only for the ends of roads."""

    costs: dict[int, int]
    places: dict[int, Place]
    arcs: dict[int, dict[int, int]]

    def roads(self) -> Iterator[tuple[int, int, int]]:
        """Each road that has an end within the limit, once, from such an end on."""
        for a, arcs in self.arcs.items():
            if a in self.costs:
                yield from ((a, b, length) for b, length in arcs.items() if a < b or b not in self.costs)

    def lacking(self) -> list[tuple[int, int, int]]:
        """The roads whose other end has no leaf."""
        return sorted((a, b, length) for a, b, length in self.roads() if b not in self.places)


def reached(over: Publication, start: int, limit: int) -> Reached:
    """Returns everything within a limit. It then requests a radius that is greater by the longest road that leaves the
    limit, to learn the places of the ends of cut roads. If that reply has too many octets, these ends are missing."""
    answer = over.within(start, limit)
    costs, leaves = answer.found.distances, reply_of(answer.octets, "the reply")
    found = Reached(costs, leaves.places, leaves.arcs)
    leaving = [length for _, _, length in found.lacking()]
    if leaving and limit < 2**64 - 1:
        try:
            more = reply_of(over.within(start, min(limit + max(leaving), 2**64 - 1)).octets, "the reply")
            return Reached(costs, more.places, more.arcs)
        except TooMuch:
            pass
    return found


def shares(here: float, there: float, length: int, low: float, high: float) -> Iterator[tuple[float, float]]:
    """The pieces of a road that cost more than `low` and at most `high`, as shares of the road's length from `here`.
    Costs grow from both ends to the place where they meet."""
    meets = (
        1.0
        if math.isinf(there)
        else 0.0
        if math.isinf(here)
        else min(1.0, max(0.0, (length + there - here) / (2 * length)))
        if length
        else 1.0
    )

    def of_end(cost: float, end: float) -> tuple[float, float]:
        def at(bound: float) -> float:
            return min(end, max(0.0, (bound - cost) / length)) if length else end if bound >= cost else 0.0

        return 0.0 if low < 0 else at(low), at(high)

    first, last = of_end(here, meets)
    if last > first:
        yield first, last
    first, last = of_end(there, 1 - meets)
    if last > first:
        yield 1 - last, 1 - first


def part(line: list[Place], begins: float, stops: float, narrow: float) -> Line:
    """The part of a line between two shares of its length. `narrow` is the length of a unit of longitude in units of
    latitude."""
    longs = [math.hypot((b[0] - a[0]) * narrow, b[1] - a[1]) for a, b in pairwise(line)]
    whole, far = sum(longs), 0.0
    if not whole:
        return [line[0], line[-1]]
    found: Line = []
    for (a, b), long in zip(pairwise(line), longs):
        low, high = max(begins * whole, far), min(stops * whole, far + long)
        if high > low:
            found += [_between(a, b, (spot - far) / long) for spot in ((low, high) if not found else (high,))]
        far += long
    return found or [_between(line[0], line[-1], begins)] * 2


def _between(a: Place, b: Place, share: float) -> Point:
    return a[0] + (b[0] - a[0]) * share, a[1] + (b[1] - a[1]) * share


def pieces(
    found: Reached,
    costs: dict[int, int],
    low: float,
    high: float,
    shapes: Shapes,
    unit: str,
    lengths: str,
    narrow: float,
) -> Iterator[Line]:
    """The pieces that cost more than `low` and at most `high`, of the roads whose two ends are known."""
    for a, b, length in found.roads():
        if b in found.places:
            here, there = costs.get(a, math.inf), costs.get(b, math.inf)
            line = line_of(shapes, (a, b), (found.places[a], found.places[b]), length, unit, lengths)
            for begins, stops in shares(here, there, length, low, high):
                yield part(line, begins, stops, narrow)


def narrow_of(place: Place, degree: int | None) -> float:
    """The length of a unit of longitude in units of latitude, near a place."""
    return max(0.01, math.cos(math.radians(place[1] / degree))) if degree else 1.0
