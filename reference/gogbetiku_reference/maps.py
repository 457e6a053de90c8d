"""Nodes and roads, their map, and its distances and shortest routes.

docs/SPEC.md, 2.3 Maps and 10 Lines. Part of the reference: tested, not proved, and trusted by no client.
"""
import heapq
from collections import Counter
from dataclasses import dataclass
from functools import lru_cache

from .faults import Fault
from .walks import least_lengths

MOST_NODES, MOST_ROADS, MOST_NEIGHBOURS = 65_536, 262_144, 255

Node = tuple[int, int, int]
Road = tuple[int, int, int]


@dataclass(frozen=True)
class Parts:
    """Nodes `(id, x, y)` and roads `(a, b, length)`, in the order of their file."""

    nodes: tuple[Node, ...]
    roads: tuple[Road, ...]


class Map:
    """The place of each node, and its arcs `(neighbour, length)`, both by ascending id."""

    def __init__(self, parts: Parts):
        self.parts = parts
        self.places = {node: (x, y) for node, x, y in sorted(parts.nodes)}
        shortest: dict[int, dict[int, int]] = {node: {} for node in self.places}
        for a, b, length in parts.roads:
            for here, there in ((a, b), (b, a)):
                shortest[here][there] = min(length, shortest[here].get(there, length))
        self.arcs = {node: tuple(sorted(arcs.items())) for node, arcs in shortest.items()}

    @lru_cache(maxsize=1024)
    def distances(self, start: int) -> dict[int, int]:
        """The nodes that a walk from `start` reaches, each with its distance."""
        return least_lengths(start, self.arcs.get)

    def route(self, start: int, end: int) -> tuple[int, ...] | None:
        """A shortest route without a repeated node."""
        came: dict[int, int] = {}
        waiting = [(0, start, start)]
        while waiting and end not in came:
            length, node, before = heapq.heappop(waiting)
            if node not in came:
                came[node] = before
                for there, more in self.arcs[node]:
                    heapq.heappush(waiting, (length + more, there, node))
        return way_back(came, start, end) if end in came else None

    def length_of(self, route: tuple[int, ...]) -> int | None:
        """The length of a route along arcs; None if a hop is not an arc."""
        total = 0
        for here, there in zip(route, route[1:]):
            arcs = dict(self.arcs.get(here, ()))
            if there not in arcs:
                return None
            total += arcs[there]
        return total

    def is_shortest(self, start: int, end: int, route: tuple[int, ...]) -> bool:
        """Whether this is a shortest route between the two, without a repeated node."""
        return (
            len(route) > 0
            and (route[0], route[-1]) == (start, end)
            and len(set(route)) == len(route)
            and self.length_of(route) is not None
            and self.length_of(route) == self.distances(start).get(end)
        )


def way_back(came: dict[int, int], start: int, end: int) -> tuple[int, ...]:
    """The nodes from `start` to `end`, from each node's predecessor."""
    route = [end]
    while route[-1] != start:
        route.append(came[route[-1]])
    return tuple(reversed(route))


def map_of(parts: Parts) -> Map:
    """The map of these parts. Raises the first fault."""
    if not parts.nodes:
        raise Fault("Empty")
    if len(parts.nodes) > MOST_NODES or len(parts.roads) > MOST_ROADS:
        raise Fault("TooMany")
    counted = Counter(node for node, _, _ in parts.nodes)
    repeated = [node for node, count in counted.items() if count > 1]
    if repeated:
        raise Fault("RepeatedNode", min(repeated))
    for index, (a, b, _) in enumerate(parts.roads):
        if a not in counted or b not in counted:
            raise Fault("UnknownEnd", index)
        if a == b:
            raise Fault("SelfRoad", index)
    made = Map(parts)
    crowded = [node for node, arcs in made.arcs.items() if len(arcs) > MOST_NEIGHBOURS]
    if crowded:
        raise Fault("Crowded", min(crowded))
    return made
