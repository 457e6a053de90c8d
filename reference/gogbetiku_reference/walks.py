"""Least lengths of walks over a map, or over known leaves.

docs/SPEC.md, 7.1 A route and 8.2 Judging a route: a walk takes a hop only from a node whose arcs are known and that
lets it go on. Part of the reference: tested, not proved, and trusted by no client.
"""
import heapq
from collections.abc import Callable, Iterable

Arcs = Iterable[tuple[int, int]]


def always(_node: int, _length: int) -> bool:
    return True


def least_lengths(
    start: int,
    arcs_of: Callable[[int], Arcs | None],
    lets: Callable[[int, int], bool] = always,
    below: int | None = None,
) -> dict[int, int]:
    """Each node at which such a walk from `start` ends, with the least length.

    `arcs_of` answers nothing for a node whose arcs are not known. `lets` says whether a walk goes on from a node after
    that length, and where it does, it does so after every lesser one. With `below`, all of a walk is shorter than that.
    """
    least: dict[int, int] = {}
    waiting = [(0, start)]
    while waiting:
        length, node = heapq.heappop(waiting)
        if node in least or (below is not None and length >= below):
            continue
        least[node] = length
        arcs = arcs_of(node)
        if arcs is not None and lets(node, length):
            for there, more in arcs:
                heapq.heappush(waiting, (length + more, there))
    return least
