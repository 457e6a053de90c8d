"""Landmarks, the codes of nodes, nodes that use the codes of others, bounds, and nodes without a walk between them.

docs/SPEC.md, 5.3 LDM: landmarks, codes, bound, and 7.2 No route. Part of the reference: tested, not proved, and trusted
by no client.
"""
from collections.abc import Mapping

from .leaves import Near, NodeLeaf, Own
from .maps import Map

GREATEST_CODE = 65_535
CANDIDATES = 64

Codes = tuple[int, ...]
Leaves = Mapping[int, NodeLeaf]


def pick(chart: Map, count: int) -> list[int]:
    """The landmarks: each is the node farthest from the previous ones, with the least id among equals."""
    chosen: list[int] = []
    while len(chosen) < count:
        left = [node for node in chart.places if node not in chosen]
        chosen.append(min(left, key=lambda node: (-farness(chart, chosen, node), node)))
    return chosen


def farness(chart: Map, chosen: list[int], node: int) -> float:
    """The least distance from a landmark to a node; infinite if no walk leads to it."""
    return min((chart.distances(mark).get(node, float("inf")) for mark in chosen), default=float("inf"))


def step_of(chart: Map, chosen: list[int], bits: int) -> int:
    greatest = max(length for mark in chosen for length in chart.distances(mark).values())
    return greatest // ((1 << bits) - 1) + 1


def codes_of(chart: Map, chosen: list[int], step: int) -> dict[int, Codes]:
    """The codes of each node, one for each landmark."""
    return {
        node: tuple(
            chart.distances(mark)[node] // step if node in chart.distances(mark) else GREATEST_CODE for mark in chosen
        )
        for node in chart.places
    }


def error_of(own: Codes, other: Codes) -> int | None:
    """The greatest difference of two nodes' codes; None if exactly one of two codes is the greatest code."""
    greatest = 0
    for a, b in zip(own, other):
        if (a == GREATEST_CODE) != (b == GREATEST_CODE):
            return None
        greatest = max(greatest, abs(a - b))
    return greatest


def fits(own: Codes, other: Codes, threshold: int) -> bool:
    error = error_of(own, other)
    return error is not None and error <= threshold


def near(codes: dict[int, Codes], node: int, other: int) -> Near:
    """The entry in the leaf of a node that uses the codes of another node."""
    error = error_of(codes[node], codes[other])
    assert error is not None
    return Near(other, error)


def references_of(codes: dict[int, Codes], order: list[int], threshold: int) -> dict[int, Own | Near]:
    """The entry in each node's leaf: its own codes, or the last fitting node before it."""
    said: dict[int, Own | Near] = {}
    kept: list[int] = []
    for node in order:
        fitting = [other for other in kept[-CANDIDATES:] if fits(codes[node], codes[other], threshold)]
        if fitting:
            said[node] = near(codes, node, fitting[-1])
        else:
            said[node] = Own(codes[node])
            kept.append(node)
    return said


def vector_of(leaves: Leaves, node: int) -> tuple[Codes, int] | None:
    """The known codes for a node, with their error."""
    leaf = leaves.get(node)
    if leaf is None:
        return None
    if isinstance(leaf.added, Own):
        return leaf.added.codes, 0
    if isinstance(leaf.added, Near) and leaf.added.reference in leaves:
        other = leaves[leaf.added.reference].added
        return (other.codes, leaf.added.error) if isinstance(other, Own) else None
    return None


def bound(step: int, leaves: Leaves, node: int, end: int) -> int:
    """A lower bound of the length of walks between two nodes, by their known codes."""
    one, other = vector_of(leaves, node), vector_of(leaves, end)
    if one is None or other is None:
        return 0
    (codes, error), (others, other_error) = one, other
    gaps = [abs(a - b) - error - other_error - 1 for a, b in zip(codes, others) if GREATEST_CODE not in (a, b)]
    return step * max([0, *gaps])


def are_apart(leaves: Leaves, node: int, end: int) -> bool:
    """Whether the known codes show that no walk joins two nodes."""
    one, other = vector_of(leaves, node), vector_of(leaves, end)
    if one is None or other is None:
        return False
    return any((a == GREATEST_CODE) != (b == GREATEST_CODE) for a, b in zip(one[0], other[0]))
