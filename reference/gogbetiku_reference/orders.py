"""The six orders in which a map's nodes have their leaves.

docs/SPEC.md, 5.5 Orders. Part of the reference: tested, not proved, and trusted by no client.
"""
from collections.abc import Callable

from .hashing import sha256
from .maps import Map
from .octets import u32, u64

ORDERS = {"id": 0, "breadth": 1, "depth": 2, "hilbert": 3, "kd": 4, "shuffled": 5}
SIDE, LEVELS = 65_536, 16


def frame_slot(value: int, least: int, greatest: int, count: int) -> int:
    """The index of the part that contains a coordinate, of `count` equal parts from `least` to `greatest`."""
    return (value - least) * count // (greatest - least + 1)


def slots(chart: Map, columns: int, rows: int) -> dict[int, tuple[int, int]]:
    """The column and the row of each node in the frame of all nodes."""
    xs, ys = [x for x, _ in chart.places.values()], [y for _, y in chart.places.values()]
    return {
        node: (frame_slot(x, min(xs), max(xs), columns), frame_slot(y, min(ys), max(ys), rows))
        for node, (x, y) in chart.places.items()
    }


def by_id(chart: Map, _seed: int) -> list[int]:
    return list(chart.places)


def hops_from(chart: Map, start: int) -> dict[int, int]:
    """The nodes of a component, each with its number of hops from `start`."""
    hops, front = {start: 0}, [start]
    while front:
        front = sorted({there for here in front for there, _ in chart.arcs[here]} - hops.keys())
        hops.update({node: max(hops.values()) + 1 for node in front})
    return hops


def breadth(chart: Map, _seed: int) -> list[int]:
    order: list[int] = []
    for node in chart.places:
        if node not in order:
            hops = hops_from(chart, node)
            order += sorted(hops, key=lambda there: (hops[there], there))
    return order


def depth(chart: Map, _seed: int) -> list[int]:
    order: dict[int, None] = {}
    for node in chart.places:
        waiting = [node]
        while waiting:
            here = waiting.pop()
            if here not in order:
                order[here] = None
                waiting += [there for there, _ in reversed(chart.arcs[here])]
    return list(order)


def along_curve(level: int, x: int, y: int) -> int:
    """The index of a place on Hilbert's curve over a square of side 2^level."""
    if level == 0:
        return 0
    half: int = 2 ** (level - 1)
    if x < half and y < half:
        return along_curve(level - 1, y, x)
    if x < half:
        return half * half + along_curve(level - 1, x, y - half)
    if y >= half:
        return 2 * half * half + along_curve(level - 1, x - half, y - half)
    return 3 * half * half + along_curve(level - 1, half - 1 - y, 2 * half - 1 - x)


def hilbert(chart: Map, _seed: int) -> list[int]:
    places = slots(chart, SIDE, SIDE)
    return sorted(chart.places, key=lambda node: (along_curve(LEVELS, *places[node]), node))


def halved(chart: Map, nodes: list[int], across: bool) -> list[int]:
    """Nodes ordered by repeated halving, across and along in turn."""
    if len(nodes) <= 1:
        return nodes

    def rank(node: int) -> tuple[int, int, int]:
        x, y = chart.places[node]
        return (x, y, node) if across else (y, x, node)

    ranked, half = sorted(nodes, key=rank), (len(nodes) + 1) // 2
    return halved(chart, ranked[:half], not across) + halved(chart, ranked[half:], not across)


def kd(chart: Map, _seed: int) -> list[int]:
    return halved(chart, list(chart.places), True)


def shuffled(chart: Map, seed: int) -> list[int]:
    return sorted(chart.places, key=lambda node: (sha256(u64(seed) + u32(node)), node))


RULES: tuple[Callable[[Map, int], list[int]], ...] = (by_id, breadth, depth, hilbert, kd, shuffled)


def order_of(chart: Map, order: int, seed: int) -> list[int]:
    """The ids in leaf order."""
    return RULES[order](chart, seed)
