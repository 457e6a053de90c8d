"""The book of a map and settings: the leaves in their order, and the header over their trees.

docs/SPEC.md, 5.1 Settings, 5.2 Books and 6.1 Headers. Part of the reference: tested, not proved, and trusted by no
client.
"""
from collections.abc import Mapping
from dataclasses import dataclass
from functools import cached_property

from .cells import borders_of, cells_of
from .faults import Fault
from .headers import FULL, HYP, LDM, NO_ROOT, Header
from .landmarks import codes_of, pick, references_of, step_of
from .leaves import NO_WALK, Added, InCell, NodeLeaf, PairLeaf
from .maps import Map, Parts, map_of
from .orders import order_of
from .publications import Settings
from .trees import levels_of

MOST_FULL, MOST_BORDERS = 1024, 2048


@dataclass(frozen=True)
class Book:
    """The leaves of nodes and of pairs in their order, and the two numbers of the header."""

    chart: Map
    settings: Settings
    nodes: tuple[NodeLeaf, ...]
    pairs: tuple[PairLeaf, ...]
    first: int
    second: int

    @cached_property
    def ids(self) -> list[int]:
        return [leaf.id for leaf in self.nodes]

    @cached_property
    def pair_ids(self) -> list[tuple[int, int]]:
        return [(leaf.a, leaf.b) for leaf in self.pairs]

    @cached_property
    def leaves(self) -> dict[int, NodeLeaf]:
        return {leaf.id: leaf for leaf in self.nodes}

    @cached_property
    def node_texts(self) -> list[bytes]:
        return [leaf.text() for leaf in self.nodes]

    @cached_property
    def pair_texts(self) -> list[bytes]:
        return [leaf.text() for leaf in self.pairs]

    @cached_property
    def node_levels(self) -> list[list[bytes]]:
        return levels_of(self.node_texts, self.settings.fan)

    @cached_property
    def pair_levels(self) -> list[list[bytes]]:
        return levels_of(self.pair_texts, self.settings.fan) if self.pairs else [[], [NO_ROOT]]

    @cached_property
    def header(self) -> Header:
        wanted = self.settings
        return Header(
            wanted.method,
            wanted.order,
            wanted.fan,
            wanted.version,
            len(self.nodes),
            self.node_levels[-1][0],
            len(self.pairs),
            self.pair_levels[-1][0],
            self.first,
            self.second,
        )


def parameter_ranges(settings: Settings, nodes: int) -> tuple[range, range, range]:
    """The ranges of the three parameters."""
    if settings.method == LDM:
        return range(1, min(64, nodes) + 1), range(1, 17), range(65_535)
    if settings.method == HYP:
        return range(1, 1025), range(1, 1025), range(1)
    return range(1), range(1), range(1)


def test_settings(settings: Settings, nodes: int) -> None:
    """Raises the first setting that is out of range."""
    if settings.method not in range(1, 5):
        raise Fault("Settings", 0)
    if settings.order not in range(6):
        raise Fault("Settings", 1)
    if settings.fan not in range(2, 33):
        raise Fault("Settings", 2)
    given = (settings.p1, settings.p2, settings.p3)
    for number, (value, values) in enumerate(zip(given, parameter_ranges(settings, nodes)), 3):
        if value not in values:
            raise Fault("Settings", number)


def pair_leaves(chart: Map, chosen: list[int]) -> tuple[PairLeaf, ...]:
    """A leaf for each pair of these nodes, which are in ascending order of ids."""
    return tuple(PairLeaf(a, b, chart.distances(a).get(b, NO_WALK)) for a in chosen for b in chosen if a < b)


def node_leaves(chart: Map, order: list[int], added: Mapping[int, Added]) -> tuple[NodeLeaf, ...]:
    return tuple(NodeLeaf(node, *chart.places[node], chart.arcs[node], added.get(node)) for node in order)


def ldm_book(chart: Map, settings: Settings, order: list[int]) -> Book:
    chosen = pick(chart, settings.p1)
    step = step_of(chart, chosen, settings.p2)
    said = references_of(codes_of(chart, chosen, step), order, settings.p3)
    return Book(chart, settings, node_leaves(chart, order, said), (), step, len(chosen))


def hyp_book(chart: Map, settings: Settings, order: list[int]) -> Book:
    cells = cells_of(chart, settings.p1, settings.p2)
    borders = borders_of(chart, cells)
    if len(borders) > MOST_BORDERS:
        raise Fault("TooManyBorders", len(borders))
    added = {node: InCell(cells[node], node in borders) for node in order}
    return Book(
        chart, settings, node_leaves(chart, order, added), pair_leaves(chart, borders), settings.p1, settings.p2
    )


def book_on(chart: Map, settings: Settings) -> Book:
    """The book of a map. Raises the fault if there is none."""
    test_settings(settings, len(chart.places))
    if settings.method == FULL and len(chart.places) > MOST_FULL:
        raise Fault("TooManyNodes", len(chart.places))
    order = order_of(chart, settings.order, settings.seed)
    if settings.method == LDM:
        return ldm_book(chart, settings, order)
    if settings.method == HYP:
        return hyp_book(chart, settings, order)
    pairs = pair_leaves(chart, list(chart.places)) if settings.method == FULL else ()
    return Book(chart, settings, node_leaves(chart, order, {}), pairs, 0, 0)


def book_of(parts: Parts, settings: Settings) -> Book:
    """The book of parts. Raises the first fault: they are not a valid map, or the map has no book."""
    return book_on(map_of(parts), settings)
