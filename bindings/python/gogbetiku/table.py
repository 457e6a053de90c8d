"""Makes a table of proved lengths, from each source node to each target node, with the replies of an untrusted gateway.

    over = Publication(Gateway("https://routes.example"), key, least=1)
    for row in table(over, [346, 18], [1, 2, 3]):
        print(row.source, row.cells)

A cell is a length from an accepted reply, or one of three words. NONE says that an accepted reply shows that no route
exists, or that the target is in another accepted reply of the publication but not within the greatest radius. UNKNOWN
says that neither is shown. REFUSED says that replies were refused. Every road can be used in both directions: there are
no one-way streets and no turns.

Most cells come from replies for a radius; each of these serves many targets. Everybody uses the same series of radii,
so that caches are shared. The distance of a target is estimated from places, and the size of a reply from earlier
replies. Then the query with the fewest expected octets is sent, for a route or for a radius. An estimate changes the
queries, but no cell.
"""

from __future__ import annotations

import bisect
import concurrent.futures
import math
import threading
from array import array
from collections.abc import Callable, Iterator, Sequence
from dataclasses import dataclass, field
from typing import Union

from . import BadChain, BadSignature, MalformedChain, NoRoute, Refused, Stale
from .gateway import IN_PUBLICATION, SETTINGS, NoNode, Publication, behind

__all__ = ["GREATEST", "NONE", "RADII", "REFUSED", "ROADS", "UNKNOWN", "Row", "table"]

GREATEST = 2**64 - 1
NONE, UNKNOWN, REFUSED = "none", "not reached or no node", "refused"
ROADS = "both ways alike; no one-way streets, no turns"
# the requested radii: four in each doubling
RADII = (0, 1, 2, 3, *(many << twos for twos in range(62) for many in (4, 5, 6, 7)), GREATEST)
# the refusals that hold for every reply of a publication, whatever the query
OF_ALL = (BadSignature, BadChain, MalformedChain, Stale)
# the octets of a reply with one node, and of each further node, before any reply was seen
LEAST_REPLY, LEAF = 2_000, 64
# the share of the whole map's octets that a reply may take before the whole map is requested
NEARLY = 0.8
# how many octets of the publication cost as much as one octet of small replies, since each reply has a signature to
# verify
FEW = 4
MOST_SAMPLES = 2_000

Length = Union[int, str]
Place = tuple[int, int]


@dataclass(frozen=True)
class Row:
    """The cells of one source, in the order of the targets."""

    source: int
    cells: list[Length]


def radius_from(least: float) -> int:
    """The least radius of the series that is not below a number."""
    return RADII[min(bisect.bisect_left(RADII, least), len(RADII) - 1)]


@dataclass
class Guess:
    """Estimates lengths and octets from earlier replies, to choose queries. No cell depends on it."""

    whole: int = 0
    degree: int = 10_000_000
    per_place: float = 1.0
    ratios: list[float] = field(default_factory=list)
    reaches: dict[int, int] = field(default_factory=dict)
    routes: dict[int, tuple[float, float]] = field(default_factory=dict)
    apart: float = 0.0
    leaf: float = LEAF

    def straight(self, here: Place, there: Place) -> float:
        """The straight-line distance of two places, in units of the latitude. On a plane it is the same, since its
        numbers count as small angles."""
        narrow = max(0.05, math.cos(math.radians((here[1] + there[1]) / 2 / self.degree)))
        return math.hypot((here[0] - there[0]) * narrow, here[1] - there[1])

    def ratio(self, length: int, straight: float) -> None:
        """The ratio of lengths to straight-line distances. The greater ratios count, and a few samples say little about
        them."""
        if straight > 0 and len(self.ratios) < MOST_SAMPLES:
            bisect.insort(self.ratios, length / straight)
            self.per_place = self.ratios[9 * len(self.ratios) // 10] * (1 + 0.2 / len(self.ratios))

    def reach(self, radius: int, octets: int, leaves: int) -> None:
        if 0 < radius < GREATEST:
            self.reaches[radius] = (self.reaches.get(radius, octets) + octets) // 2
        if leaves > 100:
            self.leaf = (octets - LEAST_REPLY) / leaves

    def route(self, length: int, octets: int) -> None:
        lengths, sizes = self.routes.get(length.bit_length(), (length, octets))
        self.routes[length.bit_length()] = (lengths + length) / 2, (sizes + octets) / 2

    def most(self) -> float:
        """The octets of a reply with the whole map."""
        return LEAST_REPLY + self.whole * self.leaf

    def of_reach(self, radius: int) -> float:
        """Estimates the octets of a reply for a radius, from the seen reply with the nearest radius. The number of
        nodes grows with the square of the radius."""
        if radius >= GREATEST or not self.reaches or not radius:
            return self.most()
        other = min(list(self.reaches), key=lambda it: abs(math.log(it / radius)))
        return min(self.most(), _scaled(self.reaches[other], radius / other, 2))

    def of_route(self, length: float) -> float:
        """Estimates the octets of a reply for a route, from the seen reply with the nearest length. If none was seen,
        one is tried."""
        if math.isinf(length):
            return self.apart or LEAST_REPLY
        if not self.routes:
            return LEAST_REPLY
        bits = int(length).bit_length()
        other, octets = self.routes[min(list(self.routes), key=lambda it: abs(it - bits))]
        return _scaled(octets, (length + 1) / (other + 1), 1.5)


def _scaled(octets: float, times: float, power: float) -> float:
    return float(LEAST_REPLY + max(octets - LEAST_REPLY, LEAF) * times**power)


class Parts:
    """The nodes that accepted replies show to be joined, and the parts that they show to be apart. It guides the
    queries, and gives no cell."""

    def __init__(self) -> None:
        self._above: dict[int, int] = {}
        self._apart: set[tuple[int, int]] = set()

    def top(self, node: int) -> int:
        while (above := self._above.get(node, node)) != node:
            node = above
        return node

    def join(self, a: int, b: int) -> None:
        a, b = self.top(a), self.top(b)
        if a != b:
            self._above[max(a, b)] = min(a, b)

    def part(self, a: int, b: int) -> None:
        self._apart.add((self.top(a), self.top(b)))

    def are_apart(self, a: int, b: int) -> bool:
        pair = self.top(a), self.top(b)
        return pair in self._apart or pair[::-1] in self._apart


class _Table:
    """The data that all rows of a table share."""

    def __init__(self, over: Publication, sources: Sequence[int], targets: Sequence[int], degree: int):
        self.over, self.targets = over, targets
        self.ids = array("I", sorted({*sources, *targets}))
        self.places: dict[int, Place] = {}
        # ids in accepted replies, and ids that the server says are not nodes
        self.stands: set[int] = set()
        self.absent: set[int] = set()
        self.guess, self.parts, self.lock = Guess(over.said_nodes, degree), Parts(), threading.Lock()
        self.is_stopped = False

    # ---- queries

    def reached(self, source: int, radius: int) -> tuple[dict[int, int], int]:
        """The listed ids within a radius, each with its distance, and the number of all nodes within it."""
        answer = self.over.reach(source, radius, self.ids)
        with self.lock:
            self.guess.whole = answer.header.nodes
            self.guess.reach(radius, answer.size, answer.leaves)
            self.stands.add(source)
            for node in answer.found:
                self.stands.add(node.id)
                self.parts.join(source, node.id)
                self.places[node.id] = (node.x, node.y)
            for node in answer.found[-8:] if source in self.places else ():
                self.guess.ratio(node.distance, self.guess.straight(self.places[source], (node.x, node.y)))
        return {node.id: node.distance for node in answer.found}, answer.leaves

    def routed(self, source: int, target: int) -> Length:
        """The cell from a reply for a route."""
        try:
            answer = self.over.route(source, target)
        except NoNode:
            return UNKNOWN
        except Refused as refused:
            if self.over.header is None and isinstance(refused, OF_ALL):
                raise
            return REFUSED
        with self.lock:
            self.guess.whole = answer.header.nodes
            self.stands.update((source, target))
            if isinstance(answer.found, NoRoute):
                self.guess.apart = ((self.guess.apart or answer.size) + answer.size) / 2
                self.parts.part(source, target)
                return NONE
            self.parts.join(source, target)
            first, last = answer.found.nodes[0], answer.found.nodes[-1]
            self.places[source], self.places[target] = (first.x, first.y), (last.x, last.y)
            self.guess.route(answer.found.length, answer.size)
            self.guess.ratio(answer.found.length, self.guess.straight(self.places[source], self.places[target]))
            return answer.found.length

    def is_node(self, target: int) -> bool:
        """Whether a target is in an accepted reply. If no reply has it yet, requests one for a radius of 0 around
        it."""
        if target not in self.stands and target not in self.absent:
            try:
                self.reached(target, 0)
            except NoNode:
                self.absent.add(target)
        return target in self.stands

    def learn(self, each: Callable[[Callable[[int], object], Sequence[int]], object]) -> None:
        """Learns the places of the nodes: from the publication, or from a reply for each node if that takes far fewer
        octets."""
        if len(self.ids) * FEW * LEAST_REPLY > self.over.said_octets > 0:
            self._read(self.over.publication())
        each(self._looked, [node for node in self.ids if node not in self.places])

    def _looked(self, node: int) -> None:
        try:
            self.is_node(node)
        except Refused as refused:
            if self.over.header is None and isinstance(refused, OF_ALL):
                raise

    def _read(self, octets: bytes) -> None:
        """Reads places from a publication. They are not proved, and only guide the queries."""
        at = behind(octets, IN_PUBLICATION) + SETTINGS
        count = int.from_bytes(octets[at : at + 4], "big")
        rows = memoryview(octets)[at + 4 : at + 4 + 12 * count]
        wanted = set(self.ids)
        for row in range(len(rows) // 12):
            node = int.from_bytes(rows[12 * row : 12 * row + 4], "big")
            if node in wanted:
                x, y = (
                    int.from_bytes(rows[12 * row + from_ : 12 * row + from_ + 4], "big", signed=True)
                    for from_ in (4, 8)
                )
                self.places[node] = (x, y)

    # ---- a row

    def row(self, source: int, known: dict[int, Length]) -> Row:
        cells, inner, leaves = dict(known), 0, 0
        while left := [
            target for target in self.targets if target not in cells and self._is_asked(source, target, cells)
        ]:
            if self.is_stopped:
                raise concurrent.futures.CancelledError
            radius, by_route = self._choice(source, left, inner)
            if by_route:
                cells[by_route[0]] = self.routed(source, by_route[0])
                continue
            try:
                found, count = self._of_radius(source, radius, left)
            except NoNode:
                self.absent.add(source)
                found, count = dict.fromkeys(left, UNKNOWN), 0
            except Refused as refused:
                if self.over.header is None and isinstance(refused, OF_ALL):
                    raise
                found, count = self._each_by_route(source, left), 0
            cells.update(found)
            # if a greater radius has no more nodes, only the greatest radius can show more
            inner, leaves = GREATEST if count == leaves else radius, count
        return Row(source, [cells[target] for target in self.targets])

    def _is_asked(self, source: int, target: int, cells: dict[int, Length]) -> bool:
        """Whether a cell still needs a query. An id that the server says is not a node is not requested again."""
        if any(node in self.absent and node not in self.stands for node in (source, target)):
            cells[target] = UNKNOWN
            return False
        return True

    def _of_radius(self, source: int, radius: int, left: list[int]) -> tuple[dict[int, Length], int]:
        """The cells from a reply for a radius, and the number of nodes within it."""
        within, count = self.reached(source, radius)
        cells: dict[int, Length] = {target: within[target] for target in left if target in within}
        if radius == GREATEST:
            for target in left:
                if target not in within:
                    cells[target] = self._beyond(source, target)
        return cells, count

    def _beyond(self, source: int, target: int) -> Length:
        """The cell of a target that is not within the greatest radius."""
        try:
            if not self.is_node(target):
                return UNKNOWN
        except Refused:
            return self.routed(source, target)
        self.parts.part(source, target)
        return NONE

    def _each_by_route(self, source: int, left: list[int]) -> dict[int, Length]:
        """The cells of a source after a reply for a radius was refused. Three refusals in a row count for all later
        targets."""
        cells: dict[int, Length] = {}
        for target in left:
            is_lying = [*cells.values()][-3:] == 3 * [REFUSED]
            cells[target] = REFUSED if is_lying else self.routed(source, target)
        return cells

    # ---- the next query

    def _far(self, source: int, target: int) -> float:
        """The straight-line distance of a target, or None if its place is unknown."""
        here, there = self.places.get(source), self.places.get(target)
        return self.guess.straight(here, there) if here and there else 0.0

    def _choice(self, source: int, left: list[int], inner: int) -> tuple[int, list[int]]:
        """Chooses a radius, or targets for queries for a route: the choice with the fewest expected octets for all
        targets left."""
        guess = self.guess
        far = {target: self._far(source, target) for target in left}
        if not guess.routes and not guess.apart:
            # one reply for a route, and one for a radius of about the same size, show the size of others
            return 0, [min(left, key=lambda target: far[target] or math.inf)]
        if not guess.reaches and guess.routes:
            return radius_from(max(2.0, *(length for length, _ in guess.routes.values()))), []
        lengths = {target: max(far[target] * guess.per_place, inner * 1.4, 1.0) for target in left}
        lengths.update(
            (target, math.inf) for target in left if lengths[target] > GREATEST or self.parts.are_apart(source, target)
        )
        order = sorted(left, key=lengths.__getitem__)
        by_route = {target: guess.of_route(lengths[target]) for target in order}
        behind = sum(by_route.values())
        best, radius = behind, None
        costs: dict[int, float] = {}
        for target in order:
            behind -= by_route[target]
            wide = radius_from(lengths[target])
            cost = costs.setdefault(wide, 0.0) or guess.of_reach(wide)
            costs[wide] = cost
            if cost + behind < best:
                best, radius = cost + behind, wide if cost < NEARLY * guess.most() else GREATEST
        return (0, order) if radius is None else (radius, [])


def table(
    over: Publication,
    sources: Sequence[int],
    targets: Sequence[int],
    *,
    asks: int = 8,
    known: Callable[[int], dict[int, Length]] = lambda source: {},
    degree: int = 10_000_000,
) -> Iterator[Row]:
    """Yields the rows of a table over one publication, in the order of the sources, `asks` of them at a time. `known`
    gives the cells of a source that need no query. `degree` is the number of coordinate units in one degree; it is used
    only to estimate lengths."""
    for name, ids in (("sources", sources), ("targets", targets)):
        if len(set(ids)) != len(ids):
            raise ValueError(
                f"{name}: node {next(node for at, node in enumerate(ids) if node in ids[:at])} occurs twice"
            )
    it = _Table(over, sources, targets, degree)
    held = {source: known(source) for source in sources}
    wanted = [source for source in sources if any(target not in held[source] for target in targets)]
    with concurrent.futures.ThreadPoolExecutor(asks) as pool:
        try:
            if wanted:
                it.learn(lambda work, nodes: list(pool.map(work, nodes)))
                # the first row shows the size of replies; then several rows are requested at once
                first = it.row(wanted[0], held[wanted[0]])
            rows = {source: pool.submit(it.row, source, held[source]) for source in wanted[1:]}
            for source in sources:
                if source in rows:
                    yield rows.pop(source).result()
                elif wanted and source == wanted[0]:
                    yield first
                else:
                    yield Row(source, [held[source][target] for target in targets])
        except BaseException:
            it.is_stopped = True
            pool.shutdown(wait=False, cancel_futures=True)
            raise
