"""The judgement of a route, or of the claim that there is none, by the leaves of a reply, under the four methods.

docs/SPEC.md, 8.2 Judging a route and 8.3 Judging that there is no route. Part of the reference: tested, not proved, and
trusted by no client.
"""
from collections import Counter
from collections.abc import Callable, Iterator, Sequence
from dataclasses import dataclass
from functools import cached_property

from .faults import Refused
from .headers import DIJ, FULL, HYP, LDM
from .landmarks import are_apart, bound
from .leaves import NO_WALK, InCell, NodeLeaf, PairLeaf
from .walks import Arcs, least_lengths


@dataclass(frozen=True)
class AtHand:
    """The leaves of a reply, the two ends of the query, and the first number of the header."""

    nodes: tuple[NodeLeaf, ...]
    pairs: tuple[PairLeaf, ...]
    start: int
    end: int
    first: int

    @cached_property
    def leaves(self) -> dict[int, NodeLeaf]:
        return {leaf.id: leaf for leaf in self.nodes}

    @cached_property
    def said(self) -> dict[tuple[int, int], int]:
        """The distance in the first leaf of each pair."""
        return {(leaf.a, leaf.b): leaf.distance for leaf in reversed(self.pairs)}

    def arcs_of(self, node: int) -> Arcs | None:
        return self.leaves[node].arcs if node in self.leaves else None

    def is_inner(self, node: int, _length: int) -> bool:
        """Whether an inner walk continues from this node."""
        return not self.is_border(node)

    def is_border(self, node: int) -> bool:
        leaf = self.leaves.get(node)
        return leaf is not None and isinstance(leaf.added, InCell) and leaf.added.border

    def distance_of(self, one: int, other: int) -> int:
        """The distance in the leaf of a pair, with its ids in either order."""
        pair = min(one, other), max(one, other)
        if pair not in self.said:
            raise Refused("MissingPair", *pair)
        return self.said[pair]

    def test_at_hand(self, nodes: Sequence[int] | dict[int, int]) -> None:
        """Refuses with the least node without a leaf."""
        missing = [node for node in nodes if node not in self.leaves]
        if missing:
            raise Refused("MissingTuple", min(missing))


def test_repeated(nodes: Sequence[NodeLeaf]) -> None:
    """Refuses with the least id that two leaves have."""
    repeated = [node for node, count in Counter(leaf.id for leaf in nodes).items() if count > 1]
    if repeated:
        raise Refused("RepeatedNode", min(repeated))


def route_length(hand: AtHand, route: Sequence[int]) -> int:
    """The length of a route from end to end along arcs of known leaves."""
    if route[0] != hand.start:
        raise Refused("BadRoute", 0)
    total = 0
    for index, here in enumerate(route):
        hand.test_at_hand([here])
        arcs = dict(hand.leaves[here].arcs)
        if index + 1 < len(route) and route[index + 1] not in arcs:
            raise Refused("BadRoute", index + 1)
        total += arcs[route[index + 1]] if index + 1 < len(route) else 0
    if route[-1] != hand.end:
        raise Refused("BadRoute", len(route))
    return total


def judge(method: int, hand: AtHand, route: Sequence[int]) -> int:
    """The length of a route, if the leaves show that no walk is shorter. Raises the first failing test."""
    test_repeated(hand.nodes)
    length = route_length(hand, route)
    JUDGES[method](hand, length)
    return length


def judge_dij(hand: AtHand, length: int) -> None:
    reached = least_lengths(hand.start, hand.arcs_of, below=length)
    hand.test_at_hand(reached)
    if hand.end in reached:
        raise Refused("Shorter", reached[hand.end])


def judge_full(hand: AtHand, length: int) -> None:
    if hand.start == hand.end:
        if length > 0:
            raise Refused("Shorter", 0)
        return
    said = hand.distance_of(hand.start, hand.end)
    if said != length:
        raise Refused("Disagrees", said)


def test_live(hand: AtHand, goes_on: Callable[[int, int], bool]) -> None:
    """Tests that each node to which a walk of this sort leads has a leaf, and that none leads to the end."""
    reached = least_lengths(hand.start, hand.arcs_of, goes_on)
    live = [node for node in reached if node in hand.leaves and goes_on(node, reached[node])]
    hand.test_at_hand([there for node in live for there, _ in hand.leaves[node].arcs])
    if hand.end in live:
        raise Refused("Shorter", reached[hand.end])


def judge_ldm(hand: AtHand, length: int) -> None:
    test_live(hand, lambda node, so_far: so_far + bound(hand.first, hand.leaves, node, hand.end) < length)


def borders_among(hand: AtHand, reached: dict[int, int]) -> list[int]:
    return sorted(node for node in reached if hand.is_border(node))


def inner_walks(hand: AtHand, below: int | None) -> tuple[dict[int, int], dict[int, int]]:
    """The nodes that inner walks reach from either end. Tests that all have leaves, and that no such walk joins the ends."""
    from_start = least_lengths(hand.start, hand.arcs_of, hand.is_inner, below)
    from_end = least_lengths(hand.end, hand.arcs_of, hand.is_inner, below)
    hand.test_at_hand([*from_start, *from_end])
    if hand.end in from_start:
        raise Refused("Shorter", from_start[hand.end])
    return from_start, from_end


def border_pairs(hand: AtHand, from_start: dict[int, int], from_end: dict[int, int]) -> Iterator[tuple[int, int, int]]:
    """Each border near the start with each border near the end, by ascending ids, with the sum of their inner lengths."""
    for one in borders_among(hand, from_start):
        for other in borders_among(hand, from_end):
            yield one, other, from_start[one] + from_end[other]


def judge_hyp(hand: AtHand, length: int) -> None:
    for one, other, inner in border_pairs(hand, *inner_walks(hand, length)):
        if inner < length:
            if one == other:
                raise Refused("Shorter", inner)
            said = hand.distance_of(one, other)
            if said != NO_WALK and inner + said < length:
                raise Refused("Shorter", inner + said)


JUDGES = {DIJ: judge_dij, FULL: judge_full, LDM: judge_ldm, HYP: judge_hyp}


def judge_apart(method: int, hand: AtHand) -> None:
    """Raises the first failing test if the leaves do not show that no walk joins the two ends."""
    test_repeated(hand.nodes)
    hand.test_at_hand([hand.start])
    hand.test_at_hand([hand.end])
    APART_JUDGES[method](hand)


def apart_dij(hand: AtHand) -> None:
    reached = least_lengths(hand.start, hand.arcs_of)
    hand.test_at_hand(reached)
    if hand.end in reached:
        raise Refused("Shorter", reached[hand.end])


def apart_full(hand: AtHand) -> None:
    if hand.start == hand.end:
        raise Refused("Shorter", 0)
    test_no_walk(hand, hand.start, hand.end)


def test_no_walk(hand: AtHand, one: int, other: int) -> None:
    """Tests that the pair has a leaf, and that by this leaf no walk joins the two."""
    said = hand.distance_of(one, other)
    if said != NO_WALK:
        raise Refused("Disagrees", said)


def apart_ldm(hand: AtHand) -> None:
    test_live(hand, lambda node, _: not are_apart(hand.leaves, node, hand.end))


def apart_hyp(hand: AtHand) -> None:
    for one, other, inner in border_pairs(hand, *inner_walks(hand, None)):
        if one == other:
            raise Refused("Shorter", inner)
        test_no_walk(hand, one, other)


APART_JUDGES = {DIJ: apart_dij, FULL: apart_full, LDM: apart_ldm, HYP: apart_hyp}
