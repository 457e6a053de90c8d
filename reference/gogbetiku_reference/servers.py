"""The server: a publication's book, and honest replies over it.

docs/SPEC.md, 7 What a server sends. Part of the reference: tested, not proved, and trusted by no client.
"""
from collections.abc import Callable, Iterable
from dataclasses import dataclass

from .books import Book, book_of
from .faults import Fault
from .headers import DIJ, FULL, HYP, LDM
from .judges import AtHand, borders_among
from .landmarks import are_apart, bound
from .leaves import Near
from .octets import Malformed, Reader, u8
from .publications import Publication
from .replies import APART, ROUTE, UNKNOWN_NODE, Answer, NearReply, NodeItem, PairItem, read_reply
from .trees import cover_of
from .walks import least_lengths

Gathered = tuple[set[int], set[tuple[int, int]]]


@dataclass(frozen=True)
class Held:
    """A publication whose header matches its book, and the book."""

    publication: Publication
    book: Book


def install(publication: Publication) -> Held:
    """The publication with its book. Raises the fault if there is none."""
    book = book_of(publication.parts, publication.settings())
    if book.header != publication.header:
        raise Fault("HeaderWrong")
    return Held(publication, book)


def all_at_hand(book: Book, start: int, end: int) -> AtHand:
    return AtHand(book.nodes, book.pairs, start, end, book.first)


def met(hand: AtHand, goes_on: Callable[[int, int], bool]) -> set[int]:
    """The nodes at which walks that continue under this condition end, including the start."""
    return set(least_lengths(hand.start, hand.arcs_of, goes_on))


def with_references(book: Book, nodes: set[int]) -> set[int]:
    """Nodes, and the nodes whose codes they use."""
    named = [book.leaves[node].added for node in nodes]
    return nodes | {added.reference for added in named if isinstance(added, Near)}


def pairs_between(
    hand: AtHand, from_start: dict[int, int], from_end: dict[int, int], below: int | None
) -> set[tuple[int, int]]:
    """The pairs of a border near the start and another near the end whose inner lengths have a sum below this length."""
    return {
        (min(one, other), max(one, other))
        for one in borders_among(hand, from_start)
        for other in borders_among(hand, from_end)
        if one != other and (below is None or from_start[one] + from_end[other] < below)
    }


def gathered_hyp(hand: AtHand, below: int | None) -> Gathered:
    from_start = least_lengths(hand.start, hand.arcs_of, hand.is_inner, below)
    from_end = least_lengths(hand.end, hand.arcs_of, hand.is_inner, below)
    return {*from_start, *from_end}, pairs_between(hand, from_start, from_end, below)


def pair_of(start: int, end: int) -> set[tuple[int, int]]:
    return {(min(start, end), max(start, end))} if start != end else set()


def gathered(book: Book, start: int, end: int, route: Iterable[int], length: int) -> Gathered:
    """The nodes and the pairs whose leaves show that a route of this length is shortest."""
    hand, nodes, pairs = all_at_hand(book, start, end), set(route), set()
    if book.settings.method == DIJ:
        nodes |= least_lengths(start, hand.arcs_of, below=length + 1).keys()
    elif book.settings.method == FULL:
        pairs = pair_of(start, end)
    elif book.settings.method == LDM:
        live = met(hand, lambda node, so_far: so_far + bound(book.first, book.leaves, node, end) < length)
        nodes = with_references(book, nodes | (live if length > 0 else set()))
    elif book.settings.method == HYP:
        near, pairs = gathered_hyp(hand, length)
        nodes |= near
    return nodes, pairs


def gathered_apart(book: Book, start: int, end: int) -> Gathered:
    """The nodes and the pairs whose leaves show that no walk joins the two."""
    hand, nodes, pairs = all_at_hand(book, start, end), {start, end}, set()
    if book.settings.method == DIJ:
        nodes |= least_lengths(start, hand.arcs_of).keys()
    elif book.settings.method == FULL:
        pairs = pair_of(start, end)
    elif book.settings.method == LDM:
        nodes = with_references(book, nodes | met(hand, lambda node, _: not are_apart(book.leaves, node, end)))
    elif book.settings.method == HYP:
        near, pairs = gathered_hyp(hand, None)
        nodes |= near
    return nodes, pairs


def node_items(book: Book, nodes: Iterable[int]) -> tuple[NodeItem, ...]:
    places = sorted(book.ids.index(node) for node in nodes)
    return tuple(NodeItem(place, book.nodes[place], book.node_texts[place]) for place in places)


def pair_items(book: Book, pairs: Iterable[tuple[int, int]]) -> tuple[PairItem, ...]:
    places = sorted(book.pair_ids.index(pair) for pair in pairs)
    return tuple(PairItem(place, book.pairs[place], book.pair_texts[place]) for place in places)


def node_cover(book: Book, items: Iterable[NodeItem]) -> tuple[bytes, ...]:
    return tuple(cover_of(book.node_levels, book.settings.fan, [item.place for item in items]))


def pair_cover(book: Book, items: Iterable[PairItem]) -> tuple[bytes, ...]:
    return tuple(cover_of(book.pair_levels, book.settings.fan, [item.place for item in items]))


def shows(held: Held, kind: int, route: tuple[int, ...], found: Gathered) -> Answer:
    """The answer of this kind with these leaves and their covers."""
    nodes, pairs = node_items(held.book, found[0]), pair_items(held.book, found[1])
    return Answer(
        kind,
        held.publication.header,
        held.publication.signature,
        route,
        nodes,
        pairs,
        node_cover(held.book, nodes),
        pair_cover(held.book, pairs),
    )


def is_known(held: Held, node: int) -> bool:
    return node in held.book.chart.places


def answer(held: Held, start: int, end: int, taken: tuple[int, ...] | None = None) -> bytes:
    """The honest reply to the query for a route; with `taken`, the one with this shortest route."""
    if not is_known(held, start) or not is_known(held, end):
        return u8(UNKNOWN_NODE)
    route = taken or held.book.chart.route(start, end)
    if route is None:
        return shows(held, APART, (), gathered_apart(held.book, start, end)).octets()
    length = held.book.chart.distances(start)[end]
    return shows(held, ROUTE, route, gathered(held.book, start, end, route, length)).octets()


def is_honest(held: Held, start: int, end: int, octets: bytes) -> bool:
    """Whether these octets are an honest reply, with any of several shortest routes."""
    taken = route_in(octets)
    if taken is not None and not held.book.chart.is_shortest(start, end, taken):
        return False
    return octets == answer(held, start, end, taken)


def route_in(octets: bytes) -> tuple[int, ...] | None:
    try:
        reply = read_reply(Reader(octets))
    except Malformed:
        return None
    return reply.route if isinstance(reply, Answer) and reply.kind == ROUTE else None


def near_reply(held: Held, nodes: Iterable[int]) -> NearReply:
    """The range reply with these nodes."""
    items = node_items(held.book, nodes)
    return NearReply(held.publication.header, held.publication.signature, items, node_cover(held.book, items))


def answer_near(held: Held, start: int, radius: int) -> bytes:
    """The honest reply to the query for the nodes within a radius of a known node."""
    if not is_known(held, start):
        raise Fault("UnknownNode", start)
    distances = held.book.chart.distances(start)
    return near_reply(held, [node for node, distance in distances.items() if distance <= radius]).octets()
