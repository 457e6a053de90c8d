"""Replies that fail two tests, of which the first in order is reported, or one test twice, of which the least is reported.

Tested, not proved; no client trusts it.
"""
from collections.abc import Iterator
from dataclasses import replace

from gogbetiku_reference import layout
from gogbetiku_reference.leaves import NO_WALK, InCell, NodeLeaf, PairLeaf
from gogbetiku_reference.octets import u8, u16, u32
from gogbetiku_reference.replies import APART, ROUTE, Answer, NearReply
from gogbetiku_reference.servers import near_reply

from .asking import (
    HEADER,
    ORDER,
    ROUTED,
    SEALED,
    added_of,
    books,
    good_chain,
    honest,
    leaf,
    neared,
    put,
    routed,
    turned,
)
from .client_every import KINDS, Query, good, of_kind, with_node, with_pair
from .families import Case
from .scenes import at_places, brings_apart, by_hand, owner

STRANGE = u32(7)


def causes() -> Iterator[Case]:
    for kind in KINDS:
        yield from tests_in_order(kind)
    yield from octets_in_order()
    yield from covers_in_order()
    yield from walks_in_order()
    yield from apart_in_order()
    yield from pairs_in_order()
    yield from directions()
    yield from radius_in_order()


def tests_in_order(kind: str) -> Iterator[Case]:
    """For each test from the last one on, an earlier one fails too, and is reported."""
    chain, public = good_chain(), owner().public
    reply, tree = good(kind, "hyp" if kind != "radius" else "dij"), "" if kind == "radius" else "1 "
    bad_chain = (chain[0], replace(chain[1], signature=b""))
    both = (replace(chain[0], signature=turned(chain[0].signature, 60)), replace(chain[1], signature=b""))
    spoiled = with_node(reply, 0, replace(reply.nodes[0].leaf, x=77))
    unsigned = replace(spoiled, signature=turned(spoiled.signature, 900))
    rows = [
        ("the signature, then the cover", "BadSignature NoMatch", unsigned, Query()),
        ("the chain, then the signature", "BadChain 1 BadForm", unsigned, Query(chain=bad_chain)),
        ("the first link, then the second, then the signature", "BadChain 0 NoMatch", unsigned, Query(chain=both)),
        ("the version, then the chain, then the signature", "Stale 3", unsigned, Query(least=4, chain=both)),
        (
            "the chain under a key of an unknown type",
            "BadChain 0 BadKey",
            reply,
            Query(public=put(public, 0, STRANGE), chain=chain),
        ),
        (
            "the key, before the form of the signature",
            "BadSignature BadKey",
            replace(reply, signature=b""),
            Query(public=put(public, 0, STRANGE)),
        ),
        (
            "the version, before a key of an unknown type",
            "Stale 3",
            reply,
            Query(least=2**64 - 1, public=put(public, 0, STRANGE)),
        ),
    ]
    for why, line, changed, query in rows:
        yield of_kind(kind, f"{kind}, in order: {why}", f"refused {line}", changed, query)
    lacking = replace(reply, nodes=reply.nodes[1:])
    yield of_kind(kind, f"{kind}, in order: the cover, then a missing leaf", f"refused BadCover {tree}Short", lacking)


def octets_in_order() -> Iterator[Case]:
    """The first field that cannot be read is reported before all else."""
    for kind in KINDS:
        reply = good(kind, "dij").octets()
        front = layout.IN_RANGE_REPLY if kind == "radius" else layout.IN_ANSWER
        order, sealed = ORDER + front - HEADER, SEALED + front - HEADER
        unread = put(reply, order, u8(6))
        given = Query(least=9, public=put(owner().public, 0, STRANGE))
        yield _octets(kind, "an octet more, before the version", f"Malformed {len(reply)}", reply + b"\0", given)
        yield _octets(
            kind,
            "the last octet cut, before the version",
            f"Malformed {len(reply) - (32 if kind == 'radius' else 4)}",
            reply[:-1],
            given,
        )
        yield _octets(
            kind,
            "a field of the header, before one behind it",
            f"Malformed {order}",
            put(unread, sealed, u16(1453)),
            given,
        )
        yield _octets(kind, "a field, and the end cut: the field", f"Malformed {order}", unread[:-1], given)
    yield routed(
        "kind 1 before the version and the key",
        "refused NotAnswer 1",
        b"\x01",
        least=9,
        public=put(owner().public, 0, STRANGE),
    )
    yield routed(
        "kind 2 before the version and the key",
        "refused NotAnswer 2",
        b"\x02",
        least=9,
        public=put(owner().public, 0, STRANGE),
    )
    chain = (replace(good_chain()[0], signature=b""),)
    yield routed("kind 1 before the chain", "refused NotAnswer 1", b"\x01", chain=chain)

    negated = honest("dij").octets()
    item = ROUTED + 4 + 12 + 4
    for kind, at in (
        ("less 2^16 is the leaf's", 2**16 - 31),
        ("but for its highest bit is the leaf's", 2**15 + 31),
    ):
        yield routed(f"a leaf's length that {kind}", f"refused Malformed {item + 6}", put(negated, item + 4, u16(at)))


def _octets(kind: str, why: str, line: str, reply: bytes, query: Query) -> Case:
    why, line = f"{kind}, in order: {why}", f"refused {line}"
    if kind == "radius":
        return neared(why, line, reply, 4, 1, query.least, query.public)
    return routed(why, line, reply, 1, 5 if kind == "no route" else 3, query.least, query.public)


def covers_in_order() -> Iterator[Case]:
    """A place before the count of digests, the count before the root, the nodes before the pairs."""
    hyp = honest("hyp")
    place = replace(hyp, nodes=(*hyp.nodes[:-1], replace(hyp.nodes[-1], place=9)))
    pair_place = replace(hyp, pairs=(*hyp.pairs[:-1], replace(hyp.pairs[-1], place=9)))
    other = with_node(hyp, 0, replace(hyp.nodes[0].leaf, y=77))
    rows = [
        ("a place, and a digest more", "1 Place", replace(place, node_cover=(*place.node_cover, bytes(32)))),
        ("a place, and no digest", "1 Place", replace(place, node_cover=())),
        ("a digest more, and another leaf", "1 Long", replace(other, node_cover=(*other.node_cover, bytes(32)))),
        ("no digest, and another leaf", "1 Short", replace(other, node_cover=())),
        ("another leaf, and a place of a pair", "1 Differs", replace(other, pairs=pair_place.pairs)),
        (
            "a place of a pair, and a digest of the pairs more",
            "2 Place",
            replace(pair_place, pair_cover=(*hyp.pair_cover, bytes(32))),
        ),
        (
            "no digest of the pairs, and another distance",
            "2 Short",
            replace(with_pair(hyp, 0, PairLeaf(2, 3, 1)), pair_cover=()),
        ),
        (
            "another distance, and an end without a leaf",
            "2 Differs",
            replace(with_pair(hyp, 0, PairLeaf(2, 3, 1)), route=(1, 2, 9)),
        ),
    ]
    for why, line, reply in rows:
        yield routed(f"the cover, in order: {why}", f"refused BadCover {line}", reply)
    twice = by_hand("dij", [leaf(3, {}), leaf(1, {}), leaf(2, {}), leaf(2, {}), leaf(1, {})])
    everything = range(5)
    yield routed(
        "of two repeated ids the lesser is told, whose second item comes last",
        "refused RepeatedNode 1",
        at_places(twice, ROUTE, [3], everything),
        3,
        3,
    )
    yield routed(
        "no route: of two repeated ids the lesser is told",
        "refused RepeatedNode 1",
        at_places(twice, APART, [], everything),
        3,
        9,
    )
    nearby = near_reply(books()["dij"], [])
    near = replace(
        nearby,
        header=twice.publication.header,
        signature=twice.publication.signature,
        nodes=at_places(twice, ROUTE, [3], everything).nodes,
    )
    yield neared("radius: of two repeated ids the lesser is told", "refused RepeatedNode 1", near, 9, 3)
    yield neared("radius: a repeated id is told before a missing leaf", "refused RepeatedNode 1", near, 9, 8)
    short = replace(at_places(twice, ROUTE, [3], everything), node_cover=(bytes(32),))
    yield routed("the cover, in order: a digest more, and a repeated id", "refused BadCover 1 Long", short, 3, 3)
    thrice = by_hand("dij", [leaf(5, {}), leaf(5, {}), leaf(4, {}), leaf(5, {})])
    yield routed("an id stands three times", "refused RepeatedNode 5", at_places(thrice, ROUTE, [4], range(4)), 4, 4)


def numbers_of(method: str) -> tuple[int, int]:
    return {"ldm": (1, 1), "hyp": (1, 1)}.get(method, (0, 0))


def walks_in_order() -> Iterator[Case]:
    """The least node without a leaf is reported before a shorter walk; the route before both."""
    for method in ("dij", "ldm", "hyp"):
        added = added_of(method)
        nodes = [leaf(1, {2: 9, 3: 2, 8: 1, 7: 1}, added), leaf(2, {1: 9, 3: 9}, added), leaf(3, {1: 2, 2: 9}, added)]
        held = by_hand(method, nodes, (), *numbers_of(method))
        reply, name = at_places(held, ROUTE, [1, 2, 3], range(3)), method.upper()
        yield routed(f"{name}, in order: a node without a leaf, then a shorter way", "refused MissingTuple 7", reply)
        yield routed(
            f"{name}, in order: a hop that is no road, then a node without a leaf",
            "refused BadRoute 2",
            replace(reply, route=(1, 3, 9)),
        )
        yield routed(
            f"{name}, in order: the end of the route, then a node without a leaf",
            "refused BadRoute 2",
            replace(reply, route=(1, 2)),
        )
        yield routed(
            f"{name}, in order: the start of the route, then its end",
            "refused BadRoute 0",
            replace(reply, route=(2, 1)),
        )
        yield routed(
            f"{name}, in order: a leaf on the route, then a hop behind it",
            "refused MissingTuple 8",
            replace(reply, route=(1, 8, 9)),
        )
        yield routed(
            f"{name}, in order: a hop that is no road, then the leaf behind it",
            "refused BadRoute 1",
            replace(reply, route=(1, 9)),
        )
        yield routed(
            f"{name}, in order: the last leaf of the route, before its end",
            "refused MissingTuple 8",
            replace(reply, route=(1, 8)),
        )
        near = near_reply(held, [1, 2, 3])
        yield neared(f"{name}, in order: of two nodes without a leaf the lesser", "refused MissingTuple 7", near)
        joined = [
            leaf(1, {2: 9, 3: 2, 4: 1}, added),
            leaf(2, {1: 9, 3: 9}, added),
            leaf(3, {}, added),
            leaf(4, {3: 0}, added),
        ]
        two = by_hand(method, joined, (), *numbers_of(method))
        yield routed(
            f"{name}, in order: of two shorter ways the least length",
            "refused Shorter 1",
            at_places(two, ROUTE, [1, 2, 3], range(4)),
        )
    full = by_hand("full", [leaf(1, {2: 4}), leaf(2, {1: 4})], [PairLeaf(1, 2, 9)])
    yield routed(
        "FULL, in order: the route, then a distance",
        "refused BadRoute 1",
        at_places(full, ROUTE, [1], range(2), [0]),
        1,
        2,
    )
    yield routed(
        "FULL, in order: a leaf of the route, then a pair",
        "refused MissingTuple 2",
        at_places(full, ROUTE, [1, 2], [0], []),
        1,
        2,
    )


def apart_in_order() -> Iterator[Case]:
    """The start, the end, then nodes without a leaf, the least, then a way."""
    for method in ("dij", "full", "ldm", "hyp"):
        added, name = added_of(method), f"no route, {method.upper()}, in order"
        nodes = [leaf(1, {3: 2, 8: 1, 7: 1}, added), leaf(2, {}, added), leaf(3, {1: 2}, added)]
        pairs = [PairLeaf(1, 3, 2)] if method == "full" else []
        held = by_hand(method, nodes, pairs, *numbers_of(method))

        def reply(*places: int) -> Answer:
            return at_places(held, APART, [], places, range(len(pairs)))

        yield routed(
            f"{name}: neither end has a leaf, and the start's id is greater",
            "refused MissingTuple 9",
            reply(0, 1, 2),
            9,
            4,
        )
        yield routed(
            f"{name}: neither end has a leaf, and the start's id is lesser",
            "refused MissingTuple 4",
            reply(0, 1, 2),
            4,
            9,
        )
        yield routed(f"{name}: the start has no leaf, and the end has", "refused MissingTuple 9", reply(0, 1, 2), 9, 1)
        yield routed(
            f"{name}: the end has no leaf, and the start reaches a lesser id without one",
            "refused MissingTuple 9",
            reply(0, 1, 2),
            1,
            9,
        )
        if method != "full":
            yield routed(f"{name}: a node without a leaf, then a way", "refused MissingTuple 7", reply(0, 1, 2), 1, 3)
            yield routed(
                f"{name}: from a node to itself, a node without a leaf first",
                "refused MissingTuple 7",
                reply(0, 1, 2),
                1,
                1,
            )
        yield routed(f"{name}: from a node to itself", "refused Shorter 0", reply(1), 2, 2)
    hyp = [leaf(1, {7: 2}, InCell(0, False)), leaf(3, {5: 1}, InCell(1, False))]
    held = by_hand("hyp", hyp, [], 2, 1)
    yield routed(
        "no route, HYP, in order: of both sides the lesser id, which is the end's",
        "refused MissingTuple 5",
        at_places(held, APART, [], range(2)),
    )
    held = by_hand("hyp", [leaf(1, {5: 2}, InCell(0, False)), leaf(3, {7: 1}, InCell(1, False))], [], 2, 1)
    yield routed(
        "no route, HYP, in order: of both sides the lesser id, which is the start's",
        "refused MissingTuple 5",
        at_places(held, APART, [], range(2)),
    )
    yield routed(
        "no route, FULL, in order: from a node to itself, before its leaf",
        "refused MissingTuple 9",
        brings_apart(books()["full"], [1]),
        9,
        9,
    )


def tables(near: dict[int, int], far: dict[int, int], more: dict[int, NodeLeaf] | None = None) -> list[NodeLeaf]:
    """Borders near the start 1 and near the end 2, each with its length; the first two are joined by a road of 50."""
    first, last = next(iter(near)), next(iter(far))
    nodes = {1: leaf(1, near, InCell(0, False)), 2: leaf(2, far, InCell(1, False))}
    nodes |= {node: leaf(node, {1: length}, InCell(0, True)) for node, length in near.items()}
    nodes |= {node: leaf(node, {2: length}, InCell(1, True)) for node, length in far.items()}
    nodes[first] = leaf(first, {1: near[first], last: 50}, InCell(0, True))
    return list({**nodes, **(more or {})}.values())


def pairs_in_order() -> Iterator[Case]:
    """The first failing border is reported: the start's, then the end's, each by ascending id."""
    near, far = {14: 1, 12: 2}, {23: 1, 21: 2}

    def answer(kind: int, said: dict[tuple[int, int], int], nodes: list[NodeLeaf]) -> Answer:
        held = by_hand("hyp", nodes, [PairLeaf(min(pair), max(pair), one) for pair, one in said.items()], 2, 1)
        return at_places(held, kind, [1, 14, 23, 2] if kind == ROUTE else [], range(len(nodes)), range(len(said)))

    def route(why: str, line: str, said: dict[tuple[int, int], int], nodes: list[NodeLeaf] | None = None) -> Case:
        return routed(f"HYP, in order: {why}", line, answer(ROUTE, said, nodes or tables(near, far)), 1, 2)

    def none(why: str, line: str, said: dict[tuple[int, int], int], nodes: list[NodeLeaf] | None = None) -> Case:
        return routed(f"no route, HYP, in order: {why}", line, answer(APART, said, nodes or tables(near, far)), 1, 2)

    every = {(a, b): 50 for a in near for b in far}
    all_ones = dict.fromkeys(every, NO_WALK)
    yield route("all pairs are good", "accepted 52: 1 14 23 2", every)
    without = {pair: said for pair, said in every.items() if pair != (14, 21)}
    yield route(
        "a shorter way by the first pair, then a pair without a leaf", "refused Shorter 5", {**without, (12, 21): 1}
    )
    yield route("a pair without a leaf, then a shorter way", "refused MissingPair 14 21", {**without, (14, 23): 1})
    yield route(
        "two shorter ways, of which the first is longer", "refused Shorter 13", {**every, (12, 21): 9, (14, 23): 1}
    )
    yield route(
        "two shorter ways, by the start's border first", "refused Shorter 8", {**every, (12, 23): 5, (14, 21): 4}
    )
    yield route("no pair has a leaf", "refused MissingPair 12 21", {(1, 2): 9})
    yield route(
        "a pair whose inner lengths are together the route's needs no leaf",
        "accepted 52: 1 14 23 2",
        without,
        tables(near, {23: 1, 21: 51}),
    )
    yield route(
        "one less, and it needs one",
        "refused MissingPair 12 21",
        {(14, 23): 50, (12, 23): 50},
        tables({14: 1, 12: 1}, {23: 1, 21: 50}),
    )
    lesser_far = tables({34: 1, 32: 2}, {23: 1, 21: 2})
    held = by_hand("hyp", lesser_far, [PairLeaf(21, 32, 50), PairLeaf(23, 34, 50), PairLeaf(21, 34, 50)], 2, 1)
    reply = at_places(held, ROUTE, [1, 34, 23, 2], range(len(lesser_far)), range(3))
    yield routed(
        "HYP, in order: a pair without a leaf is told with its lesser id first, which is the end's",
        "refused MissingPair 23 32",
        reply,
        1,
        2,
    )
    yield none("all pairs are good", "accepted none", all_ones)
    apart = {pair: said for pair, said in all_ones.items() if pair != (14, 21)}
    yield none(
        "a distance by the first pair, then a pair without a leaf", "refused Disagrees 1", {**apart, (12, 21): 1}
    )
    yield none("a pair without a leaf, then a distance", "refused MissingPair 14 21", {**apart, (14, 23): 1})
    yield none(
        "two distances, of which the first is greater", "refused Disagrees 9", {**all_ones, (12, 21): 9, (14, 23): 1}
    )
    yield none(
        "two distances, by the start's border first", "refused Disagrees 5", {**all_ones, (12, 23): 5, (14, 21): 4}
    )
    yield none("no pair has a leaf", "refused MissingPair 12 21", {(1, 2): 9})
    shared = {12: leaf(12, {1: 2, 2: 3}, InCell(0, True)), 2: leaf(2, {23: 1, 21: 2, 12: 3}, InCell(1, False))}
    nodes = tables(near, far, shared)
    yield route("a border near both ends, before a pair of a greater border", "refused Shorter 5", {(14, 23): 0}, nodes)
    yield none("a border near both ends, before a pair of a greater border", "refused Shorter 5", {(14, 23): 0}, nodes)
    yield route(
        "a pair of a border near both ends, before itself",
        "refused MissingPair 11 12",
        {(14, 23): 50},
        tables(
            near,
            far,
            {
                12: shared[12],
                2: leaf(2, {23: 1, 21: 2, 12: 3, 11: 1}, InCell(1, False)),
                11: leaf(11, {2: 1}, InCell(1, True)),
            },
        ),
    )
    direct = {1: leaf(1, {14: 1, 12: 2, 2: 7}, InCell(0, False))}
    yield route(
        "an inner walk between the ends, before a pair without a leaf",
        "refused Shorter 7",
        {(14, 23): 50},
        tables(near, far, direct),
    )
    yield none(
        "an inner walk between the ends, before a pair without a leaf",
        "refused Shorter 7",
        {(14, 23): 50},
        tables(near, far, direct),
    )
    lacking = {1: leaf(1, {14: 1, 12: 2, 2: 7, 30: 1}, InCell(0, False))}
    yield route(
        "a node without a leaf, before an inner walk between the ends",
        "refused MissingTuple 30",
        {(14, 23): 50},
        tables(near, far, lacking),
    )
    yield none(
        "a node without a leaf, before an inner walk between the ends",
        "refused MissingTuple 30",
        {(14, 23): 50},
        tables(near, far, lacking),
    )


def directions() -> Iterator[Case]:
    """Leaves whose arcs lead in one direction only: walks begin at the start, and an arc back does not count."""
    for method in ("dij", "ldm", "hyp"):
        added, name = added_of(method), method.upper()
        nodes = [leaf(1, {2: 4}, added), leaf(2, {3: 5}, added), leaf(3, {1: 1, 2: 1}, added)]
        held = by_hand(method, nodes, (), *numbers_of(method))
        yield routed(
            f"{name}: a shorter way from the end to the start counts for nothing",
            "accepted 9: 1 2 3",
            at_places(held, ROUTE, [1, 2, 3], range(3)),
        )
        yield routed(
            f"{name}: a hop whose road is listed by the other node alone",
            "refused BadRoute 1",
            at_places(held, ROUTE, [1, 3], range(3)),
        )
        back = [leaf(1, {}, added), leaf(3, {1: 4}, added)]
        held = by_hand(method, back, (), *numbers_of(method))
        yield routed(
            f"{name}: no route, and a way from the end to the start counts for nothing",
            "accepted none",
            at_places(held, APART, [], range(2)),
        )
        yield routed(
            f"{name}: no route, asked the other way", "refused Shorter 4", at_places(held, APART, [], range(2)), 3, 1
        )
    nodes = [leaf(1, {2: 4}, InCell(0, True)), leaf(2, {3: 5}, InCell(0, False)), leaf(3, {2: 5}, InCell(1, True))]
    held = by_hand("hyp", nodes, [PairLeaf(1, 3, 9)], 2, 1)
    reply = at_places(held, ROUTE, [1, 2, 3], range(3), [0])
    yield routed("HYP: both ends are borders", "accepted 9: 1 2 3", reply)
    yield routed(
        "HYP: both ends are borders, whose pair has no leaf",
        "refused MissingPair 1 3",
        at_places(held, ROUTE, [1, 2, 3], range(3)),
    )
    lie = by_hand("hyp", nodes, [PairLeaf(1, 3, 8)], 2, 1)
    yield routed(
        "HYP: both ends are borders, whose pair is nearer",
        "refused Shorter 8",
        at_places(lie, ROUTE, [1, 2, 3], range(3), [0]),
    )
    own = by_hand(
        "hyp", [leaf(1, {2: 4}, InCell(0, True)), leaf(2, {1: 4}, InCell(1, True))], [PairLeaf(1, 2, 4)], 2, 1
    )
    yield routed(
        "HYP: from a border to itself by a detour",
        "refused Shorter 0",
        at_places(own, ROUTE, [1, 2, 1], range(2), [0]),
        1,
        1,
    )
    yield routed("HYP: from a border to itself", "accepted 0: 1", at_places(own, ROUTE, [1], [0]), 1, 1)
    yield routed("HYP: no route from a border to itself", "refused Shorter 0", at_places(own, APART, [], [0]), 1, 1)


def radius_in_order() -> Iterator[Case]:
    """A radius: of the nodes without a leaf, the least id and not the nearest; each with its least length."""
    held = by_hand("dij", [leaf(1, {2: 9, 4: 1, 8: 1, 9: 2}), leaf(2, {}), leaf(4, {2: 1, 7: 3})])
    reply = near_reply(books()["dij"], [])
    for places, line in ((range(3), "MissingTuple 7"), ([0, 1], "MissingTuple 4"), ([1, 2], "MissingTuple 1")):
        items = at_places(held, ROUTE, [1], places)
        near = replace(
            reply, header=items.header, signature=items.signature, nodes=items.nodes, node_cover=items.node_cover
        )
        yield neared(
            f"radius, in order: the least id without a leaf, with the items {' '.join(map(str, places))}",
            f"refused {line}",
            near,
            9,
        )
        if len(list(places)) == 3:
            yield neared(
                "radius: by a way round a node is within, and by its road it is not",
                "within 3: 1 2 4",
                _without(near),
                2,
                1,
            )


def _without(near: NearReply) -> NearReply:
    """The same without the nodes that have no leaf."""
    held = by_hand("dij", [leaf(1, {2: 9, 4: 1}), leaf(2, {}), leaf(4, {2: 1})])
    items = at_places(held, ROUTE, [1], range(3))
    return replace(near, header=items.header, signature=items.signature, nodes=items.nodes, node_cover=items.node_cover)
