"""Replies that exceed small limits of wrong clients: items, routes, digests, arcs, landmarks, octets of a leaf, links.

A client that takes 8, 16, 32 or 255 of one, or looks at the first so many alone, says otherwise of one of these. Tested, not
proved; no client trusts it.
"""
from collections.abc import Iterator, Sequence
from dataclasses import replace
from functools import lru_cache

from gogbetiku_reference.chains import Link
from gogbetiku_reference.leaves import NO_WALK, Added, InCell, Near, NodeLeaf, Own, PairLeaf
from gogbetiku_reference.lms import Key, key_of
from gogbetiku_reference.replies import APART, ROUTE, Answer
from gogbetiku_reference.servers import Held, near_reply

from .asking import added_of, leaf, link, neared, routed, turned
from .client_every import with_node, with_pair
from .families import Case
from .scenes import STREETS, at_places, brings, by_hand, published, settings_of

COUNTS = (9, 17, 33, 300)
MOST_ARCS, MOST_LANDMARKS, MOST_ROUTE = 255, 64, 65_536


def numbers_of(method: str) -> tuple[int, int]:
    return {"ldm": (1, 1), "hyp": (1, 1)}.get(method, (0, 0))


def path(method: str, count: int, pairs: Sequence[PairLeaf] = ()) -> Held:
    """Nodes in a row, a road of length 1 between each two."""
    nodes = [
        leaf(node, {there: 1 for there in (node - 1, node + 1) if 1 <= there <= count}, added_of(method))
        for node in range(1, count + 1)
    ]
    return by_hand(method, nodes, pairs, *numbers_of(method))


def long_routes() -> Iterator[Case]:
    for method in ("dij", "full", "ldm", "hyp"):
        for count in COUNTS:
            pairs = [PairLeaf(1, count, count - 1)] if method == "full" else []
            held, ids = path(method, count, pairs), list(range(1, count + 1))
            reply = at_places(held, ROUTE, ids, range(count), range(len(pairs)))
            name = f"{method.upper()}: a route of {count} nodes and as many items"
            yield routed(name, f"accepted {count - 1}: {' '.join(map(str, ids))}", reply, 1, count)
            yield routed(
                f"{name}, which ends early",
                f"refused BadRoute {count - 1}",
                replace(reply, route=tuple(ids[:-1])),
                1,
                count,
            )
            yield routed(
                f"{name}, whose last hop is no road",
                f"refused BadRoute {count - 1}",
                replace(reply, route=(*ids[:-1], 1)),
                1,
                count,
            )
            without = at_places(held, ROUTE, ids, range(count - 1), range(len(pairs)))
            yield routed(f"{name} but the last", f"refused MissingTuple {count}", without, 1, count)
            yield routed(
                f"{name}, another leaf at the last",
                "refused BadCover 1 Differs",
                with_node(reply, count - 1, replace(reply.nodes[-1].leaf, x=1)),
                1,
                count,
            )
    for method in ("dij", "ldm", "hyp"):
        for count in COUNTS:
            yield routed(
                f"{method.upper()}: no route beside {count} items",
                "accepted none",
                at_places(apart_path(method, count), APART, [], range(count)),
                1,
                count,
            )
    held = by_hand("dij", [leaf(1, {2: 0}), leaf(2, {1: 0})])
    ids = [1, 2] * (MOST_ROUTE // 2)
    yield routed(
        "the longest route, to and fro",
        f"accepted 0: {' '.join(map(str, ids))}",
        at_places(held, ROUTE, ids, range(2)),
        1,
        2,
    )


def apart_path(method: str, count: int) -> Held:
    """Nodes in a row, with a last node that is joined to none."""
    last = Own((0,)) if method == "ldm" else added_of(method)
    nodes = [
        leaf(node, {there: 1 for there in (node - 1, node + 1) if 1 <= there < count}, added_of(method))
        for node in range(1, count)
    ]
    return by_hand(method, [*nodes, leaf(count, {}, last)], (), *numbers_of(method))


def many_items() -> Iterator[Case]:
    """Items after this many are read, hashed and judged too."""
    for count in COUNTS:
        nodes = [leaf(node, {}) for node in range(1, count)]
        for twice in (1, count - 1):
            held = by_hand("dij", [*nodes, leaf(twice, {})])
            yield routed(
                f"{count} items, and the last has the id {twice} of another",
                f"refused RepeatedNode {twice}",
                at_places(held, ROUTE, [1], range(count)),
                1,
                1,
            )
        spread = [leaf(node, {}) for node in range(1, count + 1)]
        held = by_hand("dij", spread)
        ids = [*range(1, count + 1)]
        reply = replace(near_reply(held, ids), signature=held.publication.signature)
        yield neared(f"{count} items, of which one is within", "within 1: 1", reply)
        yield neared(
            f"{count} items, another leaf at the last",
            "refused BadCover Differs",
            with_node(reply, count - 1, replace(spread[-1], y=7)),
        )
        whole = path("dij", count)
        yield neared(
            f"{count} nodes within", f"within {count}: {' '.join(map(str, ids))}", near_reply(whole, ids), count
        )
        yield neared(
            f"{count} nodes within, the last without a leaf",
            f"refused MissingTuple {count}",
            near_reply(whole, ids[:-1]),
            count,
        )


def many_pairs() -> Iterator[Case]:
    nodes = [leaf(1, {2: 4}), leaf(2, {1: 4})]
    for count in COUNTS:
        spare = [PairLeaf(3, node, 1) for node in range(4, 3 + count)]
        held = by_hand("full", nodes, [*spare, PairLeaf(1, 2, 4)])
        reply = at_places(held, ROUTE, [1, 2], range(2), range(count))
        yield routed(f"FULL: {count} pairs, of which the last counts", "accepted 4: 1 2", reply, 1, 2)
        lie = with_pair(reply, count - 1, PairLeaf(1, 2, 5))
        yield routed(f"FULL: {count} pairs, another distance at the last", "refused BadCover 2 Differs", lie, 1, 2)
        alone = at_places(held, ROUTE, [1, 2], range(2), [count - 1])
        yield routed(f"FULL: the last of {count} pairs alone", "accepted 4: 1 2", alone, 1, 2)
    for side in (3, 5, 6, 17):
        yield from border_table(side)


def border_table(side: int) -> Iterator[Case]:
    """As many borders near each end; the last pair of all shows a shorter route, says another thing, or is missing."""
    near, far = [*range(11, 11 + side)], [*range(111, 111 + side)]
    nodes = [
        leaf(1, {node: 1 for node in near}, InCell(0, False)),
        leaf(2, {node: 1 for node in far}, InCell(1, False)),
    ]
    nodes += [leaf(node, {1: 1, **({111: 9} if node == 11 else {})}, InCell(0, True)) for node in near]
    nodes += [leaf(node, {2: 1, **({11: 9} if node == 111 else {})}, InCell(1, True)) for node in far]

    def reply(last: PairLeaf | None, kind: int, others: int) -> Answer:
        pairs = [PairLeaf(a, b, others) for a in near for b in far][:-1] + ([last] if last else [])
        held = by_hand("hyp", nodes, pairs, 2, 1)
        return at_places(held, kind, [1, 11, 111, 2] if kind == ROUTE else [], range(len(nodes)), range(len(pairs)))

    name, a, b = f"HYP: {side * side} pairs of borders", near[-1], far[-1]
    yield routed(name, "accepted 11: 1 11 111 2", reply(PairLeaf(a, b, 9), ROUTE, 9), 1, 2)
    yield routed(
        f"{name}, the last shows a shorter route", "refused Shorter 10", reply(PairLeaf(a, b, 8), ROUTE, 9), 1, 2
    )
    yield routed(f"{name} but the last", f"refused MissingPair {a} {b}", reply(None, ROUTE, 9), 1, 2)
    yield routed(f"{name}, no route", "accepted none", reply(PairLeaf(a, b, NO_WALK), APART, NO_WALK), 1, 2)
    yield routed(
        f"{name}, no route but by the last", "refused Disagrees 8", reply(PairLeaf(a, b, 8), APART, NO_WALK), 1, 2
    )
    yield routed(
        f"{name}, no route, without the last", f"refused MissingPair {a} {b}", reply(None, APART, NO_WALK), 1, 2
    )


def many_digests() -> Iterator[Case]:
    """Covers of many digests, each of which counts."""
    for chosen, fan, count in ((1, 32, 1024), (2, 2, 1024), (10, 32, 1024)):
        nodes = [leaf(node, {}) for node in range(1, count + 1)]
        held = by_hand("dij", nodes, fan=fan)
        places = [index * 97 for index in range(chosen)]
        reply = at_places(held, ROUTE, [1], places)
        name = f"a cover of {len(reply.node_cover)} digests"
        yield routed(name, "accepted 0: 1", reply, 1, 1)
        yield routed(
            f"{name} but the last", "refused BadCover 1 Short", replace(reply, node_cover=reply.node_cover[:-1]), 1, 1
        )
        yield routed(
            f"{name} and one more",
            "refused BadCover 1 Long",
            replace(reply, node_cover=(*reply.node_cover, bytes(32))),
            1,
            1,
        )
        last = turned(reply.node_cover[-1], 31)
        yield routed(
            f"{name}, the last another",
            "refused BadCover 1 Differs",
            replace(reply, node_cover=(*reply.node_cover[:-1], last)),
            1,
            1,
        )
    pairs = [PairLeaf(1, node, 1) for node in range(3, 1026)] + [PairLeaf(1, 2, 4)]
    held = by_hand("full", [leaf(1, {2: 4}), leaf(2, {1: 4})], pairs, fan=32)
    reply = at_places(held, ROUTE, [1, 2], range(2), [*range(0, 1023, 100), 1023])
    name = f"a cover of pairs of {len(reply.pair_cover)} digests"
    yield routed(name, "accepted 4: 1 2", reply, 1, 2)
    yield routed(
        f"{name} but the last", "refused BadCover 2 Short", replace(reply, pair_cover=reply.pair_cover[:-1]), 1, 2
    )
    last = turned(reply.pair_cover[-1], 0)
    yield routed(
        f"{name}, the last another",
        "refused BadCover 2 Differs",
        replace(reply, pair_cover=(*reply.pair_cover[:-1], last)),
        1,
        2,
    )


def many_arcs() -> Iterator[Case]:
    """The hop is by one of 255 arcs."""
    for target in (8, 9, 16, 17, 32, 33, 128, 254, 255):
        arcs = {node: 1 if node == target else 9 for node in range(1, MOST_ARCS + 1)}
        held = by_hand("dij", [leaf(0, arcs), leaf(target, {0: 1})])
        yield routed(
            f"a route by arc {target} of 255",
            f"accepted 1: 0 {target}",
            at_places(held, ROUTE, [0, target], range(2)),
            0,
            target,
        )
        yield neared(f"within 1, by arc {target} of 255", f"within 2: 0 {target}", near_reply(held, [0, target]), 1, 0)
        yield neared(
            f"arc {target} of 255 leads to a node without a leaf",
            f"refused MissingTuple {target}",
            near_reply(held, [0]),
            1,
            0,
        )
        for method in ("ldm", "hyp"):
            nodes = [leaf(0, {**arcs, target: 0}, added_of(method)), leaf(target, {0: 1}, added_of(method))]
            held = by_hand(method, nodes, (), *numbers_of(method))
            reply = at_places(held, ROUTE, [0, target], range(2))
            yield routed(
                f"{method.upper()}: a route by arc {target} of 255", f"accepted 0: 0 {target}", reply, 0, target
            )


def many_landmarks() -> Iterator[Case]:
    """One of 64 landmarks decides, at any position; also with an error, for named nodes, and without a route."""
    for count in (2, 3, 9, 17, 33, MOST_LANDMARKS):
        for tells in sorted({0, count // 2, count - 1}):
            codes = tuple(10 if mark == tells else 0 for mark in range(count))
            split = tuple(65_535 if mark == tells else 3 for mark in range(count))
            yield from telling(count, tells, codes, split)


def telling(count: int, tells: int, codes: tuple[int, ...], split: tuple[int, ...]) -> Iterator[Case]:
    name = f"of {count} landmarks number {tells}, counted from 0, tells"
    none = (0,) * count

    def bound_by(start: Added, end: Added, more: Sequence[NodeLeaf] = ()) -> Answer:
        nodes = [leaf(1, {2: 4, 4: 1}, start), leaf(2, {1: 4, 3: 5}, Own(none)), leaf(3, {2: 5}, end), *more]
        return at_places(by_hand("ldm", nodes, (), 1, count), ROUTE, [1, 2, 3], range(len(nodes)))

    def apart(start: Added, end: Added, more: Sequence[NodeLeaf] = ()) -> Answer:
        nodes = [leaf(1, {2: 4}, start), leaf(3, {}, end), *more]
        return at_places(by_hand("ldm", nodes, (), 1, count), APART, [], range(len(nodes)))

    yield routed(f"LDM: {name}", "accepted 9: 1 2 3", bound_by(Own(codes), Own(none)))
    lower = tuple(min(code, 9) for code in codes)
    yield routed(f"LDM: {name} too little", "refused MissingTuple 4", bound_by(Own(lower), Own(none)))
    kept = leaf(7, {}, Own(codes))
    yield routed(f"LDM: {name}, by a named node", "accepted 9: 1 2 3", bound_by(Near(7, 0), Own(none), [kept]))
    yield routed(f"LDM: no route, {name}", "accepted none", apart(Own(split), Own((3,) * count)))
    yield routed(
        f"LDM: no route, none {name[3:]}", "refused MissingTuple 2", apart(Own((3,) * count), Own((4,) * count))
    )
    kept = leaf(7, {}, Own(split))
    yield routed(
        f"LDM: no route, {name}, by a named node", "accepted none", apart(Own((3,) * count), Near(7, 9), [kept])
    )


def named_nodes() -> Iterator[Case]:
    """Named nodes that name another, themselves, or no node at hand: there are no codes then."""

    def route(why: str, line: str, start: Added, end: Added, *more: NodeLeaf) -> Case:
        nodes = [leaf(1, {2: 4, 4: 1}, start), leaf(2, {1: 4, 3: 5}, Own((0,))), leaf(3, {2: 5}, end), *more]
        return routed(
            f"LDM: {why}", line, at_places(by_hand("ldm", nodes, (), 1, 1), ROUTE, [1, 2, 3], range(len(nodes)))
        )

    def none(why: str, line: str, start: Added, end: Added, *more: NodeLeaf) -> Case:
        nodes = [leaf(1, {2: 4}, start), leaf(3, {}, end), *more]
        return routed(
            f"LDM: no route, {why}", line, at_places(by_hand("ldm", nodes, (), 1, 1), APART, [], range(len(nodes)))
        )

    live, dead, here, far = "refused MissingTuple 4", "accepted 9: 1 2 3", Own((0,)), Own((40,))
    names, kept = leaf(7, {}, Near(8, 0)), leaf(8, {}, far)
    yield route("the start names a node that names another", live, Near(7, 0), here, names, kept)
    yield route("the end names a node that names another", live, here, Near(7, 0), names, kept)
    yield route("the start names the other alone", dead, Near(8, 0), here, names, kept)
    yield route("the start names itself", live, Near(1, 0), far)
    yield route("the end names itself", live, far, Near(3, 0))
    yield route("start and end name each other", live, Near(3, 0), Near(1, 0))
    yield route("the start names a node on the route, whose codes are 0", live, Near(2, 0), here)
    yield route("the start names the end, whose codes are its own", live, Near(3, 0), far)
    split = leaf(8, {}, Own((65_535,)))
    missing = "refused MissingTuple 2"
    yield none("the start names a node that names another", missing, Near(7, 0), here, names, split)
    yield none("the end names a node that names another", missing, here, Near(7, 0), names, split)
    yield none("the end names the other alone", "accepted none", here, Near(8, 9), names, split)
    yield none("the start names the other alone", "accepted none", Near(8, 9), here, names, split)
    yield none("the start names itself", missing, Near(1, 0), Own((65_535,)))
    yield none("the end names itself", missing, Own((65_535,)), Near(3, 0))


@lru_cache(maxsize=1)
def eight_keys() -> tuple[list[Key], tuple[Link, ...]]:
    keys = [key_of(5, bytes([number]) * 48) for number in range(8)]
    return keys, tuple(link(before, after.public) for before, after in zip(keys, keys[1:]))


def long_chains() -> Iterator[Case]:
    """Chains of one to seven links, the header signed under each of the keys."""
    keys, chain = eight_keys()
    for number in range(3, 8):
        held = published(STREETS, settings_of("dij"), 0, keys[number])
        reply = brings(held, [1, 2, 3], [1, 2, 3, 4])
        yield routed(f"signed under key {number + 1} of eight", "accepted 9: 1 2 3", reply, chain=chain)
        yield routed(f"signed under the last of {number + 1} keys", "accepted 9: 1 2 3", reply, chain=chain[:number])
        yield routed(
            f"signed under key {number + 1}, with {number - 1} links",
            "refused BadSignature NoMatch",
            reply,
            chain=chain[: number - 1],
        )
        near = near_reply(held, [1, 2, 4])
        yield neared(f"signed under key {number + 1} of eight", "within 3: 1 2 4", near, chain=chain)
        yield neared(
            f"signed under key {number + 1}, with {number - 1} links",
            "refused BadSignature NoMatch",
            near,
            chain=chain[: number - 1],
        )
    reply = brings(published(STREETS, settings_of("dij")), [1, 2, 3], [1, 2, 3, 4])
    for number, one in enumerate(chain):
        bad = (*chain[:number], replace(one, signature=turned(one.signature, 50)), *chain[number + 1 :])
        yield routed(f"link {number} of seven is not signed", f"refused BadChain {number} NoMatch", reply, chain=bad)
    by_other_slot = (Link(keys[1].public, keys[0].sign(3, b"RPK1" + keys[1].public)), *chain[1:])
    yield routed(
        "a link signed by a one-time key that is not the last", "accepted 9: 1 2 3", reply, chain=by_other_slot
    )
    twice = (chain[0], Link(keys[0].public, keys[1].sign(31, b"RPK1" + keys[0].public)))
    yield routed("a chain that leads back to its first key", "accepted 9: 1 2 3", reply, chain=twice)


def limits() -> Iterator[Case]:
    for made in (
        long_routes,
        many_items,
        many_pairs,
        many_digests,
        many_arcs,
        many_landmarks,
        named_nodes,
        long_chains,
    ):
        yield from made()
