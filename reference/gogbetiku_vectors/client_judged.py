"""Routes, and claims that there is none, by their judgement under the four methods.

Tested, not proved; no client trusts it.
"""
from collections.abc import Iterator
from dataclasses import replace

from gogbetiku_reference.leaves import NO_WALK, Added, InCell, Near, NodeLeaf, Own, PairLeaf
from gogbetiku_reference.replies import APART, ROUTE
from gogbetiku_reference.servers import Held

from .families import Case
from .scenes import LEVEL, SIX, at_places, brings, brings_apart, by_hand, published, settings_of
from .asking import GREATEST, books, honest, leaf, routed


def routes() -> Iterator[Case]:
    """The route itself."""
    held, reply = books()["dij"], honest("dij")
    for why, line, route in (
        ("it begins elsewhere", "BadRoute 0", [2, 3]),
        ("it begins at no node", "BadRoute 0", [9]),
        ("its first hop is no road", "BadRoute 1", [1, 3]),
        ("a hop to its own node", "BadRoute 1", [1, 1, 2, 3]),
        ("its second hop is no road", "BadRoute 2", [1, 2, 4, 3]),
        ("it ends early", "BadRoute 2", [1, 2]),
        ("it goes on", "BadRoute 4", [1, 2, 3, 4]),
        ("it is the start alone", "BadRoute 1", [1]),
    ):
        yield routed(f"the route: {why}", f"refused {line}", replace(reply, route=tuple(route)))
    yield routed("a route's node has no leaf", "refused MissingTuple 2", brings(held, [1, 2, 3], [1, 3, 4]))
    yield routed("the start has no leaf", "refused MissingTuple 1", brings(held, [1, 2, 3], [2, 3, 4]))
    yield routed("the end has no leaf", "refused MissingTuple 3", brings(held, [1, 2, 3], [1, 2, 4]))
    yield routed("no leaf at all", "refused MissingTuple 1", brings(held, [1, 2, 3], []))
    yield routed(
        "a node on the way has no leaf, and the next hop is no road: the leaf is told",
        "refused MissingTuple 2",
        brings(held, [1, 2, 4], [1, 4]),
    )
    yield routed("the query's end is another", "refused BadRoute 3", reply, 1, 4)
    yield routed("the query's start is another", "refused BadRoute 0", reply, 2, 3)
    yield routed("from a node to itself", "accepted 0: 1", brings(held, [1], [1]), 1, 1)
    level = published(LEVEL, settings_of("dij"))
    yield routed("roads of length 0", "accepted 0: 1 2 3", brings(level, [1, 2, 3], [1, 2, 3]))
    yield routed(
        "a route may meet a node twice, over roads of length 0",
        "accepted 0: 1 2 1 2 3",
        brings(level, [1, 2, 1, 2, 3], [1, 2, 3]),
    )
    yield routed("the way back", "accepted 9: 3 2 1", brings(held, [3, 2, 1], [1, 2, 3, 4]), 3, 1)
    yield routed("a spare leaf", "accepted 9: 1 2 3", brings(held, [1, 2, 3], [1, 2, 3, 4, 5]))
    greatest = by_hand(
        "dij", [leaf(1, {2: 2**32 - 1}), leaf(2, {1: 2**32 - 1, 3: 2**32 - 1}), leaf(3, {2: 2**32 - 1})]
    )
    yield routed(
        "the greatest lengths, whose sum passes 32 bits",
        "accepted 8589934590: 1 2 3",
        at_places(greatest, ROUTE, [1, 2, 3], range(3)),
    )


def judged_dij() -> Iterator[Case]:
    held = books()["dij"]
    yield routed(
        "DIJ: a node that is nearer than the end has no leaf",
        "refused MissingTuple 4",
        brings(held, [1, 2, 3], [1, 2, 3]),
    )
    yield routed(
        "DIJ: a longer route, with the leaves that show the shorter one",
        "refused Shorter 9",
        brings(held, [1, 4, 3], [1, 2, 3, 4]),
    )
    yield routed(
        "DIJ: a longer route, whose reply hides the shorter one's node",
        "refused MissingTuple 2",
        brings(held, [1, 4, 3], [1, 3, 4]),
    )
    yield routed("DIJ: a detour to and fro", "refused Shorter 9", brings(held, [1, 2, 1, 2, 3], [1, 2, 3, 4]))
    yield routed(
        "DIJ: from a node to itself by a detour", "refused Shorter 0", brings(held, [1, 2, 1], [1, 2, 4]), 1, 1
    )
    two = by_hand("dij", [leaf(1, {2: 1, 4: 2, 5: 3}), leaf(2, {1: 1, 3: 9}), leaf(3, {2: 9})])
    yield routed(
        "DIJ: two nodes have no leaf, and the lesser id is told",
        "refused MissingTuple 4",
        at_places(two, ROUTE, [1, 2, 3], range(3)),
    )
    equal = by_hand("dij", [leaf(1, {2: 4, 4: 9}), leaf(2, {1: 4, 3: 5}), leaf(3, {2: 5})])
    yield routed(
        "DIJ: a node as far as the end needs no leaf", "accepted 9: 1 2 3", at_places(equal, ROUTE, [1, 2, 3], range(3))
    )
    tie = by_hand("dij", [leaf(1, {2: 4, 4: 4}), leaf(2, {1: 4, 3: 5}), leaf(3, {2: 5, 4: 5}), leaf(4, {1: 4, 3: 5})])
    yield routed(
        "DIJ: of two equally short routes, one", "accepted 9: 1 2 3", at_places(tie, ROUTE, [1, 2, 3], range(4))
    )
    yield routed(
        "DIJ: of two equally short routes, the other", "accepted 9: 1 4 3", at_places(tie, ROUTE, [1, 4, 3], range(4))
    )


def judged_full() -> Iterator[Case]:
    held = books()["full"]
    yield routed("FULL", "accepted 9: 1 2 3", honest("full"))
    yield routed(
        "FULL: the pair's leaf says another distance than the route has",
        "refused Disagrees 9",
        brings(held, [1, 4, 3], [1, 3, 4], [(1, 3)]),
    )
    yield routed("FULL: no leaf of the pair", "refused MissingPair 1 3", brings(held, [1, 2, 3], [1, 2, 3]))
    yield routed(
        "FULL: no leaf of the pair, asked the other way",
        "refused MissingPair 1 3",
        brings(held, [3, 2, 1], [1, 2, 3], [(1, 2), (2, 3)]),
        3,
        1,
    )
    yield routed("FULL: the way back", "accepted 9: 3 2 1", brings(held, [3, 2, 1], [1, 2, 3], [(1, 3)]), 3, 1)
    yield routed("FULL: from a node to itself", "accepted 0: 1", brings(held, [1], [1]), 1, 1)
    yield routed("FULL: from a node to itself by a detour", "refused Shorter 0", brings(held, [1, 2, 1], [1, 2]), 1, 1)
    lies = by_hand("full", held.book.nodes, [PairLeaf(1, 3, NO_WALK)])
    yield routed(
        "FULL: the pair's leaf says that no walk joins the two",
        f"refused Disagrees {GREATEST}",
        at_places(lies, ROUTE, [1, 2, 3], range(3), [0]),
    )
    longer = by_hand("full", held.book.nodes, [PairLeaf(1, 3, 10)])
    yield routed(
        "FULL: the pair's leaf says a greater distance",
        "refused Disagrees 10",
        at_places(longer, ROUTE, [1, 2, 3], range(3), [0]),
    )
    twice = by_hand("full", held.book.nodes, [PairLeaf(1, 3, 9), PairLeaf(1, 3, 4)])
    yield routed(
        "FULL: two leaves of one pair, of which the first counts",
        "accepted 9: 1 2 3",
        at_places(twice, ROUTE, [1, 2, 3], range(3), [0, 1]),
    )


def judged_ldm() -> Iterator[Case]:
    line, held = books()["line"], books()["ldm"]
    yield routed("LDM", "accepted 20: 3 4 5", brings(line, [3, 4, 5], [2, 3, 4, 5]), 3, 5)
    yield routed(
        "LDM: a neighbour of a live node has no leaf",
        "refused MissingTuple 2",
        brings(line, [3, 4, 5], [3, 4, 5]),
        3,
        5,
    )
    yield routed(
        "LDM: a node whose codes show that it leads nowhere need not be gone on from",
        "accepted 20: 3 4 5",
        brings(line, [3, 4, 5], [1, 2, 3, 4, 5]),
        3,
        5,
    )
    yield routed("LDM, with a node near by for codes", "accepted 9: 1 2 3", honest("ldm"))
    yield routed(
        "LDM: a longer route, with the leaves that show the shorter one",
        "refused Shorter 9",
        brings(held, [1, 4, 3], [1, 2, 3, 4]),
    )
    yield routed(
        "LDM: a longer route, without the node of the shorter one",
        "refused MissingTuple 2",
        brings(held, [1, 4, 3], [1, 3, 4]),
    )
    yield routed("LDM: from a node to itself", "accepted 0: 1", brings(held, [1], [1]), 1, 1)
    yield routed(
        "LDM: from a node to itself by a detour", "refused Shorter 0", brings(held, [1, 2, 1], [1, 2, 3, 4]), 1, 1
    )
    yield from bounds()


def bounds() -> Iterator[Case]:
    """Bounds by hand-made codes: step 1, from 1 over 2 to 3, and a neighbour 4 of 1 that lacks a leaf."""

    def ldm(
        ends: tuple[Added, ...],
        start: tuple[Added, ...],
        step: int = 1,
        landmarks: int = 1,
        more: tuple[NodeLeaf, ...] = (),
    ) -> Held:
        nodes = [leaf(1, {2: 4, 4: 1}, *start), leaf(2, {1: 4, 3: 5}, Own((0,) * landmarks)), leaf(3, {2: 5}, *ends)]
        return by_hand("ldm", [*nodes, *more], (), step, landmarks)

    def case(why: str, line: str, held: Held) -> Case:
        return routed(f"LDM: {why}", line, at_places(held, ROUTE, [1, 2, 3], range(len(held.book.nodes))))

    live, dead = "refused MissingTuple 4", "accepted 9: 1 2 3"
    yield case(
        "a bound of 9 is not below the length, so the start is not gone on from", dead, ldm((Own((10,)),), (Own((0,)),))
    )
    yield case("a bound of 8 is below the length", live, ldm((Own((9,)),), (Own((0,)),)))
    yield case("a step of 3 makes the bound of codes 4 apart 9", dead, ldm((Own((4,)),), (Own((0,)),), 3))
    yield case("a step of 3 makes the bound of codes 3 apart 6", live, ldm((Own((3,)),), (Own((0,)),), 3))
    yield case("codes in the other direction", dead, ldm((Own((0,)),), (Own((10,)),)))
    yield case("no bound by a landmark that reaches neither", live, ldm((Own((65_535,)),), (Own((65_535,)),)))
    yield case("no bound by a landmark that reaches one alone", live, ldm((Own((65_535,)),), (Own((0,)),)))
    yield case("of two landmarks the greater bound", dead, ldm((Own((0, 10)),), (Own((0, 0)),), 1, 2))
    kept = leaf(7, {}, Own((10,)))
    yield case("the codes of a node near by that is at hand", dead, ldm((Near(7, 0),), (Own((0,)),), more=(kept,)))
    yield case("an error of 1 lessens the bound", live, ldm((Near(7, 1),), (Own((0,)),), more=(kept,)))
    yield case("the start's error lessens the bound too", live, ldm((Own((0,)),), (Near(7, 1),), more=(kept,)))
    yield case(
        "two errors lessen it twice",
        dead,
        ldm((Near(7, 1),), (Near(8, 1),), more=(leaf(7, {}, Own((12,))), leaf(8, {}, Own((0,))))),
    )
    yield case(
        "two errors lessen it twice, to below the length",
        live,
        ldm((Near(7, 1),), (Near(8, 1),), more=(leaf(7, {}, Own((11,))), leaf(8, {}, Own((0,))))),
    )
    yield case("no codes of a node near by that is not at hand", live, ldm((Near(9, 0),), (Own((0,)),)))
    yield case(
        "no codes of a node near by that has none of its own",
        live,
        ldm((Near(7, 0),), (Own((0,)),), more=(leaf(7, {}, Near(2, 0)),)),
    )
    yield case("no bound below 0", live, ldm((Own((0,)),), (Own((0,)),)))
    yield case("a bound that passes 64 bits", dead, ldm((Own((65_534,)),), (Own((0,)),), GREATEST))


def judged_hyp() -> Iterator[Case]:
    held = books()["hyp"]
    yield routed("HYP", "accepted 9: 1 2 3", honest("hyp"))
    yield routed(
        "HYP: a pair of borders has no leaf", "refused MissingPair 3 4", brings(held, [1, 2, 3], [1, 2, 3, 4], [(2, 3)])
    )
    yield routed(
        "HYP: another pair of borders has no leaf",
        "refused MissingPair 2 3",
        brings(held, [1, 2, 3], [1, 2, 3, 4], [(3, 4)]),
    )
    yield routed(
        "HYP: a longer route, and the pair that shows the shorter one",
        "refused Shorter 9",
        brings(held, [1, 4, 3], [1, 2, 3, 4], [(2, 3), (3, 4)]),
    )
    yield routed(
        "HYP: a node near the start has no leaf",
        "refused MissingTuple 4",
        brings(held, [1, 2, 3], [1, 2, 3], [(2, 3), (3, 4)]),
    )
    yield routed("HYP: from a node to itself", "accepted 0: 1", brings(held, [1], [1]), 1, 1)
    yield from cells()


def cells() -> Iterator[Case]:
    """Borders by hand: 1 to 5 over the borders 2 and 4, of two cells, with 3 between them."""

    def hyp(changed: dict[int, NodeLeaf], pairs: list[PairLeaf]) -> Held:
        nodes = {
            1: leaf(1, {2: 2}, InCell(0, False)),
            2: leaf(2, {1: 2, 4: 3}, InCell(0, True)),
            4: leaf(4, {2: 3, 5: 2}, InCell(1, True)),
            5: leaf(5, {4: 2}, InCell(1, False)),
        }
        return by_hand("hyp", {**nodes, **changed}.values(), pairs, 2, 1)

    def case(why: str, line: str, held: Held, nodes: set[int], route: list[int] | None = None) -> Case:
        places = [place for place, one in enumerate(held.book.nodes) if one.id in nodes]
        reply = at_places(held, ROUTE, route or [1, 2, 4, 5], places, range(len(held.book.pairs)))
        return routed(f"HYP: {why}", line, reply, 1, 5)

    good, every = [PairLeaf(2, 4, 3)], {1, 2, 4, 5}
    yield case("two cells", "accepted 7: 1 2 4 5", hyp({}, good), every)
    yield case("the pair's leaf says one less", "refused Shorter 6", hyp({}, [PairLeaf(2, 4, 2)]), every)
    yield case("the pair's leaf says more", "accepted 7: 1 2 4 5", hyp({}, [PairLeaf(2, 4, 4)]), every)
    yield case(
        "the pair's leaf says that no walk joins the two",
        "accepted 7: 1 2 4 5",
        hyp({}, [PairLeaf(2, 4, NO_WALK)]),
        every,
    )
    yield case(
        "of two leaves of one pair the first counts",
        "accepted 7: 1 2 4 5",
        hyp({}, [PairLeaf(2, 4, 3), PairLeaf(2, 4, 0)]),
        every,
    )
    yield case(
        "a pair that is given the other way round", "refused MissingPair 2 4", hyp({}, [PairLeaf(1, 5, 3)]), every
    )
    near_end = {5: leaf(5, {4: 2, 6: 1}, InCell(1, False))}
    yield case("a node near the end has no leaf", "refused MissingTuple 6", hyp(near_end, good), every)
    near_both = {1: leaf(1, {2: 2, 8: 1}, InCell(0, False)), **near_end}
    yield case(
        "nodes near both ends have no leaf, and the lesser id is told",
        "refused MissingTuple 6",
        hyp(near_both, good),
        every,
    )
    far = {1: leaf(1, {2: 2, 8: 7}, InCell(0, False))}
    yield case("a node as far as the end needs no leaf", "accepted 7: 1 2 4 5", hyp(far, good), every)
    direct = {1: leaf(1, {2: 2, 5: 6}, InCell(0, False))}
    yield case("an inner walk that is shorter", "refused Shorter 6", hyp(direct, good), every)
    shared = {5: leaf(5, {2: 1, 4: 2}, InCell(1, False))}
    yield case("one border near both ends", "refused Shorter 3", hyp(shared, good), every)
    behind = {2: leaf(2, {1: 2, 4: 3, 9: 1}, InCell(0, True))}
    yield case("an inner walk does not go on from a border", "accepted 7: 1 2 4 5", hyp(behind, good), every)
    inner = {2: leaf(2, {1: 2, 4: 3, 9: 1}, InCell(0, False))}
    yield case("an inner walk goes on from a node that is none", "refused MissingTuple 9", hyp(inner, good), every)
    level = {1: leaf(1, {2: 4}, InCell(0, False)), 5: leaf(5, {4: 3}, InCell(1, False))}
    tight = hyp({**level, 2: leaf(2, {1: 4, 4: 0}, InCell(0, True)), 4: leaf(4, {2: 0, 5: 3}, InCell(1, True))}, [])
    yield case(
        "no pair is asked for where inner lengths together are not below the length",
        "accepted 7: 1 2 4 5",
        tight,
        every,
    )


def judged_apart() -> Iterator[Case]:
    """Replies that claim that no walk joins the two ends."""
    held = books()
    dij, full, ldm, hyp = (held[method] for method in ("dij", "full", "ldm", "hyp"))
    none = "accepted none"
    yield routed("DIJ: no route", none, brings_apart(dij, [1, 2, 3, 4, 5]), 1, 5)
    yield routed("DIJ: no route, by the leaves near the other end", none, brings_apart(dij, [1, 5]), 5, 1)
    yield routed("no route: the start has no leaf", "refused MissingTuple 1", brings_apart(dij, [2, 3, 4, 5]), 1, 5)
    yield routed("no route: the end has no leaf", "refused MissingTuple 5", brings_apart(dij, [1, 2, 3, 4]), 1, 5)
    yield routed(
        "no route: neither end has a leaf, and the start is told",
        "refused MissingTuple 5",
        brings_apart(dij, [2, 3]),
        5,
        1,
    )
    yield routed(
        "DIJ: no route, but a node that the start reaches has no leaf",
        "refused MissingTuple 4",
        brings_apart(dij, [1, 2, 3, 5]),
        1,
        5,
    )
    yield routed(
        "DIJ: no route, but the leaves show one", "refused Shorter 9", brings_apart(dij, [1, 2, 3, 4, 5]), 1, 3
    )
    yield routed("DIJ: no route from a node to itself", "refused Shorter 0", brings_apart(dij, [1, 2, 3, 4, 5]), 1, 1)
    yield routed("FULL: no route", none, brings_apart(full, [1, 5], [(1, 5)]), 1, 5)
    yield routed("FULL: no route, asked the other way", none, brings_apart(full, [1, 5], [(1, 5)]), 5, 1)
    yield routed(
        "FULL: no route, but the pair's leaf says a distance",
        "refused Disagrees 9",
        brings_apart(full, [1, 3], [(1, 3)]),
        1,
        3,
    )
    yield routed("FULL: no route, and no leaf of the pair", "refused MissingPair 1 5", brings_apart(full, [1, 5]), 1, 5)
    yield routed("FULL: no route from a node to itself", "refused Shorter 0", brings_apart(full, [1]), 1, 1)
    yield routed("LDM: no route", none, brings_apart(ldm, [1, 5]), 1, 5)
    yield routed("LDM: no route, by a node near by", none, brings_apart(ldm, [1, 4, 5]), 4, 5)
    yield routed(
        "LDM: no route, without the node whose codes serve", "refused MissingTuple 1", brings_apart(ldm, [4, 5]), 4, 5
    )
    yield routed("LDM: no route, but the leaves show one", "refused Shorter 9", brings_apart(ldm, [1, 2, 3, 4]), 1, 3)
    yield routed("LDM: no route from a node to itself", "refused Shorter 0", brings_apart(ldm, [1, 2, 3, 4]), 1, 1)
    yield routed("HYP: no route", none, brings_apart(hyp, [1, 2, 4, 5]), 1, 5)
    yield routed(
        "HYP: no route, but a node near the start has no leaf",
        "refused MissingTuple 4",
        brings_apart(hyp, [1, 2, 5]),
        1,
        5,
    )
    yield routed(
        "HYP: no route, but borders have a distance",
        "refused Disagrees 5",
        brings_apart(hyp, [1, 2, 3, 4], [(2, 3), (3, 4)]),
        1,
        3,
    )
    yield routed("HYP: no route from a node to itself", "refused Shorter 0", brings_apart(hyp, [1, 2, 3, 4]), 1, 1)
    six = published(SIX, settings_of("hyp"))
    yield routed("HYP: no route, by pairs of borders", none, brings_apart(six, [1, 2, 4, 5], [(2, 5), (4, 5)]), 1, 5)
    yield routed(
        "HYP: no route, and a pair of borders has no leaf",
        "refused MissingPair 4 5",
        brings_apart(six, [1, 2, 4, 5], [(2, 5)]),
        1,
        5,
    )
    yield from apart_by_hand()


def apart_by_hand() -> Iterator[Case]:
    """Signed leaves that no map has."""

    def case(why: str, line: str, held: Held) -> Case:
        places = range(len(held.book.nodes))
        return routed(f"no route, {why}", line, at_places(held, APART, [], places, range(len(held.book.pairs))), 1, 3)

    def ldm(start: Own | Near, end: Own | Near, *more: NodeLeaf) -> Held:
        return by_hand(
            "ldm", [leaf(1, {2: 4}, start), leaf(3, {}, end), *more], (), 1, len(getattr(start, "codes", (0,)))
        )

    far, here = Own((65_535,)), Own((0,))
    yield case("LDM: just the end has the greatest code", "accepted none", ldm(here, far))
    yield case("LDM: just the start has the greatest code", "accepted none", ldm(far, here))
    yield case("LDM: neither has the greatest code", "refused MissingTuple 2", ldm(here, here))
    yield case("LDM: both have the greatest code", "refused MissingTuple 2", ldm(far, far))
    yield case("LDM: at one of two landmarks", "accepted none", ldm(Own((3, 0)), Own((3, 65_535))))
    yield case("LDM: the end's codes are not at hand", "refused MissingTuple 2", ldm(here, Near(9, 0)))
    yield case(
        "LDM: the end's codes are those of a node near by", "accepted none", ldm(here, Near(9, 0), leaf(9, {}, far))
    )
    shared = [
        leaf(1, {2: 4}, InCell(0, False)),
        leaf(2, {1: 4, 3: 5}, InCell(0, True)),
        leaf(3, {2: 5}, InCell(1, False)),
    ]
    yield case("HYP: one border near both ends", "refused Shorter 9", by_hand("hyp", shared, [], 2, 1))
    joined = [leaf(1, {3: 4}, InCell(0, False)), leaf(3, {1: 4}, InCell(0, False))]
    yield case("HYP: an inner walk joins the two", "refused Shorter 4", by_hand("hyp", joined, [], 2, 1))
    far_end = [leaf(1, {}, InCell(0, False)), leaf(3, {7: 4}, InCell(1, False))]
    yield case("HYP: a node near the end has no leaf", "refused MissingTuple 7", by_hand("hyp", far_end, [], 2, 1))
