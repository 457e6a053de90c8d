"""Numbers that are wider than a language's own: versions, radii, distances and steps of 64 bits and beyond, ids of 32.

A client that keeps one in 32 bits, in a double, or with a sign says otherwise of one of these. Tested, not proved; no client
trusts it.
"""
from collections.abc import Iterator

from gogbetiku_reference.leaves import NO_WALK, Added, InCell, Near, NodeLeaf, Own, PairLeaf
from gogbetiku_reference.maps import Parts
from gogbetiku_reference.replies import APART, ROUTE
from gogbetiku_reference.servers import Held, near_reply

from .asking import GREATEST, added_of, books, leaf, neared, routed
from .client_every import LINES
from .families import Case
from .scenes import PARAMETERS, SIX, STREETS, at_places, brings, brings_apart, by_hand, published, settings_of

TWO_32, TWO_53, TWO_63 = 2**32, 2**53, 2**63
# a version, the minimum version, and the verdict of a client that keeps either with fewer bits or a sign
VERSIONS = [
    (TWO_32 + 1, 2, "the version passes 32 bits"),
    (TWO_32, TWO_32, "the version is 2^32, which is asked for"),
    (3, TWO_32 + 2, "the asked version passes 32 bits"),
    (TWO_32 - 1, TWO_32, "the version is one below 2^32, which is asked for"),
    (TWO_53, TWO_53 + 1, "the asked version is no double"),
    (TWO_53 + 1, TWO_53 + 1, "the version is no double"),
    (TWO_63, 1, "the version would be negative with a sign"),
    (3, TWO_63, "the asked version would be negative with a sign"),
    (GREATEST - 1, GREATEST, "the version is one below the greatest, which is asked for"),
    (GREATEST, GREATEST, "the version is the greatest"),
    (0, 0, "the version is 0, and so is the asked one"),
]


def at_version(method: str, version: int, parts: Parts = STREETS) -> Held:
    return published(parts, settings_of(method, version=version))


def versions(kinds: tuple[str, ...]) -> Iterator[Case]:
    for kind in kinds:
        for method in PARAMETERS:
            for version, least, why in VERSIONS:
                line = LINES[kind] if version >= least else f"refused Stale {version}"
                yield versioned(kind, f"{kind}, {method.upper()}: {why}", line, method, version, least)


def versioned(kind: str, why: str, line: str, method: str, version: int, least: int) -> Case:
    held = at_version(method, version, SIX if (kind, method) == ("no route", "hyp") else STREETS)
    if kind == "radius":
        return neared(why, line, near_reply(held, [1, 2, 4]), least=least)
    if kind == "route":
        nodes = [1, 2, 3] if method == "full" else [1, 2, 3, 4]
        pairs = {"full": [(1, 3)], "hyp": [(2, 3), (3, 4)]}.get(method, [])
        return routed(why, line, brings(held, [1, 2, 3], nodes, pairs), least=least)
    nodes = {"dij": [1, 2, 3, 4, 5], "full": [1, 5], "ldm": [1, 5], "hyp": [1, 2, 4, 5]}[method]
    pairs = {"full": [(1, 5)], "hyp": [(2, 5), (4, 5)]}.get(method, [])
    return routed(why, line, brings_apart(held, nodes, pairs), 1, 5, least=least)


def distances() -> Iterator[Case]:
    """Distances of pairs, lengths, and their sums."""
    nodes = books()["full"].book.nodes
    for said, why in (
        (TWO_32 + 9, "whose last 32 bits are the length"),
        (TWO_53 + 1, "that is no double"),
        (TWO_63 + 9, "that would be negative with a sign"),
        (NO_WALK - 1, "that is one below all ones"),
        (TWO_32 - 1, "of 32 ones"),
        (TWO_63 - 1, "of 63 ones"),
        (9 << 32, "whose first 32 bits are the length"),
    ):
        held = by_hand("full", nodes, [PairLeaf(1, 3, said)])
        yield routed(
            f"FULL: a distance {why}", f"refused Disagrees {said}", at_places(held, ROUTE, [1, 2, 3], range(3), [0])
        )
        yield routed(
            f"FULL: no route, and a distance {why}",
            f"refused Disagrees {said}",
            at_places(held, APART, [], range(3), [0]),
        )
    yield from hyp_distances()
    for method in ("dij", "full", "ldm", "hyp"):
        yield from long_lengths(method)


def corridor(middle: int, pairs: list[PairLeaf], near: int = 2, far: int = 2) -> Held:
    """From 1 to 5 over the borders 2 and 4, which are `middle` apart."""
    nodes = [
        leaf(1, {2: near}, InCell(0, False)),
        leaf(2, {1: near, 4: middle}, InCell(0, True)),
        leaf(4, {2: middle, 5: far}, InCell(1, True)),
        leaf(5, {4: far}, InCell(1, False)),
    ]
    return by_hand("hyp", nodes, pairs, 2, 1)


def hyp_distances() -> Iterator[Case]:
    def case(why: str, line: str, said: int, middle: int = 3, near: int = 2, far: int = 2) -> Case:
        held = corridor(middle, [PairLeaf(2, 4, said)], near, far)
        return routed(f"HYP: {why}", line, at_places(held, ROUTE, [1, 2, 4, 5], range(4), [0]), 1, 5)

    good = "accepted 7: 1 2 4 5"
    yield case("a distance whose last 32 bits are less", good, TWO_32 + 1)
    yield case("a distance that would be negative with a sign", good, TWO_63)
    yield case("a distance that with the inner lengths passes 64 bits by 1", good, NO_WALK - 3)
    yield case("a distance one below all ones, which with the inner lengths passes 64 bits", good, NO_WALK - 1)
    top = 2**32 - 1
    total = 3 * top
    yield case("lengths whose sum passes 32 bits", f"accepted {total}: 1 2 4 5", top, top, top, top)
    yield case("a total one below that passes 32 bits", f"refused Shorter {total - 1}", top - 1, top, top, top)
    for said, why in (
        (TWO_53 + 1, "no double"),
        (NO_WALK - 1, "one below all ones"),
        (TWO_63, "the sign bit"),
        (0, "0"),
    ):
        reply = at_places(corridor(3, [PairLeaf(2, 4, said)]), APART, [], range(4), [0])
        yield routed(f"HYP: no route, and a distance of borders, {why}", f"refused Disagrees {said}", reply, 1, 5)


def long_lengths(method: str) -> Iterator[Case]:
    """Three roads of the greatest length, whose sum passes 32 bits, and a way round that is one shorter."""
    top, count = 2**32 - 1, 4
    added = added_of(method)

    def line(more: dict[int, dict[int, int]], said: int) -> Held:
        arcs = {
            node: {there: top for there in (node - 1, node + 1) if 1 <= there <= count} for node in range(1, count + 1)
        }
        for node, extra in more.items():
            arcs.setdefault(node, {}).update(extra)
        nodes = [leaf(node, arcs[node], added) for node in sorted(arcs)]
        first, second = {"ldm": (1, 1), "hyp": (1, 1)}.get(method, (0, 0))
        return by_hand(method, nodes, [PairLeaf(1, 4, said)] if method == "full" else [], first, second)

    def case(why: str, line_: str, held: Held) -> Case:
        places = range(len(held.book.nodes))
        return routed(
            f"{method.upper()}: {why}",
            line_,
            at_places(held, ROUTE, [1, 2, 3, 4], places, range(len(held.book.pairs))),
            1,
            4,
        )

    total = 3 * top
    yield case("a length that passes 32 bits", f"accepted {total}: 1 2 3 4", line({}, total))
    if method == "full":
        yield case(
            "a length that passes 32 bits, and a distance of its last 32",
            f"refused Disagrees {total % TWO_32}",
            line({}, total % TWO_32),
        )
        return
    # over 6, 7 and 8 it is one shorter
    round_ = {1: {6: top}, 6: {1: top, 7: top}, 7: {6: top, 4: top - 1}, 4: {7: top - 1}}
    yield case(
        "another way, one shorter, whose sum passes 32 bits too", f"refused Shorter {total - 1}", line(round_, total)
    )


def radii() -> Iterator[Case]:
    """Radii of 64 bits, and distances that pass 32."""
    top = 2**32 - 1
    nodes = [leaf(1, {2: 4, 3: top}), leaf(2, {1: 4}), leaf(3, {1: top, 4: top}), leaf(4, {3: top})]
    for method in PARAMETERS:
        added = added_of(method)
        numbers = {"ldm": (1, 1), "hyp": (1, 1)}.get(method, (0, 0))
        held = by_hand(method, [leaf(one.id, dict(one.arcs), added) for one in nodes], (), *numbers)
        for radius, count, why in (
            (TWO_32 + 4, 3, "a radius whose last 32 bits are less"),
            (2 * top - 1, 3, "a radius one below a distance that passes 32 bits"),
            (2 * top, 4, "a radius of a distance that passes 32 bits"),
            (TWO_53 + 1, 4, "a radius that is no double"),
            (TWO_63, 4, "a radius that would be negative with a sign"),
            (TWO_63 - 1, 4, "a radius of 63 ones"),
            (GREATEST, 4, "the greatest radius, one more than which passes 64 bits"),
            (top, 3, "a radius of 32 ones"),
        ):
            ids = [one.id for one in nodes][:count]
            name = f"{method.upper()}: {why}"
            yield neared(name, f"within {count}: {' '.join(map(str, ids))}", near_reply(held, ids), radius)
            if count == 4:
                yield neared(f"{name}, and a leaf missing", "refused MissingTuple 4", near_reply(held, ids[:3]), radius)


def steps() -> Iterator[Case]:
    """Bounds whose products, sums and errors wrap: from 1 over 2 to 3, and a node 4 beside that lacks a leaf."""

    def ldm(one: Added, two: Added, three: Added, step: int, more: tuple[NodeLeaf, ...] = (), behind: int = 1) -> Held:
        arcs = {1: {2: 4}, 2: {1: 4, 3: 5}, 3: {2: 5}}
        arcs[behind][4] = 1
        nodes = [leaf(node, arcs[node], added) for node, added in zip((1, 2, 3), (one, two, three))]
        return by_hand("ldm", [*nodes, *more], (), step, 1)

    def case(why: str, line: str, held: Held) -> Case:
        return routed(f"LDM: {why}", line, at_places(held, ROUTE, [1, 2, 3], range(len(held.book.nodes))))

    live, dead, none = "refused MissingTuple 4", "accepted 9: 1 2 3", Own((0,))
    for step, code in (
        (TWO_63, 3),
        (2**62, 5),
        (TWO_32, 2),
        (2**31, 3),
        (TWO_53 + 1, 2),
        (GREATEST, 2),
        (2**61, 9),
        (2**48, 65_534),
    ):
        yield case(f"a step of {step} times a difference of {code - 1}", dead, ldm(Own((code,)), none, none, step))
    for step in (GREATEST, GREATEST - 3, TWO_63, TWO_63 - 4):
        held = ldm(none, Own((2,)), none, step, behind=2)
        yield case(f"a bound of {step} that with the length so far passes 64 bits or a sign", dead, held)
    kept, high = leaf(7, {}, Own((65_534,))), leaf(8, {}, none)
    yield case(
        "an error of 65,535, one more than which passes 16 bits", live, ldm(Near(7, 65_535), none, none, 1, (kept,))
    )
    yield case(
        "two errors whose sum passes 16 bits", live, ldm(Near(7, 40_000), none, Near(8, 40_000), 1, (kept, high))
    )
    yield case("codes 65,534 apart", dead, ldm(Own((65_534,)), none, none, 1))
    yield case("a code with its highest bit", dead, ldm(Own((40_000,)), none, Own((30_000,)), 1))
    yield case(
        "the difference less than the errors is no great bound",
        live,
        ldm(Near(7, 3), none, none, GREATEST, (leaf(7, {}, Own((2,))),)),
    )
    yield case("equal codes under the greatest step", live, ldm(Own((5,)), none, Own((5,)), GREATEST))


HALF = 2**31
HIGH = (HALF - 1, HALF, HALF + 1, 2**32 - 2, 2**32 - 1)


def high_ids() -> Iterator[Case]:
    """Ids on both sides of 2^31, and the least and the greatest, under each method."""
    a, b, c, d, e = HIGH
    for method in PARAMETERS:
        added = added_of(method)
        numbers = {"ldm": (1, 1), "hyp": (1, 1)}.get(method, (0, 0))
        nodes = [
            leaf(0, {a: 1, c: 9}, added),
            leaf(a, {0: 1, b: 2}, added),
            leaf(b, {a: 2, e: 3}, added),
            leaf(c, {0: 9, d: 7}, added),
            leaf(d, {c: 7}, added),
            leaf(e, {b: 3}, added),
        ]
        pairs = [PairLeaf(0, e, 6), PairLeaf(b, e, 3)] if method == "full" else []
        held = by_hand(method, nodes, pairs, *numbers)
        name, listed = method.upper(), range(len(nodes))
        yield routed(
            f"{name}: ids on both sides of 2^31, from 0 to the greatest",
            f"accepted 6: 0 {a} {b} {e}",
            at_places(held, ROUTE, [0, a, b, e], listed, range(len(pairs))),
            0,
            e,
        )
        yield routed(
            f"{name}: from the greatest id to 0",
            f"accepted 6: {e} {b} {a} 0",
            at_places(held, ROUTE, [e, b, a, 0], listed, range(len(pairs))),
            e,
            0,
        )
        yield neared(
            f"{name}: ids on both sides of 2^31 ascend",
            f"within 6: 0 {a} {b} {c} {d} {e}",
            near_reply(held, [0, *HIGH]),
            99,
            0,
        )
        yield neared(
            f"{name}: of two ids without a leaf the lesser, below 2^31, is told",
            f"refused MissingTuple {a}",
            near_reply(held, [0]),
            99,
            0,
        )
        yield neared(f"{name}: the start is 0 and has no leaf", "refused MissingTuple 0", near_reply(held, [a]), 99, 0)
        if method != "full":
            yield routed(
                f"{name}: of two ids without a leaf the lesser, below 2^31, is told",
                f"refused MissingTuple {a}",
                at_places(held, APART, [], [0, 5]),
                0,
                e,
            )
    first, second = leaf(a, {}), leaf(b, {})
    twice = by_hand("dij", [second, first, first, second])
    yield routed(
        "of two repeated ids the lesser, below 2^31, is told",
        f"refused RepeatedNode {a}",
        at_places(twice, ROUTE, [0], range(4)),
        0,
        0,
    )
    zero = by_hand("dij", [leaf(0, {}), leaf(1, {}), leaf(0, {})])
    yield routed("the id 0 stands twice", "refused RepeatedNode 0", at_places(zero, ROUTE, [1], range(3)), 1, 1)
    yield from high_pairs()


def high_pairs() -> Iterator[Case]:
    a, b, c, d, _ = HIGH
    held = by_hand("full", [leaf(a, {b: 4}), leaf(b, {a: 4})], [PairLeaf(a, b, 4), PairLeaf(0, d, 1)])
    yield routed("FULL: a pair across 2^31", f"accepted 4: {a} {b}", at_places(held, ROUTE, [a, b], [0, 1], [0]), a, b)
    yield routed(
        "FULL: a pair across 2^31, asked the other way",
        f"accepted 4: {b} {a}",
        at_places(held, ROUTE, [b, a], [0, 1], [0]),
        b,
        a,
    )
    yield routed(
        "FULL: no pair across 2^31, the lesser id first",
        f"refused MissingPair {a} {b}",
        at_places(held, ROUTE, [b, a], [0, 1], [1]),
        b,
        a,
    )
    # the borders near the start: below and above 2^31; the first that fails is the lesser
    inner = [
        leaf(1, {a: 1, b: 1}, InCell(0, False)),
        leaf(2, {c: 1, d: 1}, InCell(1, False)),
        leaf(a, {1: 1, c: 9}, InCell(0, True)),
        leaf(b, {1: 1}, InCell(0, True)),
        leaf(c, {2: 1, a: 9}, InCell(1, True)),
        leaf(d, {2: 1}, InCell(1, True)),
    ]
    for missing in ((a, c), (a, d), (b, c), (b, d)):
        pairs = [PairLeaf(x, y, 9) for x in (a, b) for y in (c, d) if (x, y) != missing]
        reply = at_places(by_hand("hyp", inner, pairs, 2, 1), ROUTE, [1, a, c, 2], range(6), range(3))
        yield routed(
            f"HYP: no pair of {missing[0]} and {missing[1]}",
            f"refused MissingPair {missing[0]} {missing[1]}",
            reply,
            1,
            2,
        )
    none = at_places(by_hand("hyp", inner, [PairLeaf(c, d, 9)], 2, 1), ROUTE, [1, a, c, 2], range(6), [0])
    yield routed(
        "HYP: of four pairs without a leaf that of the lesser ids, below 2^31, is told",
        f"refused MissingPair {a} {c}",
        none,
        1,
        2,
    )
