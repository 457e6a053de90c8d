"""Vectors of the client: for each of its tests, and for each field, a reply that fails exactly there.

Tested, not proved; no client trusts it.
"""
from collections.abc import Iterator
from contextlib import contextmanager
from dataclasses import replace
from functools import lru_cache
from unittest import mock

from gogbetiku_reference import clients, layout
from gogbetiku_reference.faults import Refused
from gogbetiku_reference.headers import Header
from gogbetiku_reference.lms import Signature, kind_of
from gogbetiku_reference.octets import u8, u16, u32
from gogbetiku_reference.replies import ROUTE, NearReply, NodeItem
from gogbetiku_reference.servers import Held, near_reply

from .families import NUMBER, SPAN, TEXT, WIDE, Case, Family, Fields, listed, octets, record
from .scenes import PARAMETERS, at_places, by_hand, owner
from .asking import (
    GREATEST,
    NEAR_FRONT,
    NEAR_GIVEN,
    QUERY,
    ROUTE_GIVEN,
    SEAL,
    VERDICT,
    asked,
    bad_chains,
    books,
    by_key,
    good_chain,
    honest,
    leaf,
    near_asked,
    neared,
    put,
    run_near,
    run_route,
    turned,
)
from .client_forms import header_fields, kinds, list_fields
from .client_seals import covers, repeated, signatures, versions_and_chains
from .client_judged import judged_apart, judged_dij, judged_full, judged_hyp, judged_ldm, routes
from .client_causes import causes
from .client_every import KINDS, every, good, turned_kinds
from .client_limits import limits
from .signing import FIELDS
from .client_widths import distances, high_ids, radii, steps, versions


@lru_cache(maxsize=1)
def both() -> tuple[list[Case], list[Case], dict[str, list[Case]]]:
    """The cases of each test under each method, of widths, limits and orders: those of routes, those of radii, and all by
    what they show."""
    shown = {
        "EveryTest": [*every(KINDS), *turned_kinds()],
        "Width": [*versions(KINDS), *distances(), *radii(), *steps(), *high_ids()],
        "Limit": list(limits()),
        "Order": list(causes()),
    }
    made = [case for cases in shown.values() for case in cases]
    return [case for case in made if "to" in case.given], [case for case in made if "radius" in case.given], shown


@lru_cache(maxsize=1)
def client_cases() -> tuple[Case, ...]:
    return tuple(made_client())


@lru_cache(maxsize=1)
def near_cases() -> tuple[Case, ...]:
    return tuple(made_near())


def make_client() -> Iterator[Case]:
    return iter(client_cases())


def make_near() -> Iterator[Case]:
    return iter(near_cases())


@lru_cache(maxsize=1)
def by_test() -> dict[str, list[Case]]:
    """The cases of routes, for each test and field one that fails there, by what they show."""
    return {
        "Form": [*kinds(), *header_fields(), *list_fields()],
        "Seal": [*versions_and_chains(), *signatures()],
        "Cover": [*covers(), *repeated()],
        "Judgement": [
            *(*routes(), *judged_dij(), *judged_full(), *judged_ldm(), *judged_hyp(), *judged_apart()),
        ],
    }


def made_client() -> Iterator[Case]:
    for cases in by_test().values():
        yield from cases
    yield from both()[0]


def made_near() -> Iterator[Case]:
    held = books()["dij"]
    good = near_reply(held, [1, 2, 4])
    text = good.octets()
    yield neared("the nodes within 4", "within 3: 1 2 4", good)
    yield neared("the start alone", "within 1: 1", near_reply(held, [1]), 0)
    yield neared("the greatest radius", "within 4: 1 2 3 4", near_reply(held, [1, 2, 3, 4]), GREATEST)
    yield neared("a radius between two distances", "within 2: 1 4", near_reply(held, [1, 4]), 3)
    yield neared("a spare leaf is not listed", "within 3: 1 2 4", near_reply(held, [1, 2, 4, 5]))
    yield neared("a spare leaf that is joined is not listed", "within 3: 1 2 4", near_reply(held, [1, 2, 3, 4]))
    yield neared("a node within the radius has no leaf", "refused MissingTuple 4", near_reply(held, [1, 2]))
    yield neared("two nodes within the radius have no leaf", "refused MissingTuple 2", near_reply(held, [1]))
    yield neared("the start has no leaf", "refused MissingTuple 1", near_reply(held, [2, 4]))
    yield neared("no leaf at all", "refused MissingTuple 1", near_reply(held, []))
    yield neared("a node just within the radius has no leaf", "refused MissingTuple 3", good, 9)
    yield neared("a node just outside the radius needs no leaf", "within 3: 1 2 4", good, 8)
    for method in ("full", "ldm", "hyp"):
        yield neared(f"under {method.upper()}", "within 3: 1 2 4", near_reply(books()[method], [1, 2, 4]))
    yield from near_fields(held, good, text)
    yield from near_signatures(held, good, text)
    yield from both()[1]


def near_fields(held: Held, good: NearReply, text: bytes) -> Iterator[Case]:
    yield neared("no octets", "refused Malformed 0", b"")
    yield neared("the first octets are no reply's on a radius", "refused Malformed 0", b"RPN2" + text[4:])
    yield neared("an answer is no reply on a radius", "refused Malformed 0", honest("dij").octets())
    yield neared("the header's first octets", "refused Malformed 4", turned(text, layout.IN_RANGE_REPLY + 3))
    yield neared("the method is 0", "refused Malformed 8", put(text, layout.IN_RANGE_REPLY + layout.METHOD, u8(0)))
    length = layout.IN_RANGE_REPLY + layout.HEADER
    yield neared("a signature that is too long by its length", "refused Malformed 108", put(text, length, u16(1453)))
    yield neared(
        "two items at one place", f"refused Malformed {NEAR_FRONT + 4 + 37}", put(text, NEAR_FRONT + 4 + 37, u32(0))
    )
    yield neared(
        "a leaf's length is one less", f"refused Malformed {NEAR_FRONT + 10}", put(text, NEAR_FRONT + 8, u16(30))
    )
    yield neared("a count of items that is one too great", "refused Malformed 1517", put(text, NEAR_FRONT, u32(4)))
    yield neared("an octet more", f"refused Malformed {len(text)}", text + b"\x00")
    yield neared("an octet less", f"refused Malformed {len(text) - 32}", text[:-1])
    yield neared(
        "an item's place is no leaf",
        "refused BadCover Place",
        replace(good, nodes=(*good.nodes[:2], replace(good.nodes[2], place=5))),
    )
    yield neared("the cover is empty", "refused BadCover Short", replace(good, node_cover=()))
    yield neared(
        "the cover has a digest more", "refused BadCover Long", replace(good, node_cover=(*good.node_cover, bytes(32)))
    )
    yield neared("a cover without an item", "refused BadCover Long", replace(good, nodes=()))
    changed = replace(good.nodes[0].leaf, arcs=((2, 5), (4, 3)))
    yield neared(
        "another length in a leaf",
        "refused BadCover Differs",
        replace(good, nodes=(NodeItem(0, changed, changed.text()), *good.nodes[1:])),
    )
    one, two = leaf(1, {2: 4}), leaf(2, {1: 4})
    twice = by_hand("dij", [one, two, replace(one, x=7), replace(two, x=7)])
    items = at_places(twice, ROUTE, [1], range(4))
    reply = NearReply(items.header, items.signature, items.nodes, items.node_cover)
    yield neared("two items have the ids 1 and 2: the lesser is told", "refused RepeatedNode 1", reply)


def near_signatures(held: Held, good: NearReply, text: bytes) -> Iterator[Case]:
    chain = good_chain()
    yield neared("the version is below the asked one", "refused Stale 3", good, least=4)
    yield neared("a bit of the signature", "refused BadSignature NoMatch", turned(text, NEAR_FRONT - 1))
    yield neared("no signature", "refused BadSignature BadForm", replace(good, signature=b""))
    yield neared("a key of an unknown type", "refused BadSignature BadKey", good, public=put(owner().public, 0, u32(7)))
    yield neared(
        "signed under the second key, along the chain", "within 3: 1 2 4", near_reply(by_key(1), [1, 2, 4]), chain=chain
    )
    yield neared(
        "signed under the second key, with no chain", "refused BadSignature NoMatch", near_reply(by_key(1), [1, 2, 4])
    )
    for why, line, links in bad_chains():
        yield neared(why, line, good, chain=links)
    yield neared(
        "the version is tested before the chain",
        "refused Stale 3",
        good,
        least=4,
        chain=(replace(chain[0], signature=b""),),
    )


def run_turned(given: Fields, stride: int = 1) -> Fields:
    """The line of each range of bits, which must be the line of each of its bits."""
    lines = []
    for begin, end in given["bits"]:
        seen = {line_with_bit(given, bit) for bit in range(begin, end, stride)}
        lines.append(seen.pop() if len(seen) == 1 else f"several: {sorted(seen)}")
    return {"lines": lines}


def line_with_bit(given: Fields, bit: int) -> str:
    """The line if this bit of the reply, counted from the highest bit of its first octet, is flipped."""
    reply = turned(octets(given["reply"]), bit // 8, 128 >> bit % 8).hex()
    return str((run_near if "radius" in given else run_route)({**given, "reply": reply})["line"])


def quick(public: bytes, text: bytes, signature: bytes) -> str | None:
    """The reason why a signature does not verify, if only the desk's own verify: what has a key's form and no other fault
    does not match. So no bit needs a hash."""
    try:
        Signature(kind_of(public), signature)
    except Refused as refused:
        return refused.name
    return None if (public, text, signature) in GOOD else "NoMatch"


GOOD: set[tuple[bytes, bytes, bytes]] = set()


@contextmanager
def without_hashing(header: Header, signature: bytes) -> Iterator[None]:
    """Uses `quick` for signatures."""
    GOOD.add((owner().public, header.octets(), signature))
    with mock.patch.object(clients, "why_not", quick):
        yield


def lines_of(given: Fields, seal: int) -> Iterator[tuple[int, int, str]]:
    """The line of each bit; within the signature, that of each of its fields."""
    yield from ((bit, bit + 1, line_with_bit(given, bit)) for bit in range(seal))
    yield from ((seal + begin, seal + end, f"refused BadSignature {why}\n") for _, begin, end, why in FIELDS)
    yield from (
        (bit, bit + 1, line_with_bit(given, bit)) for bit in range(seal + FIELDS[-1][2], 4 * len(given["reply"]))
    )


def ranges_of(given: Fields, seal: int) -> tuple[list[list[int]], list[str]]:
    """The ranges of bits that give one line."""
    bits: list[list[int]] = []
    lines: list[str] = []
    for begin, end, line in lines_of(given, seal):
        if lines and lines[-1] == line:
            bits[-1][1] = end
        else:
            bits.append([begin, end])
            lines.append(line)
    return bits, lines


def make_turned() -> Iterator[Case]:
    """Each bit of replies with a route, without one and on a radius, under each method."""
    for kind in KINDS:
        for method in PARAMETERS:
            reply = good(kind, method)
            if isinstance(reply, NearReply):
                given = near_asked(reply, 1, 4)
            else:
                given = asked(reply, 1, 5 if kind == "no route" else 3)
            with without_hashing(reply.header, reply.signature):
                bits, lines = ranges_of(given, 8 * (NEAR_FRONT - 1292 if kind == "radius" else SEAL))
            yield Case(
                f"each bit of a reply turned: {kind}, {method.upper()}", {**given, "bits": bits}, {"lines": lines}
            )


CLIENT = Family(
    "client",
    "What a client says of a reply to a query for a route: for each of its tests, and each field that can be "
    "wrong, a reply that gets exactly that verdict.",
    record(ROUTE_GIVEN),
    record(VERDICT),
    run_route,
    make_client,
)
CLIENT_RADIUS = Family(
    "client_radius",
    "What a client says of a reply to a query for the nodes within a radius, in the same way.",
    record(NEAR_GIVEN),
    record(VERDICT),
    run_near,
    make_near,
)
TURNED = Family(
    "turned",
    "What a client says where one bit of a reply is turned: for each bit of each range the same line. No such "
    "reply is accepted.",
    record({**QUERY, "least": WIDE, "bits": listed(SPAN)}, {"to": NUMBER, "radius": WIDE}),
    record({"lines": listed(TEXT)}),
    run_turned,
    make_turned,
)
FAMILIES = [CLIENT, CLIENT_RADIUS, TURNED]
