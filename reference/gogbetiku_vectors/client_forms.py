"""Replies that cannot be read: for each field, one that is out of range.

Tested, not proved; no client trusts it.
"""
from collections.abc import Iterator
from dataclasses import replace
from typing import TypeVar

from gogbetiku_reference.leaves import InCell
from gogbetiku_reference.octets import u8, u16, u32, u64
from gogbetiku_reference.replies import Answer, NodeItem, PairItem
from gogbetiku_reference.servers import answer_near

from .families import Case
from .asking import (
    FANNED,
    FIRST,
    GREATEST,
    HEADER,
    METHOD,
    NODES,
    NODE_ROOT,
    ORDER,
    PAIRS,
    PAIR_ROOT,
    ROUTED,
    SEALED,
    SECOND,
    VERSIONED,
    ZERO,
    books,
    honest,
    put,
    routed,
)


def kinds() -> Iterator[Case]:
    yield routed("the server's bare word that an end is no node", "refused NotAnswer 1", u8(1))
    yield routed("an older server's bare word that no route exists", "refused NotAnswer 2", u8(2))
    yield routed("no octets", "refused Malformed 0", b"")
    yield routed("the kind is above 3", "refused Malformed 0", u8(4))
    yield routed("the kind is the greatest octet", "refused Malformed 0", u8(255))
    yield routed("an octet follows kind 1", "refused Malformed 1", b"\x01\x00")
    yield routed("an octet follows kind 2", "refused Malformed 1", b"\x02\x00")
    yield routed(
        "a reply on a radius is no reply to a query for a route",
        "refused Malformed 0",
        answer_near(books()["dij"], 1, 4),
    )
    yield routed(
        "an answer whose kind says that it has no route",
        "refused Malformed 1409",
        put(honest("dij").octets(), 0, u8(3)),
    )


def header_fields() -> Iterator[Case]:
    """A header with a field out of range; if the field is just in range, the signature is the first failing test."""
    dij = honest("dij").octets()
    wrong = [
        ("the first octets are no header's", HEADER, b"RPF2"),
        ("the method is 0", METHOD, u8(0)),
        ("the method is 5", METHOD, u8(5)),
        ("the order is 6", ORDER, u8(6)),
        ("the fan-out is 1", FANNED, u8(1)),
        ("the fan-out is 33", FANNED, u8(33)),
        ("the octet behind the fan-out is not 0", ZERO, u8(1)),
        ("no node is counted", NODES, u32(0)),
        ("65,537 nodes are counted", NODES, u32(65_537)),
        ("a pair is counted under DIJ", PAIRS, u32(1)),
        ("there are no pairs, and their root is not zeros", PAIR_ROOT + 31, u8(1)),
        ("the first number is not 0 under DIJ", FIRST, u64(1)),
        ("the second number is not 0 under DIJ", SECOND, u64(1)),
    ]
    for why, at, piece in wrong:
        field = PAIR_ROOT if at == PAIR_ROOT + 31 else at
        yield routed(why, f"refused Malformed {field}", put(dij, at, piece))
    for method, at, values in (
        ("ldm", FIRST, (0,)),
        ("ldm", SECOND, (0, 65)),
        ("hyp", FIRST, (0, 1025)),
        ("hyp", SECOND, (0, 1025)),
        ("full", FIRST, (1,)),
        ("full", SECOND, (1,)),
    ):
        for value in values:
            which = "first" if at == FIRST else "second"
            yield routed(
                f"the {which} number is {value} under {method.upper()}",
                f"refused Malformed {at}",
                put(honest(method).octets(), at, u64(value)),
            )
    yield routed(
        "a pair more than FULL can have",
        f"refused Malformed {PAIRS}",
        put(honest("full").octets(), PAIRS, u32(523_777)),
    )
    yield routed(
        "a pair more than HYP can have",
        f"refused Malformed {PAIRS}",
        put(honest("hyp").octets(), PAIRS, u32(2_096_129)),
    )
    yield routed(
        "a pair is counted under LDM", f"refused Malformed {PAIRS}", put(honest("ldm").octets(), PAIRS, u32(1))
    )
    within = [
        ("dij", "the greatest order", ORDER, u8(5)),
        ("dij", "the greatest fan-out", FANNED, u8(32)),
        ("dij", "the greatest version", VERSIONED, u64(GREATEST)),
        ("dij", "the most nodes", NODES, u32(65_536)),
        ("dij", "another node root", NODE_ROOT, bytes(32)),
        ("full", "the most pairs of FULL", PAIRS, u32(523_776)),
        ("full", "another pair root", PAIR_ROOT, bytes(32)),
        ("hyp", "the most pairs of HYP", PAIRS, u32(2_096_128)),
        ("hyp", "the most columns", FIRST, u64(1024)),
        ("hyp", "the most rows", SECOND, u64(1024)),
        ("ldm", "the greatest step", FIRST, u64(GREATEST)),
    ]
    for method, why, at, piece in within:
        yield routed(
            f"{why}, which the owner did not sign",
            "refused BadSignature NoMatch",
            put(honest(method).octets(), at, piece),
        )
    yield routed(
        "the method DIJ as FULL, which the owner did not sign", "refused BadSignature NoMatch", put(dij, METHOD, u8(2))
    )


def list_fields() -> Iterator[Case]:
    """Route, items and covers that cannot be read."""
    dij, reply = honest("dij").octets(), honest("dij")
    items = ROUTED + 4 + 12
    first = items + 4
    second = first + 6 + 31
    yield routed(
        "a signature that is too long by its length", f"refused Malformed {SEALED}", put(dij, SEALED, u16(1453))
    )
    yield routed("the greatest length of a signature", f"refused Malformed {SEALED}", put(dij, SEALED, u16(65_535)))
    yield routed("a route of no node", f"refused Malformed {ROUTED}", put(dij, ROUTED, u32(0)))
    yield routed("a route of 65,537 nodes", f"refused Malformed {ROUTED}", put(dij, ROUTED, u32(65_537)))
    yield routed(
        "a route of more nodes than there are octets",
        f"refused Malformed {len(dij) - len(dij[ROUTED:]) % 4}",
        put(dij, ROUTED, u32(65_536)),
    )
    yield routed("two items at one place", f"refused Malformed {second}", put(dij, second, u32(0)))
    yield routed("the places fall", f"refused Malformed {second}", put(put(dij, first, u32(1)), second, u32(0)))
    yield routed(
        "a leaf's length is one less than the leaf's", f"refused Malformed {first + 6}", put(dij, first + 4, u16(30))
    )
    yield routed(
        "a leaf's length is one more than the leaf's", f"refused Malformed {first + 6}", put(dij, first + 4, u16(32))
    )
    yield routed("a leaf of no octets", f"refused Malformed {first + 6}", put(dij, first + 4, u16(0)))
    yield routed(
        "a leaf of more octets than are left", f"refused Malformed {first + 6}", put(dij, first + 4, u16(65_535))
    )
    yield routed("a leaf's first octet is a pair's", f"refused Malformed {first + 6}", put(dij, first + 6, b"P"))
    yield routed(
        "a count of items that is one too great", f"refused Malformed {len(dij) - 44}", put(dij, items, u32(5))
    )
    yield routed("the greatest count of items", f"refused Malformed {len(dij) - 44}", put(dij, items, u32(2**32 - 1)))
    for why, nodes in bad_leaves(reply):
        yield routed(why, f"refused Malformed {first + 6}", replace(reply, nodes=nodes))
    yield routed("an octet more", f"refused Malformed {len(dij)}", dij + b"\x00")
    yield routed("an octet less", f"refused Malformed {len(dij) - 4}", dij[:-1])
    yield routed("a digest of the cover is cut off", f"refused Malformed {len(dij) - 4 - 32}", dij[:-5])
    yield routed(
        "a count of the pair cover that is one too great",
        f"refused Malformed {len(dij)}",
        put(dij, len(dij) - 4, u32(1)),
    )
    yield from added_fields()
    yield from pair_fields()


Item = TypeVar("Item", NodeItem, PairItem)


def with_text(item: Item, text: bytes) -> Item:
    return replace(item, text=text)


def bad_leaves(reply: Answer) -> Iterator[tuple[str, tuple[NodeItem, ...]]]:
    """Answers whose first leaf is not a leaf."""
    leaf, others = reply.nodes[0].leaf, reply.nodes[1:]
    wrong = [
        ("an arc from a node to itself", replace(leaf, arcs=((1, 4), (4, 3)))),
        ("two arcs to one node", replace(leaf, arcs=((2, 4), (2, 3)))),
        ("the arcs fall", replace(leaf, arcs=((4, 3), (2, 4)))),
        ("256 arcs", replace(leaf, arcs=tuple((node, 1) for node in range(2, 258)))),
        ("a plain leaf that adds a cell", replace(leaf, added=InCell(0, False))),
    ]
    for why, other in wrong:
        yield why, (with_text(reply.nodes[0], other.text()), *others)
    yield "an arc count that is one too great", (with_text(reply.nodes[0], put(leaf.text(), 13, u16(3))), *others)
    yield "an arc count that is one too small", (with_text(reply.nodes[0], put(leaf.text(), 13, u16(1))), *others)


def added_fields() -> Iterator[Case]:
    """Extra fields of leaves under LDM and HYP that cannot be read."""
    first = ROUTED + 4 + 12 + 4 + 6
    ldm, hyp = honest("ldm"), honest("hyp")
    for why, text in (
        ("a leaf that says neither codes nor a node near by", put(ldm.nodes[0].text, 31, u8(2))),
        ("a code more than there are landmarks", ldm.nodes[0].text + u16(0)),
        ("a code less than there are landmarks", ldm.nodes[0].text[:-2]),
        ("a plain leaf under LDM", ldm.nodes[0].text[:31]),
        ("a node near by without an error", ldm.nodes[0].text[:31] + u8(1) + u32(4)),
    ):
        yield routed(
            why, f"refused Malformed {first}", replace(ldm, nodes=(with_text(ldm.nodes[0], text), *ldm.nodes[1:]))
        )
    for why, text in (
        ("a border that is neither 0 nor 1", put(hyp.nodes[0].text, 35, u8(2))),
        ("a plain leaf under HYP", hyp.nodes[0].text[:31]),
    ):
        yield routed(
            why, f"refused Malformed {first}", replace(hyp, nodes=(with_text(hyp.nodes[0], text), *hyp.nodes[1:]))
        )


def pair_fields() -> Iterator[Case]:
    """Pair items that cannot be read."""
    hyp = honest("hyp")
    text = hyp.octets()
    second = len(text) - 8 - 32 * (len(hyp.node_cover) + len(hyp.pair_cover)) - 21
    first = second - 21
    yield routed("two pairs at one place", f"refused Malformed {second}", put(text, second, u32(0)))
    yield routed(
        "the places of pairs fall", f"refused Malformed {second}", put(put(text, first, u32(2)), second, u32(1))
    )
    yield routed("a pair's first octet is a node's", f"refused Malformed {first + 4}", put(text, first + 4, b"N"))
    yield routed("a pair of a node with itself", f"refused Malformed {first + 4}", put(text, first + 5, u32(3)))
    yield routed("a pair whose first id is the greater", f"refused Malformed {first + 4}", put(text, first + 5, u32(4)))
