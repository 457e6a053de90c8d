"""The client: its verdict on a reply, which needs only the owner's public key.

docs/SPEC.md, 8.1 The tests, in order, and 8.4 Range queries. Part of the reference: tested, not proved, and trusted by
no client.
"""
from collections.abc import Callable, Sequence
from dataclasses import dataclass
from typing import TypeVar

from .chains import Link, link_text
from .faults import Fault, Refused
from .headers import Header
from .judges import AtHand, judge, judge_apart, test_repeated
from .lms import why_not
from .octets import Malformed, Reader
from .replies import APART, NodeItem, PairItem, read_near_reply, read_reply
from .trees import fold
from .walks import least_lengths

NODES, PAIRS = (1,), (2,)
ONE_TREE: tuple[int, ...] = ()
Found = TypeVar("Found")


@dataclass(frozen=True)
class Accepted:
    """A route with its length, or no route if none exists; and the accepted header."""

    route: tuple[int, ...] | None
    length: int
    header: Header


@dataclass(frozen=True)
class Within:
    """The nodes within a radius by ascending id, each with its distance; and the accepted header."""

    distances: dict[int, int]
    header: Header


def read_or_refuse(octets: bytes, read: Callable[[Reader], Found]) -> Found:
    try:
        return read(Reader(octets))
    except Malformed as fault:
        raise Refused("Malformed", fault.at) from None


def test_header(public: bytes, chain: Sequence[Link], header: Header, signature: bytes, least: int) -> None:
    """Tests that the version is accepted, and that the header is signed under the key or under a key of a good chain."""
    if header.version < least:
        raise Refused("Stale", header.version)
    keys = [public]
    for index, link in enumerate(chain):
        why = why_not(keys[-1], link_text(link.key), link.signature)
        if why is not None:
            raise Refused("BadChain", index, why)
        keys.append(link.key)
    reasons = [why_not(key, header.octets(), signature) for key in keys]
    if None not in reasons:
        raise Refused("BadSignature", str(reasons[-1]))


def test_cover(
    tree: tuple[int, ...],
    leaves: int,
    fan: int,
    items: Sequence[NodeItem | PairItem],
    cover: Sequence[bytes],
    root: bytes,
) -> None:
    """Tests that items and a cover give the root of a tree. Without items nothing is tested."""
    if not items:
        if cover:
            raise Refused("BadCover", *tree, "Long")
        return
    try:
        folded = fold(leaves, fan, [item.place for item in items], [item.text for item in items], cover)
    except Fault as fault:
        raise Refused("BadCover", *tree, fault.name) from None
    if folded != root:
        raise Refused("BadCover", *tree, "Differs")


def check(public: bytes, chain: Sequence[Link], octets: bytes, start: int, end: int, least: int) -> Accepted:
    """The accepted answer of a reply to the query for a route. Raises the first failing test."""
    answer = read_or_refuse(octets, read_reply)
    if isinstance(answer, int):
        raise Refused("NotAnswer", answer)
    header = answer.header
    test_header(public, chain, header, answer.signature, least)
    test_cover(NODES, header.nodes, header.fan, answer.nodes, answer.node_cover, header.node_root)
    test_cover(PAIRS, header.pairs, header.fan, answer.pairs, answer.pair_cover, header.pair_root)
    hand = AtHand(
        tuple(item.leaf for item in answer.nodes), tuple(item.leaf for item in answer.pairs), start, end, header.first
    )
    if answer.kind == APART:
        judge_apart(header.method, hand)
        return Accepted(None, 0, header)
    return Accepted(answer.route, judge(header.method, hand, answer.route), header)


def check_near(public: bytes, chain: Sequence[Link], octets: bytes, start: int, radius: int, least: int) -> Within:
    """The same for a reply to the query for the nodes within a radius."""
    reply = read_or_refuse(octets, read_near_reply)
    header = reply.header
    test_header(public, chain, header, reply.signature, least)
    test_cover(ONE_TREE, header.nodes, header.fan, reply.nodes, reply.node_cover, header.node_root)
    leaves = tuple(item.leaf for item in reply.nodes)
    test_repeated(leaves)
    hand = AtHand(leaves, (), start, start, 0)
    reached = least_lengths(start, hand.arcs_of, below=radius + 1)
    hand.test_at_hand(reached)
    return Within(dict(sorted(reached.items())), header)
