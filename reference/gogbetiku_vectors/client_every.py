"""Each test of a client under each method, for a route, for no route and for a radius alike.

A client that leaves one out for one kind of reply, or under one method, accepts one of these. Tested, not proved; no client
trusts it.
"""
from collections.abc import Iterator
from dataclasses import dataclass, replace
from typing import TypeVar

from gogbetiku_reference.chains import Link
from gogbetiku_reference.leaves import NO_WALK, NodeLeaf, PairLeaf
from gogbetiku_reference.octets import u32
from gogbetiku_reference.replies import ROUTE, Answer, NearReply, NodeItem, PairItem
from gogbetiku_reference.servers import Held, near_reply

from .asking import bad_chains, books, good_chain, honest, keys, neared, put, routed, turned
from .families import Case
from .scenes import PARAMETERS, SIX, brings, brings_apart, owner, published, settings_of

Reply = Answer | NearReply
KINDS = ("route", "no route", "radius")
LINES = {"route": "accepted 9: 1 2 3", "no route": "accepted none", "radius": "within 3: 1 2 4"}


def good(kind: str, method: str) -> Reply:
    """An honest reply: from 1 to 3, from 1 to 5, or within 4 of 1."""
    held = books()[method]
    if kind == "radius":
        return near_reply(held, [1, 2, 4])
    if kind == "route":
        return honest(method)
    if method == "hyp":
        return brings_apart(six(), [1, 2, 4, 5], [(2, 5), (4, 5)])
    nodes = {"dij": [1, 2, 3, 4, 5], "full": [1, 5], "ldm": [1, 5]}[method]
    return brings_apart(held, nodes, [(1, 5)] if method == "full" else [])


def six() -> Held:
    return published(SIX, settings_of("hyp"))


@dataclass(frozen=True)
class Query:
    """The query to a reply, without its octets."""

    least: int = 3
    public: bytes | None = None
    chain: tuple[Link, ...] = ()


def of_kind(kind: str, why: str, line: str, reply: Reply, query: Query = Query()) -> Case:
    if isinstance(reply, NearReply):
        return neared(why, line, reply, 4, 1, query.least, query.public, query.chain)
    return routed(why, line, reply, 1, 5 if kind == "no route" else 3, query.least, query.public, query.chain)


def every(kinds: tuple[str, ...]) -> Iterator[Case]:
    """Each test fails by itself, under each method and for each of these kinds."""
    for kind in kinds:
        for method in PARAMETERS:
            name, reply = f"{kind}, {method.upper()}", good(kind, method)
            yield of_kind(kind, name, LINES[kind], reply)
            for why, line, query in queries():
                yield of_kind(kind, f"{name}: {why}", f"refused {line}", reply, query)
            for why, line, changed in changes(kind, reply):
                yield of_kind(kind, f"{name}: {why}", f"refused {line}", changed)


def queries() -> Iterator[tuple[str, str, Query]]:
    public = owner().public
    yield "the version is below the asked one", "Stale 3", Query(least=4)
    bad = [
        links
        for why, _, links in bad_chains()
        if why in ("a bit of the first link's signature", "the second link without a signature")
    ]
    yield "a bit of the first link's signature", "BadChain 0 NoMatch", Query(chain=bad[0])
    yield "the second link without a signature", "BadChain 1 BadForm", Query(chain=bad[1])
    yield "another owner's key", "BadSignature NoMatch", Query(public=keys()[1].public)
    yield "a key of an unknown type", "BadSignature BadKey", Query(public=put(public, 0, u32(7)))
    yield "another owner's chain", "BadChain 0 NoMatch", Query(public=keys()[2].public, chain=good_chain())


def changes(kind: str, reply: Reply) -> Iterator[tuple[str, str, Reply]]:
    """A reply with one fault, and the refusal."""
    yield "no signature", "BadSignature BadForm", replace(reply, signature=b"")
    yield "a bit of the signature", "BadSignature NoMatch", replace(reply, signature=turned(reply.signature, 700))
    newer = replace(reply, header=replace(reply.header, version=4))
    yield "a greater version, which the owner did not sign", "BadSignature NoMatch", newer
    tree = "" if kind == "radius" else "1 "
    yield from node_changes(tree, reply)
    if isinstance(reply, Answer):
        yield from pair_changes(reply)


def node_changes(tree: str, reply: Reply) -> Iterator[tuple[str, str, Reply]]:
    last = reply.nodes[-1]
    yield "an item's place is no leaf", f"BadCover {tree}Place", replace(
        reply, nodes=(*reply.nodes[:-1], replace(last, place=reply.header.nodes))
    )
    yield "a digest more", f"BadCover {tree}Long", replace(reply, node_cover=(*reply.node_cover, bytes(32)))
    if reply.node_cover:
        yield "a digest less", f"BadCover {tree}Short", replace(reply, node_cover=reply.node_cover[:-1])
        yield "another digest", f"BadCover {tree}Differs", replace(
            reply, node_cover=(turned(reply.node_cover[0], 31), *reply.node_cover[1:])
        )
    for index, item in ((0, reply.nodes[0]), (len(reply.nodes) - 1, last)):
        other = replace(item.leaf, x=item.leaf.x + 1)
        yield f"another leaf at item {index}", f"BadCover {tree}Differs", with_node(reply, index, other)


Given = TypeVar("Given", bound=Reply)


def with_node(reply: Given, index: int, leaf: NodeLeaf) -> Given:
    item = NodeItem(reply.nodes[index].place, leaf, leaf.text())
    return replace(reply, nodes=(*reply.nodes[:index], item, *reply.nodes[index + 1 :]))


def with_pair(reply: Answer, index: int, leaf: PairLeaf) -> Answer:
    item = PairItem(reply.pairs[index].place, leaf, leaf.text())
    return replace(reply, pairs=(*reply.pairs[:index], item, *reply.pairs[index + 1 :]))


def pair_changes(reply: Answer) -> Iterator[tuple[str, str, Answer]]:
    if not reply.header.pairs:
        leaf = PairLeaf(1, 3, NO_WALK)
        yield "a pair where the header counts none", "BadCover 2 Place", replace(
            reply, pairs=(PairItem(0, leaf, leaf.text()),)
        )
        yield "a digest for pairs where there are none", "BadCover 2 Long", replace(reply, pair_cover=(bytes(32),))
        return
    yield "a pair's place is no leaf", "BadCover 2 Place", replace(
        reply, pairs=(*reply.pairs[:-1], replace(reply.pairs[-1], place=reply.header.pairs))
    )
    yield "a digest of the pairs more", "BadCover 2 Long", replace(reply, pair_cover=(*reply.pair_cover, bytes(32)))
    if reply.pair_cover:
        yield "a digest of the pairs less", "BadCover 2 Short", replace(reply, pair_cover=reply.pair_cover[:-1])
        yield "another digest of the pairs", "BadCover 2 Differs", replace(
            reply, pair_cover=(turned(reply.pair_cover[0], 31), *reply.pair_cover[1:])
        )
    for index, item in enumerate(reply.pairs):
        for distance in (item.leaf.distance ^ 1, 0 if reply.kind == ROUTE else NO_WALK - 2):
            yield f"a distance of {distance} at pair {index}", "BadCover 2 Differs", with_pair(
                reply, index, replace(item.leaf, distance=distance)
            )


def turned_kinds() -> Iterator[Case]:
    """Replies with a route as if none existed, and with lies that hide it, behind the first octet `03`."""
    full = brings(books()["full"], [1, 2, 3], [1, 2, 3], [(1, 3)])
    hidden = with_pair(replace(full, kind=3, route=()), 0, PairLeaf(1, 3, NO_WALK))
    yield routed(
        "a route as if none existed, FULL: the pair's distance is all ones", "refused BadCover 2 Differs", hidden
    )
    hyp = replace(honest("hyp"), kind=3, route=())
    for index, item in enumerate(hyp.pairs):
        hyp = with_pair(hyp, index, replace(item.leaf, distance=NO_WALK))
    yield routed("a route as if none existed, HYP: all distances are all ones", "refused BadCover 2 Differs", hyp)
    for method, line in (("dij", "Shorter 9"), ("full", "Disagrees 9"), ("ldm", "Shorter 9"), ("hyp", "Disagrees 5")):
        honest_reply = replace(honest(method), kind=3, route=())
        yield routed(
            f"a route as if none existed, {method.upper()}: the leaves show it", f"refused {line}", honest_reply
        )
    forged = replace(
        full, kind=3, route=(), header=replace(full.header, pairs=0, pair_root=bytes(32)), pairs=(), pair_cover=()
    )
    yield routed("a route as if none existed, FULL: a header without pairs", "refused BadSignature NoMatch", forged)
