"""Wrong versions, chains, signatures and covers.

Tested, not proved; no client trusts it.
"""
from collections.abc import Iterator
from dataclasses import replace

from gogbetiku_reference.leaves import NO_WALK, InCell, Near, Own, PairLeaf
from gogbetiku_reference.octets import u32
from gogbetiku_reference.replies import APART, ROUTE, Answer, NodeItem, PairItem
from gogbetiku_reference.servers import answer

from .families import Case
from .scenes import at_places, brings, by_hand, owner
from .asking import (
    FANNED,
    GREATEST,
    NODES,
    NODE_ROOT,
    ORDER,
    SEAL,
    VERSIONED,
    bad_chains,
    books,
    by_key,
    good_chain,
    honest,
    keys,
    leaf,
    link,
    put,
    routed,
    turned,
)


def versions_and_chains() -> Iterator[Case]:
    dij, chain = honest("dij"), good_chain()
    yield routed("the version is below the asked one", "refused Stale 3", dij, least=4)
    yield routed("the version is far below the asked one", "refused Stale 3", dij, least=GREATEST)
    yield routed("the version is the asked one", "accepted 9: 1 2 3", dij, least=3)
    yield routed("any version is asked for", "accepted 9: 1 2 3", dij, least=0)
    old = replace(dij, header=replace(dij.header, version=0))
    yield routed("version 0, unsigned, where 1 is asked for", "refused Stale 0", old, least=1)
    yield routed("version 0, unsigned, where any is asked for", "refused BadSignature NoMatch", old, least=0)
    for number, name in enumerate(("the first", "the second", "the third")):
        reply = answer(by_key(number), 1, 3)
        yield routed(f"signed under {name} of three keys", "accepted 9: 1 2 3", reply, chain=chain)
        if number:
            yield routed(f"signed under {name} of three keys, with no chain", "refused BadSignature NoMatch", reply)
    yield routed(
        "signed under the third key, with the chain to the second",
        "refused BadSignature NoMatch",
        answer(by_key(2), 1, 3),
        chain=chain[:1],
    )
    for why, line, links in bad_chains():
        yield routed(why, line, dij, chain=links)
    yield routed(
        "the version is tested before the chain",
        "refused Stale 3",
        dij,
        least=4,
        chain=(replace(chain[0], signature=b""),),
    )


def signatures() -> Iterator[Case]:
    """Wrong signatures of the header, by each field."""
    dij, public = honest("dij").octets(), owner().public
    yield routed("a key of an unknown type", "refused BadSignature BadKey", dij, public=put(public, 0, u32(7)))
    yield routed("a key of type 4", "refused BadSignature BadKey", dij, public=put(public, 0, u32(4)))
    yield routed(
        "a key whose one-time type is another", "refused BadSignature BadKey", dij, public=put(public, 4, u32(3))
    )
    yield routed("a key of the other height", "refused BadSignature BadForm", dij, public=put(public, 0, u32(6)))
    yield routed("another name `I` in the key", "refused BadSignature NoMatch", dij, public=turned(public, 8))
    yield routed("another root in the key", "refused BadSignature NoMatch", dij, public=turned(public, 55))
    yield routed("another owner's key", "refused BadSignature NoMatch", dij, public=keys()[1].public)
    reply = honest("dij")
    for why, signature in (
        ("no signature", b""),
        ("a signature of one octet", b"\x00"),
        ("a signature that lacks its last octet", reply.signature[:-1]),
        ("a signature with an octet more", reply.signature + b"\x00"),
        ("a signature of the greatest length", bytes(1452)),
    ):
        yield routed(why, "refused BadSignature BadForm", replace(reply, signature=signature))
    path = 1132
    for why, line, at in (
        ("the number is 32, which is no slot", "BadForm", SEAL + 3),
        ("a high bit of the number", "BadForm", SEAL),
        ("the one-time type", "BadForm", SEAL + 7),
        ("the type", "BadForm", SEAL + path - 1),
    ):
        yield routed(
            f"{why}, in the signature", f"refused BadSignature {line}", turned(dij, at, 32 if at == SEAL + 3 else 1)
        )
    for why, at in (
        ("another slot", SEAL + 3),
        ("the randomiser", SEAL + 8),
        ("the last octet of the randomiser", SEAL + 39),
        ("the value of the first chain", SEAL + 40),
        ("the value of the last chain", SEAL + path - 5),
        ("the first value of the path", SEAL + path),
        ("the last value of the path", SEAL + 1291),
    ):
        yield routed(f"a bit of {why}, in the signature", "refused BadSignature NoMatch", turned(dij, at))
    for why, at in (
        ("the order", ORDER),
        ("the fan-out", FANNED),
        ("the version", VERSIONED + 7),
        ("the count of nodes", NODES + 3),
        ("the node root", NODE_ROOT),
    ):
        yield routed(f"a bit of {why}, which is signed", "refused BadSignature NoMatch", turned(dij, at), least=0)
    first, second, third = keys()
    strange = u32(7) + second.public[4:]
    yield routed(
        "under none of the keys: the reason is that of the last, whose type is unknown",
        "refused BadSignature BadKey",
        answer(by_key(2), 1, 3),
        chain=(link(first, strange),),
    )
    yield routed(
        "signed under the first key, before a last one of an unknown type",
        "accepted 9: 1 2 3",
        dij,
        chain=(link(first, strange),),
    )
    yield routed(
        "no signature, under two keys",
        "refused BadSignature BadForm",
        replace(reply, signature=b""),
        chain=good_chain()[:1],
    )


def covers() -> Iterator[Case]:
    """Items and covers that do not give the signed roots."""
    dij, hyp, full = honest("dij"), honest("hyp"), honest("full")
    last, leaf = dij.nodes[-1], dij.nodes[1].leaf
    yield routed(
        "an item's place is no leaf",
        "refused BadCover 1 Place",
        replace(dij, nodes=(*dij.nodes[:3], replace(last, place=5))),
    )
    yield routed(
        "an item's place is far behind the leaves",
        "refused BadCover 1 Place",
        replace(dij, nodes=(*dij.nodes[:3], replace(last, place=2**32 - 1))),
    )
    yield routed("the cover is empty", "refused BadCover 1 Short", replace(dij, node_cover=()))
    yield routed(
        "the cover's digest stands twice", "refused BadCover 1 Long", replace(dij, node_cover=dij.node_cover * 2)
    )
    yield routed("a cover without an item", "refused BadCover 1 Long", replace(dij, nodes=()))
    yield routed("another digest", "refused BadCover 1 Differs", replace(dij, node_cover=(bytes(32),)))
    yield routed(
        "a bit of the digest", "refused BadCover 1 Differs", replace(dij, node_cover=(turned(dij.node_cover[0], 31),))
    )
    for why, other in (
        ("another x", replace(leaf, x=11)),
        ("another y", replace(leaf, y=1)),
        ("another id", replace(leaf, id=9)),
        ("a shorter road", replace(leaf, arcs=((1, 4), (3, 4)))),
        ("a road to another node", replace(leaf, arcs=((1, 4), (4, 5)))),
        ("a road left out", replace(leaf, arcs=((1, 4),))),
        ("a road more", replace(leaf, arcs=((1, 4), (3, 5), (5, 1)))),
    ):
        changed = (dij.nodes[0], NodeItem(1, other, other.text()), *dij.nodes[2:])
        yield routed(f"{why} in a leaf", "refused BadCover 1 Differs", replace(dij, nodes=changed))
    swapped = (replace(dij.nodes[1], place=0), replace(dij.nodes[0], place=1), *dij.nodes[2:])
    yield routed("two leaves at each other's place", "refused BadCover 1 Differs", replace(dij, nodes=swapped))
    yield routed(
        "the covers of another reply",
        "refused BadCover 1 Short",
        replace(brings(books()["dij"], [1, 2, 3], [1, 3]), node_cover=dij.node_cover),
    )
    yield from added_covers(honest("ldm"), hyp)
    yield from pair_covers(dij, full, hyp)


def added_covers(ldm: Answer, hyp: Answer) -> Iterator[Case]:
    """The root covers the extra fields of a leaf."""
    second = ldm.nodes[1].leaf
    for why, other in (
        ("another code", replace(second, added=Own((2,)))),
        ("a node near by for codes", replace(second, added=Near(1, 1))),
    ):
        yield routed(
            f"{why} in a leaf",
            "refused BadCover 1 Differs",
            replace(ldm, nodes=(ldm.nodes[0], NodeItem(1, other, other.text()), *ldm.nodes[2:])),
        )
    leaf = hyp.nodes[1].leaf
    for why, other in (
        ("another cell", replace(leaf, added=InCell(1, True))),
        ("no border", replace(leaf, added=InCell(0, False))),
    ):
        yield routed(
            f"{why} in a leaf",
            "refused BadCover 1 Differs",
            replace(hyp, nodes=(hyp.nodes[0], NodeItem(1, other, other.text()), *hyp.nodes[2:])),
        )


def pair_covers(dij: Answer, full: Answer, hyp: Answer) -> Iterator[Case]:
    pair = full.pairs[0]
    yield routed("a pair where the header counts none", "refused BadCover 2 Place", replace(dij, pairs=full.pairs))
    yield routed(
        "a digest for pairs where there are none", "refused BadCover 2 Long", replace(dij, pair_cover=(bytes(32),))
    )
    yield routed(
        "a pair's place is no leaf",
        "refused BadCover 2 Place",
        replace(hyp, pairs=(hyp.pairs[0], replace(hyp.pairs[1], place=3))),
    )
    yield routed("the pairs' cover is empty", "refused BadCover 2 Short", replace(full, pair_cover=()))
    yield routed(
        "the pairs' cover lacks a digest", "refused BadCover 2 Short", replace(full, pair_cover=full.pair_cover[:-1])
    )
    yield routed(
        "the pairs' cover has a digest more",
        "refused BadCover 2 Long",
        replace(full, pair_cover=(*full.pair_cover, bytes(32))),
    )
    yield routed("the pairs' cover without a pair", "refused BadCover 2 Long", replace(full, pairs=()))
    for why, other in (
        ("another distance", PairLeaf(1, 3, 10)),
        ("that no walk joins a pair", PairLeaf(1, 3, NO_WALK)),
        ("another lesser id", PairLeaf(2, 3, 9)),
        ("another greater id", PairLeaf(1, 4, 9)),
    ):
        yield routed(
            f"{why}, in a pair's leaf",
            "refused BadCover 2 Differs",
            replace(full, pairs=(PairItem(pair.place, other, other.text()),)),
        )
    yield routed(
        "another digest of the pairs' cover",
        "refused BadCover 2 Differs",
        replace(full, pair_cover=(bytes(32), *full.pair_cover[1:])),
    )
    both = replace(full, node_cover=(), pair_cover=())
    yield routed(
        "both covers are wrong: the nodes' is told",
        "refused BadCover 1 " + ("Short" if full.node_cover else "Differs"),
        both,
    )
    yield routed(
        "a cover is tested behind the signature",
        "refused BadSignature BadForm",
        replace(dij, node_cover=(), signature=b""),
    )


def repeated() -> Iterator[Case]:
    """Signed trees with a repeated leaf, which no map has."""
    one, two, three = leaf(1, {2: 4}), leaf(2, {1: 4, 3: 5}), leaf(3, {2: 5})
    held = by_hand("dij", [one, two, three, replace(one, x=7), replace(two, x=7)])
    yield routed(
        "two items have the ids 1 and 2: the lesser is told",
        "refused RepeatedNode 1",
        at_places(held, ROUTE, [1, 2, 3], range(5)),
    )
    yield routed("two items have the id 2", "refused RepeatedNode 2", at_places(held, ROUTE, [1, 2, 3], [0, 1, 2, 4]))
    yield routed(
        "a repeated id is told before the route is looked at",
        "refused RepeatedNode 1",
        at_places(held, ROUTE, [9], [0, 3]),
    )
    yield routed(
        "a repeated id where no route is shown", "refused RepeatedNode 2", at_places(held, APART, [], [1, 4]), 8, 9
    )
    yield routed("the ids are distinct", "accepted 9: 1 2 3", at_places(held, ROUTE, [1, 2, 3], [1, 2, 3]))
