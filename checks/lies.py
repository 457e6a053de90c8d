"""Draws semantic lies: replies that can be read, whose covers mostly fit, and that contradict the signed map.

It takes leaves of another map under the same key, leaves out, doubles and moves items, and recomputes covers or takes
them from another reply. It takes other walks as routes, exchanges kinds and queries, and reorders chains.
checks/cross.py draws these lies. Nothing here is proved, and no client trusts it.
"""
import random
from collections.abc import Callable, Sequence
from dataclasses import dataclass, replace
from operator import attrgetter

from gogbetiku_reference import servers
from gogbetiku_reference.chains import Link
from gogbetiku_reference.leaves import NO_WALK, InCell, Near, NodeLeaf, Own, PairLeaf
from gogbetiku_reference.octets import u8
from gogbetiku_reference.replies import APART, ROUTE, Answer, NearReply, NodeItem, PairItem
from gogbetiku_reference.servers import Held
from gogbetiku_reference.trees import cover_of

Reply = Answer | NearReply


@dataclass(frozen=True)
class Asked:
    """A reply with its query: the ends, or a start and a radius; a minimum version; and a chain."""

    octets: bytes
    start: int
    end: int
    least: int
    chain: tuple[Link, ...]
    is_near: bool


def covered(held: Held, reply: Reply) -> Reply:
    """The reply with the covers that fit the places of its items."""
    book, places = held.book, sorted({item.place for item in reply.nodes} & set(range(len(held.book.nodes))))
    nodes = tuple(cover_of(book.node_levels, book.settings.fan, places)) if places else ()
    if isinstance(reply, NearReply):
        return replace(reply, node_cover=nodes)
    places = sorted({item.place for item in reply.pairs} & set(range(len(book.pairs))))
    pairs = tuple(cover_of(book.pair_levels, book.settings.fan, places)) if places else ()
    return replace(reply, node_cover=nodes, pair_cover=pairs)


class Liar:
    """Draws lies over publications under one key, of one map and of others."""

    def __init__(self, rng: random.Random, held: Sequence[Held], chain: tuple[Link, ...]):
        self.rng, self.held, self.chain = rng, list(held), chain
        self.lies: list[Callable[[Held, Reply], Reply]] = [
            self.without_items,
            self.with_spare_items,
            self.with_an_item_twice,
            self.of_another_map,
            self.with_another_leaf,
            self.with_another_cover,
            self.under_another_header,
            self.of_the_other_kind,
            self.with_another_route,
            self.with_other_pairs,
            self.with_another_pair,
        ]

    def draw(self) -> Asked:
        rng, held = self.rng, self.rng.choice(self.held)
        ids = held.book.ids
        start, end = rng.choice(ids), rng.choice(ids)
        is_near = rng.random() < 0.3
        if is_near:
            end = rng.choice((0, 1, 5, 9, 40, 200, 2**32, 2**64 - 1))
        reply = self.honest(held, start, end, is_near)
        for _ in range(rng.choice((0, 1, 1, 1, 2, 3))):
            reply = rng.choice(self.lies)(held, reply)
        if rng.random() < 0.5:
            reply = covered(held, reply)
        octets = self.noise(reply.octets())
        if rng.random() < 0.1:
            start = rng.choice(ids)
        if rng.random() < 0.1:
            end = rng.choice(ids)
        least = rng.choice((0, 0, 0, held.publication.header.version, held.publication.header.version + 1, 2**64 - 1))
        return Asked(octets, start, end, least, self.drawn_chain(), is_near)

    def honest(self, held: Held, start: int, end: int, is_near: bool) -> Reply:
        if is_near:
            distances = held.book.chart.distances(start)
            return servers.near_reply(held, [node for node, far in distances.items() if far <= end])
        route = held.book.chart.route(start, end)
        if route is None:
            return servers.shows(held, APART, (), servers.gathered_apart(held.book, start, end))
        length = held.book.chart.distances(start)[end]
        return servers.shows(held, ROUTE, route, servers.gathered(held.book, start, end, route, length))

    def noise(self, octets: bytes) -> bytes:
        """Rarely changes an octet or the end."""
        if self.rng.random() > 0.04:
            return octets
        at = self.rng.randrange(len(octets))
        return self.rng.choice(
            (octets[:at] + u8(octets[at] ^ 1 << self.rng.randrange(8)) + octets[at + 1 :], octets[:at], octets + b"\0")
        )

    def drawn_chain(self) -> tuple[Link, ...]:
        links, kind = list(self.chain), self.rng.randrange(12)
        if not links or kind < 5:
            return ()
        if kind == 5:
            self.rng.shuffle(links)
        elif kind == 6:
            del links[self.rng.randrange(len(links))]
        elif kind == 7:
            links.insert(self.rng.randrange(len(links) + 1), self.rng.choice(links))
        elif kind == 8:
            at = self.rng.randrange(len(links))
            links[at] = replace(links[at], signature=self.rng.choice(links).signature)
        return tuple(links[:7])

    def other(self, held: Held) -> Held:
        return self.rng.choice([one for one in self.held if one is not held] or [held])

    def without_items(self, _held: Held, reply: Reply) -> Reply:
        kept = self.rng.choice((0, 0.5, 0.8, 0.95))
        return replace(reply, nodes=tuple(item for item in reply.nodes if self.rng.random() < kept))

    def with_spare_items(self, held: Held, reply: Reply) -> Reply:
        places = {item.place for item in reply.nodes} | {self.rng.randrange(len(held.book.nodes)) for _ in range(3)}
        return replace(
            reply, nodes=tuple(self.item(held, place) for place in sorted(places) if place < len(held.book.nodes))
        )

    def item(self, held: Held, place: int) -> NodeItem:
        return NodeItem(place, held.book.nodes[place], held.book.node_texts[place])

    def with_an_item_twice(self, held: Held, reply: Reply) -> Reply:
        """Copies an item's leaf to another place, or to its own."""
        if not reply.nodes:
            return reply
        item = self.rng.choice(reply.nodes)
        more = replace(item, place=self.rng.randrange(len(held.book.nodes) + 1))
        return replace(reply, nodes=tuple(sorted((*reply.nodes, more), key=attrgetter("place"))))

    def of_another_map(self, held: Held, reply: Reply) -> Reply:
        """Replaces some or all leaves by those of another publication at the same places."""
        other, share = self.other(held), self.rng.choice((0.2, 1))
        count = len(other.book.nodes)
        changed = [
            self.item(other, item.place) if item.place < count and self.rng.random() < share else item
            for item in reply.nodes
        ]
        reply = replace(reply, nodes=tuple(changed))
        return covered(other, reply) if self.rng.random() < 0.5 else reply

    def with_another_leaf(self, _held: Held, reply: Reply) -> Reply:
        if not reply.nodes:
            return reply
        at = self.rng.randrange(len(reply.nodes))
        leaf = self.changed(reply.nodes[at].leaf)
        return replace(
            reply, nodes=(*reply.nodes[:at], NodeItem(reply.nodes[at].place, leaf, leaf.text()), *reply.nodes[at + 1 :])
        )

    def changed(self, leaf: NodeLeaf) -> NodeLeaf:
        kind = self.rng.randrange(5)
        if kind == 0 and leaf.arcs:
            gone = self.rng.randrange(len(leaf.arcs))
            return replace(leaf, arcs=leaf.arcs[:gone] + leaf.arcs[gone + 1 :])
        if kind == 1 and leaf.arcs:
            at = self.rng.randrange(len(leaf.arcs))
            return replace(
                leaf, arcs=tuple((there, far ^ (index == at)) for index, (there, far) in enumerate(leaf.arcs))
            )
        if kind == 2:
            return replace(leaf, id=leaf.id + 1)
        match leaf.added:
            case Own(codes):
                return replace(leaf, added=Own(tuple(self.rng.choice((code, code ^ 1, 65_535)) for code in codes)))
            case Near(reference, error):
                return replace(leaf, added=Near(self.rng.choice((reference, leaf.id)), error ^ 1))
            case InCell(cell, border):
                return replace(leaf, added=InCell(cell, not border))
        return replace(leaf, x=leaf.x ^ 1)

    def with_another_cover(self, held: Held, reply: Reply) -> Reply:
        cover, kind = list(reply.node_cover), self.rng.randrange(5)
        if kind == 0 and cover:
            del cover[self.rng.randrange(len(cover))]
        elif kind == 1 and cover:
            cover.insert(0, self.rng.choice(cover))
        elif kind == 2:
            self.rng.shuffle(cover)
        elif kind == 3:
            cover = [held.publication.header.node_root]
        else:
            cover.append(bytes(32))
        return replace(reply, node_cover=tuple(cover))

    def under_another_header(self, held: Held, reply: Reply) -> Reply:
        other = self.other(held).publication
        signature = self.rng.choice((other.signature, other.signature, reply.signature))
        return replace(reply, header=other.header, signature=signature)

    def of_the_other_kind(self, _held: Held, reply: Reply) -> Reply:
        if isinstance(reply, NearReply):
            return reply
        if reply.kind == APART:
            return replace(
                reply,
                kind=ROUTE,
                route=tuple(self.rng.choice(reply.nodes).leaf.id for _ in range(2)) if reply.nodes else (1,),
            )
        return replace(reply, kind=APART, route=())

    def with_another_route(self, held: Held, reply: Reply) -> Reply:
        """Another walk of the map, mostly between the same ends."""
        if isinstance(reply, NearReply) or reply.kind == APART:
            return reply
        route, end, arcs = [reply.route[0]], reply.route[-1], held.book.chart.arcs
        while len(route) < 12 and arcs.get(route[-1]) and (route[-1] != end or self.rng.random() < 0.3):
            route.append(self.rng.choice(arcs[route[-1]])[0])
        route = self.rng.choice(
            (route, route, list(reply.route[::-1]), list(reply.route[:-1]) or route, [reply.route[0], end])
        )
        return replace(reply, route=tuple(route))

    def with_other_pairs(self, held: Held, reply: Reply) -> Reply:
        if isinstance(reply, NearReply) or not held.book.pairs:
            return reply
        places = {item.place for item in reply.pairs if self.rng.random() < 0.7}
        places |= {self.rng.randrange(len(held.book.pairs)) for _ in range(self.rng.randrange(3))}
        pairs = tuple(
            PairItem(at, held.book.pairs[at], held.book.pair_texts[at])
            for at in sorted(places)
            if at < len(held.book.pairs)
        )
        return replace(reply, pairs=pairs)

    def with_another_pair(self, _held: Held, reply: Reply) -> Reply:
        if isinstance(reply, NearReply) or not reply.pairs:
            return reply
        at = self.rng.randrange(len(reply.pairs))
        old = reply.pairs[at].leaf
        leaf = PairLeaf(old.a, old.b, self.rng.choice((0, old.distance ^ 1, NO_WALK, 2**32 - 1, 2**63)))
        return replace(
            reply, pairs=(*reply.pairs[:at], PairItem(reply.pairs[at].place, leaf, leaf.text()), *reply.pairs[at + 1 :])
        )
