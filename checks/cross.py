#!/usr/bin/env python3
"""Compares the program with the reference over random maps: checks/cross.py PROGRAM [--seed N] [--seconds S] [--steps
N] [--library] [--processes N]

A step runs one command in both. Maps, settings, queries and disks are random. So are road files, graphs, publications,
replies, chains, disks and frames that are broken, truncated, longer, spliced or false, with covers that fit the lie;
and arguments that fit no command. Both must end with the same status and output, and leave the same `owner.desk`. If
several routes are equally short, a program may take any of them; the reference then checks that the output is an honest
reply or a shortest route. An answer that a client accepts is also compared with distances over the signed map. It ends
after STEPS steps or SECONDS seconds (20), or with status 1 at the first difference, and then names the folder with its
files. It prints the time of the slowest run of the program. With --library, PROGRAM is libgogbetiku.so.0, and only lies
are drawn, in this process (checks/lies.py). With --processes, several processes share the steps, with the seeds SEED,
SEED + 1 and so on. Nothing here is proved, and no client trusts it.
"""
import argparse
import pathlib
import random
import re
import shutil
import subprocess
import sys
import tempfile
import time
from collections import Counter
from collections.abc import Callable
from dataclasses import replace

TOP = pathlib.Path(__file__).resolve().parent.parent
sys.path[:0] = [str(TOP / "reference"), str(TOP / "checks"), str(TOP / "bindings/python")]

from gogbetiku_reference import commands, desks, layout, servers  # noqa: E402
from gogbetiku_reference.books import book_of  # noqa: E402
from gogbetiku_reference.chains import Link, link_text, write_chain  # noqa: E402
from gogbetiku_reference.commands import FORMS, Ended, World  # noqa: E402
from gogbetiku_reference.faults import Fault  # noqa: E402
from gogbetiku_reference.frames import Service, bodies_of, framed  # noqa: E402
from gogbetiku_reference.headers import METHODS  # noqa: E402
from gogbetiku_reference.lms import key_of  # noqa: E402
from gogbetiku_reference.maps import Map, Parts, map_of  # noqa: E402
from gogbetiku_reference.octets import Malformed, Reader, u8, u32  # noqa: E402
from gogbetiku_reference.orders import ORDERS  # noqa: E402
from gogbetiku_reference.publications import Publication, Settings, read_publication  # noqa: E402
from gogbetiku_reference.replies import APART, ROUTE, Answer, NearReply, read_near_reply, read_reply  # noqa: E402
from gogbetiku_reference.road_files import print_roads, read_roads  # noqa: E402
from gogbetiku_reference.servers import Held  # noqa: E402
from gogbetiku_vectors.asking import run_near, run_route  # noqa: E402
from lies import Asked, Liar  # noqa: E402

GREATEST = 2**64 - 1
WORLDS_STEPS = 400
# in this folder, the program's syncs of its disk take no time
IN_MEMORY = "/dev/shm" if pathlib.Path("/dev/shm").is_dir() else None
Step = tuple[list[str], dict[str, bytes], bytes, bytes]


def broken(rng: random.Random, text: bytes, others: list[bytes]) -> bytes:
    """Octets that were changed: bits flipped, truncated, extended, a piece swapped, a number changed, or spliced with
    others."""
    if not text:
        return rng.randbytes(rng.randrange(3))
    kind, at = rng.randrange(6), rng.randrange(len(text))
    if kind == 0:
        return text[:at] + u8(text[at] ^ 1 << rng.randrange(8)) + text[at + 1 :]
    if kind == 1:
        return text[:at]
    if kind == 2:
        more = rng.choice((rng.randbytes(rng.randrange(1, 40)), text[at : at + rng.randrange(1, 80)]))
        return rng.choice((text + more, text[:at] + more + text[at:]))
    if kind == 3:
        to = rng.randrange(len(text))
        return text[:at] + text[to : to + 4] + text[at + 4 :]
    if kind == 4:
        return (
            text[:at]
            + rng.choice((b"\xff" * 4, bytes(4), b"\0\1\0\0", b"\x7f\xff\xff\xff", b"\0\0\0\1"))
            + text[at + 4 :]
        )
    other = rng.choice(others)
    return text[:at] + other[rng.choice((at, rng.randrange(len(other) + 1))) :]


def made_map(rng: random.Random) -> Parts:
    """A random map of one to thirty nodes, often with several components, with parallel roads and roads of length 0."""
    count = rng.choice((1, 2, 5, 9, 16, 30))
    ids = rng.sample(range(1, 4 * count), count)
    frame = rng.choice((1, 9, 99, 2**31 - 1))
    nodes = tuple((node, rng.randint(-frame, frame), rng.randint(-frame, frame)) for node in ids)
    lengths = rng.choice(((0, 1, 2, 5, 9, 30), (1, 2, 4, 7), (0,), (2**32 - 1, 2**31, 5), tuple(range(1, 200))))
    ends = [tuple(rng.sample(ids, 2)) for _ in range(rng.randrange(2 * count))] if count > 1 else []
    ends += [(node, rng.choice(ids[:at])) for at, node in enumerate(ids) if at and rng.random() < 0.8]
    return Parts(nodes, tuple((a, b, rng.choice(lengths)) for a, b in ends))


def drawn_settings(rng: random.Random, nodes: int, version: int) -> Settings:
    method = rng.choice(list(METHODS.values()))
    parameters = {
        3: (rng.randint(1, min(5, nodes)), rng.randint(1, 16), rng.choice((0, 1, 4, 65_534))),
        4: (rng.randint(1, 5), rng.randint(1, 5), 0),
    }
    return Settings(
        method,
        version,
        rng.randrange(6),
        rng.choice((0, 5, GREATEST)),
        rng.choice((2, 3, 4, 32)),
        *parameters.get(method, (0, 0, 0)),
    )


class Scene:
    """A map with publications over it and over another map, keys, a disk, and a chain."""

    def __init__(self, rng: random.Random, secrets: list[bytes]):
        self.rng, self.secrets = rng, secrets
        self.parts, self.chart = self.good_map()
        self.ids = sorted(self.chart.places)
        self.disk = desks.create(b"", 5, secrets[0])
        self.held: list[Held] = []
        self.chain: tuple[Link, ...] = ()
        for version in range(1, rng.randint(3, 7)):
            self.publish(version)
            if version == 2 and rng.random() < 0.5:
                self.disk = desks.succeed(self.disk, 5, secrets[1])
        self.chain = desks.open_desk(self.disk).links()
        self.public = key_of(5, secrets[0]).public

    def good_map(self) -> tuple[Parts, Map]:
        while True:
            parts = made_map(self.rng)
            try:
                return parts, map_of(parts)
            except Fault:
                continue

    def publish(self, version: int) -> None:
        """Makes one more publication, over the map or over a map with half the lengths."""
        parts = (
            self.parts
            if self.rng.random() < 0.8
            else replace(self.parts, roads=tuple((a, b, length // 2) for a, b, length in self.parts.roads))
        )
        settings = drawn_settings(self.rng, len(self.ids), version)
        book = book_of(parts, settings)
        self.disk, signature = desks.sign(self.disk, book.header.octets())
        self.held.append(
            Held(Publication(book.header, signature, settings.seed, settings.p1, settings.p2, settings.p3, parts), book)
        )

    def end(self) -> int:
        return (
            self.rng.choice(self.ids)
            if self.rng.random() < 0.97
            else self.rng.choice((0, 2**32 - 1, self.rng.randrange(200)))
        )


def lied(rng: random.Random, held: Held, octets: bytes, others: list[bytes]) -> bytes:
    """A reply with changed fields, and with covers that fit the items."""
    try:
        reply = read_reply(Reader(octets)) if octets[:1] != b"R" else read_near_reply(Reader(octets))
    except Malformed:
        return octets
    if isinstance(reply, int):
        return octets
    if isinstance(reply, Answer) and rng.random() < 0.5:
        reply = other_route(rng, held, reply)
    if rng.random() < 0.7:
        reply = other_items(rng, held, reply)
    if rng.random() < 0.3:
        reply = other_leaf(rng, reply)
    return reply.octets()


def other_route(rng: random.Random, held: Held, reply: Answer) -> Answer:
    """Another walk of the map, mostly between the same ends; or another kind."""
    if rng.random() < 0.2:
        kind = APART if reply.kind == ROUTE else ROUTE
        return replace(reply, kind=kind, route=() if kind == APART else reply.route or (rng.choice(held.book.ids),))
    if reply.kind == APART:
        return reply
    route, end = [reply.route[0]], reply.route[-1]
    while len(route) < 20 and held.book.chart.arcs.get(route[-1]) and (route[-1] != end or rng.random() < 0.3):
        route.append(rng.choice(held.book.chart.arcs[route[-1]])[0])
    return replace(reply, route=tuple(route))


def other_items(rng: random.Random, held: Held, reply: Answer | NearReply) -> Answer | NearReply:
    """A reply with items left out or added, with the right covers."""
    nodes = {item.leaf.id for item in reply.nodes} & set(held.book.ids)
    nodes = {node for node in nodes if rng.random() < rng.choice((0.7, 0.9, 1))} | set(
        rng.sample(held.book.ids, min(len(held.book.ids), rng.choice((0, 0, 1, 3))))
    )
    items = servers.node_items(held.book, nodes)
    reply = replace(reply, nodes=items, node_cover=servers.node_cover(held.book, items))
    if isinstance(reply, Answer) and held.book.pairs:
        pairs = {(item.leaf.a, item.leaf.b) for item in reply.pairs} & set(held.book.pair_ids)
        pairs = {pair for pair in pairs if rng.random() < rng.choice((0.7, 1))} | set(
            rng.sample(held.book.pair_ids, rng.choice((0, 1)))
        )
        said = servers.pair_items(held.book, pairs)
        reply = replace(reply, pairs=said, pair_cover=servers.pair_cover(held.book, said))
    return reply


def other_leaf(rng: random.Random, reply: Answer | NearReply) -> Answer | NearReply:
    """A reply with a changed octet of a leaf, or a changed place of an item."""
    if not reply.nodes:
        return reply
    at = rng.randrange(len(reply.nodes))
    item = reply.nodes[at]
    if rng.random() < 0.2:
        changed = replace(item, place=item.place + rng.choice((1, 1000)))
    else:
        place = rng.randrange(len(item.text))
        changed = replace(
            item, text=item.text[:place] + u8(rng.choice((0, 1, 255, rng.randrange(256)))) + item.text[place + 1 :]
        )
    return replace(reply, nodes=(*reply.nodes[:at], changed, *reply.nodes[at + 1 :]))


class Steps:
    """Draws the steps over a scene."""

    def __init__(self, scene: Scene):
        self.scene, self.rng = scene, scene.rng
        self.routes = [servers.answer(held, scene.end(), scene.end()) for held in scene.held for _ in range(3)]
        self.radii = [servers.near_reply(held, [scene.rng.choice(scene.ids)]).octets() for held in scene.held]
        self.publications = [held.publication.octets() for held in scene.held]
        self.liar = Liar(self.rng, scene.held, scene.chain)
        self.kinds: list[tuple[int, Callable[[], Step]]] = [
            (30, self.check),
            (30, self.lie),
            (12, self.check_reach),
            (10, self.audit),
            (5, self.audit_reach),
            (8, self.prove),
            (5, self.reach),
            (6, self.publish),
            (6, self.route),
            (4, self.root),
            (4, self.dimacs),
            (3, self.desk),
            (3, self.links),
            (2, self.key),
            (2, self.succeed),
            (5, self.reduce),
            (4, self.serve),
            (2, self.words),
        ]

    def draw(self) -> Step:
        return self.rng.choices([kind for _, kind in self.kinds], [weight for weight, _ in self.kinds])[0]()

    def step(
        self, words: list[object], files: dict[str, bytes], source: bytes = b"", disk: bytes | None = None
    ) -> Step:
        return [str(word) for word in words], files, source, self.scene.disk if disk is None else disk

    def maybe(self, text: bytes, others: list[bytes], chance: float) -> bytes:
        return broken(self.rng, text, others) if self.rng.random() < chance else text

    def key_file(self) -> bytes:
        public = self.scene.public if self.rng.random() < 0.8 else key_of(5, self.rng.choice(self.scene.secrets)).public
        if self.rng.random() < 0.03:
            public = self.rng.choice((u32(7), u32(6), u32(5) + u32(3))).ljust(8, b"\x04") + public[8:]
        text = public.hex().encode() + self.rng.choice((b"", b"\n", b"\r\n"))
        return self.maybe(text.upper() if self.rng.random() < 0.1 else text, [b"0" * 112], 0.02)

    def chain_words(self) -> tuple[list[str], dict[str, bytes]]:
        """Sometimes a chain: the desk's own, a broken one, or one longer than the desk's."""
        if self.rng.random() < 0.5:
            return [], {}
        links = self.scene.chain
        if self.rng.random() < 0.2:
            first, other = key_of(5, self.scene.secrets[0]), key_of(5, self.rng.choice(self.scene.secrets[1:])).public
            links = (Link(other, first.sign(31, link_text(other))), *links[1:])
        return ["chain"], {"chain": self.maybe(write_chain(links), [b"RPL1", write_chain(links)], 0.2)}

    def reply_of(self, honest: bytes, held: Held, others: list[bytes]) -> bytes:
        kind = self.rng.randrange(10)
        if kind < 3:
            return honest
        return lied(self.rng, held, honest, others) if kind < 7 else broken(self.rng, honest, others)

    def route_query(self) -> tuple[list[object], dict[str, bytes], Held]:
        held, start, end = self.rng.choice(self.scene.held), self.scene.end(), self.scene.end()
        reply = self.reply_of(servers.answer(held, start, end), held, self.routes)
        return (
            [start, end if self.rng.random() < 0.95 else self.scene.end()],
            {"key": self.key_file(), "reply": reply},
            held,
        )

    def near_query(self) -> tuple[list[object], dict[str, bytes], Held]:
        held, start = self.rng.choice(self.scene.held), self.rng.choice(self.scene.ids)
        radius = self.rng.choice((0, 1, 5, 30, 200, 2**33, GREATEST))
        reply = self.reply_of(servers.answer_near(held, start, radius), held, self.radii)
        return (
            [start, radius if self.rng.random() < 0.8 else self.rng.choice((0, 7, GREATEST))],
            {"key": self.key_file(), "reply": reply},
            held,
        )

    def check(self) -> Step:
        query, files, held = self.route_query()
        words, chain = self.chain_words()
        least = self.rng.choice((0, 0, held.publication.header.version, 3, GREATEST))
        return self.step(["check", "key", "reply", *query, least, *words], {**files, **chain})

    def lie(self) -> Step:
        """A reply whose covers mostly fit, but whose answer is not true of the signed map."""
        asked = self.liar.draw()
        files = {"key": self.scene.public.hex().encode(), "reply": asked.octets, "chain": write_chain(asked.chain)}
        words = [
            "check-reach" if asked.is_near else "check",
            "key",
            "reply",
            asked.start,
            asked.end,
            asked.least,
            "chain",
        ]
        return self.step(words, files)

    def check_reach(self) -> Step:
        query, files, _ = self.near_query()
        words, chain = self.chain_words()
        return self.step(
            ["check-reach", "key", "reply", *query, self.rng.choice((0, 0, 2)), *words], {**files, **chain}
        )

    def audited(self, command: str, query: list[object], files: dict[str, bytes], held: Held) -> Step:
        words, chain = self.chain_words()
        other = held if self.rng.random() < 0.8 else self.rng.choice(self.scene.held)
        files["pub"] = self.maybe(other.publication.octets(), self.publications, 0.1)
        disk = self.scene.disk if self.rng.random() < 0.7 else self.other_disk()
        return self.step([command, "key", "pub", "reply", *query, *words], {**files, **chain}, disk=disk)

    def audit(self) -> Step:
        return self.audited("audit", *self.route_query())

    def audit_reach(self) -> Step:
        return self.audited("audit-reach", *self.near_query())

    def publication(self) -> bytes:
        return self.maybe(self.rng.choice(self.publications), self.publications, 0.25)

    def prove(self) -> Step:
        return self.step(["prove", "pub", self.scene.end(), self.scene.end()], {"pub": self.publication()})

    def reach(self) -> Step:
        return self.step(
            ["reach", "pub", self.scene.end(), self.rng.choice((0, 3, 50, GREATEST))], {"pub": self.publication()}
        )

    def road_text(self) -> bytes:
        text = print_roads(self.scene.parts if self.rng.random() < 0.6 else made_map(self.rng))
        if self.rng.random() < 0.2:
            text = text.replace(b"\n", self.rng.choice((b"\r\n", b" \n", b"\n# x\n", b"\n\n")))
        if self.rng.random() < 0.3:
            lines = text.split(b"\n")
            at = self.rng.randrange(len(lines))
            lines[at] = self.rng.choice(
                (
                    b"node 1 2",
                    b"road 1 1 1",
                    b"node 7 -0 +1",
                    b"road 4294967296 1 1",
                    lines[0],
                    lines[-2],
                    b"\tnode\t5 5 5",
                    b"roads 1",
                    b"x",
                )
            )
            text = b"\n".join(lines)
        return self.maybe(text, [text, b"roads 1\nnode 1 1 1\n"], 0.2)

    def route(self) -> Step:
        return self.step(["route", "map.roads", self.scene.end(), self.scene.end()], {"map.roads": self.road_text()})

    def root(self) -> Step:
        return self.step(["root", "map.roads", self.rng.choice((2, 3, 7, 32, 33))], {"map.roads": self.road_text()})

    def dimacs(self) -> Step:
        nodes = self.rng.randint(1, 6)
        arcs = []
        for _ in range(self.rng.randrange(8)):
            a, b, length = self.rng.randint(1, nodes), self.rng.randint(1, nodes), self.rng.randrange(4)
            arcs += [(a, b, length), (b, a, length)] if self.rng.random() < 0.9 else [(a, b, length)]
        self.rng.shuffle(arcs)
        graph = b"c x\np sp %d %d\n" % (nodes, len(arcs)) + b"".join(b"a %d %d %d\n" % arc for arc in arcs)
        places = b"p aux sp co %d\n" % nodes + b"".join(
            b"v %d %d %d\n" % (node, self.rng.randint(-9, 9), node)
            for node in self.rng.sample(range(1, nodes + 1), nodes)
        )
        both = [graph, places, b"a 1 1 1\n", b"c\n"]
        return self.step(
            ["dimacs", "a.gr", "a.co"], {"a.gr": self.maybe(graph, both, 0.2), "a.co": self.maybe(places, both, 0.15)}
        )

    def publish(self) -> Step:
        settings = drawn_settings(self.rng, len(self.scene.ids), self.rng.choice((1, 9, GREATEST)))
        names = {number: name for name, number in METHODS.items()}, {number: name for name, number in ORDERS.items()}
        parameters = [settings.p1, settings.p2, settings.p3]
        if self.rng.random() < 0.2:
            parameters[self.rng.randrange(3)] = self.rng.choice((0, 1, 65, 1025, 65_535, GREATEST))
        words = [
            "publish",
            "map.roads",
            names[0][settings.method],
            settings.version,
            names[1][settings.order],
            settings.seed,
            settings.fan,
            *parameters,
        ]
        roads = self.road_text() if self.rng.random() < 0.4 else print_roads(self.scene.parts)
        return self.step(
            words, {"map.roads": roads}, disk=self.scene.disk if self.rng.random() < 0.8 else self.other_disk()
        )

    def other_disk(self) -> bytes:
        """A changed disk: an octet changed at a place that is read, truncated, extended, a later or an empty disk."""
        disk, kind = self.scene.disk, self.rng.randrange(6)
        if kind == 0:
            return rng_bytes(self.rng)
        if kind == 1:
            return disk[: self.rng.choice((0, 1, 63, 64, len(disk) - 1, len(disk) // 2))]
        if kind == 2:
            at = self.rng.choice(
                (
                    0,
                    1,
                    4,
                    5,
                    20,
                    21,
                    52,
                    53,
                    64 + 128 * self.rng.randrange(32),
                    65 + 128 * self.rng.randrange(32),
                    self.rng.randrange(len(disk)),
                )
            )
            return disk[:at] + u8(self.rng.choice((0, 1, 5, 6, 255))) + disk[at + 1 :]
        if kind == 3:
            area = desks.open_desk(disk).current()
            text = self.rng.choice(
                (link_text(key_of(5, self.rng.choice(self.scene.secrets)).public), b"RPK1", b"a text", b"")
            )
            return desks.spend(
                disk, area, self.rng.choice((area.key.slots - 1, self.rng.randrange(area.key.slots))), text
            )
        return desks.create(b"", 5, self.rng.choice(self.scene.secrets)) if kind == 4 else disk + rng_bytes(self.rng)

    def any_disk(self) -> bytes:
        return self.other_disk() if self.rng.random() < 0.6 else self.scene.disk

    def desk(self) -> Step:
        return self.step(["desk"], {}, disk=self.any_disk())

    def links(self) -> Step:
        return self.step(["links"], {}, disk=self.any_disk())

    def secret_file(self) -> bytes:
        return self.maybe(
            self.rng.choice(self.scene.secrets).hex().encode() + self.rng.choice((b"", b"\n")), [b"0" * 96], 0.2
        )

    def key(self) -> Step:
        return self.step(["key", "secret", "h5"], {"secret": self.secret_file()}, disk=self.any_disk())

    def succeed(self) -> Step:
        return self.step(["succeed", "secret", "h5"], {"secret": self.secret_file()}, disk=self.any_disk())

    def reduce(self) -> Step:
        key = key_of(5, self.rng.choice(self.scene.secrets[:2]))
        held = self.rng.choice(self.scene.held)
        slot = self.rng.randrange(32)
        text = self.rng.choice((b"", b"a text", held.publication.header.octets(), link_text(key.public)))
        signature = self.rng.choice((key.sign(slot, text), held.publication.signature))
        files = {
            "key": self.key_file(),
            "text": text.hex().encode(),
            "signature": self.maybe(signature, [signature], 0.3).hex().encode(),
        }
        return self.step(["reduce", "key", "text", "signature"], files, disk=self.any_disk())

    def body(self) -> bytes:
        kind, session = self.rng.randrange(12), self.rng.choice((0, 1, 2, 15, 16, 255))
        if kind < 5:
            return bytes([2, session]) + u32(self.scene.end()) + u32(self.scene.end())
        if kind < 8:
            return bytes([1, session])
        if kind == 8:
            return bytes([3, session])
        if kind == 9:
            return self.rng.randbytes(self.rng.choice((0, 1, 2, 3, 9, 10, 11)))
        return b"\x04" + self.publication()

    def serve(self) -> Step:
        source = b"".join(framed(self.body()) for _ in range(self.rng.randrange(30)))
        source += self.rng.choice((b"", b"", b"\0", b"\0\0\0\5x", u32(4_194_305), u32(2**32 - 1) + b"x"))
        return self.step(["serve", "pub"], {"pub": self.publications[0]}, source)

    def words(self) -> Step:
        """Arguments that fit no command, or only just fit one."""
        name = self.rng.choice([*FORMS, "", "help me", "Route"])
        given = [
            self.rng.choice(
                (
                    "key",
                    "reply",
                    "pub",
                    "0",
                    "1",
                    "00001",
                    "-1",
                    "+1",
                    "1.0",
                    "x",
                    "",
                    "4294967295",
                    "4294967296",
                    str(GREATEST),
                    str(GREATEST + 1),
                    "dij",
                    "id",
                    "h5",
                    "32",
                    "33",
                    "9" * 40,
                )
            )
            for _ in range(self.rng.randrange(8))
        ]
        return self.step(
            [name, *given], {"key": self.key_file(), "reply": self.rng.choice(self.routes), "pub": self.publications[0]}
        )


def rng_bytes(rng: random.Random) -> bytes:
    return rng.choice((b"", bytes(64), bytes(5000), rng.randbytes(rng.randrange(100))))


def is_free(words: list[str], files: dict[str, bytes], source: bytes, seen: Ended, wanted: Ended) -> bool:
    """Whether an output that differs from the reference's is as good, because routes are equally short."""
    if (seen.status, seen.disk) != (wanted.status, wanted.disk):
        return False
    if words[0] == "prove":
        return servers.is_honest(
            servers.install(read_publication(Reader(files["pub"]))), int(words[2]), int(words[3]), seen.output
        )
    if words[0] == "route":
        return is_shortest_line(map_of(read_roads(files["map.roads"])), int(words[2]), int(words[3]), seen.output)
    return words[0] == "serve" and serves(
        Service(servers.install(read_publication(Reader(files["pub"])))), bodies_of(source)[0], seen.output
    )


def is_shortest_line(chart: Map, start: int, end: int, line: bytes) -> bool:
    length, ids = line.decode().rstrip("\n").split(":")
    route = tuple(map(int, ids.split()))
    return (
        chart.is_shortest(start, end, route)
        and int(length) == chart.distances(start)[end]
        and line == f"{length}: {' '.join(map(str, route))}\n".encode()
    )


def serves(service: Service, bodies: list[bytes], written: bytes) -> bool:
    """Whether framed replies are those of the service, except for the choice among shortest routes."""
    at = 0
    for body in bodies:
        size = int.from_bytes(written[at : at + 4], "big")
        reply = written[at + 4 : at + 4 + size]
        at += 4 + size
        pinned = service.pins.get(body[1]) if len(body) == 10 and body[0] == 2 else None
        good = service.step(body)
        if reply != good and not (
            pinned
            and reply[:2] == good[:2]
            and servers.is_honest(pinned, int.from_bytes(body[2:6], "big"), int.from_bytes(body[6:], "big"), reply[2:])
        ):
            return False
    return at == len(written)


def is_true(scene: Scene, words: list[str], files: dict[str, bytes], line: str) -> bool:
    """Whether an accepted answer is true of the signed map, by its distances."""
    front = layout.IN_ANSWER if words[0] == "check" else layout.IN_RANGE_REPLY
    held = next(
        held for held in scene.held if held.book.header.octets() == files["reply"][front : front + layout.HEADER]
    )
    chart, start, end = held.book.chart, int(words[3]), int(words[4])
    if line == "accepted none\n":
        return start in chart.places and end in chart.places and end not in chart.distances(start)
    found = re.fullmatch(r"\w+ (\d+):((?: \d+)*)\n", line)
    if not found:
        return False
    number, nodes = int(found[1]), tuple(map(int, found[2].split()))
    if words[0] == "check-reach":
        return nodes == tuple(sorted(node for node, length in chart.distances(start).items() if length <= end))
    return (nodes[0], nodes[-1], chart.length_of(nodes), chart.distances(start)[end]) == (start, end, number, number)


class Both:
    """Runs each step in the program and in the reference."""

    def __init__(self, program: str, folder: pathlib.Path):
        self.program, self.folder, self.counts = str(pathlib.Path(program).resolve()), folder, Counter[str]()
        self.slowest, self.is_guarded, self.is_spent_first = 0.0, False, False

    def by_program(self, words: list[str], files: dict[str, bytes], source: bytes, disk: bytes) -> Ended:
        for name, text in files.items():
            (self.folder / name).write_bytes(text)
        desk = self.folder / "owner.desk"
        desk.touch(mode=0o600)
        desk.write_bytes(disk)
        begun = time.monotonic()
        done = subprocess.run([self.program, *words], cwd=self.folder, input=source, capture_output=True, check=False)
        self.slowest = max(self.slowest, time.monotonic() - begun)
        self.is_guarded = b"No run and no crash leaves that" in done.stderr
        self.is_spent_first = b"counted as free, but has the header" in done.stderr
        return Ended(done.returncode, done.stdout, desk.read_bytes())

    def by_reference(self, words: list[str], files: dict[str, bytes], source: bytes, disk: bytes) -> Ended:
        def file(name: str) -> bytes:
            if name not in files:
                raise Fault("Missing")
            return files[name]

        return commands.run(words, World(file, disk, source))

    def take(self, scene: Scene, step: Step) -> str | None:
        """Runs a step. Returns the difference, if there is one."""
        words, files, source, disk = step
        for path in self.folder.iterdir():
            path.unlink()
        wanted, seen = self.by_reference(*step), self.by_program(*step)
        self.counts[words[0] if words[0] in FORMS else "other words"] += 1
        self.counts["steps"] += 1
        if self.is_guarded and (seen.status, seen.output, seen.disk) == (12, b"", disk):
            self.counts["a desk that no run leaves, not signed over"] += 1
            return None
        if self.is_spent_first:
            self.counts["a one-time key spent first, since a text stood in it"] += 1
            return None
        if (seen.status, seen.output, seen.disk) == (wanted.status, wanted.output, wanted.disk):
            if words[0].startswith("check") and seen.status == 0:
                self.counts["accepted and true"] += 1
                return (
                    None
                    if is_true(scene, words, files, seen.output.decode())
                    else f"{words}: {seen.output!r} is accepted but not true"
                )
            return None
        if wanted.status in (0, 3, 13) and is_free(words, files, source, seen, wanted):
            self.counts["of equally short routes another"] += 1
            return None
        (self.folder / "input").write_bytes(source)
        (self.folder / "disk.before").write_bytes(disk)
        return (
            f"{' '.join(words)}: the program ends with {seen.status} and {seen.output[:80]!r}, the reference with {wanted.status}, {wanted.output[:80]!r}"
            f" and {wanted.fault}; the disks are {'the same' if seen.disk == wanted.disk else 'others'}"
        )


def fields_of(scene: Scene, asked: Asked) -> dict[str, object]:
    """A lie in the form of the vectors."""
    given: dict[str, object] = {
        "public": scene.public.hex(),
        "chain": write_chain(asked.chain).hex(),
        "reply": asked.octets.hex(),
    }
    end: dict[str, object] = {"radius": str(asked.end)} if asked.is_near else {"to": asked.end}
    return {**given, "from": asked.start, **end, "least": str(asked.least)}


def by_library(library: str, seed: int, cases: int, seconds: float) -> int:
    """Compares the library with the reference over lies only, in this process."""
    from vectors import by_library as runner

    rng, begun, counts = random.Random(seed), time.monotonic(), Counter[str]()
    secrets, run = [rng.randbytes(48) for _ in range(3)], runner(library)
    while counts["cases"] < cases and time.monotonic() - begun < seconds:
        if counts["cases"] % WORLDS_STEPS == 0:
            scene = Scene(rng, secrets)
            liar = Liar(rng, scene.held, scene.chain)
        asked = liar.draw()
        given = fields_of(scene, asked)
        seen, wanted = run(given), (run_near if asked.is_near else run_route)(given)
        counts["cases"] += 1
        counts[wanted["line"].split()[min(1, wanted["code"] - 1 if wanted["code"] > 2 else 0)]] += 1
        words = ["check-reach" if asked.is_near else "check", "key", "reply", str(asked.start), str(asked.end)]
        if (
            seen != wanted
            or wanted["code"] in (1, 2)
            and not is_true(scene, words, {"reply": asked.octets}, seen["line"])
        ):
            print(
                f"cross, lies, seed {seed}, case {counts['cases']}: the library {seen}, the reference {wanted}, given {given}"
            )
            return 1
    count = counts.pop("cases")
    print(
        f"cross, lies, seed {seed}: {count} by the library without a difference ({', '.join(f'{name} {number}' for name, number in sorted(counts.items()))})"
    )
    return 0


def in_processes(asked: argparse.Namespace) -> int:
    """Gives each process its part of the steps, and prints how each ended."""
    words = [sys.executable, __file__, asked.program, *(["--library"] if asked.library else [])]
    words += [f"--seconds={asked.seconds}"] if asked.seconds else []
    words += [f"--steps={-(-asked.steps // asked.processes)}"] if asked.steps else []
    running = [subprocess.Popen([*words, f"--seed={asked.seed + part}"]) for part in range(asked.processes)]
    return max(process.wait() for process in running)


def main() -> int:
    parser = argparse.ArgumentParser(description=__doc__.split("\n", maxsplit=1)[0])
    parser.add_argument("program")
    parser.add_argument("--seed", type=int, default=1)
    parser.add_argument("--seconds", type=float, default=None)
    parser.add_argument("--steps", type=int, default=None)
    parser.add_argument("--library", action="store_true", help="PROGRAM is libgogbetiku.so.0, which gets only lies")
    parser.add_argument("--processes", type=int, default=1)
    asked = parser.parse_args()
    if asked.processes > 1:
        return in_processes(asked)
    seconds = asked.seconds or (20 if asked.steps is None else 10**9)
    if asked.library:
        return by_library(asked.program, asked.seed, asked.steps or 10**9, seconds)
    rng, begun = random.Random(asked.seed), time.monotonic()
    secrets = [rng.randbytes(48) for _ in range(3)]
    folder = pathlib.Path(tempfile.mkdtemp(prefix="cross-", dir=IN_MEMORY))
    both, steps = Both(asked.program, folder), Steps(Scene(rng, secrets))
    while both.counts["steps"] < (asked.steps or 10**9) and time.monotonic() - begun < seconds:
        if both.counts["steps"] % WORLDS_STEPS == 0 and both.counts["steps"]:
            steps = Steps(Scene(rng, secrets))
        differs = both.take(steps.scene, steps.draw())
        if differs:
            print(f"cross, seed {asked.seed}, step {both.counts['steps']}, in {folder}: {differs}")
            return 1
    shutil.rmtree(folder)
    count = both.counts.pop("steps")
    kinds = ", ".join(f"{name} {number}" for name, number in sorted(both.counts.items()))
    print(f"cross, seed {asked.seed}: {count} steps without a difference, the slowest {both.slowest:.2f} s ({kinds})")
    return 0


if __name__ == "__main__":
    sys.exit(main())
