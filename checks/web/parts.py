#!/usr/bin/python3
"""Tests each part of the gateway without PROGRAM: checks/web/parts.py [-v] [NAME ..]

There is a class of tests for each module of web/gateway_parts. serve_stand_in.py stands in for `serve`. No client
trusts this file.
"""

import asyncio
import contextlib
import gzip
import hashlib
import logging
import os
import pathlib
import random
import socket
import struct
import sys
import tempfile
import time
import unittest
import warnings
from collections.abc import Callable, Iterator

HERE = pathlib.Path(__file__).resolve().parent
TOP = HERE.parents[1]
sys.path.insert(0, str(TOP / "web"))

try:
    from gateway_parts import answers, children, counts, keeper, limits, log, options, publications, roll, wire
except ModuleNotFoundError as lacking:
    print(f"skipped: checks/web/parts.py, since this machine has no python3-{lacking.name}")
    sys.exit(0)

STAND_IN = str(HERE / "serve_stand_in.py")
PROXY = frozenset({"127.0.0.1"})


def publication(version: int, end: bytes = b"x", size: int = 2_000) -> bytes:
    """Octets with the header of a publication."""
    return (
        b"RPP1RPF1\3\0\0\0"
        + struct.pack(">QI", version, 5)
        + bytes(84)
        + struct.pack(">H", 4)
        + struct.pack(">I", version)
        + b"x" * size
        + end
    )


@contextlib.contextmanager
def words_of_log() -> Iterator[Callable[[], str]]:
    """The text that a block writes on standard error."""
    with tempfile.TemporaryFile() as file:
        kept = os.dup(2)
        os.dup2(file.fileno(), 2)

        def read() -> str:
            return os.pread(file.fileno(), 1 << 20, 0).decode()

        try:
            yield read
        finally:
            os.dup2(kept, 2)
            os.close(kept)


class Log(unittest.TestCase):
    def test_a_line_is_one_line_whatever_is_in_it(self) -> None:
        for text in ("a\nb", "a\x1b[31mb", "a\rb", "\udcff", "é", "a\u2028b"):
            self.assertTrue(log.plain(text).isprintable() and log.plain(text).isascii(), text)
        self.assertEqual(log.plain("a\x1bb"), "a\\x1bb")
        self.assertLess(len(log.plain("y" * 9_999)), 2_100)

    def test_what_asyncio_logs_is_such_a_line_too(self) -> None:
        with words_of_log() as read:
            log.Lines().emit(logging.LogRecord("asyncio", logging.WARNING, "", 0, "a\n%s", ("b",), None))
            self.assertEqual(read(), "gateway: a\\nb\n")

    def test_a_log_that_stands_still_holds_nobody_up(self) -> None:
        read_end, write_end = os.pipe()
        kept = os.dup(2)
        os.dup2(write_end, 2)
        try:
            began = time.monotonic()
            for _ in range(2_000):
                log.tell("x" * 500)
            took = time.monotonic() - began
        finally:
            os.dup2(kept, 2)
            for held in (kept, read_end, write_end):
                os.close(held)
        self.assertLess(took, 5)


class Publications(unittest.TestCase):
    def test_what_a_header_says(self) -> None:
        octets = publication(7)
        found = publications.Publication(octets)
        self.assertEqual((found.version, found.nodes, found.method), (7, 5, "ldm"))
        self.assertEqual(found.id, hashlib.sha256(octets[4:108] + octets[110:114]).hexdigest()[:16])

    def test_what_is_no_publication_is_refused(self) -> None:
        for octets in (b"", b"RPP1RPF1", b"x" * 200, publication(1, size=publications.MOST_PUBLICATION)):
            self.assertRaises(publications.Refused, publications.Publication, octets)

    def test_only_a_regular_file_is_read_and_none_is_waited_for(self) -> None:
        with tempfile.TemporaryDirectory() as name:
            fifo, file = f"{name}/fifo", f"{name}/file"
            os.mkfifo(fifo)
            pathlib.Path(file).write_bytes(b"abc")
            began = time.monotonic()
            for wrong in (fifo, name, "/dev/zero"):
                self.assertRaises((publications.Refused, OSError), publications.read_file, wrong, 10)
            self.assertLess(time.monotonic() - began, 1)
            self.assertEqual(publications.read_file(file, 3), b"abc")
            self.assertRaises(publications.Refused, publications.read_file, file, 2)

    def test_packing_that_spares_nothing_is_not_done(self) -> None:
        draw = random.Random(1)
        mixed = b"".join(draw.randbytes(32) + b"node 12345 road 54321 " * 3 for _ in range(800))
        packed = publications.pack(mixed)
        assert packed is not None
        self.assertEqual(gzip.decompress(packed), mixed)
        self.assertEqual(packed, publications.pack(mixed))
        for octets in (draw.randbytes(50_000), draw.randbytes(5_000), b"a" * 100):
            self.assertIsNone(publications.pack(octets))


class Limits(unittest.TestCase):
    def test_whose_share_an_address_is(self) -> None:
        for address, share in (
            ("192.0.2.7", "192.0.2.7"),
            ("::ffff:192.0.2.7", "192.0.2.7"),
            ("2001:db8:1:2:3:4:5:6", "2001:db8:1:2::/64"),
            ("2001:db8:1:2::9", "2001:db8:1:2::/64"),
            ("fe80::1%eth0", "fe80::/64"),
            ("unknown", "unknown"),
        ):
            self.assertEqual(limits.share_of(address), share)

    def test_a_proxy_that_is_named_is_believed_and_no_other(self) -> None:
        self.assertEqual(limits.asker_of("127.0.0.1", "6.6.6.6, 192.0.2.2", PROXY), "192.0.2.2")
        self.assertEqual(limits.asker_of("127.0.0.1", "192.0.2.2, 127.0.0.1", PROXY), "192.0.2.2")
        self.assertEqual(limits.asker_of("127.0.0.1", "", PROXY), "127.0.0.1")
        self.assertEqual(limits.asker_of("192.0.2.9", "192.0.2.2", PROXY), "192.0.2.9")

    def test_a_rate_lets_a_burst_and_then_so_many_a_second(self) -> None:
        now = [0.0]
        buckets = limits.Buckets(2, 3, clock=lambda: now[0])
        for _ in range(3):
            buckets.take("a")
        with self.assertRaises(limits.Limited) as found:
            buckets.take("a")
        self.assertEqual(found.exception.wait, 0.5)
        buckets.take("b")
        now[0] = 0.5
        buckets.take("a")
        self.assertRaises(limits.Limited, buckets.take, "a")

    def test_spare_time_is_a_part_of_each_second(self) -> None:
        now = [0.0]
        spare = limits.Spare(0.25, clock=lambda: now[0])
        self.assertTrue(spare.is_left())
        spare.spend(0.5)
        self.assertFalse(spare.is_left())
        now[0] = 1.0
        self.assertFalse(spare.is_left())
        now[0] = 1.5
        self.assertTrue(spare.is_left())
        now[0] = 100.0
        self.assertTrue(spare.is_left())
        spare.spend(0.25)
        self.assertFalse(spare.is_left())

    def test_shares_are_of_each_address_and_of_all(self) -> None:
        shares = limits.Shares(2, 3)
        shares.enter("a")
        shares.enter("a")
        with self.assertRaises(limits.Limited) as found:
            shares.enter("a")
        self.assertFalse(found.exception.of_all)
        shares.enter("b")
        with self.assertRaises(limits.Limited) as found:
            shares.enter("c")
        self.assertTrue(found.exception.of_all)
        shares.leave("a")
        shares.enter("c")
        for who in ("a", "b", "c"):
            shares.leave(who)
        self.assertEqual((shares.total, len(shares.held)), (0, 0))

    def test_addresses_take_turns(self) -> None:
        turns = limits.Turns[str]()
        for place in range(3):
            turns.add("much", f"much {place}")
        turns.add("one", "one")
        turns.add("two", "two")
        self.assertEqual([turns.take() for _ in range(5)], ["much 0", "one", "two", "much 1", "much 2"])
        self.assertFalse(turns)

    def test_a_full_house_makes_room_at_the_cost_of_whoever_has_most(self) -> None:
        idle = set(range(100))
        held = limits.Connected[int](5, 4, PROXY, lambda it: it in idle)
        for number in range(4):
            self.assertIsNone(held.add("192.0.2.1", number))
        self.assertIsNone(held.add("192.0.2.2", 4))
        idle.discard(0)
        # the fifth connection of the first address closes its first idle one; a new address closes one of the greatest
        self.assertEqual(held.add("192.0.2.1", 5), 1)
        held.drop("192.0.2.1", 1)
        self.assertEqual(held.add("192.0.2.3", 6), 2)
        held.drop("192.0.2.1", 2)
        self.assertEqual(held.total, 5)


class Asynchronous(unittest.IsolatedAsyncioTestCase):
    """Tests with an event loop, in their own folder."""

    async def asyncSetUp(self) -> None:
        if sys.version_info < (3, 12):
            watcher = asyncio.PidfdChildWatcher()
            watcher.attach_loop(asyncio.get_running_loop())
            asyncio.set_child_watcher(watcher)
        asyncio.get_running_loop().set_debug(False)
        held = tempfile.TemporaryDirectory()
        self.addCleanup(held.cleanup)
        self.folder = pathlib.Path(held.name)

    def put(self, name: str, octets: bytes) -> str:
        file = self.folder / name
        (self.folder / "fresh").write_bytes(octets)
        (self.folder / "fresh").rename(file)
        return str(file)

    async def until(self, holds: Callable[[], bool], seconds: float = 10) -> None:
        end = time.monotonic() + seconds
        while not holds():
            self.assertLess(time.monotonic(), end, "not yet")
            await asyncio.sleep(0.01)


def crew_of(key: bytes = b"", versions: tuple[int, ...] = (3,), seconds: float = 5) -> children.Crew:
    return children.Crew(STAND_IN, key, [publications.Publication(publication(it)) for it in versions], b"", seconds, 5)


class Children(Asynchronous):
    async def test_each_session_is_pinned_to_its_publication(self) -> None:
        crew = crew_of(versions=(3, 5))
        crew.add(await crew.pinned())
        for it in crew.held:
            reply = await crew.ask(it.id, 2, struct.pack(">II", 1, 2), "a")
            self.assertEqual(struct.unpack(">Q", reply[:8])[0], it.version)
        crew.end()

    async def test_the_same_ask_is_asked_once_and_others_share_it(self) -> None:
        crew = crew_of(b"slow")
        crew.add(await crew.pinned())
        frames = crew.children[0].frames
        replies = await asyncio.gather(
            *(crew.ask(crew.held[0].id, 2, struct.pack(">II", 1, 2), str(it)) for it in range(9))
        )
        self.assertEqual((len(set(replies)), crew.children[0].frames - frames), (1, 1))
        crew.end()

    async def test_children_work_side_by_side_and_a_death_takes_one_away(self) -> None:
        crew = crew_of(b"slow")
        lost: list[str] = []
        crew.on_loss = lost.append
        for _ in range(3):
            crew.add(await crew.pinned())
        asks = [asyncio.ensure_future(crew.ask(crew.held[0].id, 2, struct.pack(">II", 1, it), "a")) for it in range(6)]
        await asyncio.sleep(0.1)
        os.kill(crew.children[0].transport.get_pid(), 9)
        replies = await asyncio.gather(*asks)
        self.assertEqual([struct.unpack(">I", it[-4:])[0] for it in replies], list(range(6)))
        self.assertGreater(len({it[8:12] for it in replies}), 1)
        self.assertEqual((len(crew.children), len(lost)), (2, 1))
        crew.end()

    async def test_an_ask_that_kills_is_tried_twice_and_no_more(self) -> None:
        crew = crew_of(b"dies")
        for _ in range(3):
            crew.add(await crew.pinned())
        with self.assertRaises(children.Ended):
            await crew.ask(crew.held[0].id, 2, struct.pack(">II", 1, 2), "a")
        self.assertEqual(len(crew.children), 1)
        crew.end()

    async def test_what_lies_or_stalls_is_ended(self) -> None:
        for key in (b"lies", b"stalls"):
            crew = crew_of(key, seconds=0.3)
            for _ in range(2):
                crew.add(await crew.pinned())
            with self.assertRaises(children.Ended):
                await crew.ask(crew.held[0].id, 2, struct.pack(">II", 1, 2), "a")
            self.assertEqual(crew.children, [])

    async def test_a_refusal_says_why(self) -> None:
        with self.assertRaisesRegex(publications.Refused, "refused BadSignature NoMatch.*status 1"):
            await children.Crew(STAND_IN, b"", [publications.Publication(publication(3, b"!"))], b"", 5, 5).pinned()
        later = children.Crew(
            STAND_IN,
            b"",
            [publications.Publication(publication(3)), publications.Publication(publication(4, b"!"))],
            b"",
            5,
            5,
        )
        with self.assertRaisesRegex(
            publications.Refused, "version 4 is not installed: it is not signed by the owner's key or chain .NoMatch."
        ):
            await later.pinned()
        fourth = publications.Publication(publication(4))
        self.assertIn("it is no publication", children.not_installed(fourth, b"\xe5\1"))
        self.assertIn("holds version 9", children.not_installed(fourth, b"\xe6" + struct.pack(">Q", 9)))

    async def test_a_program_that_does_not_start_says_so(self) -> None:
        with self.assertRaisesRegex(children.Ended, "does not start"):
            await children.Child.start("/nowhere/road_proof", b"")

    async def test_what_nobody_waits_for_is_not_asked(self) -> None:
        crew = crew_of(b"slow")
        crew.add(await crew.pinned())
        frames = crew.children[0].frames
        asks = [asyncio.ensure_future(crew.ask(crew.held[0].id, 2, struct.pack(">II", 1, it), "a")) for it in range(20)]
        await asyncio.sleep(0)
        for ask in asks:
            ask.cancel()
        await asyncio.sleep(0.6)
        self.assertLessEqual(crew.children[0].frames - frames, children.ASKS_AT_ONCE)
        self.assertEqual(len(crew.under_way), 0)
        crew.end()


class Keeping(Asynchronous):
    def options(self, *more: str, key: bytes = b"") -> options.Options:
        words = [
            STAND_IN,
            self.put("map.pub", publication(3)),
            self.put("owner.key", key),
            "--look-seconds",
            "0.02",
            *more,
        ]
        return options.options_of(words, "")

    async def kept(self, *more: str, key: bytes = b"") -> keeper.Keeper:
        found = keeper.Keeper(self.options(*more, key=key), counts.Counts())
        task = asyncio.ensure_future(found.run())
        self.addCleanup(task.cancel)
        self.addCleanup(found.close)
        await self.until(found.is_ready)
        return found

    def versions(self, it: keeper.Keeper) -> tuple[list[int], int]:
        return [one.version for one in it.publications], it.announced.version if it.announced else 0

    async def test_what_is_moved_into_the_place_is_announced(self) -> None:
        it = await self.kept("--keep", "2")
        for version in (4, 5):
            self.put("map.pub", publication(version))
            await self.until(lambda version=version: self.versions(it)[1] == version)  # type: ignore[misc]
        self.assertEqual(self.versions(it), ([4, 5], 5))
        with self.assertRaises(keeper.Missing) as found:
            await it.held(publications.Publication(publication(3)).id)
        self.assertTrue(found.exception.for_good)

    async def test_a_next_one_is_taken_in_before_it_is_announced(self) -> None:
        it = await self.kept()
        self.put("map.pub.next", publication(4))
        await self.until(lambda: self.versions(it) == ([3, 4], 3))
        third, fourth = (publications.Publication(publication(version)).id for version in (3, 4))
        self.assertEqual((await it.newest(0), await it.newest(3), await it.newest(4)), (third, third, fourth))
        self.assertTrue(await it.ask(fourth, 2, struct.pack(">II", 1, 2), "a"))
        crew = it.crew
        (self.folder / "map.pub.next").rename(self.folder / "map.pub")
        await self.until(lambda: self.versions(it) == ([3, 4], 4))
        self.assertIs(it.crew, crew, "announcing builds nothing")
        with self.assertRaises(keeper.Missing):
            await it.newest(5)

    async def test_what_is_refused_changes_nothing(self) -> None:
        it = await self.kept()
        for place, octets in enumerate((b"", b"junk", publication(2), publication(4, b"!"), publication(3, b"y"))):
            self.put("map.pub", octets)
            await self.until(lambda place=place: it.counts.values["road_gateway_refused_publications_total", ""] > place)  # type: ignore[misc]
            self.assertEqual(self.versions(it), ([3], 3))
        self.put("map.pub.next", publication(6, b"!"))
        self.put("map.pub", publication(5))
        await self.until(lambda: self.versions(it) == ([3, 5], 5))

    async def test_a_pipe_in_the_place_holds_nobody_up(self) -> None:
        it = await self.kept()
        os.mkfifo(self.folder / "pipe")
        (self.folder / "pipe").rename(self.folder / "map.pub")
        await self.until(lambda: it.counts.values["road_gateway_refused_publications_total", ""] > 0)
        self.put("map.pub", publication(4))
        await self.until(lambda: self.versions(it)[1] == 4)

    async def test_all_children_have_it_before_it_is_announced_and_each_death_is_mended(self) -> None:
        it = await self.kept("--serves", "3")
        self.put("map.pub", publication(4))
        await self.until(lambda: self.versions(it)[1] == 4)
        assert it.crew is not None
        self.assertEqual(len(it.crew.children), 3)
        for child in list(it.crew.children):
            os.kill(child.transport.get_pid(), 9)
        reply = await self.asked(it)
        self.assertEqual(struct.unpack(">Q", reply[:8])[0], 4)
        await self.until(lambda: it.crew is not None and len(it.crew.children) == 3)

    async def asked(self, it: keeper.Keeper) -> bytes:
        """A reply after a death, which a client asks for again if told to: on a busy machine a start takes seconds."""
        for _ in range(9):
            with contextlib.suppress(keeper.Missing):
                return await it.ask(publications.Publication(publication(4)).id, 2, struct.pack(">II", 1, 2), "a")
            await asyncio.sleep(0.5)
        return await it.ask(publications.Publication(publication(4)).id, 2, struct.pack(">II", 1, 2), "a")

    async def test_a_child_near_its_last_frame_is_replaced(self) -> None:
        it = await self.kept()
        assert it.crew is not None
        first = it.crew.children[0]
        first.frames = children.MOST_FRAMES - children.SPARE_FRAMES + 1
        await self.until(lambda: it.crew is not None and first not in it.crew.children)
        self.assertTrue(it.is_ready())

    async def test_auto_takes_what_processors_and_memory_allow(self) -> None:
        it = await self.kept("--serves", "auto", "--memory", "100G")
        self.assertEqual(it._serves(1), max(1, len(os.sched_getaffinity(0)) - 1))
        self.assertEqual(it._serves(40 << 30), 1)
        it.options.memory = keeper.OWN_OCTETS + it.options.most_waiting + (90 << 20)
        self.assertEqual(it._serves(20 << 20), min(2, max(1, len(os.sched_getaffinity(0)) - 1)))


class Served(Asynchronous):
    """A gateway in this process, over sockets of this machine."""

    async def started(self, *more: str, key: bytes = b"") -> wire.Server:
        words = [STAND_IN, self.put("map.pub", publication(3, size=4_000_000)), self.put("owner.key", key), *more]
        given = options.options_of(words, "")
        given.host, given.port = "127.0.0.1", 0
        count = counts.Counts()
        self.keeper = keeper.Keeper(given, count)
        server = wire.Server(given, answers.Answers(given, self.keeper, count), count)
        await server.listen()
        assert server.listening is not None
        self.port: int = server.listening.sockets[0].getsockname()[1]
        tasks = [asyncio.ensure_future(self.keeper.run()), asyncio.ensure_future(server.sweep())]
        for task in tasks:
            self.addCleanup(task.cancel)
        self.addCleanup(self.keeper.close)
        self.addCleanup(server.listening.close)
        await self.until(self.keeper.is_ready)
        self.here = self.keeper.publications[0].id
        return server

    async def said(self, octets: bytes, source: str = "127.0.0.1", seconds: float = 5) -> bytes:
        """All octets that come back, until the other side ends or nothing comes for a while."""
        reader, writer = await asyncio.open_connection("127.0.0.1", self.port, local_addr=(source, 0))
        writer.write(octets)
        got = b""
        with contextlib.suppress(asyncio.TimeoutError, ConnectionError):
            while piece := await asyncio.wait_for(reader.read(1 << 16), seconds):
                got += piece
        writer.close()
        return got

    async def deaf(self, octets: bytes, source: str = "127.0.0.1") -> socket.socket:
        """A connection that sends, and reads nothing."""
        one = socket.socket()
        one.setsockopt(socket.SOL_SOCKET, socket.SO_RCVBUF, 4096)
        one.bind((source, 0))
        one.setblocking(False)
        await asyncio.get_running_loop().sock_connect(one, ("127.0.0.1", self.port))
        with contextlib.suppress(BlockingIOError):
            one.send(octets)
        self.addCleanup(one.close)
        return one

    def line(self, target: str, *headers: str, method: str = "GET") -> bytes:
        return "\r\n".join([f"{method} {target} HTTP/1.1", "Host: a", *headers, "", ""]).encode()


class Wire(Served):
    async def test_two_readers_cannot_part_a_request_differently(self) -> None:
        await self.started()
        second = self.line("/v1/info")
        ready = b"GET /v1/ready HTTP/1.1\r\nHost: a\r\n"
        for octets in (
            ready + b"Content-Length: 0\r\nContent-Length: 70\r\n\r\n" + second,
            ready + b"Content-Length: 70\r\nContent-Length: 70\r\n\r\n" + second,
            ready + b"Content-Length: 5\r\nTransfer-Encoding: chunked\r\n\r\n0\r\n\r\n" + second,
            ready + b"Transfer-Encoding: chunked\r\n\r\n0\r\n\r\n" + second,
            ready + b"Transfer-Encoding: gzip, chunked\r\n\r\n0\r\n\r\n" + second,
            ready + b"Transfer-Encoding : chunked\r\n\r\n0\r\n\r\n" + second,
            ready + b"Transfer-Encoding: xchunked\r\nContent-Length: 70\r\n\r\n" + second,
            b"GET /v1/ready HTTP/1.1\nHost: a\n\n" + second,
            ready + b"X: a\nContent-Length: 70\r\n\r\n" + second,
            ready + b"X: a\r\n Content-Length: 70\r\n\r\n" + second,
            ready + b"X: a\rb\r\n\r\n" + second,
            ready + b"Content-Length: +0\r\n\r\n" + second,
            ready + b"Content-Length: " + b"9" * 5_000 + b"\r\n\r\n" + second,
            ready + b"X: \0\r\n\r\n" + second,
            ready + b"Content-Length: 00\r\n\r\n" + second,
            ready + b"Content-Length:\r\n\r\n" + second,
            b"GET /v1/ready HTTP/1.1\r\n\r\n" + second,
            b"GET  /v1/ready HTTP/1.1\r\nHost: a\r\n\r\n" + second,
            b"POST /v1/ready HTTP/1.1\r\nHost: a\r\nContent-Length: 70\r\n\r\n" + second,
        ):
            got = await self.said(octets)
            self.assertEqual(
                (got[:10], got.count(b"HTTP/1.1 "), b"publications" in got),
                (b"HTTP/1.1 4" if b"gzip, ch" not in octets and b"xchunk" not in octets else got[:10], 1, False),
                octets[:90],
            )
            self.assertRegex(got[:12], rb"HTTP/1.1 (400|405|501)")
            self.assertIn(b"application/problem+json", got)

    async def test_odd_requests_are_told_in_no_traceback(self) -> None:
        # (a child of another test that is still ending is told by Python, and not by the gateway)
        with warnings.catch_warnings(), words_of_log() as read:
            warnings.simplefilter("ignore", ResourceWarning)
            await self.started("--log-asks")
            for octets in (
                self.line("http://["),
                self.line("http://a/v1/ready"),
                self.line("*", method="OPTIONS"),
                b"GE\x1bT / HTTP/1.1\r\nHost: a\r\n\r\n",
                self.line("/v1/info?" + "a" * 20),
                self.line("/x", method="A" * 30),
                b"\0" * 300,
                random.Random(1).randbytes(9_000),
                b"GET / HTTP/9.9\r\n\r\n",
                b"GET /" + b"a" * 9_000,
                self.line("/v1/ready", "X: " + "b" * 9_000),
            ):
                await self.said(octets, seconds=0.3)
            lines = read().splitlines()
        self.assertFalse(
            [
                line
                for line in lines
                if not line.startswith("gateway: ") or not line.isprintable() or "Traceback" in line
            ]
        )
        self.assertTrue(any("GET http://[ 404" in line for line in lines))

    async def test_requests_in_a_row_are_answered_one_by_one(self) -> None:
        server = await self.started()
        got = await self.said(self.line("/v1/ready") * 200 + self.line("/v1/ready", "Connection: close"))
        self.assertEqual(got.count(b"HTTP/1.1 200 OK"), 201)
        await self.until(lambda: not server.open)

    async def test_one_that_never_reads_has_one_reply_and_is_closed_in_time(self) -> None:
        server = await self.started("--reply-seconds", "1", "--most-waiting", "64M")
        await self.deaf(self.line(f"/v1/p/{self.here}/publication") * 135)
        await self.until(lambda: server.waiting > 0)
        for _ in range(10):
            self.assertIn(
                b"200 OK",
                await self.said(
                    self.line("/v1/route?from=1&to=2&least=0", "Connection: close").replace(
                        b"/v1/route?from=1&to=2&least=0", f"/v1/p/{self.here}/route?from=1&to=2".encode()
                    )
                ),
            )
            self.assertLessEqual(server.waiting, 4_100_000)
        await self.until(lambda: not server.open and server.waiting == 0, 3)
        self.assertEqual(server.counts.values["road_gateway_closed_total", '{why="reply"}'], 1)

    async def test_octets_that_wait_are_bounded_at_the_cost_of_whoever_has_most(self) -> None:
        server = await self.started("--most-waiting", "12M")
        await self.deaf(self.line(f"/v1/p/{self.here}/publication"), "127.0.0.3")
        await self.until(lambda: server.waiting > 0)
        for _ in range(6):
            await self.deaf(self.line(f"/v1/p/{self.here}/publication"), "127.0.0.2")
            await asyncio.sleep(0.05)
        self.assertLessEqual(server.waiting, 12 << 20)
        self.assertEqual([it.peer for it in server.open if it.peer == "127.0.0.3"], ["127.0.0.3"])
        self.assertGreater(server.counts.values["road_gateway_closed_total", '{why="waiting"}'], 0)

    async def test_readiness_waits_for_no_ask(self) -> None:
        await self.started("--asks-by-address", "20", key=b"slow")
        asks = [
            asyncio.ensure_future(
                self.said(self.line(f"/v1/p/{self.here}/route?from=1&to={it}", "Connection: close"), seconds=20)
            )
            for it in range(100)
        ]
        await asyncio.sleep(0.1)
        for path in ("/v1/ready", "/v1/health", "/metrics"):
            began = time.monotonic()
            self.assertIn(b"200 OK", await self.said(self.line(path, "Connection: close")))
            self.assertLess(time.monotonic() - began, 2)
            self.assertFalse(all(it.done() for it in asks))
        statuses = [(await it)[9:12] for it in asks]
        self.assertEqual((statuses.count(b"200"), statuses.count(b"429")), (20, 80))

    async def test_half_requests_shut_nobody_out(self) -> None:
        server = await self.started("--connections", "200", "--connections-by-address", "100", "--request-seconds", "1")
        held = [await self.deaf(b"GET /v1/rea", f"127.0.1.{number % 20 + 1}") for number in range(400)]
        began = time.monotonic()
        self.assertIn(
            b"200 OK",
            await self.said(self.line(f"/v1/p/{self.here}/route?from=1&to=2", "Connection: close"), "127.0.9.9"),
        )
        self.assertLess(time.monotonic() - began, 1)
        self.assertLessEqual(len(server.open), 200)
        await self.until(lambda: not server.open, 3)
        self.assertEqual(len(held), 400)

    async def test_a_drip_has_no_more_time_than_a_head(self) -> None:
        server = await self.started("--request-seconds", "0.5")
        one = await self.deaf(b"G")
        await self.until(lambda: bool(server.open))
        began = time.monotonic()
        for octet in b"ET /v1/ready HTTP/1.1\r\nHost: a" * 20:
            if not server.open:
                break
            with contextlib.suppress(OSError):
                one.send(bytes([octet]))
            await asyncio.sleep(0.05)
        self.assertLess(time.monotonic() - began, 10)


class Rolling(Served):
    async def test_all_take_it_in_before_one_announces_it(self) -> None:
        server = await self.started()
        octets, told = publication(4), list[str]()
        replica = roll.Replica(self.folder / "map.pub", "127.0.0.1", self.port)
        name = await asyncio.to_thread(roll.roll, octets, [replica], 20, told.append)
        self.assertEqual((name, len(told)), (publications.Publication(octets).id, 2))
        self.assertEqual(server.answers.keeper.announced and server.answers.keeper.announced.version, 4)
        self.assertFalse(replica.next().exists())

    async def test_what_one_does_not_take_nobody_announces(self) -> None:
        server = await self.started()
        replica = roll.Replica(self.folder / "map.pub", "127.0.0.1", self.port)
        with self.assertRaisesRegex(roll.Failed, "does not take it.*nothing was announced"):
            await asyncio.to_thread(roll.roll, publication(4, b"!"), [replica], 20)
        self.assertEqual(server.answers.keeper.announced and server.answers.keeper.announced.version, 3)
        self.assertFalse(replica.next().exists())


class Counting(unittest.TestCase):
    def test_the_page_has_each_name_once_and_times_add_up(self) -> None:
        found = counts.Counts()
        found.add("road_gateway_requests_total", '{path="x",status="200"}', 3)
        for seconds in (0.001, 0.3, 99):
            found.time("x", seconds)
        page = found.page({"road_gateway_ready": 1})
        for line in (
            'road_gateway_requests_total{path="x",status="200"} 3',
            "road_gateway_ready 1",
            'road_gateway_request_seconds_bucket{path="x",le="0.005"} 1',
            'road_gateway_request_seconds_bucket{path="x",le="10"} 2',
            'road_gateway_request_seconds_bucket{path="x",le="+Inf"} 3',
            'road_gateway_request_seconds_count{path="x"} 3',
            'road_gateway_request_seconds_sum{path="x"} 99.301000',
        ):
            self.assertEqual(page.splitlines().count(line), 1, line)


class Answering(unittest.TestCase):
    def test_numbers_have_one_spelling(self) -> None:
        self.assertEqual(answers.numbers("route", "from=1&to=4294967295"), [1, 4294967295])
        for query in (
            "to=1&from=1",
            "from=01&to=1",
            "from=1&to=4294967296",
            "from=1&to=1&",
            "from=\u0661&to=1",
            "from=1&to=1\n",
        ):
            self.assertRaises(answers.Problem, answers.numbers, "route", query)

    def test_who_takes_gzip(self) -> None:
        for accepted, takes in (
            ("gzip", True),
            ("br, GZIP;q=0.5", True),
            ("*", True),
            ("gzip;q=0", False),
            ("gzip; q=0.0", False),
            ("", False),
            ("br", False),
        ):
            self.assertEqual(answers.takes_gzip(accepted), takes, accepted)

    def test_who_knows_an_answer(self) -> None:
        for given, known in (
            ('"a"', True),
            ('W/"a"', True),
            ('"b", "a"', True),
            ("*", True),
            ('"b"', False),
            ("", False),
        ):
            self.assertEqual(answers.is_known(given, "a"), known, given)


class Commands(Asynchronous):
    """A wrong command line gets one sentence with the next step, and status 2."""

    async def ended(self, *words: str) -> tuple[int, str]:
        process = await asyncio.create_subprocess_exec(
            *words,
            stdin=asyncio.subprocess.DEVNULL,
            stdout=asyncio.subprocess.PIPE,
            stderr=asyncio.subprocess.STDOUT,
            cwd=self.folder,
        )
        said, _ = await asyncio.wait_for(process.communicate(), 60)
        return process.returncode or 0, said.decode()

    async def test_each_wrong_call_has_its_sentence(self) -> None:
        self.put("map.pub", publication(3))
        self.put("owner.key", b"")
        web = str(TOP / "web")
        held = await asyncio.start_server(lambda reader, writer: None, "127.0.0.1", 0)
        port = held.sockets[0].getsockname()[1]
        good = [STAND_IN, "map.pub", "owner.key"]
        (self.folder / "h11.py").write_text("raise ModuleNotFoundError")
        without_h11 = ["/usr/bin/env", f"PYTHONPATH={self.folder}"]
        cases: list[tuple[list[str], str]] = [
            ([f"{web}/gateway.py"], "--help"),
            ([f"{web}/gateway.py", "no_such_program", "map.pub", "owner.key"], "PATH"),
            ([f"{web}/gateway.py", "./owner.key", "map.pub", "owner.key"], "not a program that can be run"),
            ([f"{web}/gateway.py", STAND_IN, "none.pub", "owner.key"], "none.pub is not there"),
            ([f"{web}/gateway.py", STAND_IN, "map.pub", "none.key"], "none.key is not there"),
            ([f"{web}/gateway.py", *good, "none.chain"], "none.chain is not there"),
            ([f"{web}/gateway.py", STAND_IN, ".", "owner.key"], "put a publication into its place"),
            ([f"{web}/gateway.py", *good, "--listen", f"127.0.0.1:{port}"], "is in use"),
            ([f"{web}/gateway.py", *good, "--listen", "8080"], "HOST:PORT"),
            ([f"{web}/gateway.py", *good, "--listen", "192.0.2.1:80"], "--listen"),
            ([f"{web}/gateway.py", *good, "--serves", "0"], "auto"),
            ([f"{web}/gateway.py", *good, "--keep", "16"], "--help"),
            ([f"{web}/gateway.py", *good, "--page", "none"], "web/page/build"),
            (["/usr/bin/python3", "-S", f"{web}/gateway.py", *good], "apt-get install python3-h11"),
            ([f"{web}/many"], "--help"),
            ([f"{web}/many", STAND_IN, "none.pub", "owner.key"], "none.pub is not there"),
            ([f"{web}/many", "no_such_program", "map.pub", "owner.key"], "PATH"),
            ([f"{web}/many", *good, "--folder", "."], "--folder"),
            ([*without_h11, f"{web}/many", *good], "apt-get install python3-h11"),
            ([*without_h11, f"{web}/demo", STAND_IN], "apt-get install python3-h11"),
            ([f"{web}/demo", "no_such_program"], "PATH"),
            ([f"{web}/demo", STAND_IN, "--ports", str(port), "0"], "demo: "),
            ([f"{web}/roll"], "--help"),
            ([f"{web}/roll", "none.pub", "map.pub=127.0.0.1:1"], "none.pub is not there"),
            ([f"{web}/roll", "map.pub", "x"], "FILE=HOST:PORT"),
        ]
        found = [await self.ended(*words) for words, _ in cases]
        for (words, part), (status, said) in zip(cases, found):
            with self.subTest(words=words):
                self.assertEqual((status, said.count("\n"), "Traceback" in said), (2, 1, False), said)
                self.assertIn(part, said)
        held.close()

    async def test_the_program_is_found_on_the_path(self) -> None:
        (self.folder / "bin").mkdir()
        (self.folder / "bin/road_proof").symlink_to(STAND_IN)
        before = os.environ["PATH"]
        try:
            os.environ["PATH"] = f"{self.folder}/bin:{before}"
            self.assertEqual(options.program_of("road_proof", "x"), f"{self.folder}/bin/road_proof")
        finally:
            os.environ["PATH"] = before


if __name__ == "__main__":
    unittest.main()
