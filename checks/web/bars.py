#!/usr/bin/python3
"""Measures the gateway and the sample configurations against their limits: checks/web/bars.py PROGRAM [WHAT ..]
[--short] [--room FACTOR]

speed     wrk over a town of 4,000 nodes, LDM, random pairs, 18 connections: uncached, and cached with and without gzip
deaf      one connection requests the publication 135 times and never reads; twenty addresses hold half requests
busy      300 busy connections, from 300 addresses and from one, through three replicas by each sample
least     two requests a second for a version and an ID that nobody has, among honest ones, by each sample
rolls     ten rolls over three replicas under load, by each sample
kills     twenty kill -9 of gateways and of `serve` under load, by each sample
smuggled  requests that two readers could split differently, through nginx and haproxy
hour      deaf, busy, rolls and kills together, by nginx with haproxy (--minutes 60)

Without WHAT: all except speed and hour. --short takes seconds for each, for the gate. --room multiplies the limits of
times, for a busy machine. All started processes get the priority of this script's session. Traffic goes only to
127.0.0.0/8. The script ends only processes that it started. Ends with status 1 if a limit is exceeded. No client trusts
this file.
"""

import argparse
import asyncio
import collections
import contextlib
import dataclasses
import json
import os
import pathlib
import random
import re
import shutil
import signal
import socket
import subprocess
import sys
import time
import urllib.parse
from collections.abc import Awaitable, Callable, Coroutine, Iterator

sys.path.insert(0, str(pathlib.Path(__file__).resolve().parents[1]))

from common.desks import id_of  # noqa: E402
from parties import STREETS, Gateway, Many, Owner, Place, pass_priority_on, replace, roads, serves_of

# the requests of one address that a gateway works on at a time
SHARE = 64
SAMPLES: dict[str, list[str]] = {"nginx": [], "nginx and haproxy": ["--haproxy"]}
LUA = """local id, packed = os.getenv("GATEWAY_ID"), os.getenv("PACKED") == "1"
local count, ids = tonumber(os.getenv("PAIRS")), {}
for one in string.gmatch(os.getenv("IDS"), "%d+") do ids[#ids + 1] = one end
local headers = packed and {["Accept-Encoding"] = "gzip"} or {}
function init(args) math.randomseed(tonumber(tostring(args):match("0x%x+") or "1") or os.time()) end
function request()
  local from, to = math.random(#ids), math.random(#ids)
  if count > 0 then local k = math.random(count); from, to = 1 + (k * 7919) % #ids, 1 + (k * 104729) % #ids end
  return wrk.format("GET", "/v1/p/" .. id .. "/route?from=" .. ids[from] .. "&to=" .. ids[to], headers)
end
"""
faults: list[str] = []


def holds(what: str, value: float, most: float, room: float = 1) -> None:
    """Tests that a value is within a limit."""
    is_met = value <= most * room
    print(f"  {what}: {value:.4g}, at most {most:.4g}{'' if is_met else '  DIFFERS'}", flush=True)
    if not is_met:
        faults.append(f"{what}: {value:.4g}, and at most {most * room:.4g}")


# ---- asking


@dataclasses.dataclass
class Seen:
    """The results of requests."""

    times: list[float] = dataclasses.field(default_factory=list)
    statuses: collections.Counter[int] = dataclasses.field(default_factory=collections.Counter)
    failed: list[str] = dataclasses.field(default_factory=list)

    def late(self) -> float:
        """The 99th percentile, in seconds."""
        return sorted(self.times)[len(self.times) * 99 // 100] if self.times else float("inf")

    def bad(self) -> int:
        return len(self.failed) + sum(
            count for status, count in self.statuses.items() if not 200 <= status < 300 and status != 304
        )

    def told(self) -> str:
        return f"{len(self.times)} asks, {dict(self.statuses)}, 99th of 100 {1000 * self.late():.0f} ms"


class Wire:
    """One connection from one address, opened again if it was closed."""

    def __init__(self, address: str, source: str) -> None:
        parts = urllib.parse.urlsplit(address)
        self.host, self.port, self.source = parts.hostname or "", parts.port or 0, source
        self.pipes: tuple[asyncio.StreamReader, asyncio.StreamWriter] | None = None

    async def ask(self, target: str, *headers: str) -> tuple[int, dict[str, str], bytes]:
        """Returns status, headers and octets."""
        if self.pipes is None:
            self.pipes = await asyncio.open_connection(self.host, self.port, local_addr=(self.source, 0), limit=1 << 24)
        reader, writer = self.pipes
        try:
            writer.write("\r\n".join([f"GET {target} HTTP/1.1", "Host: a", *headers, "", ""]).encode())
            head = (await asyncio.wait_for(reader.readuntil(b"\r\n\r\n"), 30)).decode("latin-1")
            found = {
                name.lower(): value for name, _, value in (line.partition(": ") for line in head.split("\r\n")[1:-2])
            }
            body = await asyncio.wait_for(reader.readexactly(int(found.get("content-length", "0"))), 30)
        except BaseException:
            self.close()
            raise
        if found.get("connection") == "close":
            self.close()
        return int(head[9:12]), found, body

    def close(self) -> None:
        if self.pipes is not None:
            self.pipes[1].transport.abort()
            self.pipes = None


async def answer_of(wire: Wire, ends: str, least: int, repeats: int) -> tuple[int, str]:
    """The last status of a query over the newest publication, with this many repeats, and the failures."""
    said = ""
    for trial in range(repeats + 1):
        try:
            status, headers, _ = await wire.ask(f"/v1/route?{ends}" + (f"&least={least}" if least else ""))
            if status == 307:
                status, headers, octets = await wire.ask(headers["location"])
                if status == 200 and len(octets) < 1000:
                    return 0, f"{len(octets)} octets"
            if status == 410 or (status in (502, 503, 504) and trial < repeats):
                await asyncio.sleep(min(2.0, float(headers.get("retry-after", "0.1"))) if status != 410 else 0)
                if status != 410 or trial < repeats:
                    continue
                status, headers, _ = await wire.ask(f"/v1/route?{ends}")
                status, headers, _ = await wire.ask(headers.get("location", "/"))
            return status, said
        except (OSError, asyncio.IncompleteReadError, asyncio.TimeoutError, asyncio.LimitOverrunError) as error:
            said = f"{type(error).__name__}: {error}"
    return 0, said


async def load(
    address: str,
    ids: list[int],
    count: int,
    until: Callable[[], bool],
    sources: Callable[[int], str],
    repeats: int = 0,
    least: int = 0,
    pause: float = 0,
    seed: int = 0,
    seen: Seen | None = None,
) -> Seen:
    """This many connections that ask for routes between random ends, one after the other, until a condition holds."""
    found = seen or Seen()

    async def one(number: int) -> None:
        wire, draw = Wire(address, sources(number)), random.Random(seed * 1000 + number)
        while not until():
            began = time.monotonic()
            status, said = await answer_of(wire, f"from={draw.choice(ids)}&to={draw.choice(ids)}", least, repeats)
            found.times.append(time.monotonic() - began)
            if status:
                found.statuses[status] += 1
            else:
                found.failed.append(said)
            if pause:
                await asyncio.sleep(pause)
        wire.close()

    await asyncio.gather(*(one(number) for number in range(count)))
    return found


def after(seconds: float) -> Callable[[], bool]:
    end = time.monotonic() + seconds
    return lambda: time.monotonic() > end


def each(number: int) -> str:
    return f"127.1.{number // 200}.{number % 200 + 1}"


def same(_: int) -> str:
    return "127.5.5.5"


# ---- hostile clients


@contextlib.contextmanager
def deaf_one(address: str, name: str) -> Iterator[socket.socket]:
    """Sends 135 requests for a publication, and reads nothing."""
    parts = urllib.parse.urlsplit(address)
    with socket.socket() as one:
        one.setsockopt(socket.SOL_SOCKET, socket.SO_RCVBUF, 4096)
        one.bind(("127.9.9.9", 0))
        one.connect((parts.hostname, parts.port))
        one.setblocking(False)
        with contextlib.suppress(OSError):
            one.send(f"GET /v1/p/{name}/publication HTTP/1.1\r\nHost: a\r\n\r\n".encode() * 135)
        yield one


@contextlib.contextmanager
def half_requests(address: str, addresses: int, each_holds: int) -> Iterator[None]:
    """Addresses that hold half requests open."""
    parts = urllib.parse.urlsplit(address)
    held = []
    for number in range(addresses * each_holds):
        one = socket.socket()
        one.settimeout(5)
        with contextlib.suppress(OSError):
            one.bind((f"127.2.0.{number % addresses + 1}", 0))
            one.connect((parts.hostname, parts.port))
            one.send(b"GET /v1/rea")
        held.append(one)
    try:
        yield
    finally:
        for one in held:
            one.close()


# ---- the bars


class Bench:
    """A program, an owner with a made-up town, and the duration of a measurement."""

    def __init__(self, program: str, given: argparse.Namespace) -> None:
        self.given, self.room = given, given.room
        self.owner = Owner(program, roads(STREETS, given.nodes))
        self.name = self.owner.publish(3, "ldm")
        self.ids = self.owner.ids
        self.version = 3
        # the processes of each sample, for all limits
        self.started: dict[str, Many] = {}

    def end(self) -> None:
        for many in self.started.values():
            many.end()

    def seconds(self, long: float, short: float) -> float:
        return short if self.given.short else long

    def next(self) -> bytes:
        """The octets of a publication of the next version."""
        self.version += 1
        return self.owner.path(self.owner.publish(self.version, "ldm")).read_bytes()

    def id(self) -> str:
        return id_of(self.owner.path(self.name).read_bytes())


async def deaf(bench: Bench) -> None:
    gateway = Gateway(bench.owner, bench.name, "--reply-seconds", "20")
    seconds = bench.seconds(15, 3)

    async def one() -> Seen:
        return await load(gateway.address, bench.ids, 8, after(seconds), each, pause=0.02)

    before = await one()
    with deaf_one(gateway.address, bench.id()):
        beside = await one()
        page = (await Wire(gateway.address, "127.0.0.1").ask("/metrics"))[2].decode()
    later = await one()
    quiet = max(before.late(), later.late())
    print(f" beside 135 asks that nobody reads: {beside.told()}; quiet {1000 * quiet:.0f} ms")
    holds("asks that failed", beside.bad(), 0)
    holds("replies that wait for it", float(re.search(r"^road_gateway_waiting_octets (\d+)$", page, re.M)[1]) / len(bench.owner.path(bench.name).read_bytes()), 1)  # type: ignore[index]
    holds("99th of a hundred beside it, by that of a quiet gateway", beside.late() / quiet, 2, bench.room)
    with half_requests(gateway.address, 20, 60):
        began = time.monotonic()
        status, _ = await answer_of(Wire(gateway.address, "127.8.8.8"), f"from={bench.ids[0]}&to={bench.ids[-1]}", 0, 0)
        holds(
            "beside 20 addresses with 60 half requests each, an answer's seconds",
            time.monotonic() - began if status == 200 else float("inf"),
            1,
            bench.room,
        )
    gateway.end()


def downs(many: Many) -> int:
    """The number of times that a balancer took a gateway for dead."""
    words = [(many.folder / "haproxy.log", " is DOWN"), (many.folder / "nginx/nginx.log", "no live upstreams")]
    return sum(file.read_text(errors="replace").count(word) for file, word in words if file.exists())


def by_each_sample(bench: Bench) -> Iterator[tuple[str, Many]]:
    for title, words in SAMPLES.items():
        if any(shutil.which(name) is None for name in ["nginx", *["haproxy"] * bool(words)]):
            print(f"skipped: {title}, since this machine lacks it")
            continue
        if title not in bench.started:
            bench.started[title] = Many(bench.owner, bench.name, "--replicas", 3, *words)
        yield title, bench.started[title]


async def busy(bench: Bench) -> None:
    for title, many in by_each_sample(bench):
        before, share = downs(many), 0
        for who, sources in (("300 addresses", each), ("one address", same)):
            seen = await load(many.address, bench.ids, 300, after(bench.seconds(20, 4)), sources)
            print(f" {title}, 300 connections from {who}: {seen.told()}")
            if sources is each:
                holds("other than 2xx", seen.bad(), 0)
                holds("99th of a hundred, seconds", seen.late(), 1, bench.room)
                # the answers to as many of the 300 as may be in progress for one address (--asks-by-address)
                share = seen.statuses[200] * SHARE // 300
            else:
                holds("failed, or neither 2xx nor 429", seen.bad() - seen.statuses[429], 0)
                holds(f"2xx that are missing to its share of {share}", max(0, share - seen.statuses[200]), 0)
        holds("gateways that were taken for dead", downs(many) - before, 0)


async def least(bench: Bench) -> None:
    for title, many in by_each_sample(bench):
        stopped = False

        async def asks() -> None:
            wire = Wire(many.address, "127.6.6.6")
            while not stopped:
                for path in (
                    f"/v1/route?from={bench.ids[0]}&to={bench.ids[1]}&least={2**64 - 1}",
                    f"/v1/p/0123456789abcdef/route?from={bench.ids[0]}&to={bench.ids[1]}",
                ):
                    status, _, _ = await wire.ask(path)
                    if status != 503:
                        faults.append(f"{path}: {status}")
                await asyncio.sleep(0.5)

        hostile = asyncio.ensure_future(asks())
        count = 0

        def enough() -> bool:
            nonlocal count
            count += 1
            return count > bench.seconds(1000, 100)

        seen = await load(many.address, bench.ids, 4, enough, each, pause=0.05 if bench.given.short else 0.02)
        stopped = True
        await hostile
        print(f" {title}: {seen.told()}")
        holds("honest asks that failed", seen.bad(), 0)


async def until_all(what: str, test: Callable[[], bool], seconds: float = 120) -> None:
    end = time.monotonic() + seconds
    while not await asyncio.to_thread(test):
        if time.monotonic() > end:
            faults.append(f"{what}: not in {seconds:.0f} s")
            return
        await asyncio.sleep(0.1)


def announced(many: Many, name: str) -> bool:
    with contextlib.suppress(OSError):
        return all(json.loads(Place(it).ask("/v1/info")[2])["publications"][0]["id"] == name for it in many.gateways)
    return False


def all_ready(many: Many) -> bool:
    with contextlib.suppress(OSError):
        return all(Place(it).ask("/v1/ready")[0] == 200 for it in many.gateways)
    return False


async def beside(work: Awaitable[None], asks: Callable[[Callable[[], bool]], Awaitable[Seen]]) -> Seen:
    """The results of queries during another action."""
    task = asyncio.ensure_future(work)
    seen = await asks(task.done)
    await task
    return seen


async def roll_over(bench: Bench, many: Many, count: int) -> None:
    for _ in range(count):
        octets = await asyncio.to_thread(bench.next)
        await asyncio.to_thread(replace, many.folder / "map.pub", octets)
        name = id_of(octets)
        await until_all("a roll", lambda name=name: announced(many, name))  # type: ignore[misc]


async def rolls(bench: Bench) -> None:
    count = int(bench.seconds(10, 2))
    for title, many in by_each_sample(bench):
        seen = await beside(
            roll_over(bench, many, count), lambda done: load(many.address, bench.ids, 12, done, each, pause=0.01)
        )
        print(f" {title}, {count} rolls: {seen.told()}")
        holds("asks that failed", seen.bad(), 0)


async def kill(many: Many, count: int) -> int:
    killed = 0
    for turn in range(count):
        await until_all("all are ready", lambda: all_ready(many))
        gateway = many.number_of(f"gateway-{turn % 3}")
        for number in [gateway] if turn % 2 == 0 else serves_of(gateway):
            with contextlib.suppress(OSError):
                os.kill(number, signal.SIGKILL)
                killed += 1
        await asyncio.sleep(1.5)
    return killed


async def kills(bench: Bench) -> None:
    count = int(bench.seconds(20, 3))
    for title, many in by_each_sample(bench):
        await until_all("all are ready", lambda many=many: all_ready(many))  # type: ignore[misc]
        task = asyncio.ensure_future(kill(many, count))
        seen = await load(many.address, bench.ids, 12, task.done, each, repeats=1, pause=0.01)
        print(f" {title}, {await task} kills: {seen.told()}")
        holds("asks that failed after one repeat", seen.bad(), 0)


SMUGGLED = [
    b"Content-Length: 0\r\nContent-Length: 60\r\n",
    b"Content-Length: 60\r\nContent-Length: 0\r\n",
    b"Content-Length: 60\r\nTransfer-Encoding: chunked\r\n",
    b"Transfer-Encoding: chunked\r\nContent-Length: 60\r\n",
    b"Transfer-Encoding: xchunked\r\n",
    b"Transfer-Encoding : chunked\r\n",
    b"Transfer-Encoding:\x0bchunked\r\n",
    b"Transfer-Encoding: identity, chunked\r\n",
    b"X: a\n\nTransfer-Encoding: chunked\r\n",
    b"X: a\r\n Content-Length: 60\r\n",
    b"X: a\r\n\tTransfer-Encoding: chunked\r\n",
    b"Content-Length: +60\r\n",
    b"Content-Length: 6 0\r\n",
    b"Content-Length: 0x3c\r\n",
    b"X: a\rContent-Length: 60\r\n",
    b"Content-Length: 60\n",
    b"X\0: a\r\n",
]


async def smuggled(bench: Bench) -> None:
    """Octets after a request's head never become a request of another client."""
    for title, many in by_each_sample(bench):
        places = {title: many.address, "the gateway": many.gateways[0]}
        if "haproxy" in title:
            listen = re.search(r"bind (\S+)", (many.folder / "haproxy/haproxy.cfg").read_text())
            places["haproxy"] = f"http://{listen[1]}"  # type: ignore[index]
        for who, address in places.items():
            for method in (b"GET", b"POST"):
                for headers in SMUGGLED:
                    await smuggle(who, address, method, headers, bench)
        seen = await load(many.address, bench.ids, 4, after(1), each)
        holds(f"{title}: asks that failed behind them", seen.bad(), 0)


async def smuggle(who: str, address: str, method: bytes, headers: bytes, bench: Bench) -> None:
    """The hidden request asks for /v1/chain under a name that no honest request has."""
    parts = urllib.parse.urlsplit(address)
    reader, writer = await asyncio.open_connection(parts.hostname, parts.port)
    hidden = b"GET /v1/hidden-one HTTP/1.1\r\nHost: a\r\n\r\n".ljust(60, b"x")
    chunks = b"0\r\n\r\n" if b"chunked" in headers else b""
    writer.write(method + b" /v1/info HTTP/1.1\r\nHost: a\r\n" + headers + b"\r\n" + chunks + hidden)
    got = b""
    with contextlib.suppress(asyncio.TimeoutError, OSError):
        while piece := await asyncio.wait_for(reader.read(1 << 16), 0.5):
            got += piece
    writer.transport.abort()
    # a connection may get the answer to its own second request; another client must never get it
    wire = Wire(address, "127.7.7.7")
    for _ in range(2):
        status, _, octets = await wire.ask("/v1/info")
        if status != 200 or b"publications" not in octets:
            faults.append(f"{who}: behind {method!r} {headers!r} another client gets {status}")
    wire.close()
    if who == "the gateway" and got.count(b"HTTP/1.1 ") != 1:
        faults.append(f"{who}: {headers!r} gets {got.count(b'HTTP/1.1 ')} answers")


async def hour(bench: Bench) -> None:
    many = Many(bench.owner, bench.name, "--replicas", 3, "--haproxy")
    end = time.monotonic() + 60 * bench.given.minutes
    bench.version, seen = 3, Seen()

    async def meanwhile() -> None:
        turn, told, at = 0, 0, time.monotonic()
        while time.monotonic() < end:
            if time.monotonic() > at + 300:
                part, told, at = Seen(seen.times[told:]), len(seen.times), time.monotonic()
                late, load = 1000 * part.late(), os.getloadavg()[1]
                print(f"  {len(part.times)} more asks, 99th of 100 {late:.0f} ms, load {load:.0f}", flush=True)
            turn += 1
            with deaf_one(many.gateways[turn % 3], bench.id()), deaf_one(many.address, bench.id()):
                await kill(many, 2)
                if bench.version < 30:
                    await roll_over(bench, many, 1)
                await asyncio.sleep(5)

    await beside(
        meanwhile(), lambda done: load(many.address, bench.ids, 300, done, each, repeats=1, pause=0.2, seen=seen)
    )
    print(f" {bench.given.minutes:.0f} minutes, {bench.version - 3} rolls: {seen.told()}")
    holds("asks that failed after one repeat", seen.bad(), 0)
    holds("99th of a hundred, seconds", seen.late(), 1, bench.room)
    many.end()


# ---- speed


def spent(numbers: list[int]) -> float:
    """The CPU seconds that processes have used."""
    total = 0.0
    for number in numbers:
        with contextlib.suppress(OSError):
            words = pathlib.Path(f"/proc/{number}/stat").read_text().rpartition(")")[2].split()
            total += (int(words[11]) + int(words[12])) / os.sysconf("SC_CLK_TCK")
    return total


def wrk(
    bench: Bench, address: str, name: str, packed: bool, pairs: int, seconds: float
) -> tuple[float, float, float, int]:
    """Answers a second, the median and the 99th percentile in milliseconds, and the number of failures."""
    script = bench.owner.path("drawn.lua")
    script.write_text(LUA)
    words = {"GATEWAY_ID": name, "PACKED": str(int(packed)), "PAIRS": str(pairs), "IDS": " ".join(map(str, bench.ids))}
    command = ["wrk", "-t", "2", "-c", "18", "-d", f"{seconds:.0f}s", "--latency", "-s", str(script), address]
    done = subprocess.run(command, env={**os.environ, **words}, capture_output=True, text=True, check=True).stdout
    rate = float(re.search(r"Requests/sec:\s+([\d.]+)", done)[1])  # type: ignore[index]
    units = {"us": 0.001, "ms": 1.0, "s": 1000.0}
    times = {
        part: float(value) * units[unit] for part, value, unit in re.findall(r"(50|99)%\s+([\d.]+)(us|ms|s)\b", done)
    }
    none = re.search(r"Non-2xx or 3xx responses: (\d+)", done)
    return rate, times["50"], times["99"], int(none[1]) if none else 0


async def speed(bench: Bench) -> None:
    if shutil.which("wrk") is None:
        print("skipped: speed, since this machine has no wrk")
        return
    seconds, name = bench.seconds(20, 3), bench.id()
    print(f" {len(bench.ids)} nodes, LDM, 18 connections, load of this machine before it {os.getloadavg()[0]:.1f}")
    for serves in ("1", "2", "auto"):
        gateway = Gateway(bench.owner, bench.name, "--serves", serves)
        for packed in (False, True):
            one, many_of = [gateway.process.pid], gateway.serves()
            before = spent(one), spent(many_of)
            rate, median, late, none = await asyncio.to_thread(wrk, bench, gateway.address, name, packed, 0, seconds)
            own, theirs = (
                1000 * (now - then) / (rate * seconds) for now, then in zip((spent(one), spent(many_of)), before)
            )
            print(
                f" uncached, --serves {serves}, {'gzip' if packed else 'plain'}: {rate:.0f} a second, median {median:.1f} ms, 99th of 100 {late:.1f} ms, {none} not answered; processor time of an answer: gateway {own:.2f} ms, serve {theirs:.2f} ms",
                flush=True,
            )
            if serves == "auto" and not bench.given.short:
                holds("answers a second that are missing to 1,500", max(0, 1500 - rate), 0)
                holds("99th of a hundred, ms", late, 60, bench.room)
        gateway.end()
    many, pairs = Many(bench.owner, bench.name, "--replicas", 1), 200
    for packed, bar in ((True, 15_000), (False, 8_000)):
        for number in range(1, pairs + 1):
            ends = f"from={bench.ids[number * 7919 % len(bench.ids)]}&to={bench.ids[number * 104729 % len(bench.ids)]}"
            Place(many.address).ask(f"/v1/p/{name}/route?{ends}", **({"Accept_Encoding": "gzip"} if packed else {}))
        rate, median, late, none = await asyncio.to_thread(wrk, bench, many.address, name, packed, pairs, seconds)
        print(
            f" cached, {'gzip' if packed else 'plain'}: {rate:.0f} a second, median {median:.1f} ms, 99th of 100 {late:.1f} ms, {none} not answered",
            flush=True,
        )
        if not bench.given.short:
            holds(f"answers a second that are missing to {bar:,}", max(0, bar - rate), 0)
    many.end()


BARS: dict[str, Callable[[Bench], Coroutine[None, None, None]]] = {
    "speed": speed,
    "deaf": deaf,
    "busy": busy,
    "least": least,
    "rolls": rolls,
    "kills": kills,
    "smuggled": smuggled,
    "hour": hour,
}


def main(words: list[str]) -> int:
    parser = argparse.ArgumentParser(description=(__doc__ or "").splitlines()[0])
    parser.add_argument("program")
    parser.add_argument("what", nargs="*", choices=[*BARS, []])
    parser.add_argument("--short", action="store_true")
    parser.add_argument("--room", type=float, default=1)
    parser.add_argument("--minutes", type=float, default=60)
    parser.add_argument("--nodes", type=int, default=0)
    given = parser.parse_args(words)
    given.nodes = given.nodes or (900 if given.short else 4000)
    try:
        import h11  # noqa: F401
    except ImportError:
        print("skipped: checks/web/bars.py, since this machine has no python3-h11")
        return 0
    pass_priority_on()
    bench = Bench(given.program, given)
    try:
        for what in given.what or [name for name in BARS if name not in ("speed", "hour")]:
            began = time.monotonic()
            print(f"{what}:", flush=True)
            asyncio.run(BARS[what](bench))
            print(f" {time.monotonic() - began:.0f} s", flush=True)
    finally:
        bench.end()
    for fault in faults:
        print("DIFFERS", fault)
    print(f"bars: {len(faults)} do not hold" if faults else "bars: all hold")
    return 1 if faults else 0


if __name__ == "__main__":
    sys.exit(main(sys.argv[1:]))
