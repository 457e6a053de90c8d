#!/usr/bin/env python3
"""Tests the greatest age of a map in each client: bindings/play_age.py PROGRAM

PROGRAM signs counts, dates, and numbers that are neither. Clocks are at each limit: the limits of a valid clock, of an
age, and of the day that a version may be ahead. This script has a rule of three lines. It compares the library (through
ctypes) and the module for Python with the rule. If node, cargo and go are installed, it also compares the module for
JavaScript, the crate for Rust and the package for Go. A file keeps a floor: no age lowers it, and no version from the
future raises it. A gateway whose newest map is too old has none that is young enough, for the modules that ask gateways
and for tools/stations.py. tools/geojson.py and tools/draw.py must refuse an old map too. Then it plants each wrong
form, which must be found: an age that lowers a floor, a count that counts as a date, a version from the future that is
kept, an age that is rounded down, an unchecked clock. Ends with status 1 if anything differs. Nobody trusts this file."""

from __future__ import annotations

import contextlib
import ctypes
import hashlib
import http.server
import importlib
import importlib.util
import itertools
import json
import os
import pathlib
import shutil
import subprocess
import sys
import tempfile
import threading
import time
from typing import Any

HERE = pathlib.Path(__file__).resolve().parent
TOP = HERE.parent
sys.path[:0] = [str(HERE), str(TOP / "reference")]

from gogbetiku_reference.layout import HEADER, IN_ANSWER, SIGNATURE, behind  # noqa: E402

FIRST_DATE, LAST_DATE, FIRST_CLOCK, DAY = 1_577_836_800, 2**34 - 1, 1_767_225_600, 86_400
# counts, numbers that are neither, and dates
NOW = 1_800_000_007
VERSIONS = [
    7,
    2**30 - 1,
    2**30,
    FIRST_DATE - 1,
    FIRST_DATE,
    NOW - 2 * DAY - 1,
    NOW - 2 * DAY,
    NOW,
    NOW + DAY,
    NOW + DAY + 1,
    LAST_DATE,
    13_569_465_600,
    2**64 - 1,
]
CLOCKS = [
    0,
    FIRST_DATE,
    FIRST_CLOCK - 1,
    FIRST_CLOCK,
    NOW - 1,
    NOW,
    NOW + 1,
    NOW + 2 * DAY,
    LAST_DATE,
    LAST_DATE + 1,
    2**40,
]
AGES = [0, 1, 59, 2 * DAY, 2 * DAY + 1, 9_000_000_000]
FLOORS = [0, 7, 2**30, FIRST_DATE, NOW - 3, NOW + 1, 2**64 - 1]
TIMES = {
    0: "0 seconds",
    1: "1 second",
    59: "59 seconds",
    60: "1 minute",
    5_400: "90 minutes",
    3_600: "1 hour",
    36 * 3_600: "36 hours",
    DAY: "1 day",
    2 * DAY: "2 days",
    2 * DAY + 1: "172801 seconds",
}
STALE, AHEAD, WRONG_CLOCK, NONE_YOUNG = 5, 32, 33, 34
Case = tuple[int, int, int]  # a floor, an age and a clock

faults: list[str] = []


def same(what: str, seen: object, wanted: object) -> None:
    if seen != wanted:
        faults.append(f"{what}: {str(seen)[:300]}, and not {str(wanted)[:300]}")


# ---- the rule


def is_wrong(now: int) -> bool:
    return not FIRST_CLOCK <= now <= LAST_DATE


def leasts(floor: int, age: int, now: int) -> tuple[int, int]:
    """The minimum version to check with, and the version to request."""
    return max(floor, FIRST_DATE, now - age), max(floor, FIRST_DATE, -(-max(0, now - age) // 60) * 60)


def wanted(version: int, case: Case) -> tuple[int, int, int]:
    """The code of a verdict on a version, and its two numbers."""
    floor, age, now = case
    if is_wrong(now):
        return WRONG_CLOCK, now, 0
    if version < leasts(floor, age, now)[0]:
        return STALE, version, 0
    return (AHEAD, version, now) if version > now + DAY else (1, 0, 0)


CASES: list[Case] = list(itertools.product(FLOORS, AGES, CLOCKS))


# ---- the library, and the module for Python


def loaded(folder: pathlib.Path) -> Any:
    """Loads the Python module in a folder, under a name of its own."""
    spec = importlib.util.spec_from_file_location(
        f"gogbetiku_{len(sys.modules)}", folder / "__init__.py", submodule_search_locations=[str(folder)]
    )
    assert spec and spec.loader
    module = importlib.util.module_from_spec(spec)
    sys.modules[spec.name] = module
    spec.loader.exec_module(module)
    return module


class Played:
    """A folder with a key and a reply for each version."""

    def __init__(self, program: str, folder: pathlib.Path):
        self.program, self.folder = str(pathlib.Path(program).resolve()), folder
        shutil.copy(TOP / "crates/road_proof/data/m1.roads", folder)
        (folder / "secret.hex").write_text("00" * 48)
        (folder / "owner.key").write_bytes(self.run("key secret.hex h5"))
        self.key = (folder / "owner.key").read_text().strip()
        self.replies: dict[int, tuple[bytes, bytes]] = {}
        for version in VERSIONS:
            (folder / "one.pub").write_bytes(self.run(f"publish m1.roads dij {version} id 0 2 0 0 0"))
            self.replies[version] = self.run("prove one.pub 1 3"), self.run("reach one.pub 1 4")
            assert len(self.replies[version][0]) > 1_000, version
        self.library = self.built(HERE, "lib")

    def run(self, words: str) -> bytes:
        return subprocess.run([self.program, *words.split()], cwd=self.folder, capture_output=True, check=False).stdout

    def built(self, sources: pathlib.Path, name: str) -> pathlib.Path:
        """Builds the library from these sources."""
        subprocess.run([sources / "build", self.folder / name], check=True)
        return self.folder / name / "libgogbetiku.so.0"


def by_c(library: pathlib.Path) -> None:
    """Tests the call in C: both numbers, null pointers, and the result with a wrong clock."""
    calls = ctypes.CDLL(str(library))
    calls.gog_sentence.restype = ctypes.c_size_t
    long = ctypes.c_uint64
    for floor, age, now in [*CASES, (0, 2**64 - 1, NOW), (0, 2**64 - 1, 2**64 - 1), (3, 0, 2**64 - 1)]:
        least, asked = long(), long()
        is_right = calls.gog_least_of_age(long(floor), long(now), long(age), ctypes.byref(least), ctypes.byref(asked))
        expected = (0, 2**64 - 1, 2**64 - 1) if is_wrong(now) else (1, *leasts(floor, age, now))
        same(f"gog_least_of_age({floor}, {now}, {age})", (is_right, least.value, asked.value), expected)
    same("null pointers", calls.gog_least_of_age(long(0), long(NOW), long(0), None, None), 1)
    for age, said in TIMES.items():
        text = ctypes.create_string_buffer(99)
        calls.gog_sentence(NONE_YOUNG, long(age), long(0), text, ctypes.c_size_t(99))
        same(f"a time of {age}", text.value.decode(), f"No map younger than {said} is here.")


def verdict_of(module: Any, check: Any) -> tuple[int, int, int]:
    try:
        found = check()
    except module.Refused as refusal:
        return refusal.code, refusal.first, refusal.second
    return (1, 0, 0) if found.version else (0, 0, 0)


def by_python(played: Played, module: Any, library: pathlib.Path, versions: list[int]) -> None:
    """Tests each case in Python, and the version to request from a gateway. A reply is checked once for each different
    verdict."""
    now = [0]
    for age in AGES:
        client = module.Client(played.key, library=library, max_age=age, clock=lambda: now[0] + 0.9)
        for floor, clock in itertools.product(FLOORS, CLOCKS):
            now[0] = clock
            seen = verdict_of(module, lambda: type("Asked", (), {"version": client.least_to_ask(floor)}))
            same(f"asked of {floor}, {age}, {clock}", seen, (WRONG_CLOCK, clock, 0) if is_wrong(clock) else (1, 0, 0))
            if not is_wrong(clock):
                same(f"asked of {floor}, {age}, {clock}", client.least_to_ask(floor), leasts(floor, age, clock)[1])
            for version in versions:
                route, reach = played.replies[version]
                expected = wanted(version, (floor, age, clock))
                same(
                    f"version {version} of {floor}, {age}, {clock}",
                    verdict_of(module, lambda: client.check_route(route, 1, 3, floor)),
                    expected,
                )
                if clock == NOW:
                    same(
                        f"a radius, version {version} of {floor}, {age}",
                        verdict_of(module, lambda: client.check_reach(reach, 1, 4, floor)),
                        expected,
                    )


def without(played: Played, module: Any, library: pathlib.Path) -> None:
    """Tests that a client without an age accepts both kinds of versions and has no message about young maps. Also tests
    the types of an age and of a clock."""
    client = module.Client(played.key, library=library, name="Winter roads")
    same("its map's name", client.name, "Winter roads")
    for version in VERSIONS:
        same(
            f"version {version} without an age",
            client.check_route(played.replies[version][0], 1, 3, 0).version,
            version,
        )
    same("asked without an age", client.least_to_ask(NOW), NOW)
    for what, error, call in (
        ("young without an age", ValueError, client.none_young),
        ("an age of -1", ValueError, lambda: module.Client(played.key, library=library, max_age=-1)),
        ("an age of 1.5", TypeError, lambda: module.Client(played.key, library=library, max_age=1.5)),
        ("an age of 2^64", ValueError, lambda: module.Client(played.key, library=library, max_age=2**64)),
    ):
        try:
            faults.append(f"{what}: {call()}")
        except error:
            pass
    for clock in (-5.0, float("nan"), float("inf"), 1e300, -1e300):
        odd = module.Client(played.key, library=library, max_age=9, clock=lambda clock=clock: clock)
        same(f"a clock of {clock}", verdict_of(module, odd.least_to_ask)[0], WRONG_CLOCK)
    young = module.Client(played.key, library=library, max_age=2 * DAY).none_young()
    same(
        "what a 503 says",
        (str(young), young.kind, type(young).__name__),
        ("No map younger than 2 days is here.", "NoneYoung", "NoneYoung"),
    )
    for word, seconds in (("2d", 2 * DAY), ("36h", 36 * 3_600), ("90m", 5_400), ("7s", 7), ("172800", 172_800)):
        same(word, sys.modules[f"{module.__name__}.age"].seconds_of(word), seconds)


def floors(played: Played, module: Any, library: pathlib.Path) -> None:
    """Tests that no version from the future is kept, that no version below a floor is accepted, and that a kept floor
    is requested unchanged."""
    floor = played.folder / "owner.floor"
    floor.unlink(missing_ok=True)
    now = [NOW]
    client = module.Client(played.key, library=library, floor=floor, max_age=2 * DAY, clock=lambda: now[0])

    def check(version: int) -> tuple[int, int, int]:
        return verdict_of(module, lambda: client.check_route(played.replies[version][0], 1, 3, 0))

    for version in (13_569_465_600, 2**64 - 1, NOW + DAY + 1):
        same(f"{version}, from the future", check(version), (AHEAD, version, NOW))
        same("what is kept then", floor.exists(), False)
    same("an honest one behind it", check(NOW), (1, 0, 0))
    same("what is kept", json.loads(floor.read_text()), {played.key: NOW})
    same("what is asked for then", client.least_to_ask(), NOW)
    same("an older one, which is young enough", check(NOW - 2 * DAY), (STALE, NOW - 2 * DAY, 0))
    now[0] = NOW + 2 * DAY
    same("one as old as it may be", check(NOW), (1, 0, 0))
    now[0] += 1
    same("a second later", check(NOW), (STALE, NOW, 0))
    same("a day ahead", check(NOW + DAY), (1, 0, 0))
    now[0] = FIRST_CLOCK - 1
    same(
        "by a clock that is wrong",
        (check(NOW + DAY), json.loads(floor.read_text())),
        ((WRONG_CLOCK, FIRST_CLOCK - 1, 0), {played.key: NOW + DAY}),
    )


# ---- gateways


class Handler(http.server.BaseHTTPRequestHandler):
    """A gateway that says that its newest map is of one version, and answers each query with one reply."""

    newest, reply, name = 0, b"", ""

    def do_GET(self) -> None:
        info = {"publications": [{"id": self.name, "version": str(self.newest), "nodes": 5, "octets": 900}]}
        octets = json.dumps(info).encode() if self.path == "/v1/info" else self.reply
        self.send_response(200)
        self.send_header("Content-Length", str(len(octets)))
        self.end_headers()
        self.wfile.write(octets)

    def log_message(self, *_: object) -> None:
        pass


class Announced:
    """Runs such a gateway over a version's reply. It may announce another version than that of the reply."""

    def __init__(self, played: Played, version: int, said: int | None = None):
        reply = played.replies[version][0]
        header, signature = reply[IN_ANSWER:][:HEADER], reply[IN_ANSWER + SIGNATURE : behind(reply, IN_ANSWER)]
        name = hashlib.sha256(header + signature).hexdigest()[:16]
        handler = type(
            "Announced", (Handler,), {"newest": version if said is None else said, "reply": reply, "name": name}
        )
        self.id, self.server = name, http.server.ThreadingHTTPServer(("127.0.0.1", 0), handler)
        self.address = f"http://127.0.0.1:{self.server.server_address[1]}"

    def __enter__(self) -> Announced:
        threading.Thread(target=self.server.serve_forever, args=(0.01,), daemon=True).start()
        return self

    def __exit__(self, *_: object) -> None:
        self.server.shutdown()
        self.server.server_close()


# the version of the replies, the version that the gateway announces, and how it ends for a client of two days
ANNOUNCED = [
    (NOW, NOW, "accepted"),
    (NOW - 2 * DAY, NOW - 2 * DAY, "NoneYoung"),  # in whole minutes it is too old
    (FIRST_DATE, FIRST_DATE, "NoneYoung"),
    (7, 7, "NoneYoung"),
    (FIRST_DATE, NOW, "Stale"),
    (2**64 - 1, 2**64 - 1, "Ahead"),
]
CODES = {"Stale": "Stale 5", "Ahead": "Ahead 32"}


def by_gateways(played: Played, module: Any, library: pathlib.Path) -> None:
    """Tests the Python module that asks gateways."""
    asking = importlib.import_module(f"{module.__name__}.gateway")

    def ended(place: Announced, now: int, **words: Any) -> str:
        try:
            gateway = asking.Gateway(place.address)
            more = {"library": library, "clock": lambda: now, **words}
            return "accepted" if asking.Publication(gateway, played.key, **more).route(1, 3).found.version else ""
        except module.Refused as refusal:
            return f"{refusal.kind}"

    for version, said, wanted in ANNOUNCED:
        with Announced(played, version, said) as place:
            same(f"a gateway of {said}, with {version}", ended(place, NOW, max_age=2 * DAY), wanted)
            same(f"a gateway of {said}, for any age", ended(place, NOW), "accepted")
            if wanted == "NoneYoung" and said != NOW - 2 * DAY:
                same(f"{said} by its id", ended(place, NOW, max_age=2 * DAY, id=place.id), "Stale")
                same(f"{said}, by a wrong clock", ended(place, 5, max_age=2 * DAY), "WrongClock")


def by_stations(played: Played) -> None:
    """Tests that a tool that asks a gateway says so too, by this machine's clock."""
    (played.folder / "stations").write_text("3 North\n")
    for version, part in (
        (FIRST_DATE, "No map younger than 2 days is here."),
        (7, "No map younger than 2 days is here."),
    ):
        with Announced(played, version) as place:
            words = [TOP / "tools/stations.py", place.address, "owner.key", 1, "stations", "--library", played.library]
            done = subprocess.run(
                [sys.executable, *map(str, words), "--max-age", "2d"],
                cwd=played.folder,
                capture_output=True,
                text=True,
                check=False,
            )
            same(f"stations of {version}", (done.returncode, done.stdout, part in done.stderr), (1, "", True))


# ---- the other clients


def lines_of(played: Played, versions: list[int]) -> tuple[list[str], list[str]]:
    """The cases for the programs in Rust and Go, one line each, and the expected results."""
    asks, told = [], []
    for floor, age, now in CASES:
        asks.append(f"least {played.key} - 0 0 {floor} 0 - - 0 {age} {now}")
        told.append(f"{WRONG_CLOCK} {now} 0" if is_wrong(now) else f"asked {leasts(floor, age, now)[1]}")
        for version in versions:
            kind, reply = (
                ("route", played.replies[version][0]) if (version + now) % 2 else ("reach", played.replies[version][1])
            )
            asks.append(
                f"{kind} {played.key} - 1 {3 if kind == 'route' else 4} {floor} 0 {reply.hex()} - 0 {age} {now}"
            )
            code, *numbers = wanted(version, (floor, age, now))
            told.append(f"1 {version}" if code == 1 else f"{code} {numbers[0]} {numbers[1]}")
    asks += [f"young {played.key} - 0 0 0 0 - - 0 {age} {NOW}" for age in TIMES]
    told += [f"{NONE_YOUNG} {age} 0 NoneYoung||No map younger than {said} is here." for age, said in TIMES.items()]
    return asks, told


def compare(what: str, said: str, told: list[str]) -> None:
    lines = said.splitlines()
    same(f"{what}: how many", len(lines), len(told))
    differ = [(seen, line) for seen, line in zip(lines, told) if seen != line and not seen.startswith(f"{line} ")]
    same(f"{what}: {len(differ)} differ", differ[:3], [])


def ran(what: str, *words: object, cwd: pathlib.Path, **env: str) -> str:
    done = subprocess.run(
        [*map(str, words)], cwd=cwd, capture_output=True, text=True, check=False, env={**os.environ, **env}
    )
    if done.returncode:
        faults.append(f"{what}: status {done.returncode}\n{(done.stdout + done.stderr)[-1500:]}")
    return done.stdout


def by_rust_and_go(played: Played) -> None:
    from play_more import CARGO, RUSTC, go_env, lacks  # the types of its whole test

    asks, told = lines_of(played, [7, FIRST_DATE, NOW, NOW + DAY + 1])
    (played.folder / "ages.txt").write_text("".join(f"{line}\n" for line in asks))
    libraries = played.folder / "lib"
    if not lacks(CARGO, "ages in Rust"):
        env = {
            "CARGO_TARGET_DIR": str(played.folder / "target"),
            "GOGBETIKU_LIB": str(libraries),
            "GOGBETIKU_STATIC": "1",
            "CARGO_NET_OFFLINE": "true",
            "RUSTC": RUSTC,
        }
        shutil.copytree(HERE / "rust", played.folder / "rust")
        ran("cargo", CARGO, "build", "--offline", "--release", "--example", "cases", cwd=played.folder / "rust", **env)
        compare(
            "rust", ran("rust", played.folder / "target/release/examples/cases", "ages.txt", cwd=played.folder), told
        )
    if not lacks("go", "ages in Go"):
        shutil.copytree(HERE / "go", played.folder / "go")
        env = go_env(played.folder, libraries)
        ran("go build", "go", "build", "-o", played.folder / "by_go", "./cases", cwd=played.folder / "go", **env)
        compare("go", ran("go", played.folder / "by_go", "ages.txt", cwd=played.folder, **env), told)


JAVASCRIPT = """
import { readFileSync } from "node:fs";
import { Client, Refused, load } from "./route_check.mjs";
import { WorkerClient } from "./route_check_worker.mjs";
import { dateSaid } from "./age.mjs";
import { Publication } from "./table.mjs";
await load();
const said = ({ code, first, second, kind, line, sentence }) => `${code} ${first} ${second} ${kind}|${line}|${sentence}`;
function told(line) {
    const [ask, key, , from, end, least, , reply, , , maxAge, now] = line.split(" ");
    const client = new Client(key, { maxAge: BigInt(maxAge), name: "Winter roads" });
    const [clock, floor] = [{ now: BigInt(now) }, BigInt(least)];
    if (ask === "young") return said(client.noneYoung());
    if (ask === "least") return `asked ${client.leastToAsk(floor, clock)}`;
    const octets = Uint8Array.from(reply.match(/../g), (two) => parseInt(two, 16));
    const found = ask === "route" ? client.checkRoute(octets, Number(from), Number(end), floor, clock) : client.checkReach(octets, Number(from), BigInt(end), floor, clock);
    return `1 ${found.version} `;
}
const lines = readFileSync("ages.txt", "ascii").trim().split("\\n");
for (const line of lines) {
    try {
        console.log(told(line));
    } catch (error) {
        if (!(error instanceof Refused)) throw error;
        console.log(said(error));
    }
}
const [, key, , from, end, , , reply] = lines.find((line) => line.startsWith("route")).split(" ");
const octets = Uint8Array.from(reply.match(/../g), (two) => parseInt(two, 16));
const ended = async (call) => { try { return `${(await call()).version}`; } catch (error) { return `${error.kind ?? error.constructor.name} ${error.code ?? ""}`; } };
const worker = await WorkerClient.start(key, { maxAge: 172_800, name: "Winter roads" });
const check = (least, options) => () => worker.checkRoute(octets, Number(from), Number(end), least, options);
for (const options of [{ now: NOW }, { now: NOW + 172_801 }, { now: 5 }, { now: -1 }, { now: "5" }]) console.log("worker", await ended(check(0, options)));
console.log("worker", await ended(async () => ({ version: await worker.leastToAsk(5n, { now: NOW }) })), worker.noneYoung().sentence, worker.name);
worker.end();
const plain = new Client(key);
Date.now = () => 1000 * NOW;
for (const address of process.argv.slice(2)) {
    const over = await Publication.of(address, new Client(key, { maxAge: 172_800 })).catch((error) => error);
    console.log("gateway", over.kind ?? (await ended(async () => (await over.route(1, 3)).found)));
    console.log("any age", await ended(async () => (await (await Publication.of(address, new Client(key))).route(1, 3)).found));
}
console.log(plain.name === "", await ended(() => plain.noneYoung()), plain.leastToAsk(5n) === 5n, (await ended(() => new Client(key, { maxAge: -1 }))), dateSaid(NOWn), dateSaid(7n) === "");
""".replace(
    "NOW", str(NOW)
)


def has_module() -> bool:
    return shutil.which("node") is not None and (TOP / "crates/route_check_c/out/route_check.wasm").exists()


def by_javascript(played: Played, sources: pathlib.Path = TOP / "web") -> None:
    folder = played.folder / f"js{len(list(played.folder.glob('js*')))}"
    folder.mkdir()
    for file in [
        *sources.glob("route_check*.mjs"),
        sources / "age.mjs",
        sources / "table.mjs",
        TOP / "crates/route_check_c/out/route_check.wasm",
    ]:
        shutil.copy(file, folder)
    asks, told = lines_of(played, [NOW, 7, NOW + DAY + 1])
    (folder / "ages.txt").write_text("".join(f"{line}\n" for line in asks))
    (folder / "ages.mjs").write_text(JAVASCRIPT)
    told += [f"worker {said}" for said in (NOW, "Stale 5", "WrongClock 33", "RangeError", "TypeError")] + [
        f"worker {leasts(5, 2 * DAY, NOW)[1]} No map younger than 2 days is here. Winter roads"
    ]
    date = time.strftime("%Y-%m-%d %H:%M UTC", time.gmtime(NOW))
    with contextlib.ExitStack() as held:
        places = [held.enter_context(Announced(played, version, said)) for version, said, _ in ANNOUNCED]
        for version, _, ends in ANNOUNCED:
            told += [f"gateway {version if ends == 'accepted' else CODES.get(ends, ends)}", f"any age {version}"]
        said = ran("node", "node", "ages.mjs", *(it.address for it in places), cwd=folder)
    compare("javascript", said, [*told, f"true Error  true RangeError  {date} true"])


def by_tools(played: Played) -> None:
    """Tests tools/geojson.py and tools/draw.py with this machine's clock: an old map is refused with the client's own
    line."""
    if (now := int(time.time())) < FIRST_CLOCK:
        return print("skipped: the tools, since this machine's clock is wrong")
    (played.folder / "now.pub").write_bytes(played.run(f"publish m1.roads dij {now} id 0 2 0 0 0"))
    for name, octets in (
        ("old", played.replies[FIRST_DATE][0]),
        ("count", played.replies[7][0]),
        ("ahead", played.replies[2**64 - 1][0]),
        ("now", played.run("prove now.pub 1 3")),
    ):
        (played.folder / f"{name}.reply").write_bytes(octets)
    wanted_of = {
        "old": (1, f"refused Stale {FIRST_DATE}"),
        "count": (1, "refused Stale 7"),
        "ahead": (1, f"The map is dated {2**64 - 1}"),
        "now": (0, ""),
    }
    for name, (status, part) in wanted_of.items():
        for tool in (
            [TOP / "tools/geojson.py", "owner.key", f"{name}.reply", 1, 3, 0],
            [TOP / "tools/draw.py", "now.pub", f"{name}.reply", "--check", "owner.key", 1, 3, 0, "--unit", "plane"],
        ):
            words = [sys.executable, *tool, "--library", played.library, "--max-age", "2d"]
            done = subprocess.run([*map(str, words)], cwd=played.folder, capture_output=True, text=True, check=False)
            same(f"{tool[0]} of {name}: {done.stderr}", (done.returncode, part in done.stderr), (status, True))
            if status and done.stdout:
                faults.append(f"{tool[0]} of {name} writes {done.stdout[:90]}")
    return None


# ---- wrong forms

C, PYTHON, SCRIPT = "gogbetiku.c", "python/gogbetiku/__init__.py", "age.mjs"
ASKER, ASKING_SCRIPT = "python/gogbetiku/gateway.py", "table.mjs"
WRONG = [
    (
        "an age that lowers a floor",
        C,
        "*least = is_right ? greater(taken, oldest)",
        "*least = is_right ? greater(GOG_FIRST_DATE, oldest)",
    ),
    (
        "a count that is taken for a date",
        C,
        "uint64_t taken = greater(floor, GOG_FIRST_DATE);",
        "uint64_t taken = floor;",
    ),
    ("an age that is rounded down", C, "(oldest + MINUTE - 1) / MINUTE", "oldest / MINUTE"),
    (
        "a floor that is rounded",
        C,
        "greater(taken, (oldest + MINUTE - 1) / MINUTE * MINUTE)",
        "(greater(taken, oldest) + MINUTE - 1) / MINUTE * MINUTE",
    ),
    ("an age that wraps around", C, "now > max_age ? now - max_age : 0", "now - max_age"),
    ("a clock that is not looked at", C, "GOG_FIRST_CLOCK <= now && now <= LAST_DATE", "now <= LAST_DATE"),
    ("any version from the future", C, "verdict->version - now > DAY", "0"),
    ("not a day ahead", C, "verdict->version - now > DAY", "1"),
    (
        "a version from the future that is kept",
        PYTHON,
        "        if self._age is not None and code == verdict.code:\n",
        "        if self._floor is not None:\n            self._floor.keep(verdict.version)\n        if self._age is not None and code == verdict.code:\n",
    ),
    (
        "a radius without an age",
        PYTHON,
        '_number("radius", radius, 64), self._least(least))',
        '_number("radius", radius, 64), _number("least", least, 64))',
    ),
    (
        "an age that lowers a floor, in JavaScript",
        SCRIPT,
        "taken: greatest(floor, FIRST_DATE, oldest)",
        "taken: greatest(FIRST_DATE, oldest)",
    ),
    (
        "a count that is taken for a date, in JavaScript",
        SCRIPT,
        "taken: greatest(floor, FIRST_DATE, oldest)",
        "taken: greatest(floor, oldest)",
    ),
    ("any version from the future, in JavaScript", SCRIPT, "version > now + DAY", "false"),
    ("a clock that is not looked at, in JavaScript", SCRIPT, "now < FIRST_CLOCK || ", ""),
    (
        "a gateway that is asked for what is too old",
        ASKER,
        'if id is None and not self._client.is_young(int(said["version"])):',
        "if False:",
    ),
    (
        "a gateway that is asked for what is too old, in JavaScript",
        ASKING_SCRIPT,
        "BigInt(said.version) < (await one.leastToAsk(0n))",
        "false",
    ),
]


def planted(played: Played) -> int:
    """Tests that the tests above find each wrong form. Returns the number of planted forms."""
    before, forms = list(faults), [one for one in WRONG if not one[1].endswith(".mjs") or has_module()]
    for number, (what, name, right, wrong) in enumerate(forms):
        faults.clear()
        place = played.folder / f"wrong{number}"
        sources = TOP / "web" if name.endswith(".mjs") else HERE
        shutil.copytree(sources, place / "bindings", ignore=shutil.ignore_patterns("target", "page", "rust", "go"))
        (place / "crates").symlink_to(TOP / "crates")
        text = (place / "bindings" / name).read_text()
        if text.count(right) != 1:
            before.append(f"{what}: {name} does not have it once")
            continue
        (place / "bindings" / name).write_text(text.replace(right, wrong))
        if name.endswith(".mjs"):
            by_javascript(played, place / "bindings")
        else:
            library = played.built(place / "bindings", f"lib{number}") if name is C else played.library
            module = loaded(place / "bindings/python/gogbetiku")
            by_c(library)
            by_python(played, module, library, [7, NOW, NOW + DAY + 1])
            floors(played, module, library)
            by_gateways(played, module, library)
        if not faults:
            before.append(f"{what}: nothing tells it")
    faults[:] = before
    return len(forms)


def main(program: str) -> int:
    began = time.monotonic()
    with tempfile.TemporaryDirectory() as name:
        played = Played(program, pathlib.Path(name))
        module = loaded(HERE / "python/gogbetiku")
        by_c(played.library)
        by_python(played, module, played.library, VERSIONS)
        without(played, module, played.library)
        floors(played, module, played.library)
        by_gateways(played, module, played.library)
        by_rust_and_go(played)
        if has_module():
            by_javascript(played)
        else:
            print("skipped: ages in JavaScript, since this machine has no node, or web/module made no module")
        by_tools(played)
        by_stations(played)
        forms = planted(played)
    for fault in faults[:30]:
        print(fault)
    print(
        f"ages: {len(faults)} differ"
        if faults
        else f"ages: {len(CASES)} cases over {len(VERSIONS)} versions in each client, {forms} wrong forms told, {time.monotonic() - began:.0f} s"
    )
    return 1 if faults else 0


if __name__ == "__main__":
    if len(sys.argv) != 2:
        print("bindings/play_age.py: name the program: bindings/play_age.py PROGRAM", file=sys.stderr)
        sys.exit(2)
    sys.exit(main(sys.argv[1]))
