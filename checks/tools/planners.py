#!/usr/bin/python3
"""Plays the tools for planners over a gateway: checks/tools/planners.py PROGRAM [--bars]

PROGRAM publishes the made-up town under each method, and a gateway serves it. Tables, stations, bands and covers must
agree with networkx over all sources. The tools must report gateways that lie, that have other publications, that ask to
wait, or that send too much. With --bars, by hand, it measures a street map of 65,536 nodes, as `bars` describes. Parts
whose package is missing are skipped by name. Ends with status 1 if anything differs. No client trusts this file.
"""
from __future__ import annotations

import contextlib
import csv
import http.server
import importlib.util
import json
import math
import os
import pathlib
import re
import resource
import signal
import subprocess
import sys
import threading
import time
from collections.abc import Callable, Iterator
from typing import Any

TOP = pathlib.Path(__file__).resolve().parents[2]
for folder in ("checks", "checks/web", "web/page", "tools", "bindings/python"):
    sys.path.insert(0, str(TOP / folder))

from common.looks import Looks  # noqa: E402

STREETS = TOP / "checks/speed/streets.py"
TOOLS, LIBRARY = TOP / "tools", TOP / "crates/route_check_c/out/libgogbetiku.so.0"
START, ISLAND, NOBODY = 346, 441, 99_999
ROADS = "both ways alike; no one-way streets, no turns"
LOOKS = Looks(400)
same, holds = LOOKS.same, LOOKS.holds


# ---- the map, by networkx


class Map:
    """A road file as a graph of networkx."""

    def __init__(self, text: str) -> None:
        import networkx

        self.places: dict[int, tuple[int, int]] = {}
        self.graph: Any = networkx.Graph()
        for words in (line.split() for line in text.splitlines()):
            if words[:1] == ["node"]:
                self.places[int(words[1])] = int(words[2]), int(words[3])
                self.graph.add_node(int(words[1]))
            elif words[:1] == ["road"]:
                a, b, length = map(int, words[1:])
                if length < self.graph.get_edge_data(a, b, {"length": math.inf})["length"]:
                    self.graph.add_edge(a, b, length=length)
        self._known: dict[int, dict[int, int]] = {}

    def lengths(self, source: int) -> dict[int, int]:
        import networkx

        if source not in self._known:
            self._known[source] = (
                networkx.single_source_dijkstra_path_length(self.graph, source, weight="length")
                if source in self.graph
                else {}
            )
        return self._known[source]

    def near(self, source: int, radius: int) -> dict[int, int]:
        import networkx

        found: dict[int, int] = networkx.single_source_dijkstra_path_length(
            self.graph, source, cutoff=radius, weight="length"
        )
        return found

    def cell(self, source: int, target: int) -> str:
        if source not in self.graph or target not in self.graph:
            return "not reached or no node"
        return str(self.lengths(source).get(target, "none"))

    def roads(self) -> list[tuple[int, int, int]]:
        return [(a, b, length) for a, b, length in self.graph.edges.data("length")]


# ---- the tools


class Place:
    """A folder with lists of nodes, in which the tools query a gateway."""

    def __init__(self, owner: Any, at: pathlib.Path) -> None:
        self.owner, self.at = owner, at

    def keep(self, name: str, text: object) -> str:
        (self.at / name).write_text(str(text) if isinstance(text, str) else "".join(f"{line}\n" for line in text))  # type: ignore[attr-defined]
        return name

    def run(self, tool: str, gateway: str, *words: object) -> tuple[int, str, str]:
        """A tool's status, output and messages."""
        done = subprocess.run(
            [sys.executable, TOOLS / tool, gateway, self.owner.path("owner.key"), *map(str, words)],
            cwd=self.at,
            capture_output=True,
            text=True,
            check=False,
            timeout=300,
        )
        return done.returncode, done.stdout, done.stderr


def cells_of(text: str) -> dict[tuple[int, int], str]:
    return {(int(row["source"]), int(row["target"])): row["length"] for row in csv.DictReader(text.splitlines())}


def features_of(text: str) -> list[dict[str, Any]]:
    found: list[dict[str, Any]] = json.loads(text)["features"]
    return found


def play_tables(it: Place, town: Map, gateways: dict[str, Any]) -> None:
    """Every cell is networkx's, under each method. A stopped table continues."""
    sources, targets = [*range(5, 491, 41), ISLAND, NOBODY], [*range(3, 491, 12), ISLAND, NOBODY]
    it.keep("sources", [f"{node} a name, and more" for node in sources])
    it.keep("targets", ["# remarks", "", *map(str, targets)])
    wanted = {(source, target): town.cell(source, target) for source in sources for target in targets}
    for method, gateway in gateways.items():
        status, wrote, said = it.run("table.py", gateway.address, "sources", "targets")
        same(f"{method}: status", (status, said if status else ""), (0, ""))
        same(f"{method}: cells", {pair: cell for pair, cell in cells_of(wrote).items() if cell != wanted.get(pair)}, {})
        same(f"{method}: all are there", len(cells_of(wrote)), len(wanted))
        holds(f"{method}: octets are told", re.search(r" asks, [\d,]+ octets; " + ROADS, said), said)
        rows = list(csv.DictReader(wrote.splitlines()))
        same(
            f"{method}: each line has version, key and publication",
            {(row["version"], row["key"], row["publication"]) for row in rows},
            {(str(gateway.info()[0]["version"]), "29a0f89a", gateway.newest())},
        )
        same(f"{method}: directions", ROADS in wrote.splitlines()[0], True)
    it.keep("all", sorted(town.graph))
    status, wrote, _ = it.run("table.py", gateways["ldm"].address, "all", "targets", "--asks", 16)
    same("all sources", (status, len(cells_of(wrote))), (0, len(town.graph) * len(targets)))
    same("all sources: cells", {pair: cell for pair, cell in cells_of(wrote).items() if cell != town.cell(*pair)}, {})
    play_choice(it, town, gateways["full"])
    play_stopped(it, gateways["ldm"], it.run("table.py", gateways["ldm"].address, "sources", "targets")[1])


def play_choice(it: Place, town: Map, gateway: Any) -> None:
    """Under a method with short route replies, a few far targets are asked for by routes, and all nodes by the whole map."""
    from front import Front

    lengths = town.lengths(START)
    order = sorted(lengths, key=lengths.__getitem__)
    far = [node for node in order if lengths[node] > 15_000]
    few = [far[0], far[len(far) // 2], far[-1]]
    front = Front(gateway.address)
    it.keep("start", [START])
    for name, targets, is_by_route in (("few", few, True), ("each", order, False)):
        front.seen.clear()
        it.keep(name, targets)
        status, wrote, _ = it.run("table.py", front.origin, "start", name)
        same(
            f"{name}: lengths", (status, cells_of(wrote)), (0, {(START, node): str(lengths[node]) for node in targets})
        )
        asked = [path for path, _ in front.seen if "from=" in path]
        by_route, is_whole = sum("route?" in path for path in asked), f"radius={2**64 - 1}" in " ".join(asked)
        holds(f"{name}: what is asked", by_route == 3 and not is_whole if is_by_route else by_route < 3, asked)
    front.shutdown()


def play_stopped(it: Place, gateway: Any, whole: str) -> None:
    """Written cells are not asked for again; a truncated line and refused cells are."""
    from front import Front

    front = Front(gateway.address)
    lines = whole.splitlines(keepends=True)
    cut = "".join(lines[:200]) + lines[200][:9]
    it.keep("cut.csv", cut)
    status, wrote, _ = it.run("table.py", front.origin, "sources", "targets", "--from", "cut.csv")
    same("a table that was stopped", (status, wrote), (0, whole))
    asked = {
        int(number)
        for path, _ in front.seen
        if "reach?" in path or "route?" in path
        for number in re.findall(r"from=(\d+)&(?:to=|radius=[1-9])", path)
    }
    done = {int(line.split(",")[0]) for line in lines[1:190]} - {int(lines[200].split(",")[0])}
    same("what is there is not asked", asked & done, set())
    front.seen.clear()
    it.keep("whole.csv", whole)
    same("a whole table", it.run("table.py", front.origin, "sources", "targets", "--from", "whole.csv")[:2], (0, whole))
    same("it asks nothing", [path for path, _ in front.seen if "from=" in path], [])
    name = gateway.newest()
    it.keep("other.csv", whole.replace(name, "0123456789abcdef"))
    status, wrote, said = it.run("table.py", front.origin, "sources", "targets", "--from", "other.csv")
    holds(
        "a table of another publication",
        status == 1 and wrote == "" and "has no publication 0123456789abcdef" in said and "Traceback" not in said,
        (status, said),
    )
    it.keep("other.csv", whole.replace("29a0f89a", "00000000"))
    status, wrote, said = it.run("table.py", front.origin, "sources", "targets", "--from", "other.csv")
    holds("a table of another key", (status, wrote) == (1, "") and "begin another table" in said, (status, said))
    play_terminal(it, gateway)
    it.keep("other.csv", "x" + whole)
    holds(
        "no table",
        "other.csv: line 1: it is not a table of this tool"
        in it.run("table.py", front.origin, "sources", "targets", "--from", "other.csv")[2],
    )
    play_interrupted(it, front, whole)
    play_late_version(it, front)
    front.shutdown()


def play_interrupted(it: Place, front: Any, whole: str) -> None:
    """A table that a person stops ends at once, and continues from its file."""
    front.seen.clear()
    is_sent = threading.Event()

    def has_rows() -> bool:
        return (it.at / "part.csv").read_text().count("\n") >= 30

    let_through = threading.Semaphore(10)

    def held(path: str, *_: Any) -> None:
        """Holds the asks after the first ten until the signal is sent, so that the table cannot end before it."""
        if "from=" in path and not let_through.acquire(blocking=False):
            is_sent.wait(60)

    front.wrong = held
    # a shell starts what stands before its & with this signal ignored, which the table would inherit
    signal.signal(signal.SIGINT, signal.default_int_handler)
    words = [sys.executable, TOOLS / "table.py", front.origin, it.owner.path("owner.key"), "sources", "targets"]
    with open(it.at / "part.csv", "w") as file:
        table = subprocess.Popen(
            [*map(str, words), "--asks", "2"], cwd=it.at, stdout=file, stderr=subprocess.PIPE, text=True
        )
        until = time.monotonic() + 60
        while not has_rows() and time.monotonic() < until:
            time.sleep(0.01)
        table.send_signal(signal.SIGINT)
        is_sent.set()
        said = table.communicate(timeout=60)[1]
    part = (it.at / "part.csv").read_text()
    holds(
        "a table that a person stops",
        table.returncode == 1 and "stopped; continue with --from" in said and "Traceback" not in said,
        (table.returncode, said),
    )
    holds("its rows are whole", whole.startswith(part) and 30 <= part.count("\n") < whole.count("\n"), part[-200:])
    front.wrong = None
    status, wrote, _ = it.run("table.py", front.origin, "sources", "targets", "--from", "part.csv")
    same("it goes on", (status, wrote), (0, whole))


def play_late_version(it: Place, front: Any) -> None:
    """Each line has the version, also the rows before the first accepted reply."""
    it.keep("late", [NOBODY, 5, 46])
    status, wrote, _ = it.run("table.py", front.origin, "late", "targets")
    versions = {row["version"] for row in csv.DictReader(wrote.splitlines())}
    same("a first source that is no node", (status, len(versions), "" in versions), (0, 1, False))
    it.keep("late.csv", wrote)
    same("it goes on too", it.run("table.py", front.origin, "late", "targets", "--from", "late.csv")[:2], (0, wrote))


def play_terminal(it: Place, gateway: Any) -> None:
    """A progress bar on a terminal, and nowhere else."""
    import pty

    outer, inner = pty.openpty()
    words = [sys.executable, TOOLS / "table.py", gateway.address, it.owner.path("owner.key"), "sources", "targets"]
    subprocess.run(list(map(str, words)), cwd=it.at, stdout=subprocess.DEVNULL, stderr=inner, check=False)
    os.close(inner)
    seen = os.read(outer, 65_536).decode()
    os.close(outer)
    holds(
        "a bar on a terminal",
        f"[{30 * '#'}] 14 of 14 rows, " in seen and seen.startswith(f"\r[{30 * '.'}] 0 of 14 rows, "),
        seen,
    )


def changed(octets: bytes) -> bytes:
    """A reply with a changed last digest."""
    return octets[:-1] + bytes([octets[-1] ^ 1])


def play_lies(it: Place, town: Map, gateway: Any) -> None:
    """A gateway that lies in one cell of a thousand."""
    from front import Front

    sources, targets = list(range(10, 260, 10)), list(range(301, 341))
    it.keep("25", sources)
    it.keep("40", targets)
    wanted = {(source, target): town.cell(source, target) for source in sources for target in targets}
    front = Front(gateway.address)
    lie = (sources[7], targets[11])

    def is_of_cell(path: str) -> bool:
        found = re.search(r"/(route|reach)\?from=(\d+)&(?:to|radius)=(\d+)$", path)
        if not found or int(found[2]) != lie[0] or found[3] == "0":
            return False
        return int(found[3]) == lie[1] if found[1] == "route" else int(found[3]) >= int(wanted[lie])

    def lies(past_caches: bool) -> Callable[..., Any]:
        def wrong(path: str, headers: Any, status: int, more: Any, octets: bytes) -> Any:
            is_lie = is_of_cell(path) and status == 200 and (past_caches or not headers.get("Cache-Control"))
            return (status, more, changed(octets)) if is_lie else None

        return wrong

    for method in ("a cache", "a gateway"):
        front.wrong = lies(method == "a gateway")
        front.seen.clear()
        status, wrote, said = it.run("table.py", front.origin, "25", "40")
        found = cells_of(wrote)
        refused = {pair for pair, cell in found.items() if cell == "refused"}
        same(
            f"{method} that lies: no other cell is wrong",
            {pair for pair, cell in found.items() if cell != wanted[pair]} - refused,
            set(),
        )
        same(f"{method} that lies: cells", len(found), 1000)
        holds(
            f"{method} that lies: asked past the cache",
            any(is_of_cell(path) and cache == "no-cache" for path, cache in front.seen),
        )
        if method == "a cache":
            same("a cache that lies", (status, refused), (0, set()))
        else:
            same("a gateway that lies", (status, refused), (1, {lie}))
            holds("a gateway that lies: it is said", "refused cells: 1;" in said, said)
            it.keep("lied.csv", wrote)
    front.wrong = None
    status, wrote, _ = it.run("table.py", front.origin, "25", "40", "--from", "lied.csv")
    same("what was refused is asked again", (status, cells_of(wrote) == wanted), (0, True))
    front.wrong = lambda path, headers, status, more, octets: (200, more, changed(octets)) if "from=" in path else None
    status, wrote, said = it.run("table.py", front.origin, "25", "40")
    holds(
        "a gateway that always lies",
        status == 1
        and not [cell for cell in cells_of(wrote).values() if cell != "refused"]
        and "Traceback" not in said,
        (status, said),
    )
    it.keep("stations", [18, 200])
    for tool, words in (
        ("stations.py", (START, "stations")),
        ("bands.py", (START, "1000,3000")),
        ("cover.py", ("stations", "3000")),
    ):
        status, wrote, said = it.run(tool, front.origin, *words)
        holds(
            f"{tool}, a gateway that always lies",
            (status, wrote) == (1, "") and "refused BadCover" in said and "Traceback" not in said,
            (status, said),
        )
    play_alone(it, town, front)
    play_guides(it, front, wanted)
    play_gone(it, front)
    front.shutdown()


def play_guides(it: Place, front: Any, wanted: dict[tuple[int, int], str]) -> None:
    """A false publication, or one with false places, changes the queries but no cell."""
    from front import turned_about

    lies: list[Callable[[bytes], bytes]] = [lambda octets: octets[:9], lambda octets: octets[:200], turned_about]
    for lie in lies:
        front.wrong = (
            lambda path, headers, status, more, octets, lie=lie: (status, more, lie(octets))
            if path.endswith("/publication")
            else None
        )
        front.seen.clear()
        status, wrote, _ = it.run("table.py", front.origin, "25", "40")
        same("a false publication", (status, cells_of(wrote) == wanted), (0, True))
        holds("it was read", any(path.endswith("/publication") for path, _ in front.seen))


def of_another(gateway: Any) -> Callable[..., Any]:
    """Passes on the answers of another gateway over its newest publication."""

    from parties import Place as Address

    newest = gateway.newest()

    def wrong(path: str, *_: Any) -> Any:
        if "from=" not in path:
            return None
        status, _headers, octets = Address(gateway.address).ask(f"/v1/p/{newest}/{path.rpartition('/')[2]}")
        return status, [("Content-Type", "application/octet-stream")], octets

    return wrong


def play_others(it: Place, gateway: Any, another: Any) -> None:
    """Valid replies of another publication of the owner: none of them becomes a cell."""
    from front import Front

    front = Front(gateway.address)
    front.wrong = of_another(another)
    it.keep("few", [5, 46, 87])
    status, wrote, said = it.run("table.py", front.origin, "few", "few")
    same("replies of another publication", (status, {*cells_of(wrote).values()}), (1, {"refused"}))
    holds("it is said of them", "refused cells: 9;" in said, said)
    front.shutdown()


@contextlib.contextmanager
def endless(front: Any) -> Iterator[str]:
    """A gateway that does not state the length of an answer, and never ends it."""

    class Answer(http.server.BaseHTTPRequestHandler):
        def do_GET(self) -> None:
            is_query = "from=" in self.path
            self.send_response(200)
            self.end_headers()
            with contextlib.suppress(OSError):
                self.wfile.write(b"" if is_query else front.answer(self.path, self.headers)[2])
                while is_query:
                    self.wfile.write(bytes(65_536))

        def log_message(self, *_: Any) -> None:
            pass

    server = http.server.ThreadingHTTPServer(("127.0.0.1", 0), Answer)
    threading.Thread(target=server.serve_forever, daemon=True).start()
    try:
        yield f"http://127.0.0.1:{server.server_address[1]}"
    finally:
        server.shutdown()
        server.server_close()


def play_alone(it: Place, town: Map, front: Any) -> None:
    """A lie about a target alone costs no cell: the tool asks separately whether no route leads there."""
    it.keep("islands", [*range(301, 341), ISLAND])
    front.wrong = (
        lambda path, headers, status, more, octets: (status, more, changed(octets))
        if path.endswith(f"reach?from={ISLAND}&radius=0")
        else None
    )
    front.seen.clear()
    status, wrote, _ = it.run("table.py", front.origin, "25", "islands")
    same(
        "a lie about a target alone",
        (status, {pair: town.cell(*pair) for pair in cells_of(wrote)}),
        (0, cells_of(wrote)),
    )
    same("all cells are there", len(cells_of(wrote)), 25 * 41)
    holds("it was asked", any(path.endswith(f"from={ISLAND}&radius=0") for path, _ in front.seen))
    by_route = sum("route?" in path for path, _ in front.seen)
    holds("the other cells of a row stand", by_route < 100, by_route)


def play_gone(it: Place, front: Any) -> None:
    """A publication that is withdrawn, an owner with another key, too long answers, and a server that asks to wait."""
    gone = json.dumps({"detail": "This publication is no longer served."}).encode()
    count = [0]

    def after_a_while(path: str, headers: Any, status: int, more: Any, octets: bytes) -> Any:
        count[0] += "from=" in path
        return (
            (410, [("Content-Type", "application/problem+json")], gone) if count[0] > 12 and "from=" in path else None
        )

    front.wrong = after_a_while
    status, wrote, said = it.run("table.py", front.origin, "25", "40")
    holds(
        "a publication that goes",
        status == 1 and "no longer served; start again" in said and "Traceback" not in said,
        (status, said),
    )
    front.wrong = None
    it.keep("other.key", "0000000500000004" + "11" * 48)
    done = subprocess.run(
        [sys.executable, TOOLS / "table.py", front.origin, "other.key", "25", "40"],
        cwd=it.at,
        capture_output=True,
        text=True,
        check=False,
    )
    holds(
        "another key", (done.returncode, done.stdout) == (1, "") and "refused BadSignature" in done.stderr, done.stderr
    )
    status, wrote, said = it.run("table.py", front.origin, "25", "40", "--most", "4000")
    holds(
        "too much", status == 1 and "but at most 4,000 are allowed" in said and "Traceback" not in said, (status, said)
    )
    with endless(front) as origin:
        status, wrote, said = it.run("table.py", origin, "25", "40", "--most", "100K")
        holds(
            "an answer without an end", (status, wrote) == (1, "") and "more than the allowed" in said, (status, said)
        )
    waits = json.dumps({"detail": "This address asks too often."}).encode()

    def often(path: str, *_: Any) -> Any:
        count[0] += 1
        return (429, [("Retry-After", "0")], waits) if "from=" in path and count[0] % 3 else None

    front.wrong = often
    same("a server that asks to wait", it.run("table.py", front.origin, "25", "40")[0], 0)
    front.wrong = lambda path, *_: (429, [("Retry-After", "5")], waits) if "from=" in path else None
    status, _, said = it.run("table.py", front.origin, "25", "40", "--patience", "2")
    holds(
        "a server that asks to wait for too long",
        status == 1 and "status 429: This address asks too often." in said,
        said,
    )
    front.wrong = None


def play_stations(it: Place, town: Map, gateway: Any) -> None:
    names = {18: "North", 200: "South, by the bridge", 30: "East", 77: "West", 250: "Mill", ISLAND: "Island"}
    it.keep("stations", [f"{node} {name}" for node, name in names.items()])
    lengths = town.lengths(START)
    order = sorted((lengths[node], node) for node in names if node in lengths)
    for count in (1, 3, 9):
        status, wrote, said = it.run("stations.py", gateway.address, START, "stations", "--count", count)
        found = features_of(wrote)
        told = [(one["properties"]["length"], one["properties"]["station"]) for one in found]
        same(f"the nearest {count}", (status, told), (0, order[:count]))
        same(
            f"the nearest {count}: names",
            [one["properties"]["name"] for one in found],
            [names[node] for _, node in order[:count]],
        )
        holds(f"the nearest {count}: directions", ROADS in wrote and ROADS in said, said)
        for one in found:
            ways = one["properties"]["nodes"]
            same(
                "a way's length",
                sum(town.graph[a][b]["length"] for a, b in zip(ways, ways[1:])),
                one["properties"]["length"],
            )
            same(
                "a way's line",
                one["geometry"]["coordinates"],
                [[x / 1e7, y / 1e7] for x, y in map(town.places.__getitem__, ways)],
            )
            same("a way's ends", (ways[0], ways[-1]), (START, one["properties"]["station"]))
        holds(f"the nearest {count}: others", ("no other is joined to it" in said) == (count == 9), said)
    it.keep("two", [18, 200])
    said = it.run("stations.py", gateway.address, START, "two", "--count", 9)[2]
    holds("all stations of a list", "2 of 2 stations" in said and "no other" not in said, said)
    it.keep("islands", [f"{node}" for node in sorted(set(town.graph) - set(lengths))[:4]])
    status, wrote, said = it.run("stations.py", gateway.address, START, "islands")
    one = features_of(wrote)[0]
    same(
        "no station is joined",
        (status, one["properties"]["answer"], one["geometry"], len(one["properties"]["no route to"])),
        (0, "no station is joined to it", None, 4),
    )
    it.keep("islands", [f"{ISLAND}", f"{NOBODY}"])
    one = features_of(it.run("stations.py", gateway.address, START, "islands")[1])[0]
    same(
        "no station is joined, one is no node",
        (one["properties"]["no route to"], one["properties"]["no node, by the server"]),
        ([ISLAND], [NOBODY]),
    )
    holds("it is said", "the server's word and not proved" in one["properties"]["answer"], one)
    for text, wanted in (
        ("18 a\n18 b\n", "twice: line 2: node 18 occurs twice"),
        ("18\nx9\n", "twice: line 2: 'x9' is not the id of a node"),
        ("4294967296\n", "twice: line 1"),
        ("#\n", "twice: it lists no node"),
    ):
        it.keep("twice", text)
        for tool, words in (
            ("stations.py", (START, "twice")),
            ("cover.py", ("twice", 100)),
            ("table.py", ("twice", "twice")),
        ):
            status, wrote, said = it.run(tool, gateway.address, *words)
            holds(f"{tool}, {text!r}", (status, wrote) == (1, "") and wanted in said, (status, said))
    status, wrote, said = it.run("stations.py", gateway.address, NOBODY, "stations")
    holds("a start that is no node", (status, wrote) == (1, "") and "without proof" in said, said)


def flat(a: tuple[float, float], b: tuple[float, float], narrow: float) -> float:
    return math.hypot((a[0] - b[0]) * narrow, a[1] - b[1])


def long(line: list[Any], narrow: float) -> float:
    return sum(flat(a, b, narrow) for a, b in zip(line, line[1:]))


def covered(costs: dict[int, int], a: int, b: int, length: int, limit: int) -> float:
    """The part of a road whose cost is within a limit."""
    return min(length, sum(max(0, limit - costs[end]) for end in (a, b) if end in costs))


def wanted_long(town: Map, costs: dict[int, int], limit: int, narrow: float) -> float:
    """The length, in degrees, of the drawing of all parts within a limit."""
    return sum(
        flat(town.places[a], town.places[b], narrow)
        / 1e7
        * (covered(costs, a, b, length, limit) / length if length else 1)
        for a, b, length in town.roads()
        if min(costs.get(a, math.inf), costs.get(b, math.inf)) <= limit
    )


def play_bands(it: Place, town: Map, gateway: Any) -> None:
    from outline import is_inside

    costs = town.lengths(START)
    bounds = (1000, 3000, 5500)
    status, wrote, said = it.run("bands.py", gateway.address, START, ",".join(map(str, bounds)))
    found = features_of(wrote)
    same("bands", (status, [one["geometry"]["type"] for one in found]), (0, ["MultiLineString", "MultiPolygon"] * 3))
    narrow = math.cos(math.radians(town.places[START][1] / 1e7))
    lines: list[Any] = []
    for at, bound in enumerate(bounds):
        roads, around = found[2 * at], found[2 * at + 1]
        lines += roads["geometry"]["coordinates"]
        same(
            f"band {bound}",
            (
                roads["properties"]["cost"],
                roads["properties"]["version"],
                roads["properties"]["unit"],
                roads["properties"]["roads"],
                around["properties"]["cost"],
            ),
            (bound, int(gateway.info()[0]["version"]), "decimetres", ROADS, bound),
        )
        same(f"band {bound}: nodes", roads["properties"]["nodes"], sum(cost <= bound for cost in costs.values()))
        seen, wanted = sum(long(line, narrow) for line in lines), wanted_long(town, costs, bound, narrow)
        holds(f"band {bound}: reached roads", abs(seen - wanted) < 1e-6 * wanted, (seen, wanted))
        rings = around["geometry"]["coordinates"]
        inside = [
            sum(is_inside(point, ring) for polygon in rings for ring in polygon) % 2 == 1
            for line in lines
            for point in line
        ]
        holds(f"band {bound}: the outline is around them", all(inside) and inside, inside.count(False))
        far = [
            node
            for node, place in town.places.items()
            if min(flat((place[0] / 1e7, place[1] / 1e7), point, narrow) for line in lines for point in line) > 0.004
        ]
        same(
            f"band {bound}: what is far is outside",
            [
                node
                for node in far
                if any(
                    is_inside((town.places[node][0] / 1e7, town.places[node][1] / 1e7), polygon[0]) for polygon in rings
                )
            ],
            [],
        )
        same(
            f"band {bound}: rings are closed",
            [ring[0] == ring[-1] for polygon in rings for ring in polygon if ring[0] != ring[-1]],
            [],
        )
    each_piece(town, costs, found, bounds)
    most = len(it.owner.reach("ldm-3.pub", START, 5500))
    status, wrote, said = it.run("bands.py", gateway.address, START, "5500", "--most", most)
    listed = [one["properties"] for one in features_of(wrote) if "lacks" in one["properties"]]
    leaving = sorted(
        (a, b) if a in within else (b, a)
        for within in [{node for node, cost in costs.items() if cost <= 5500}]
        for a, b, _ in town.roads()
        if (a in within) != (b in within)
    )
    same("what lacks its end is listed", (status, sorted(tuple(one["road"]) for one in listed)), (0, leaving))
    holds("it is told", f"{len(leaving)} roads are listed without their other end" in said, said)
    for start, ends, told in (
        (NOBODY, "100", "without proof"),
        (START, "300,200", "costs must rise"),
        ("x", "3", "is not the id of a node"),
    ):
        status, wrote, said = it.run("bands.py", gateway.address, start, ends)
        holds(f"bands {start} {ends}", status in (1, 2) and wrote == "" and told in said, (status, said))


def each_piece(town: Map, costs: dict[int, int], found: list[dict[str, Any]], bounds: tuple[int, ...]) -> None:
    """Each cut is at the point where the cost of its road reaches the end of the band."""
    places = {place: node for node, place in town.places.items()}
    wrong = 0
    for at, bound in enumerate(bounds):
        for line in found[2 * at]["geometry"]["coordinates"]:
            for x, y in (line[0], line[-1]):
                node = places.get((round(x * 1e7), round(y * 1e7)))
                if (
                    node is not None
                    and abs(x * 1e7 - town.places[node][0]) < 1e-3
                    and costs.get(node, math.inf) > bound + 1
                ):
                    wrong += 1
    same("no piece ends at a node that costs more", wrong, 0)


def play_cover(it: Place, town: Map, gateway: Any, program: str) -> None:
    from front import Front

    stations, limit = [18, 200, 250, ISLAND], 2500
    it.keep("four", [f"{node} station {node}" for node in stations])
    near = {
        node: min((town.lengths(one)[node], one) for one in stations if town.lengths(one).get(node, math.inf) <= limit)
        for node in town.graph
        if any(town.lengths(one).get(node, math.inf) <= limit for one in stations)
    }
    costs = {node: cost for node, (cost, _) in near.items()}
    wanted: float = sum(
        covered(costs, a, b, length, limit) for a, b, length in town.roads() if a in costs or b in costs
    )
    whole, left = sum(length for _, _, length in town.roads()), sorted(set(town.graph) - set(near))
    proofs: list[tuple[tuple[str, ...], str]] = [
        ((), "not proved: from the publication as the server sent it"),
        (("--recompute", program), "its signed root was recomputed"),
    ]
    for words, source in proofs:
        status, wrote, said = it.run("cover.py", gateway.address, "four", limit, *words)
        head = json.loads(wrote)["cover"]
        same(
            "cover: counts",
            (status, head["nodes"], head["reached"], head["reached by none"]),
            (0, len(town.graph), len(near), len(left)),
        )
        same("cover: the covered length", head["covered length"], wanted)
        same(
            "cover: what comes from the publication",
            (head["whole length"], head["unreached nodes"], head["of the whole length and these nodes"]),
            (whole, left, source),
        )
        holds("cover: directions", head["roads"] == ROADS, head)
        points = {
            one["properties"]["node"]: (one["properties"]["distance"], one["properties"]["station"])
            for one in features_of(wrote)
            if "station" in one["properties"]
        }
        same(
            "cover: the nearest station of each",
            {node for node in {*points, *near} if points.get(node) != near.get(node)},
            set(),
        )
        parts = {
            frozenset(one["properties"]["road"]): one["properties"]["covered"]
            for one in features_of(wrote)
            if "covered" in one["properties"]
        }
        same(
            "cover: of each road",
            {
                tuple(pair)
                for pair, part in parts.items()
                if part != covered(costs, min(pair), max(pair), town.graph.edges[tuple(pair)]["length"], limit)
            },
            set(),
        )
        narrow = math.cos(math.radians(town.places[18][1] / 1e7))
        seen = sum(
            long(line, narrow)
            for one in features_of(wrote)
            if "covered" in one["properties"]
            for line in one["geometry"]["coordinates"]
        )
        holds("cover: the drawing", abs(seen - wanted_long(town, costs, limit, narrow)) < 1e-6 * seen, seen)
    front = Front(gateway.address)
    front.wrong = (
        lambda path, _headers, status, more, octets: (status, more, octets[:-1] + bytes([octets[-1] ^ 1]))
        if path.endswith("/publication")
        else None
    )
    status, wrote, said = it.run("cover.py", front.origin, "four", limit, "--recompute", program)
    holds(
        "a publication that is another map",
        (status, wrote) == (1, "") and "not the map whose root was signed" in said,
        (status, said),
    )
    front.shutdown()
    it.keep("four", [*map(str, stations), str(NOBODY)])
    holds("a station that is no node", "without proof" in it.run("cover.py", gateway.address, "four", limit)[2])


def play_limits(it: Place, gateway: Any) -> None:
    """The open requests of a tool, also with a gateway that limits the requests and octets of an address."""
    from gogbetiku.gateway import Room

    room, held, most, lock = Room(1000), [0], [0], threading.Lock()

    def take() -> None:
        for octets in (300, 700, 50, 1000, 5000):
            with room.held(octets):
                with lock:
                    held[0] += octets
                    most[0] = max(most[0], held[0] if octets <= 1000 else 0)
                time.sleep(0.001)
                with lock:
                    held[0] -= octets

    threads = [threading.Thread(target=take) for _ in range(8)]
    for one in threads:
        one.start()
    for one in threads:
        one.join(20)
    holds("no more is held than there is room", 700 <= most[0] <= 1000 and held == [0], (most, held))
    from gogbetiku.gateway import Gateway, NoAnswer

    asker = Gateway(gateway.address, patience=0.5)
    said: list[object] = []
    for radius in 5 * [2**64 - 1]:
        try:
            with asker.asked(f"/v1/p/{gateway.newest()}/reach?from={START}&radius={radius}") as octets:
                said.append(len(octets))
        except NoAnswer as error:
            said.append(str(error))
    holds("octets by address", isinstance(said[0], int) and "octets" in str(said[-1]) and "429" in str(said[-1]), said)


def play_words(it: Place) -> None:
    """The statement on directions in each document and tool for planners."""
    for name in ("README.md", "docs/MAPS.md", "docs/WALKTHROUGH.md", "docs/LIBRARY.md", "web/page/index.html"):
        text = re.sub(r"\s+", " ", (TOP / name).read_text(encoding="utf-8"))
        holds(f"{name}: directions", re.search("both ways alike[;:] no one-way streets, no turns", text))
    for tool in ("table.py", "stations.py", "bands.py", "cover.py"):
        done = subprocess.run([sys.executable, TOOLS / tool, "--help"], capture_output=True, text=True, check=False)
        holds(f"{tool}: directions", ROADS in re.sub(r"\s+", " ", done.stdout), done.stdout[-200:])


def lacking() -> str | None:
    names = ("networkx", "h11")
    missing = next((name for name in names if not importlib.util.find_spec(name)), None)
    return missing or (None if LIBRARY.exists() else f"{LIBRARY.name} (bindings/build)")


def main() -> int:
    lack = lacking()
    if lack:
        print(f"skipped: what planners ask, since this machine has no {lack}")
        return 0
    from parties import METHODS, Gateway, Owner
    from planners_javascript import play_javascript, play_wrong_javascript

    program, began = os.path.abspath(sys.argv[1]), time.monotonic()
    if sys.argv[2:] == ["--bars"]:
        from planners_bars import bars

        return int(bars(program))
    text = subprocess.run([TOOLS / "town.py", "--roads"], capture_output=True, check=True).stdout
    owner, town = Owner(program, text), Map(text.decode())
    gateways: dict[str, Any] = {}
    try:
        for version, method in enumerate(METHODS, 1):
            gateways[method] = Gateway(owner, owner.publish(version, method))
        at = owner.folder / "planner"
        at.mkdir()
        it = Place(owner, at)
        parts: list[Callable[[], None]] = [
            lambda: play_tables(it, town, gateways),
            lambda: play_lies(it, town, gateways["ldm"]),
            lambda: play_others(it, gateways["ldm"], gateways["hyp"]),
            lambda: play_stations(it, town, gateways["full"]),
            lambda: play_bands(it, town, gateways["ldm"]),
            lambda: play_cover(it, town, gateways["ldm"], program),
            lambda: play_javascript(it, town, gateways),
            lambda: play_wrong_javascript(it, town, gateways["ldm"], gateways["hyp"]),
            lambda: play_words(it),
        ]
        for part in parts:
            part()
            print(
                f"planners: {LOOKS.played} compared, {len(LOOKS.faults)} differ, {time.monotonic() - began:.0f} s",
                flush=True,
            )
        limited = Gateway(owner, "ldm-3.pub", "--octets-per-second", "20K", "--burst-octets", "100K")
        gateways["limited"] = limited
        play_limits(it, limited)
    finally:
        for gateway in gateways.values():
            gateway.end()
        owner.held.cleanup()
    for fault in LOOKS.faults[:30]:
        print(f"DIFFERS {fault}")
    spent = resource.getrusage(resource.RUSAGE_CHILDREN)
    print(
        f"planners: {LOOKS.played} compared, {len(LOOKS.faults)} differ; {time.monotonic() - began:.0f} s, {spent.ru_utime + spent.ru_stime:.0f} s of processors"
    )
    return 1 if LOOKS.faults else 0


if __name__ == "__main__":
    sys.exit(main())
