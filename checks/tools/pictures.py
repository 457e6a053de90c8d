#!/usr/bin/env python3
"""Plays tools/draw.py over changed maps: checks/tools/pictures.py PROGRAM

PROGRAM publishes the made-up town and answers queries. Then the publication, from which the picture takes its grey
parts, is changed. A changed place, road or length of a leaf in the reply must be refused. A change outside these leaves
must not change a line that is drawn as proved. Bends between nodes must be drawn if they fit, with a note that they are
not proved. Ends with status 1 if anything differs. No client trusts this file.
"""
from __future__ import annotations

import json
import pathlib
import struct
import subprocess
import sys
import tempfile
import xml.etree.ElementTree as ElementTree
from typing import Callable

TOP = pathlib.Path(__file__).resolve().parents[2]
TOOLS = TOP / "tools"
LIBRARY = TOP / "crates/route_check_c/out/libgogbetiku.so.0"
sys.path[:0] = [str(TOOLS), str(TOP / "checks")]

from common import layout  # noqa: E402
from common.looks import Looks  # noqa: E402
from draw import BLUE, DARK, GREY, HOLLOW, ORANGE  # noqa: E402
from replies import reply_of  # noqa: E402
from roads import Roads, read_roads  # noqa: E402

START, END, ISLAND = 346, 18, 441
SPACE = "{http://www.w3.org/2000/svg}"
LOOKS = Looks(300)
same = LOOKS.same

Node = tuple[int, int, int]
Road = tuple[int, int, int]
Change = Callable[[list[Node], list[Road]], tuple[list[Node], list[Road]]]


def _three(form: str, octets: bytes, at: int) -> tuple[int, int, int]:
    one, two, three = struct.unpack_from(form, octets, at)
    return one, two, three


def changed(octets: bytes, change: Change) -> bytes:
    """A publication with other nodes and roads after the same header and signature."""
    at = layout.behind(octets, layout.IN_PUBLICATION) + layout.SETTINGS
    count = int.from_bytes(octets[at : at + 4], "big")
    nodes: list[Node] = [_three(">Iii", octets, at + 4 + 12 * row) for row in range(count)]
    behind = at + 4 + 12 * count
    roads: list[Road] = [
        _three(">III", octets, behind + 4 + 12 * row)
        for row in range(int.from_bytes(octets[behind : behind + 4], "big"))
    ]
    fresh_nodes, fresh_roads = change(nodes, roads)
    parts = [octets[:at], struct.pack(">I", len(fresh_nodes)), *(struct.pack(">Iii", *node) for node in fresh_nodes)]
    return b"".join(
        [*parts, struct.pack(">I", len(fresh_roads)), *(struct.pack(">III", *road) for road in fresh_roads)]
    )


class Scene:
    """A folder with the town's publication, and replies over it."""

    def __init__(self, program: str, at: pathlib.Path, method: str, numbers: str):
        self.program, self.at = program, at
        (at / "town.roads").write_bytes(
            subprocess.run([TOOLS / "town.py", "--roads"], capture_output=True, check=True).stdout
        )
        (at / "secret.hex").write_text("00" * 48)
        self.keep("owner.key", "key secret.hex h5")
        self.keep("town.pub", f"publish town.roads {method} 1 {numbers}")
        self.keep("route.reply", f"prove town.pub {START} {END}")
        self.keep("none.reply", f"prove town.pub {START} {ISLAND}")
        self.keep("near.reply", f"reach town.pub {START} 10000")
        self.chart: Roads = read_roads(str(at / "town.roads"))
        self.route = reply_of((at / "route.reply").read_bytes(), "route.reply")

    def keep(self, name: str, words: str) -> None:
        (self.at / name).write_bytes(
            subprocess.run([self.program, *words.split()], cwd=self.at, capture_output=True, check=False).stdout
        )

    def change(self, change: Change) -> None:
        """Writes changed.pub."""
        (self.at / "changed.pub").write_bytes(changed((self.at / "town.pub").read_bytes(), change))

    def drawn(self, public: str, reply: str = "route.reply", end: int = END, *more: str) -> tuple[int, str, str]:
        words = [public, reply, "--check", "owner.key", str(START), str(end), "1", "--library", str(LIBRARY), *more]
        done = subprocess.run([TOOLS / "draw.py", *words], cwd=self.at, capture_output=True, text=True, check=False)
        return done.returncode, done.stdout, done.stderr

    def paths(self, public: str) -> dict[str, list[str]]:
        """The paths of a picture of the route by their colours."""
        status, text, told = self.drawn(public)
        same(f"{public}: a picture", (status, told), (0, ""))
        found: dict[str, list[str]] = {}
        for path in ElementTree.fromstring(text or "<svg/>").iter(f"{SPACE}path"):
            found.setdefault(path.get("stroke", ""), []).append(path.get("d", ""))
        return found


def played_changes(scene: Scene) -> None:
    """The picture of an accepted reply with a changed publication."""
    leaf, far = scene.route.route[len(scene.route.route) // 2], next(
        node for node in sorted(scene.chart.nodes) if node not in scene.route.places
    )
    beside = next(iter(scene.route.arcs[leaf]))

    def moved(node: int) -> Change:
        return lambda nodes, roads: ([(id, x, y + 20_000 * (id == node)) for id, x, y in nodes], roads)

    def longer(by: int) -> Change:
        return lambda nodes, roads: (
            nodes,
            [(a, b, length + by * ({a, b} == {leaf, beside})) for a, b, length in roads],
        )

    refused: list[tuple[str, Change, str]] = [
        ("a leaf at another place", moved(leaf), f"it has node {leaf} at "),
        (
            "a leaf that is not there",
            lambda nodes, roads: ([node for node in nodes if node[0] != leaf], roads),
            f"it has node {leaf} at no place",
        ),
        ("a road of another length", longer(1), "a road of length "),
        (
            "a road that is not there",
            lambda nodes, roads: (nodes, [road for road in roads if {*road[:2]} != {leaf, beside}]),
            "is in the reply's leaf",
        ),
        (
            "a road more",
            lambda nodes, roads: (nodes, [*roads, (leaf, far, 5)]),
            f"between the nodes {leaf} and {far} is in this map alone",
        ),
    ]
    for what, change, words in refused:
        scene.change(change)
        status, text, told = scene.drawn("changed.pub")
        same(f"{what}: no picture", (status, text, words in told, told.count("\n")), (1, "", True, 1))
    honest = scene.paths("town.pub")
    scene.change(moved(far))
    other = scene.paths("changed.pub")
    same(
        "what no leaf says: the proved lines stay",
        [other.get(colour) for colour in (BLUE, ORANGE, DARK)],
        [honest.get(colour) for colour in (BLUE, ORANGE, DARK)],
    )
    same(
        "what no leaf says: it is said", "grey: the rest of the map, not proved" in scene.drawn("changed.pub")[1], True
    )
    count = len(scene.chart.nodes)
    scene.change(lambda nodes, roads: ([*nodes, (10 * count, 0, 0)], roads))
    same("a node more: how many there are is the header's", f" of {count} nodes" in scene.drawn("changed.pub")[1], True)
    for reply, end, more in (("none.reply", ISLAND, ()), ("near.reply", 10_000, ("--reach",))):
        scene.change(moved(START))
        same(f"{reply}: the start elsewhere", scene.drawn("changed.pub", reply, end, *more)[:2], (1, ""))
        same(f"{reply}: an honest map", scene.drawn("town.pub", reply, end, *more)[0], 0)


def played_bends(scene: Scene) -> None:
    """A shape is drawn if it fits; otherwise the straight line is drawn."""
    a, b = sorted(scene.route.route[3:5])
    (x, y), (u, v) = scene.chart.nodes[a], scene.chart.nodes[b]
    straight = scene.paths("town.pub")[DARK]
    for what, points, fits in (
        ("the straight line in two", [[x, y], [(x + u) // 2, (y + v) // 2], [u, v]], True),
        ("a line that is longer than the road", [[x, y], [x + 3_000, y + 30_000], [u, v]], False),
        ("a line of another place", [[x + 1, y], [(x + u) // 2, (y + v) // 2], [u, v]], False),
    ):
        (scene.at / "bends").write_text(json.dumps({"shapes": 1, "lines": {f"{a} {b}": points}}))
        status, text, told = scene.drawn("town.pub", "route.reply", END, "--shapes", "bends")
        same(f"{what}: a picture", (status, told, "bends between nodes: not proved" in text), (0, "", True))
        dark = [
            path.get("d", "")
            for path in ElementTree.fromstring(text or "<svg/>").iter(f"{SPACE}path")
            if path.get("stroke") == DARK
        ]
        same(
            what,
            [path.count("L") for path in dark],
            [path.count("L") + (fits and at == 0) for at, path in enumerate(straight)],
        )
    played_push(scene)
    for bad in (
        "{",
        "[]",
        '{"shapes": 2, "lines": {}}',
        '{"shapes": 1, "lines": {"2 1": [[0, 0], [1, 1]]}}',
        '{"shapes": 1, "lines": {"1 2": [[0, 0], [1, 0.5]]}}',
    ):
        (scene.at / "bends").write_text(bad)
        status, text, told = scene.drawn("town.pub", "route.reply", END, "--shapes", "bends")
        same(f"no shapes: {bad}", (status, text, told[:15]), (1, "", "draw.py: bends:"))


def played_push(scene: Scene) -> None:
    """One-way streets of the file are hollow in both directions of the route, and listed with their length."""
    route = scene.route.route
    hops = [(route[1], route[2]), (route[4], route[5])]
    names = [f"{min(hop)} {max(hop)}" for hop in hops]
    elsewhere = next(f"{a} {b}" for a, b, _ in scene.chart.roads if a < b and not {a, b} <= {*route})
    far = sum(min(length for a, b, length in scene.chart.roads if {a, b} == {*hop}) for hop in hops)
    for push, wanted in ((names, [2, 2]), ([elsewhere], []), ([], [])):
        (scene.at / "bends").write_text(json.dumps({"shapes": 1, "push": push, "lines": {}}))
        _, text, told = scene.drawn("town.pub", "route.reply", END, "--shapes", "bends")
        hollow = [
            path.get("d", "")
            for path in ElementTree.fromstring(text or "<svg/>").iter(f"{SPACE}path")
            if path.get("stroke") == HOLLOW
        ]
        points = [piece.count(" ") for path in hollow for piece in path.replace(" M", "|M").split("|")]
        same(f"push {push}: hollow roads, each of two points", (told, points), ("", wanted))
        line = f"push (hollow): {far:,} decimetres of one-way streets, not proved"
        same(f"push {push}: it is told", (line in text, "push" in text), (bool(wanted), bool(wanted)))


def main() -> int:
    if len(sys.argv) != 2:
        sys.exit(__doc__.split("\n", 1)[0])
    if not LIBRARY.exists():
        print("skipped: checks/tools/pictures.py, since bindings/build has not made the library")
        return 0
    program = str(pathlib.Path(sys.argv[1]).resolve())
    for method, numbers in (("hyp", "hilbert 0 2 4 4 0"), ("dij", "hilbert 0 2 0 0 0")):
        with tempfile.TemporaryDirectory() as folder:
            scene = Scene(program, pathlib.Path(folder), method, numbers)
            same(
                "the layers",
                sorted(scene.paths("town.pub")),
                sorted({GREY, ORANGE, DARK, "#b0b0b0", *([BLUE] if method == "hyp" else [])}),
            )
            played_changes(scene)
            played_bends(scene)
    return LOOKS.told("pictures")


if __name__ == "__main__":
    sys.exit(main())
