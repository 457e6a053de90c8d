#!/usr/bin/env python3
"""Plays the tools that make maps, in one process: checks/tools/maps.py

The inputs are extracts of a few nodes on the equator, and a made-up town of one-way streets. The expected roads,
reasons and refusals are written by hand, or come from a plain search in this script. Parts whose package is missing are
skipped by name. checks/tools/play.py plays the tools as programs. Ends with status 1 if anything differs. No client
trusts this file.
"""
import argparse
import contextlib
import gzip
import io
import json
import pathlib
import random
import shutil
import subprocess
import sys
import tempfile
import time
from collections.abc import Callable, Iterable, Sequence
from itertools import pairwise
from typing import Any
from unittest import mock

TOP = pathlib.Path(__file__).resolve().parents[2]
sys.path[:0] = [str(TOP / "tools"), str(TOP / "checks/tools"), str(TOP / "checks")]

import bends  # noqa: E402
import dimacs_cut  # noqa: E402
import geojson  # noqa: E402
import geojson_roads  # noqa: E402
import nearest  # noqa: E402
import network  # noqa: E402
import osm  # noqa: E402
import osm_roads  # noqa: E402
import roads  # noqa: E402
from common.looks import Looks  # noqa: E402
from play import LINE, STREET, Nodes, Ways, dm, extract, made  # noqa: E402
from proved import Accepted  # noqa: E402
from replies import ROUTE, Reply  # noqa: E402

ONE_WAY = {**STREET, "oneway": "yes"}
LOOKS = Looks()
same = LOOKS.same


def run(tool: object, *words: object) -> tuple[int, str, str]:
    """A tool's status, and its standard output and standard error."""
    out, err, status = io.TextIOWrapper(io.BytesIO(), encoding="utf-8"), io.StringIO(), 0
    with mock.patch.object(sys, "argv", ["tool", *map(str, words)]), contextlib.redirect_stdout(
        out
    ), contextlib.redirect_stderr(err):
        try:
            roads.end_of(tool.TOOL, tool.main)  # type: ignore[attr-defined]
        except SystemExit as end:
            status = end.code if isinstance(end.code, int) else 1
            err.write("" if isinstance(end.code, int) else f"{end.code}\n")
    out.seek(0)
    return status, out.read(), err.getvalue()


def roads_of(at: pathlib.Path, nodes: Nodes, ways: Ways, *words: object) -> tuple[list[str], list[str]]:
    """The roads of an extract, and the messages without the counts of nodes and parts."""
    (at / "made.osm").write_text(extract(nodes, ways))
    status, wrote, told = run(osm_roads, at / "made.osm", *words)
    same(f"status of {words}", status, 0)
    return made(wrote)[1], [line.split(": ", 1)[1] for line in told.splitlines()[2:]]


def pushed(at: pathlib.Path) -> list[str]:
    found: list[str] = json.loads((at / "made.shapes").read_text()).get("push", [])
    return found


def play_cycles(at: pathlib.Path) -> None:
    words = ("--profile", "cycle", "--shapes", at / "made.shapes")
    found, told = roads_of(
        at, LINE, {1: ([1, 2], STREET), 2: ([2, 3, 4, 2], {**STREET, "junction": "roundabout"})}, *words
    )
    same(
        "a roundabout is gone both ways",
        (found[:1], len(found), "one-way ways taken both ways, roundabouts: 1 (first way 2)" in told, pushed(at)),
        ([f"1 2 {dm(1)}"], 4, True, []),
    )
    found, told = roads_of(at, LINE, {1: ([1, 2, 3], STREET), 2: ([1, 5, 3], ONE_WAY)}, *words)
    same(
        "a one-way way beside another",
        (found, told, pushed(at)),
        ([f"1 2 {dm(2)}"], ["pieces of one-way ways dropped: 1 (first way 2)"], []),
    )
    push = "pieces of one-way ways taken both ways, to be pushed along against their direction: 1 (first way 2)"
    found, told = roads_of(at, LINE, {1: ([1, 2], STREET), 2: ([2, 3], ONE_WAY), 3: ([3, 4], STREET)}, *words)
    same(
        "a one-way way that alone joins two parts",
        (found, told, pushed(at)),
        ([f"1 2 {dm(1)}", f"2 3 {dm(1)}", f"3 4 {dm(1)}"], [push], ["2 3"]),
    )
    found, told = roads_of(
        at, LINE, {1: ([1, 2], STREET), 2: ([2, 4], ONE_WAY), 3: ([2, 5, 4], ONE_WAY), 4: ([4, 3], STREET)}, *words
    )
    same("the shorter of two", (found, pushed(at)), ([f"1 2 {dm(1)}", f"2 4 {dm(2)}", f"3 4 {dm(1)}"], ["2 4"]))
    same(
        "oneway:bicycle",
        roads_of(at, LINE, {1: ([1, 2, 3], STREET), 2: ([1, 5, 3], {**STREET, "oneway:bicycle": "yes"})}, *words)[0],
        [f"1 2 {dm(2)}"],
    )
    play_pairs(at, words)


def play_pairs(at: pathlib.Path, words: Sequence[object]) -> None:
    """In a town with half its streets one-way, no pair loses its route, and no piece is pushed if other ways join its ends."""
    draw, side = random.Random(7), 14
    nodes: Nodes = {1 + x + side * y: (x + draw.random() / 4) for y in range(side) for x in range(side)}
    ends = [
        (node, there)
        for node in nodes
        for there in (node + 1, node + side)
        if there in nodes and (there != node + 1 or node % side)
    ]
    ends = [pair for pair in ends if draw.random() < 0.7]
    tags = {pair: draw.choice((STREET, ONE_WAY)) for pair in ends}
    found, _ = roads_of(at, nodes, {number: (list(pair), tags[pair]) for number, pair in enumerate(ends, 1)}, *words)
    keys = sorted({node for pair in ends for node in pair})
    named = [sorted((keys[int(a) - 1], keys[int(b) - 1])) for a, b, _ in (line.split() for line in found)]
    kept = {(a, b) for a, b in named}
    whole, left = reached(ends), reached(kept)
    pairs = [tuple(draw.sample(keys, 2)) for _ in range(300)]
    same(
        "of 300 pairs none loses its route",
        [pair for pair in pairs if whole[pair[0]] == whole[pair[1]] and left[pair[0]] != left[pair[1]]],
        [],
    )
    against = {(keys[int(a) - 1], keys[int(b) - 1]) for a, b in map(str.split, pushed(at))}
    same("the pieces to be pushed", against, {pair for pair in kept if tags[pair] is ONE_WAY})
    same(
        "each of them is needed",
        [
            pair
            for pair in against
            if len(set(reached(kept - {pair}).values())) == len(set(left.values()))
            and reached(kept - {pair}).keys() == left.keys()
        ],
        [],
    )


def reached(pairs: Iterable[tuple[int, int]]) -> dict[int, int]:
    """For each node the least node that it reaches."""
    beside: dict[int, set[int]] = {}
    for a, b in pairs:
        beside.setdefault(a, set()).add(b)
        beside.setdefault(b, set()).add(a)
    found: dict[int, int] = {}
    for first in sorted(beside):
        front = [first] if first not in found else []
        while front:
            node = front.pop()
            if node not in found:
                found[node] = first
                front.extend(beside[node])
    return found


# extracts with a street and one other way or node: profile and flags, the tags, whether it is taken, and the message
FERRY = {"route": "ferry", "foot": "yes"}
TAGS = {
    "a ferry": (("walk",), FERRY, False, "ways dropped, route=ferry, since --ferries is not asked: 1 (first way 2)"),
    "a ferry that is asked for": (
        ("walk", "--ferries"),
        FERRY,
        True,
        "ferries taken, whose timetable no road file has: 1 (first way 2)",
    ),
    "a ferry for people on foot": (
        ("cycle", "--ferries"),
        FERRY,
        False,
        "ways dropped, route=ferry, not tagged as open to bicycle: 1 (first way 2)",
    ),
    "a road for motors": (
        ("walk",),
        {**STREET, "motorroad": "yes"},
        False,
        "ways dropped, motorroad=yes: 1 (first way 2)",
    ),
    "a road for motors, open": (("walk",), {**STREET, "motorroad": "yes", "foot": "yes"}, True, None),
    "a road for fire engines": (("fire",), {**STREET, "motorroad": "yes"}, True, None),
    "a path beside it": (
        ("walk",),
        {**STREET, "foot": "use_sidepath"},
        False,
        "ways dropped, foot=use_sidepath: 1 (first way 2)",
    ),
    "a farmer's track": (
        ("walk",),
        {"highway": "track", "access": "agricultural"},
        False,
        "ways dropped, access=agricultural: 1 (first way 2)",
    ),
    "a forester's track": (
        ("cycle",),
        {"highway": "track", "access": "forestry"},
        False,
        "ways dropped, access=forestry: 1 (first way 2)",
    ),
    "a farmer's track, open": (("walk",), {"highway": "track", "access": "agricultural", "foot": "yes"}, True, None),
    "a farmer's track on fire": (("fire",), {"highway": "track", "access": "agricultural"}, True, None),
    "a word that is not known": (
        ("walk",),
        {**STREET, "foot": "sometimes"},
        True,
        "ways taken, whose foot=sometimes the table of tags does not know: 1 (first way 2)",
    ),
}


def play_tags(at: pathlib.Path) -> None:
    for name, (words, tags, is_taken, line) in TAGS.items():
        found, told = roads_of(at, LINE, {1: ([1, 2], STREET), 2: ([2, 3], tags)}, "--profile", *words)
        same(name, (len(found) == 2, told), (is_taken, [line] if line else []))
    gate = {"barrier": "gate", "access": "private"}
    same(
        "a gate that its access closes",
        roads_of(at, {**LINE, 2: (1, gate)}, {1: ([1, 2, 3], STREET)})[1],
        ["nodes closed, barrier=gate, access=private: 1 (first node 2)"],
    )
    same(
        "a node that its access closes",
        roads_of(at, {**LINE, 2: (1, {"foot": "no"})}, {1: ([1, 2, 3], STREET)})[1],
        ["nodes closed, foot=no: 1 (first node 2)"],
    )


ZIGZAG = [(0, 0), (1, 2), (2, 0), (3, 0.00005), (4, 0)]


def zigzag(at: pathlib.Path) -> None:
    """A street of five points: the second is 222 metres off the line, the fourth half a centimetre."""
    points = "".join(
        f"<node id='{number}' lat='{y / 1000:.8f}' lon='{x / 1000}'/>" for number, (x, y) in enumerate(ZIGZAG, 1)
    )
    (at / "bends.osm").write_text(
        f"<osm>{points}<way id='9'>{''.join(f'<nd ref={chr(39)}{number}{chr(39)}/>' for number in range(1, 6))}<tag k='highway' v='path'/></way></osm>"
    )


def play_bends(at: pathlib.Path) -> None:
    zigzag(at)
    whole = made(run(osm_roads, at / "bends.osm")[1])
    status, wrote, told = run(osm_roads, at / "bends.osm", "--every-bend", "5", "--shapes", at / "bends.shapes")
    nodes, found = made(wrote)
    same("bends that a line needs", (status, nodes), (0, ["1 0 0", "2 10000 20000", "3 20000 0", "4 40000 0"]))
    same(
        "they are as long",
        0 <= sum(int(road.split()[2]) for road in found) - int(whole[1][0].split()[2]) <= len(found),
        True,
    )
    same(
        "what lies between them",
        json.loads((at / "bends.shapes").read_text()),
        {"shapes": 1, "lines": {"3 4": [[20000, 0], [30000, 0], [40000, 0]]}},
    )
    same("no bend is needed", made(run(osm_roads, at / "bends.osm", "--every-bend", "1000")[1])[0], whole[0])
    run(osm_roads, at / "bends.osm", "--shapes", at / "bends.shapes")
    line = [[round(x * 10_000), round(y * 10_000)] for x, y in ZIGZAG]
    same(
        "the whole line",
        (at / "bends.shapes").read_text(),
        f'{{"shapes": 1, "lines": {{\n"1 2": {json.dumps(line)}\n}}}}\n',
    )
    same("every point", len(made(run(osm_roads, at / "bends.osm", "--every-bend", "-1")[1])[0]), 5)
    with mock.patch.object(roads, "MOST_NODES", 3):
        told = run(osm_roads, at / "bends.osm", "--every-bend", "5")[2]
    same("more bends than the limits allow", "or keep fewer bends" in told, True)
    draw = random.Random(3)
    road = [(3 + step / 1000, 54 + draw.random() / 1000) for step in range(300)]
    kept = bends.needed(road, 20.0)
    worst = max(bends.beside(road[at], road[a], road[b]) for a, b in pairwise(kept) for at in range(a, b + 1))
    same("none is further aside", (worst <= 20.0, len(kept) < 300), (True, True))
    play_drawn(at, line, int(whole[1][0].split()[2]))


def play_drawn(at: pathlib.Path, line: list[list[int]], length: int) -> None:
    """The GeoJSON of a road that the client accepted."""

    def drawn(places: dict[int, tuple[int, int]], length: int, *words: str) -> tuple[list[Any], dict[str, Any]]:
        found = Accepted(ROUTE, [1, 2], places, 1, length)
        reply = Reply(ROUTE, "DIJ", arcs={1: {2: length}, 2: {1: length}})
        (at / "a.reply").write_bytes(b"")
        with mock.patch.object(geojson, "accepted", lambda _: found), mock.patch.object(
            geojson, "reply_of", lambda *_: reply
        ):
            text = run(geojson, "key", at / "a.reply", 1, 2, 1, *words)[1]
        feature = json.loads(text or '{"features": [{"geometry": {"coordinates": []}, "properties": {}}]}')["features"][
            0
        ]
        return feature["geometry"]["coordinates"], feature["properties"]

    ends, shapes = {1: (0, 0), 2: (40_000, 0)}, ["--shapes", str(at / "bends.shapes")]
    along, straight = [[x / 1e7, y / 1e7] for x, y in line], [[0.0, 0.0], [0.004, 0.0]]
    same("without shapes", drawn(ends, length)[0], straight)
    said = drawn(ends, length, *shapes)
    same(
        "along the shape",
        (said[0], said[1].get("drawn"), said[1].get("push")),
        (along, "along shapes, which are not proved", []),
    )
    same("a shape that is longer than the signed length", drawn(ends, length - 20, *shapes)[0], straight)
    same(
        "a shape that ends elsewhere",
        drawn({**ends, 2: (40_001, 0)}, length, *shapes)[0],
        [[0.0, 0.0], [0.0040001, 0.0]],
    )
    same("seconds have no length to compare", drawn(ends, 90, *shapes, "--lengths", "seconds")[0], along)
    same("minutes", drawn(ends, 90, "--lengths", "seconds")[1].get("minutes"), 1.5)
    same("kilometres", (drawn(ends, 15_000)[1].get("kilometres"), "minutes" in drawn(ends, 15_000)[1]), (1.5, False))
    (at / "bends.shapes").write_text('{"shapes": 1, "push": ["1 2"], "lines": {}}')
    same("pushed along", drawn(ends, length, *shapes)[1].get("push"), [[1, 2]])


def forbidden(*_: object) -> None:
    raise AssertionError("work before the count")


def play_limits(at: pathlib.Path) -> None:
    (at / "two.osm").write_text(extract(LINE, {1: ([1, 2], STREET), 2: ([3, 4], STREET), 3: ([4, 5], STREET)}))
    same(
        "parts",
        run(osm_roads, at / "two.osm")[2].splitlines()[1],
        "osm_roads.py: parts that hang together: 2, the largest with 60.0 percent of the nodes",
    )
    with mock.patch.object(osm_roads, "MOST_NODES", 4), mock.patch.object(osm, "read_nodes", forbidden):
        same(
            "too many nodes, before they are read",
            run(osm_roads, at / "two.osm"),
            (
                1,
                "",
                f"osm_roads.py: {at / 'two.osm'}: its ways meet or end at more than the 4 nodes that a road file can hold: cut a piece with --box or --around\n",
            ),
        )
    with mock.patch.object(network, "MOST_NODES", 2), mock.patch.object(network.Measure, "of", forbidden):
        same(
            "too many nodes, before roads are measured",
            run(osm_roads, at / "two.osm", "--largest"),
            (
                1,
                "",
                f"osm_roads.py: {at / 'two.osm'}: there are at least 3 nodes and 2 roads, but a road file holds at most 2 and 262,144: cut a piece with --box or --around\n",
            ),
        )
    (at / "near.roads").write_text("roads 1\nnode 1 0 0\nnode 2 0 500000\nroad 1 2 1\n")
    same(
        "far from any node",
        run(nearest, at / "near.roads", "0", "0.1")[::2],
        (
            1,
            f"nearest.py: {at / 'near.roads'}: node 2 is 5,528.7 m away, and --within allows 5,000: did you give the longitude first?\n",
        ),
    )
    same("far, and allowed", run(nearest, at / "near.roads", "0", "0.1", "--within", "6000")[:2], (0, "2\n"))
    same("far on a plane", run(nearest, at / "near.roads", "0", "1000000", "--unit", "plane")[:2], (0, "2\n"))
    (at / "near.ids").write_text("node\tstreets\n1\tÄußere Straße; Mill Lane\n2\tMill Lane\n")
    same(
        "a street in capitals",
        run(nearest, at / "near.roads", "--ids", at / "near.ids", "--name", "MILL lane", "--name", " äuSSere strASSE")[
            :2
        ],
        (1, ""),
    )
    same(
        "a street in other letters",
        run(nearest, at / "near.roads", "--ids", at / "near.ids", "--name", "MILL lane", "--name", " äußere straße")[
            :2
        ],
        (0, "1\n"),
    )
    (at / "all.gr").write_text(f"p sp 2 1\na 1 2 {2**32}\n")
    (at / "all.co").write_text("p aux sp co 2\nv 1 0 0\nv 2 1 0\n")
    same(
        "a length of a challenge's graph",
        run(dimacs_cut, at / "all.gr", at / "all.co", "0,0,1,1", at / "piece")[2],
        f"dimacs_cut.py: {at / 'all.gr'}: line 2: 4294967296 is not a length that a road file can express\n",
    )


def refusal(tool: object, path: pathlib.Path, text: str, *words: object) -> str:
    """The message about a file, which must come within ten seconds."""
    path.write_text(text)
    begun = time.process_time()
    status, wrote, told = run(tool, path, *words)
    same(f"{told!r} is a refusal in time", (status, wrote, time.process_time() - begun < 10), (1, "", True))
    return told.split(": ", 2)[-1].rstrip("\n")


def play_strange(at: pathlib.Path) -> None:
    file = at / "strange.osm"
    many = " ".join(f"a{number}='1'" for number in range(50_000))
    same(
        "an element of 0.6 MB",
        refusal(osm_roads, file, f"<osm><node {many} id='1'/></osm>"),
        "line 1: a mark of more than 65,536 octets",
    )
    few = " ".join(f"a{number}='1'" for number in range(33))
    same(
        "many attributes",
        refusal(osm_roads, file, f"<osm>\n<note {few}/></osm>"),
        "line 2: an element with 33 attributes; at most 32 are allowed",
    )
    same(
        "a long attribute",
        refusal(osm_roads, file, f"<osm><way id='1'/><!--{'x' * 400_000}--></osm>"),
        "line 1, way 1: a mark of more than 65,536 octets",
    )
    packed = at / "strange.osm.gz"
    packed.write_bytes(gzip.compress(b"<osm><node a='" + b"x" * 20_000_000 + b"'/></osm>", 1))
    begun = time.process_time()
    same(
        "a long attribute, packed",
        run(osm_roads, packed)[2],
        f"osm_roads.py: {packed}: line 1: a mark of more than 65,536 octets\n",
    )
    same("it takes a moment", time.process_time() - begun < 2, True)
    same(
        "a long number",
        refusal(osm_roads, file, f"<osm><way id='{'1' * 41}'/></osm>"),
        "line 1, way {}: a number cannot be read".format("1" * 41),
    )
    feature = '{{"features": [{{"geometry": {{"type": "LineString", "coordinates": [[0, 0], [1, 0]]}}, "properties": {{"metres": {}}}}}]}}'
    file = at / "strange.geojson"
    for told, line in (
        ("1e308", "1e+308 metres is longer than a road file can express"),
        ("429496730", "4.29497e+08 metres is longer than a road file can express"),
        ("1" + "0" * 400, "its property metres is not a number"),
    ):
        same(
            f"a length of {told:.12}",
            refusal(geojson_roads, file, feature.format(told), "--length", "metres"),
            f"feature 0: {line}",
        )
    (at / "strange.roads").write_text("roads 1\n# \x1b[2J\nnode 1 0 0\n")
    same("in a comment", roads.read_roads(str(at / "strange.roads")).comments, ["\\x1b[2J"])
    (at / "strange.ids").write_text("node\tstreets\n1\tA\x9b31m\n")
    same("in a table", roads.read_table(str(at / "strange.ids"))[0]["streets"], "A\\x9b31m")
    (at / "two.geojson").write_text(
        json.dumps(
            {
                "features": [
                    json.loads(feature.format(1))["features"][0],
                    {"geometry": {"type": "Po\x1bint"}, "properties": None},
                ]
            }
        )
    )
    same("in a reason", "Po\\x1bint" in run(geojson_roads, at / "two.geojson")[2], True)
    play_osmium(at)


OSMIUM = """import sys; sys.path.insert(0, sys.argv[1])
import osm, osm_roads, roads
osm.read_ways = lambda path, take: osm._read_pbf(path, take, None)
osm.read_nodes = lambda path, take: osm._read_pbf(path, None, take)
sys.argv[1:2] = []
roads.end_of("osm_roads.py", osm_roads.main)
"""


def play_osmium(at: pathlib.Path) -> None:
    """Compares with the road file from another reader of XML."""
    python = "/usr/bin/python3"
    if (
        not pathlib.Path(python).exists()
        or subprocess.run([python, "-c", "import osmium"], capture_output=True, check=False).returncode
    ):
        print("skipped: XML as osmium reads it, since this machine has no python3-pyosmium")
        return
    (at / "town.osm").write_bytes(
        subprocess.run([sys.executable, TOP / "tools/town.py"], capture_output=True, check=True).stdout
    )
    done = subprocess.run(
        [python, "-c", OSMIUM, TOP / "tools", at / "town.osm"], capture_output=True, text=True, check=False
    )
    same("XML as osmium reads it", (done.returncode, done.stdout, done.stderr), run(osm_roads, at / "town.osm"))


def play_costs(at: pathlib.Path) -> None:
    rows = [("residential", "*", 36), ("residential", "gravel", 18), ("ferry", "*", 3.6), ("*", "*", 72)]
    (at / "a.speeds").write_text(
        "highway\tsurface\tkm/h\n" + "".join(f"{kind}\t{surface}\t{speed}\n" for kind, surface, speed in rows)
    )
    words = ("--cost", "seconds", "--speeds", at / "a.speeds", "--ferries")
    ways = {
        1: ([1, 2], STREET),
        2: ([2, 3], {**STREET, "surface": "gravel"}),
        3: ([3, 4], {"route": "ferry", "foot": "yes"}),
        4: ([4, 5], {"highway": "path"}),
    }
    # 111.3 metres at 10, 5, 1 and 20 metres a second
    same("seconds", roads_of(at, LINE, ways, *words)[0], ["1 2 12", "2 3 23", "3 4 112", "4 5 6"])
    status, wrote, told = run(osm_roads, at / "made.osm", *words)
    same("they are told", ("lengths in seconds" in wrote, "5 nodes, 4 roads, 0.0 hours" in told), (True, True))
    (at / "a.speeds").write_text("highway\tsurface\tkm/h\npath\t*\t4\n")
    same(
        "no speed",
        run(osm_roads, at / "made.osm", *words)[2],
        f"osm_roads.py: {at / 'a.speeds'}: no speed for way 1, highway=residential and surface=(none)\n",
    )
    survey = {
        "features": [
            {
                "geometry": {"type": "LineString", "coordinates": [[0, 0], [0.001, 0], [0.002, 0]]},
                "properties": {"long": 1.5},
            }
        ]
    }
    (at / "long.geojson").write_text(json.dumps(survey))
    for unit, length in (
        ("metres", 15),
        ("kilometres", 15_000),
        ("feet", 5),
        ("miles", 24_141),
        ("seconds", 2),
        ("minutes", 90),
    ):
        same(
            f"lengths in {unit}",
            made(run(geojson_roads, at / "long.geojson", "--length", "long", "--length-unit", unit)[1])[1],
            [f"1 2 {length}"],
        )
    play_ogr(at)


def play_ogr(at: pathlib.Path) -> None:
    """The command line of docs/MAPS.md, over a GeoPackage and a Shapefile in another projection."""
    if not shutil.which("ogr2ogr"):
        print("skipped: GeoPackage and Shapefile, since this machine has no ogr2ogr (Debian: gdal-bin)")
        return
    page = (TOP / "docs/MAPS.md").read_text(encoding="utf-8")
    line = next((part for part in page.split("`") if part.startswith("ogr2ogr ")), "ogr2ogr")
    features = [
        {
            "type": "Feature",
            "properties": {"km": 1.5, "name": "High Street"},
            "geometry": {"type": "LineString", "coordinates": [[3, 54], [3.01, 54]]},
        },
        {
            "type": "Feature",
            "properties": {"km": 0.25, "name": "Low Street"},
            "geometry": {"type": "LineString", "coordinates": [[3.01, 54], [3.01, 54.001]]},
        },
    ]
    (at / "lines.geojson").write_text(json.dumps({"type": "FeatureCollection", "features": features}))
    for name, kind in (("lines.gpkg", "GPKG"), ("lines.shp", "ESRI Shapefile")):
        subprocess.run(
            ["ogr2ogr", "-f", kind, "-t_srs", "EPSG:32631", name, "lines.geojson"],
            cwd=at,
            capture_output=True,
            check=True,
        )
        (at / "out.geojson").unlink(missing_ok=True)
        subprocess.run(
            line.replace("lines.gpkg", name).replace("lines.geojson", "out.geojson").split(),
            cwd=at,
            capture_output=True,
            check=False,
        )
        status, wrote, told = run(
            geojson_roads,
            at / "out.geojson",
            "--length",
            "km",
            "--length-unit",
            "kilometres",
            "--ids",
            at / "lines.ids",
        )
        same(
            f"{kind}",
            (status, made(wrote), (at / "lines.ids").read_text() if status == 0 else told),
            (
                0,
                (["1 30000000 540000000", "2 30100000 540000000", "3 30100000 540010000"], ["1 2 15000", "2 3 2500"]),
                "node\tstreets\n1\tHigh Street\n2\tHigh Street; Low Street\n3\tLow Street\n",
            ),
        )


PLAYS: tuple[Callable[[pathlib.Path], None], ...] = (
    play_cycles,
    play_tags,
    play_bends,
    play_limits,
    play_strange,
    play_costs,
)


def main() -> None:
    argparse.ArgumentParser(description=__doc__.split("\n", 1)[0]).parse_args()
    with tempfile.TemporaryDirectory() as folder:
        for play in PLAYS:
            play(pathlib.Path(folder))
    sys.exit(LOOKS.told("maps"))


if __name__ == "__main__":
    main()
