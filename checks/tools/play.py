#!/usr/bin/env python3
"""Plays the tools around the proved program: checks/tools/play.py PROGRAM

Small extracts are on the equator, where a thousandth of a degree has a known length. The expected road file of each
unusual case and the expected message for each bad input are written by hand. For the made-up town, the order of
elements, the packing and the format of an extract must not change an octet. PROGRAM publishes it. Routes, radii and an
island without a route, as GeoJSON, GPX and pictures, must agree with a search in this script; the proved library checks
each reply. Parts whose package is missing are skipped by name. Ends with status 1 if anything differs.
checks/tools/beside.py compares the tools with other programs, by hand. No client trusts this file.
"""
import bz2
import gzip
import heapq
import json
import math
import pathlib
import random
import re
import shutil
import subprocess
import sys
import tempfile
import xml.etree.ElementTree as ElementTree
from collections.abc import Mapping
from typing import Any

TOP = pathlib.Path(__file__).resolve().parents[2]
TOOLS = TOP / "tools"
sys.path[:0] = [str(TOOLS), str(TOP / "checks")]

import geodesic  # noqa: E402
from draw import BLUE, DARK, GREY, ORANGE, POINT  # noqa: E402
import roads  # noqa: E402
from common.looks import Looks  # noqa: E402

LICENCE = roads.OSM_LICENCE
LIBRARY = TOP / "crates/route_check_c/out/libgogbetiku.so.0"
# metres of a thousandth of a degree on the equator, a circle with a radius of 6,378,137 metres
STEP = 6_378_137 * math.pi / 180_000
LOOKS = Looks()
same = LOOKS.same


def run(tool: str, *words: object, at: pathlib.Path) -> tuple[int, str, str]:
    done = subprocess.run([TOOLS / tool, *map(str, words)], cwd=at, capture_output=True, text=True, check=False)
    return done.returncode, done.stdout, done.stderr


def made(text: str) -> tuple[list[str], list[str]]:
    """The node lines and the road lines of a road file, without their first words."""
    lines = text.splitlines()
    return [line[5:] for line in lines if line.startswith("node ")], [
        line[5:] for line in lines if line.startswith("road ")
    ]


Tags = dict[str, str]
# each node this many thousandths of a degree east, with its tags if it has any
Nodes = Mapping[int, float | tuple[float, Tags]]
# the nodes of each way, and its tags
Ways = Mapping[int, tuple[list[int], Tags]]


def extract(nodes: Nodes, ways: Ways) -> str:
    """An extract of nodes on the equator: each this many thousandths of a degree east, with its tags if it has any."""
    parts = ["<osm version='0.6'>"]
    for node, said in nodes.items():
        east, tags = said if isinstance(said, tuple) else (said, {})
        parts.append(
            f"<node id='{node}' lat='0' lon='{east / 1000:.7f}'>"
            + "".join(f"<tag k='{k}' v='{v}'/>" for k, v in tags.items())
            + "</node>"
        )
    for way, (steps, tags) in ways.items():
        inner = "".join(f"<nd ref='{step}'/>" for step in steps) + "".join(
            f"<tag k='{k}' v='{v}'/>" for k, v in tags.items()
        )
        parts.append(f"<way id='{way}'>{inner}</way>")
    return "\n".join([*parts, "</osm>"])


def dm(*steps: float) -> int:
    """The decimetres of this many thousandths of a degree, rounded up once."""
    return math.ceil(STEP * 10 * sum(steps))


STREET = {"highway": "residential"}
LINE: dict[int, float | tuple[float, Tags]] = {1: 0, 2: 1, 3: 2, 4: 3, 5: 4}
# the roads of a few nodes and ways: (profile, nodes, ways, roads, a reason in the messages)
ODD: dict[str, tuple[str, Nodes, Ways, list[str], str | None]] = {
    "bends are no nodes": ("walk", LINE, {1: ([1, 2, 3], STREET)}, [f"1 2 {dm(2)}"], None),
    "ways meet at a bend": (
        "walk",
        LINE,
        {1: ([1, 2, 3], STREET), 2: ([4, 2], STREET)},
        [f"1 2 {dm(1)}", f"2 3 {dm(1)}", f"2 4 {dm(2)}"],
        None,
    ),
    "ends of ways are nodes": (
        "walk",
        LINE,
        {1: ([1, 2], STREET), 2: ([2, 3], STREET)},
        [f"1 2 {dm(1)}", f"2 3 {dm(1)}"],
        None,
    ),
    "a way beside another": (
        "walk",
        LINE,
        {1: ([1, 3], STREET), 2: ([1, 5, 3], STREET)},
        [f"1 2 {dm(2)}", f"1 3 {dm(4)}", f"2 3 {dm(2)}"],
        "roads cut in two, beside",
    ),
    "the same piece twice": (
        "walk",
        LINE,
        {1: ([1, 3], STREET), 2: ([3, 1], STREET)},
        [f"1 2 {dm(2)}"],
        "roads dropped, the same straight piece twice: 1 (first way 2)",
    ),
    "a loop": (
        "walk",
        LINE,
        {1: ([1, 2], STREET), 2: ([2, 3, 5, 4, 2], STREET)},
        [f"1 2 {dm(1)}", f"2 3 {dm(2)}", f"2 4 {dm(3)}", f"3 4 {dm(1)}"],
        "roads cut in two, beside",
    ),
    "a way there and back": (
        "walk",
        LINE,
        {1: ([1, 2, 1], STREET)},
        [f"1 2 {dm(1)}"],
        "roads dropped, the same straight piece twice",
    ),
    "a node twice in a row": ("walk", LINE, {1: ([1, 1, 2, 2], STREET)}, [f"1 2 {dm(1)}"], None),
    "two nodes at one place": (
        "walk",
        {1: 0, 2: 0, 3: 1},
        {1: ([1, 2], STREET), 2: ([2, 3], STREET)},
        ["1 2 0", f"2 3 {dm(1)}"],
        None,
    ),
    "places a centimetre apart": ("walk", {1: 0, 2: 0.0001}, {1: ([1, 2], STREET)}, ["1 2 1"], None),
    "a wall": (
        "walk",
        {**LINE, 2: (1, {"barrier": "wall"})},
        {1: ([1, 2, 3], STREET)},
        [f"1 3 {dm(1)}", f"2 4 {dm(1)}"],
        "nodes closed, barrier=wall: 1 (first node 2)",
    ),
    "a wall at the end": (
        "walk",
        {**LINE, 3: (2, {"barrier": "wall"})},
        {1: ([1, 2, 3], STREET), 2: ([3, 4], STREET)},
        [f"1 3 {dm(2)}", f"2 4 {dm(1)}"],
        "nodes closed, barrier=wall",
    ),
    "a gate": ("walk", {**LINE, 2: (1, {"barrier": "gate"})}, {1: ([1, 2, 3], STREET)}, [f"1 2 {dm(2)}"], None),
    "a closed gate": (
        "walk",
        {**LINE, 2: (1, {"barrier": "gate", "access": "private"})},
        {1: ([1, 2, 3], STREET)},
        [f"1 3 {dm(1)}", f"2 4 {dm(1)}"],
        "nodes closed, barrier=gate",
    ),
    "a gate open to walkers": (
        "walk",
        {**LINE, 2: (1, {"barrier": "gate", "access": "no", "foot": "yes"})},
        {1: ([1, 2, 3], STREET)},
        [f"1 2 {dm(2)}"],
        None,
    ),
    "a bollard before a fire engine": (
        "fire",
        {**LINE, 2: (1, {"barrier": "bollard"})},
        {1: ([1, 2, 3], STREET)},
        [f"1 3 {dm(1)}", f"2 4 {dm(1)}"],
        "nodes closed, barrier=bollard",
    ),
    "access=no": (
        "walk",
        LINE,
        {1: ([1, 2], STREET), 2: ([2, 3], {**STREET, "access": "no"})},
        [f"1 2 {dm(1)}"],
        "ways dropped, access=no: 1 (first way 2)",
    ),
    "access=no, but foot=yes": (
        "walk",
        LINE,
        {1: ([1, 2], {**STREET, "access": "no", "foot": "yes"})},
        [f"1 2 {dm(1)}"],
        None,
    ),
    "emergency=yes": (
        "fire",
        LINE,
        {1: ([1, 2], {**STREET, "access": "no", "emergency": "yes"})},
        [f"1 2 {dm(1)}"],
        None,
    ),
    "a motorway": (
        "walk",
        LINE,
        {1: ([1, 2], STREET), 2: ([2, 3], {"highway": "motorway"})},
        [f"1 2 {dm(1)}"],
        "ways dropped, highway=motorway: 1 (first way 2)",
    ),
    "a bridleway for walkers": (
        "walk",
        LINE,
        {1: ([1, 2], {"highway": "bridleway", "foot": "designated"})},
        [f"1 2 {dm(1)}"],
        None,
    ),
    "an area": (
        "walk",
        LINE,
        {1: ([1, 2], STREET), 2: ([2, 3, 4, 2], {"highway": "pedestrian", "area": "yes"})},
        [f"1 2 {dm(1)}"],
        "ways dropped, area=yes",
    ),
    "one-way on foot": (
        "walk",
        LINE,
        {1: ([1, 2], {**STREET, "oneway": "yes"})},
        [f"1 2 {dm(1)}"],
        "one-way ways taken both ways: 1 (first way 1)",
    ),
    "one-way by cycle": (
        "cycle",
        LINE,
        {1: ([1, 2], STREET), 2: ([2, 3], {**STREET, "oneway": "-1"})},
        [f"1 2 {dm(1)}", f"2 3 {dm(1)}"],
        "pieces of one-way ways taken both ways, to be pushed along against their direction: 1 (first way 2)",
    ),
    "oneway:bicycle=no": (
        "cycle",
        LINE,
        {1: ([1, 2], {**STREET, "oneway": "yes", "oneway:bicycle": "no"})},
        [f"1 2 {dm(1)}"],
        "one-way ways taken both ways, opposite for bicycles",
    ),
    "an opposite cycleway": (
        "cycle",
        LINE,
        {1: ([1, 2], {**STREET, "oneway": "yes", "cycleway": "opposite_lane"})},
        [f"1 2 {dm(1)}"],
        "opposite for bicycles: 1",
    ),
    "a roundabout by cycle": (
        "cycle",
        LINE,
        {1: ([1, 2], STREET), 2: ([2, 3, 4, 2], {**STREET, "junction": "roundabout"})},
        [f"1 2 {dm(1)}", f"2 3 {dm(1)}", f"2 4 {dm(2)}", f"3 4 {dm(1)}"],
        "one-way ways taken both ways, roundabouts: 1 (first way 2)",
    ),
    "negative ids come first": (
        "walk",
        {-5: 1, -7: 0, 3: 2},
        {1: ([3, -5], STREET), -2: ([-5, -7], STREET)},
        [f"1 2 {dm(1)}", f"2 3 {dm(1)}"],
        None,
    ),
}

HEAD, TAIL = "<osm version='0.6'>", "</osm>"
WAY = "<way id='7'><nd ref='1'/><nd ref='2'/><tag k='highway' v='path'/></way>"
NODE_1, NODE_2 = "<node id='1' lat='0' lon='0'/>", "<node id='2' lat='0' lon='1'/>"
# the messages about invalid extracts
BAD = {
    "broken": (f"{HEAD}{NODE_1}<node id='2' lat=", "bad.osm: line 1, node 1: not complete XML: unclosed token"),
    "cut": (f"{HEAD}\n{NODE_1}", "bad.osm: line 2, node 1: not complete XML: no element found"),
    "a DOCTYPE": (
        f"<!DOCTYPE osm [<!ENTITY a 'aaa'>]>\n{HEAD}{TAIL}",
        "bad.osm: line 1: a DOCTYPE, which no extract has",
    ),
    "no OSM": ("<gpx><wpt/></gpx>", "bad.osm: line 1: not an OSM extract: its root is <gpx> instead of <osm>"),
    "no XML": ("roads 1\n", "bad.osm: line 1: not complete XML: syntax error"),
    "nothing": ("", "bad.osm: line 1: not complete XML: no element found"),
    "empty": (f"{HEAD}{TAIL}", "bad.osm: it has no way for walk"),
    "no node": (f"{HEAD}{NODE_1}{WAY}{TAIL}", "bad.osm: way 7: its node 2 is not in the file"),
    "out of range": (
        f"{HEAD}{NODE_1}<node id='2' lat='91' lon='0'/>{WAY}{TAIL}",
        "bad.osm: node 2: longitude 0.0, latitude 91.0 is not a place on earth",
    ),
    "nan": (
        f"{HEAD}{NODE_1}<node id='2' lat='nan' lon='0'/>{WAY}{TAIL}",
        "bad.osm: node 2: longitude 0.0, latitude nan is not a place on earth",
    ),
    "no number": (
        f"{HEAD}<node id='1' lat='x' lon='0'/>{WAY}{TAIL}",
        "bad.osm: line 1, node 1: a number cannot be read",
    ),
    "no latitude": (
        f"{HEAD}<node id='1' lon='0'/>{WAY}{TAIL}",
        "bad.osm: line 1, node 1: it lacks the attribute 'lat'",
    ),
    "a node twice": (f"{HEAD}{NODE_1}{NODE_2}{NODE_1}{WAY}{TAIL}", "bad.osm: node 1: it occurs twice"),
    "a way twice": (f"{HEAD}{NODE_1}{NODE_2}{WAY}{WAY}{TAIL}", "bad.osm: way 7: it occurs twice"),
    "opposite": (
        f"{HEAD}{NODE_1}<node id='2' lat='0' lon='180'/>{WAY}{TAIL}",
        "bad.osm: way 7: two of its points in a row, (0.0, 0.0) and (180.0, 0.0), lie on opposite sides of the earth",
    ),
    "no road is left": (
        f"{HEAD}{NODE_1}<way id='7'><nd ref='1'/><tag k='highway' v='path'/></way>{TAIL}",
        "bad.osm: no road is left",
    ),
}
# metres between places, by geographiclib 2.0 (Karney's algorithm) on WGS 84
FAR: list[tuple[tuple[float, float], tuple[float, float], float]]
FAR = [
    ((0, 0), (1, 0), 111319.490793),
    ((7.1, 50.7), (7.10013, 50.70004), 10.205555),
    ((-122.4, 37.8), (139.7, 35.7), 8288142.553780),
    ((179.9, -60), (-179.9, -60.1), 15757.486649),
    ((3, 54), (3, 90), 4016049.700911),
]


def play_odd(at: pathlib.Path) -> None:
    for name, (profile, nodes, ways, wanted, reason) in ODD.items():
        (at / "odd.osm").write_text(extract(nodes, ways))
        status, wrote, told = run("osm_roads.py", "odd.osm", "--profile", profile, at=at)
        same(name, (status, made(wrote)[1]), (0, wanted))
        same(f"{name}: {reason} is told", reason is None or reason in told, True)
        same(f"{name}: the licence", wrote.startswith(f"# {LICENCE}\n"), True)


def play_bad(at: pathlib.Path) -> None:
    for name, (text, line) in BAD.items():
        (at / "bad.osm").write_text(text)
        same(name, run("osm_roads.py", "bad.osm", at=at), (1, "", f"osm_roads.py: {line}\n"))
    (at / "bad.osm.gz").write_bytes(gzip.compress(b"<osm></osm>")[:-9])
    status, wrote, told = run("osm_roads.py", "bad.osm.gz", at=at)
    same("a cut gzip", (status, wrote, told.count("\n"), "cannot be decompressed" in told), (1, "", 1, True))
    same(
        "no file",
        run("osm_roads.py", "none.osm", at=at),
        (1, "", "osm_roads.py: none.osm: No such file or directory\n"),
    )
    spokes = {node: ([1, node], STREET) for node in range(2, 258)}
    (at / "star.osm").write_text(extract({1: 0, **{node: node for node in spokes}}, spokes))
    same(
        "256 roads at a node",
        run("osm_roads.py", "star.osm", at=at)[::2],
        (
            1,
            "osm_roads.py: star.osm: 256 roads meet at node 1, (0, 0), but at most 255 are allowed: cut a piece with --box or --around\n",
        ),
    )
    many = roads.Roads({node: (node, 0) for node in range(65_537)}, [(node, node + 1, 1) for node in range(65_536)])
    same(
        "too many nodes",
        many.too_much(),
        "65,537 nodes and 65,536 roads are more than a road file holds, 65,536 and 262,144",
    )
    for name, text, line in (
        ("no JSON", "{", "bad.geojson: not valid JSON: "),
        ("no features", "[1]", "bad.geojson: not a GeoJSON feature collection"),
        ("no feature", '{"features": [7]}', "bad.geojson: feature 0: not a GeoJSON feature (RFC 7946)"),
        (
            "out of range",
            '{"features": [{"geometry": {"type": "LineString", "coordinates": [[0, 0], [0, 91]]}, "properties": null}]}',
            "bad.geojson: feature 0: longitude 0, latitude 91 is not a place",
        ),
    ):
        (at / "bad.geojson").write_text(text)
        status, wrote, told = run("geojson_roads.py", "bad.geojson", at=at)
        same(name, (status, wrote, told.count("\n"), told.startswith(f"geojson_roads.py: {line}")), (1, "", 1, True))


def play_lengths() -> None:
    for start, end, far in FAR:
        metres = geodesic.metres(start, end)
        same(f"metres from {start} to {end}", metres is not None and abs(metres - far) < 0.001, True)
    try:
        from geographiclib.geodesic import Geodesic
    except ImportError:
        print("skipped: lengths beside another geodesic, since this python3 has no geographiclib")
        return
    draw, worst = random.Random(1), 0.0
    for _ in range(300):
        start = draw.uniform(-180, 180), draw.uniform(-89, 89)
        end = start[0] + draw.uniform(-0.1, 0.1), start[1] + draw.uniform(-0.1, 0.1)
        worst = max(
            worst, abs(geodesic.metres(start, end) - Geodesic.WGS84.Inverse(start[1], start[0], end[1], end[0])["s12"])
        )
    same("lengths beside geographiclib's", worst < 0.001, True)


def play_order(at: pathlib.Path) -> None:
    """Tests that the town's road file is the same from each form of its extract."""
    status, text, _ = run("town.py", at=at)
    (at / "town.osm").write_text(text)
    wanted = run("osm_roads.py", "town.osm", "--ids", "town.ids", at=at)
    (at / "town.roads").write_text(wanted[1])
    same("the town", (status, wanted[0], run("town.py", "--roads", at=at)[1]), (0, 0, wanted[1]))
    head, *elements = re.split(r"(?m)^(?=  <[nw])", text.removesuffix("</osm>\n"))
    draw = random.Random(2)
    for part in range(3):
        elements = sorted(elements, key=lambda _: draw.random())
        (at / "town.osm").write_text("".join([head, *elements, "</osm>\n"]))
        ids = f"other{part}.ids"
        same(
            "the same town in another order",
            (run("osm_roads.py", "town.osm", "--ids", ids, at=at), (at / ids).read_bytes()),
            (wanted, (at / "town.ids").read_bytes()),
        )
    (at / "town.osm").write_text(text)
    (at / "town.osm.gz").write_bytes(gzip.compress(text.encode()))
    (at / "town.osm.bz2").write_bytes(bz2.compress(text.encode()))
    for packed in ("town.osm.gz", "town.osm.bz2"):
        same(packed, run("osm_roads.py", packed, at=at), wanted)
    play_pbf(at, wanted)


def play_pbf(at: pathlib.Path, wanted: tuple[int, str, str]) -> None:
    """Runs the Python that finds Debian's packages, if the machine has it."""
    python = "/usr/bin/python3" if pathlib.Path("/usr/bin/python3").exists() else sys.executable

    def read(name: str) -> tuple[int, str, str]:
        done = subprocess.run(
            [python, TOOLS / "osm_roads.py", name], cwd=at, capture_output=True, text=True, check=False
        )
        return done.returncode, done.stdout, done.stderr

    (at / "none.osm.pbf").write_bytes(b"roads 1\n")
    status, wrote, told = read("none.osm.pbf")
    same("a .pbf that is none, or no package", (status, wrote, told.count("\n")), (1, "", 1))
    if "python3-pyosmium" in told:
        print(f"skipped: .osm.pbf, since {python} has no osmium (Debian: python3-pyosmium)")
        return
    convert = "import osmium,sys\nw=osmium.SimpleWriter(sys.argv[2])\nclass H(osmium.SimpleHandler):\n node=lambda s,n:w.add_node(n)\n way=lambda s,n:w.add_way(n)\nH().apply_file(sys.argv[1]);w.close()"
    subprocess.run([python, "-c", convert, "town.osm", "town.osm.pbf"], cwd=at, check=True)
    same("town.osm.pbf", read("town.osm.pbf"), wanted)


def play_cuts(at: pathlib.Path) -> None:
    (at / "line.osm").write_text(
        extract(
            {node: node for node in range(1, 10)},
            {1: (list(range(1, 10)), STREET), 2: ([3, 5, 7, 9], STREET), 3: ([9, 8], STREET)},
        )
    )
    status, wrote, told = run("osm_roads.py", "line.osm", "--box", "0.0025,-1,0.0065,1", at=at)
    inside = [f"{node - 2} {node}0000 0" for node in (3, 4, 5, 6)]
    same("a box", (status, *made(wrote)), (0, inside, [f"1 2 {dm(1)}", f"1 3 {dm(2)}", f"2 3 {dm(1)}", f"3 4 {dm(1)}"]))
    same(
        "a box is told",
        [
            "cut to the box 0.0025,-1.0,0.0065,1.0: its routes are the shortest within the cut" in text
            for text in (wrote, told)
        ],
        [True, True],
    )
    near = run("osm_roads.py", "line.osm", "--around", f"0.005,0,{STEP * 1.5}", at=at)
    same("around a place", made(near[1]), (["1 40000 0", "2 60000 0"], [f"1 2 {dm(2)}"]))
    same(
        "a box from a negative longitude",
        made(run("osm_roads.py", "line.osm", "--box", "-1,-1,0.0025,1", at=at)[1]),
        (["1 10000 0", "2 20000 0"], [f"1 2 {dm(1)}"]),
    )
    same(
        "a box across the date line",
        run("osm_roads.py", "line.osm", "--box", "179,-1,0.0025,1", at=at)[1].count("node "),
        2,
    )
    same(
        "nothing lies there",
        run("osm_roads.py", "line.osm", "--box", "5,5,6,6", at=at)[::2],
        (1, "osm_roads.py: line.osm: no road is left\n"),
    )
    (at / "two.osm").write_text(extract(LINE, {1: ([1, 2], STREET), 2: ([3, 4], STREET), 3: ([4, 5], STREET)}))
    same(
        "the largest part",
        made(run("osm_roads.py", "two.osm", "--largest", at=at)[1])[1],
        [f"1 2 {dm(1)}", f"2 3 {dm(1)}"],
    )


def play_survey(at: pathlib.Path) -> None:
    """GeoJSON: with measured lengths, and with given lengths."""

    def feature(told: float, *east: float) -> dict[str, Any]:
        return {
            "type": "Feature",
            "properties": {"metres": told, "street": f"S {told}"},
            "geometry": {"type": "LineString", "coordinates": [[step / 1000, 0, 12.5] for step in east]},
        }

    survey = {
        "type": "FeatureCollection",
        "features": [
            feature(30, 0, 1, 3),
            feature(5.01, 1, 4),
            {"type": "Feature", "properties": {}, "geometry": {"type": "Point", "coordinates": [0, 0]}},
        ],
    }
    (at / "survey.geojson").write_text(json.dumps(survey))
    status, wrote, told = run("geojson_roads.py", "survey.geojson", "--licence", "mine", at=at)
    same(
        "a survey",
        (status, made(wrote)[1], wrote.splitlines()[0], "features dropped, Point: 1 (first feature 2)" in told),
        (0, [f"1 2 {dm(1)}", f"2 3 {dm(2)}", f"2 4 {dm(3)}"], "# mine", True),
    )
    wrote = run(
        "geojson_roads.py", "survey.geojson", "--length", "metres", "--name", "street", "--ids", "survey.ids", at=at
    )[1]
    same("a survey with lengths", made(wrote)[1], ["1 2 100", "2 3 200", "2 4 51"])
    (at / "zero.geojson").write_text(json.dumps({"type": "FeatureCollection", "features": [feature(0, 0, 1)]}))
    same(
        "never 0 between two places",
        made(run("geojson_roads.py", "zero.geojson", "--length", "metres", at=at)[1])[1],
        ["1 2 1"],
    )
    same(
        "its streets", (at / "survey.ids").read_text(), "node\tstreets\n1\tS 30\n2\tS 30; S 5.01\n3\tS 30\n4\tS 5.01\n"
    )


def play_challenge(program: str, at: pathlib.Path) -> None:
    """Tests that `dimacs` takes a piece of a challenge's graph."""
    graph = "c made\np sp 5 8\n" + "".join(
        f"a {a} {b} {a + b}\na {b} {a} {a + b}\n" for a, b in ((1, 2), (2, 3), (2, 4), (4, 5))
    )
    (at / "all.gr.gz").write_bytes(gzip.compress(graph.encode()))
    (at / "all.co").write_text(
        "c made\np aux sp co 5\n" + "".join(f"v {node} {(node - 3) * 1_000_000} 500000\n" for node in range(1, 6))
    )
    status, _, told = run("dimacs_cut.py", "all.gr.gz", "all.co", "-1,0,1,1", "piece", "--ids", "piece.ids", at=at)
    same(
        "a piece",
        (status, told),
        (
            0,
            "dimacs_cut.py: 3 nodes, 4 arcs: routes are the shortest within the box\n"
            "dimacs_cut.py: parts that hang together: 1, the largest with 100.0 percent of the nodes\n",
        ),
    )
    done = subprocess.run(
        [program, "dimacs", "piece.gr", "piece.co"], cwd=at, capture_output=True, text=True, check=False
    )
    same(
        "`dimacs` takes it",
        done.stdout,
        "roads 1\nnode 1 -1000000 500000\nnode 2 0 500000\nnode 3 1000000 500000\nroad 1 2 5\nroad 1 3 6\n",
    )
    same("its ids", (at / "piece.ids").read_text(), "node\tgraph_node\n1\t2\n2\t3\n3\t4\n")
    same(
        "an empty piece",
        run("dimacs_cut.py", "all.gr.gz", "all.co", "8,0,9,1", "piece", at=at),
        (1, "", "dimacs_cut.py: all.co: no node lies in the box\n"),
    )
    same(
        "no graph",
        run("dimacs_cut.py", "all.co", "all.co", "1,0,9,1", "piece", at=at),
        (1, "", "dimacs_cut.py: all.co: it has no problem line `p sp`\n"),
    )


def play_nearest(at: pathlib.Path) -> None:
    near = roads.Roads({1: (0, 0), 2: (10_000, 0), 3: (0, 20_000)}, [(1, 2, 1), (1, 3, 1)])
    with open(at / "near.roads", "w") as file:
        near.write(file)
    same(
        "the nearest node",
        run("nearest.py", "near.roads", "0.0009", "0.0001", "--within", "15.8", at=at),
        (0, "2\n", "nearest.py: node 2 is 15.7 m away\n"),
    )
    same(
        "the nearest on a plane",
        run("nearest.py", "near.roads", "3", "19996", "--unit", "plane", at=at),
        (0, "3\n", "nearest.py: node 3 is 5.0 away\n"),
    )
    table = [line.split("\t") for line in (at / "town.ids").read_text().splitlines()]
    both = [row[0] for row in table if {"Bypass", "Gate Road"} <= set(row[2].split("; "))]
    same(
        "where two streets meet",
        run("nearest.py", "town.roads", "--name", "Bypass", "--name", "Gate Road", "--ids", "town.ids", at=at)[:2],
        (0, "\n".join(both) + "\n"),
    )
    same(
        "no such street",
        run("nearest.py", "town.roads", "--name", "Nil", "--ids", "town.ids", at=at),
        (1, "", "nearest.py: town.ids: no node is on Nil\n"),
    )


def distances(chart: roads.Roads, start: int) -> dict[int, int]:
    """A plain search."""
    arcs: dict[int, list[tuple[int, int]]] = {node: [] for node in chart.nodes}
    for a, b, length in chart.roads:
        arcs[a].append((b, length))
        arcs[b].append((a, length))
    found, front = {}, [(0, start)]
    while front:
        far, node = heapq.heappop(front)
        if node not in found:
            found[node] = far
            for there, length in arcs[node]:
                heapq.heappush(front, (far + length, there))
    return found


METHODS = {"dij": "0 0 0", "full": "0 0 0", "ldm": "4 10 0", "hyp": "4 4 0"}


class Town:
    """The town, published by the program under each method, and the tools' outputs for its replies."""

    def __init__(self, program: str, at: pathlib.Path):
        self.program, self.at = program, at
        self.chart = roads.read_roads(str(at / "town.roads"))
        self.start = 1
        self.far = distances(self.chart, self.start)
        self.end = max(self.far, key=lambda node: (self.far[node], node))
        self.island = max(self.chart.nodes.keys() - self.far.keys())
        (at / "secret.hex").write_text("00" * 48)
        self.keep("owner.key", "key secret.hex h5")
        for version, (method, numbers) in enumerate(METHODS.items(), 1):
            self.keep(f"{method}.pub", f"publish town.roads {method} {version} hilbert 0 2 {numbers}")

    def keep(self, name: str, words: str) -> None:
        (self.at / name).write_bytes(
            subprocess.run([self.program, *words.split()], cwd=self.at, capture_output=True, check=False).stdout
        )

    def tool(self, *words: object) -> tuple[int, str, str]:
        return run("geojson.py", "owner.key", *words, "--library", LIBRARY, at=self.at)

    def degrees(self, node: int) -> list[float]:
        return [number / 10_000_000 for number in self.chart.nodes[node]]


def play_shown(town: Town, method: str, version: int) -> None:
    """Routes, no route and radii of one publication, as GeoJSON and GPX."""
    town.keep("route.reply", f"prove {method}.pub {town.start} {town.end}")
    town.keep("none.reply", f"prove {method}.pub {town.start} {town.island}")
    town.keep("near.reply", f"reach {method}.pub {town.start} 4000")
    ask = (town.start, town.end, version)
    status, text, told = town.tool("route.reply", *ask, "--licence", LICENCE)
    same(f"{method}: a route", (status, told), (0, ""))
    shown = json.loads(text or "{}")
    (line,) = shown.get("features", [{}])
    said = line.get("properties", {})
    nodes = said.get("nodes", [])
    same(
        f"{method}: its length",
        (said.get("length"), said.get("version"), nodes[:1] + nodes[-1:]),
        (town.far[town.end], version, [town.start, town.end]),
    )
    same(
        f"{method}: its places",
        line.get("geometry"),
        {"type": "LineString", "coordinates": [town.degrees(node) for node in nodes]},
    )
    same(f"{method}: its licence", shown.get("attribution"), LICENCE)
    within = {node: far for node, far in town.far.items() if far <= 4000}
    points = json.loads(
        town.tool("near.reply", town.start, 4000, version, "--reach", "--ids", "town.ids")[1] or '{"features": []}'
    )["features"]
    same(
        f"{method}: a radius",
        {
            point["properties"]["node"]: (point["properties"]["distance"], point["geometry"]["coordinates"])
            for point in points
        },
        {node: (far, town.degrees(node)) for node, far in within.items()},
    )
    points = json.loads(town.tool("none.reply", town.start, town.island, version)[1] or '{"features": []}')["features"]
    same(
        f"{method}: no route",
        [
            (point["properties"]["proved"], point["properties"]["node"], point["geometry"]["coordinates"])
            for point in points
        ],
        [("no route", node, town.degrees(node)) for node in (town.start, town.island)],
    )
    space = "{http://www.topografix.com/GPX/1/1}"
    for name, words, tag, count in (
        ("route.gpx", ["route.reply", *ask], "rte/{0}rtept", len(nodes)),
        ("near.gpx", ["near.reply", town.start, 4000, version, "--reach"], "wpt", len(within)),
    ):
        text = town.tool(*words, "--gpx", "--licence", LICENCE)[1]
        (town.at / name).write_text(text)
        root = ElementTree.fromstring(text)
        mark = root.find(f"{space}metadata/{space}copyright")
        same(
            f"{method}: {name}",
            (len(root.findall(space + tag.format(space))), None if mark is None else mark.get("author")),
            (count, LICENCE),
        )
    (town.at / "route.geojson").write_text(json.dumps(shown))
    turned = bytearray((town.at / "route.reply").read_bytes())
    turned[-1] ^= 1
    (town.at / "turned.reply").write_bytes(turned)
    status, text, told = town.tool("turned.reply", *ask)
    same(
        f"{method}: a changed reply",
        (status, text, told.startswith("geojson.py: turned.reply: refused ")),
        (1, "", True),
    )


def play_refused(town: Town) -> None:
    """Replies without a geometry, and the messages about wrong units."""
    ask = ("route.reply", town.start, town.end, 4)
    same("a stale reply", town.tool(*ask[:3], 5), (1, "", "geojson.py: route.reply: refused Stale 4\n"))
    same("a plane", town.tool(*ask, "--unit", "plane")[:2], (1, ""))
    same("no degrees", town.tool(*ask, "--unit", "1e-6")[:2], (1, ""))
    same(
        "no key",
        run("geojson.py", "town.ids", *ask, "--library", LIBRARY, at=town.at),
        (1, "", "geojson.py: town.ids: not a public key in hex digits\n"),
    )
    same("no library", run("geojson.py", "owner.key", *ask, "--library", "none.so", at=town.at)[:2], (1, ""))


def play_pictures(town: Town) -> None:
    """The picture of each kind of reply."""
    tick = "{http://www.w3.org/2000/svg}"
    asked = ["--check", "owner.key", town.start, town.end, 4, "--library", LIBRARY]
    rows: tuple[tuple[str, list[object], set[str]], ...] = (
        ("a road file", ["town.roads"], {GREY, POINT}),
        ("a route", ["hyp.pub", "route.reply"], {GREY, POINT, BLUE, ORANGE, DARK}),
        ("a checked route", ["hyp.pub", "route.reply", *asked], {GREY, POINT, BLUE, ORANGE, DARK}),
        ("no route", ["dij.pub", "none.reply"], {GREY, POINT, BLUE, ORANGE}),
        ("a radius", ["hyp.pub", "near.reply", "--licence", LICENCE], {GREY, POINT, ORANGE}),
    )
    for name, words, colours in rows:
        status, text, told = run("draw.py", *words, at=town.at)
        same(f"a picture of {name}", (status, told), (0, ""))
        same(
            f"the layers of {name}",
            {path.get("stroke") for path in ElementTree.fromstring(text).iter(tick + "path")},
            colours,
        )
        same(f"the licence under {name}", LICENCE in text, LICENCE in words)
    same(
        "a checked route says so",
        "checked: the shortest route, " in run("draw.py", "hyp.pub", "route.reply", *asked, at=town.at)[1],
        True,
    )
    town.keep("page.pub", "publish town.roads ldm 1 hilbert 0 2 16 12 0")
    town.keep("page.reply", "prove page.pub 346 18")
    text = run(
        "draw.py", "page.pub", "page.reply", "--check", "owner.key", 346, 18, 1, "--library", LIBRARY, at=town.at
    )[1]
    same("the picture of docs/MAPS.md", text, (TOP / "docs/pictures/town.svg").read_text(encoding="utf-8"))
    same("an unlike map", run("draw.py", "near.roads", "route.reply", at=town.at)[:2], (1, ""))
    status, text, told = run(
        "draw.py",
        "hyp.pub",
        "route.reply",
        "--check",
        "owner.key",
        town.start,
        town.island,
        4,
        "--library",
        LIBRARY,
        at=town.at,
    )
    same("no picture of a refused reply", (status, text, "refused" in told), (1, "", True))


def play_gdal(at: pathlib.Path) -> None:
    if not shutil.which("ogrinfo"):
        print("skipped: GDAL's reading, since this machine has no ogrinfo (Debian: gdal-bin)")
        return
    for name, kind in (("route.geojson", "Line String"), ("near.gpx", "Point"), ("route.gpx", "Line String")):
        done = subprocess.run(
            ["ogrinfo", "-ro", "-al", "-so", name], cwd=at, capture_output=True, text=True, check=False
        )
        counts = re.findall(r"Geometry: (.*)\nFeature Count: (\d+)", done.stdout)
        same(
            f"GDAL reads {name}",
            (done.returncode, any(count != "0" for shape, count in counts if shape == kind)),
            (0, True),
        )


def main() -> None:
    if len(sys.argv) != 2:
        sys.exit(__doc__.split("\n", 1)[0])
    program = str(pathlib.Path(sys.argv[1]).resolve())
    with tempfile.TemporaryDirectory() as folder:
        at = pathlib.Path(folder)
        for play in (play_odd, play_bad, play_order, play_cuts, play_survey, play_nearest):
            play(at)
        play_lengths()
        play_challenge(program, at)
        if LIBRARY.exists():
            town = Town(program, at)
            for version, method in enumerate(METHODS, 1):
                play_shown(town, method, version)
            play_refused(town)
            play_pictures(town)
            play_gdal(at)
        else:
            print(
                "skipped: GeoJSON, GPX and pictures of checked replies, since bindings/build has not made the library"
            )
    sys.exit(LOOKS.told("tools"))


if __name__ == "__main__":
    main()
