"""Plays the page over thousands of nodes: it must stay responsive. Nobody trusts this file."""

import json
import subprocess
import time
from typing import Any

from driven import LONG
from expected import TOP, holds, same

GRID = 90
# the limit of one piece of work: in milliseconds of processor time, and in a browser that may have other work
MOST_PROCESSOR, MOST_BESIDE = 50, 3_000
# measures the processor time of each piece of work between two turns of the page: the least of five plays, since the first
# may include compilation, and since a machine at other work makes a play longer but none shorter
PIECES = """
import { readFileSync } from "node:fs";
const [here, start, end, radius, length, ...files] = process.argv.slice(1);
const [all, route, publication] = files.map((name) => new Uint8Array(readFileSync(name)));
let [before, longest] = [process.cpuUsage(), 0];
const ends = () => { const { user, system } = process.cpuUsage(before); longest = Math.max(longest, (user + system) / 1000); };
const timer = setTimeout;
globalThis.setTimeout = (does, ...more) => { ends(); return timer(() => { before = process.cpuUsage(); does(); }, ...more); };
const took = {};
const piece = async (what, does) => { longest = 0; before = process.cpuUsage(); const made = await does(); ends(); took[what] = Math.min(longest, took[what] ?? Infinity); return made; };
const { partsOf, mapOf } = await import(`${here}/formats.mjs`);
const { LIES } = await import(`${here}/lies.mjs`);
const { differenceOf } = await import(`${here}/agree.mjs`);
const { Pauses } = await import(`${here}/pauses.mjs`);
const { piecesOf } = await import(`${here}/bands.mjs`);
const { Shapes } = await import(`${here}/shapes.mjs`);
for (let turn = 0; turn < 5; turn += 1) {
    const parts = await piece("parts of a radius", () => partsOf(all));
    const way = await piece("parts of a route", () => partsOf(route));
    const map = await piece("map", () => mapOf(publication));
    await piece("comparison", () => differenceOf(parts.leaves, map, new Pauses()));
    const nodes = parts.leaves.map(({ id }, at) => ({ id, distance: BigInt(Math.round(at * Number(radius) / parts.leaves.length)) }));
    await piece("bands", () => piecesOf(nodes, parts.leaves, [0.2, 0.4, 0.6, 0.8, 1].map((share) => share * Number(radius)), new Shapes(10_000_000, 10), new Pauses()));
    const more = { server: { reply: async () => all }, older: async () => null, found: { length: BigInt(length) } };
    for (const [name, [, lie]] of Object.entries(LIES)) {
        await piece(`${name}, a radius`, async () => lie({ ...more, parts, octets: all, asked: { ask: "reach", from: Number(start), end: BigInt(radius) } }));
        await piece(`${name}, a route`, async () => lie({ ...more, parts: way, octets: route, asked: { ask: "route", from: Number(start), end: Number(end) } }));
    }
}
console.log(JSON.stringify(took));
"""


def large(it: Any) -> None:
    """Plays all lies over a grid of thousands of nodes: no piece of work may block the page."""
    page, owner = it.page, it.scene.owner
    nodes = [
        f"node {row * GRID + column} {column * 10_000} {row * 10_000}" for row in range(GRID) for column in range(GRID)
    ]
    roads = [
        f"road {at} {at + step} {1_200 + (at * 7 + step) % 50}"
        for at in range(GRID * GRID)
        for step in (1, GRID)
        if (step == GRID or (at + 1) % GRID) and at + step < GRID * GRID
    ]
    owner.keep("town.roads", "\n".join(["roads 1", *nodes, *roads, ""]).encode())
    it.scene.gateway.serve(owner.publish(6, "dij"))
    script = page.driver.execute_cdp_cmd("Page.addScriptToEvaluateOnNewDocument", {"source": LONG})["identifier"]
    page.open(it.place.origin)
    page.driver.execute_cdp_cmd("Page.removeScriptToEvaluateOnNewDocument", {"identifier": script})
    middle = GRID // 2 * GRID + GRID // 2
    for what, ask, end, room in (
        ("a radius of all nodes", "reach", "20", False),
        ("a route over a third of them", "route", middle + 22 * GRID + 9, False),
        ("a short route", "route", middle + 9 * GRID + 3, True),
    ):
        same(f"{what}: state", page.ask(ask, middle, end)[0], "accepted")
        page.driver.execute_script("window.longest = 0")
        took = {}
        for name in page.lies():
            began = time.monotonic()
            _, text, line = page.lie(name)
            took[name] = time.monotonic() - began
            if name == "round" and ask == "route":
                same(
                    f"{what}: the long way round",
                    line.split()[1:2] or ["no room"] * ("no room for that lie" in text),
                    ["Shorter"] if room else ["no room"],
                )
        longest = page.driver.execute_script("return window.longest")
        print(f"page: {what}, longest piece of work {longest:.0f} ms, longest lie {max(took.values()):.1f} s")
        holds(f"{what}: the page stands still", longest < MOST_BESIDE, longest)
        holds(f"{what}: a lie takes long", max(took.values()) < 60, took)
    pieces(it, middle)
    page.faults()  # older maps do not have this node, which is an error on the console


def pieces(it: Any, middle: int) -> None:
    """The processor time of each piece of the page's work over these replies."""
    owner, end = it.scene.owner, middle + 9 * GRID + 3
    owner.keep("all.reply", owner.run(f"reach map.pub {middle} 200000"))
    owner.keep("short.reply", owner.run(f"prove map.pub {middle} {end}"))
    length = int(
        subprocess.run(
            [owner.program, "check", "owner.key", "short.reply", str(middle), str(end), "1", "owner.chain"],
            cwd=owner.folder,
            capture_output=True,
            text=True,
            check=True,
        )
        .stdout.split()[1]
        .rstrip(":")
    )
    words = [TOP / "web/page", middle, end, 200_000, length, "all.reply", "short.reply", "map.pub"]
    done = subprocess.run(
        ["node", "--input-type=module", "-e", PIECES, *map(str, words)],
        cwd=owner.folder,
        capture_output=True,
        text=True,
        check=False,
    )
    same("pieces of work", done.stderr, "")
    took = json.loads(done.stdout or "{}")
    print(f"page: the longest piece of work takes {max(took.values(), default=0):.0f} processor ms")
    same("pieces of work above 50 ms", [one for one in took.items() if one[1] > MOST_PROCESSOR], [])
    holds("pieces of work", len(took) >= 20, took)
