"""Plays people who use the page, with hands, keys, links and paper. Nobody trusts this file."""

import base64
import json
import os
import subprocess
from typing import Any

from driven import MADE
from expected import END, START, TOP, holds, same
from front import turned_about, with_shorter_road
from play_verdicts import length_said
from scene import Page

OCTETS, SECONDS = 200_000, 1.0
NAMES = {
    ("radio", "a shortest route"),
    ("radio", "all within a radius"),
    ("radio", "the nearest stations"),
    ("radio", "what stations cover"),
    ("combobox", "From, street or node"),
    ("combobox", "To, street or node"),
    ("combobox", "Map"),
    ("button", "Ask and check"),
    ("button", "Zoom in"),
    ("button", "Zoom out"),
    ("button", "Show all of it"),
    ("checkbox", "Show what proves it"),
    ("combobox", "Let the server"),
    ("button", "Let the server lie"),
    ("button", "Print a sheet"),
    ("button", "Take older maps again"),
    ("link", "GeoJSON"),
    ("link", "GPX"),
    ("link", "the reply's octets"),
    ("link", "the owner's key"),
}
CONTROLS = {
    "button",
    "textbox",
    "searchbox",
    "combobox",
    "ComboBoxMenuButton",
    "radio",
    "checkbox",
    "link",
    "DisclosureTriangle",
    "image",
    "Canvas",
    "listbox",
    "application",
}
# the expected words of the page in any browser: each module is called alone
WORDS = """
import { Lengths } from "%(here)s/lengths.mjs";
import { Shapes } from "%(here)s/shapes.mjs";
import { waysOf } from "%(here)s/ways.mjs";
import { piecesOf } from "%(here)s/bands.mjs";
const said = (word, ...numbers) => numbers.map((number) => new Lengths(word).said(number));
const shapes = new Shapes(10_000_000, 10);
const [a, b, c] = [{ id: 1, x: 0, y: 0 }, { id: 2, x: 10_000, y: 0 }, { id: 3, x: 20_000, y: 0 }];
shapes.read(JSON.stringify({ shapes: 1, push: ["2 3"], lines: { "1 2": [[0, 0], [5_000, 0], [10_000, 0]], "2 3": [[10_000, 0], [15_000, 9_000], [20_000, 0]], "1 3": [[1, 0], [5_000, 0], [20_000, 0]] } }));
const leaves = [{ ...a, arcs: [{ to: 2, length: 100 }] }, { ...b, arcs: [{ to: 1, length: 100 }, { to: 3, length: 50 }] }, { ...c, arcs: [{ to: 2, length: 50 }] }];
const nodes = [{ id: 1, distance: 0n }, { id: 2, distance: 100n }, { id: 3, distance: 150n }];
const { Pauses } = await import("%(here)s/pauses.mjs");
const bandsOf = (...given) => piecesOf(...given, straight, new Pauses());
const flat = (bands) => bands.map((pieces) => pieces.map((piece) => piece.map(({ x }) => x)).sort((one, two) => one[0] - two[0]));
const straight = new Shapes(null, null);
console.log(JSON.stringify({
    far: said("decimetres", 0, 94, 95_994, 99_949, 121_584n, 9_999_500n), near: said("metres", 999, 1000), time: said("seconds", 59, 61, 600, 3_599, 3_661), word: said("steps", 1_234n), none: said("", 5n),
    field: [["decimetres", 95_994n], ["seconds", 90n], ["steps", 7n]].map(([word, number]) => new Lengths(word).field(number)),
    read: ["1", "1.5", "0.00001", "", "-1", "1e3", "99999999999999999999"].map((text) => `${new Lengths("decimetres").read(text)}`),
    minutes: `${new Lengths("seconds").read("7.5")} ${new Lengths("seconds").typed.name}`, plain: `${new Lengths("steps").read("12")}`,
    bands: [new Lengths("decimetres").bands(10_000n), new Lengths("seconds").bands(900n), new Lengths("steps").bands(7n)],
    bends: [shapes.line(a, b, 1_114).length, shapes.line(a, b, 1_113).length, shapes.line(b, c, 1_114).length, shapes.line(a, c, 9_999).length], turned: shapes.line(b, a, 1_114).map(({ x }) => x),
    ways: waysOf([1, 2, 3], leaves, new Map([[1, "Low Road"], [2, "High Road; Low Road"], [3, "High Road"]]), shapes),
    unnamed: waysOf([1, 2, 3], leaves, new Map(), shapes).map(({ name, length, push }) => [name, length, push]), back: waysOf([3, 2, 1], leaves, new Map(), shapes)[0].push,
    pieces: flat(await bandsOf(nodes, leaves, [50, 120, 150])), meet: flat(await bandsOf([{ id: 1, distance: 0n }, { id: 2, distance: 40n }], leaves.slice(0, 2), [60, 80])),
}));
"""


def words(it: Any) -> None:
    """Plays lengths, times, streets, bends and bands. The expected values were computed by hand."""
    done = subprocess.run(
        ["node", "--input-type=module", "-e", WORDS % {"here": TOP / "web/page"}],
        capture_output=True,
        text=True,
        check=False,
    )
    same("the modules of words", done.stderr, "")
    seen = json.loads(done.stdout or "{}")
    wanted = {
        "far": ["0 m", "9.4 m", "9.60 km", "9.99 km", "12.16 km", "1,000 km"],
        "near": ["999 m", "1.00 km"],
        "time": ["59 s", "1 min 1 s", "10 min", "1 h 0 min", "1 h 1 min"],
        "word": ["1,234 steps"],
        "none": ["5"],
        "field": [{"kilometres": 9.5994}, {"minutes": 1.5}, {}],
        "read": ["10000", "15000", "0", "null", "null", "null", "null"],
        "minutes": "450 minutes",
        "plain": "12",
        "bands": [[2000, 4000, 6000, 8000, 10000], [300, 600, 900], [2, 4, 6, 7]],
        # a thousandth of a degree of the equator is 111.319 m by WGS 84; then a line with a detour, and a line with
        # another end
        "bends": [3, 2, 2, 2],
        "turned": [10_000, 5_000, 0],
        "ways": [
            {"name": "Low Road", "length": 100, "push": 0, "nodes": [1, 2]},
            {"name": "High Road", "length": 50, "push": 50, "nodes": [2, 3]},
        ],
        "unnamed": [["", 150, 50]],
        "back": 50,
        # the road from node 1 costs 0 to 100 over 10,000 of x; the road from node 2 costs 100 to 150
        "pieces": [[[0, 5000]], [[5000, 10000], [10000, 14000]], [[14000, 20000]]],
        # a road of 100 from node 1 at cost 0 to node 2 at cost 40 costs 70 where both meet, at 7,000
        "meet": [[[0, 6000], [8000, 10000]], [[6000, 7000], [7000, 8000]]],
    }
    for name, value in wanted.items():
        same(f"words: {name}", seen.get(name), value)
    by_time(it)


def by_time(it: Any) -> None:
    """Plays minutes by the owner's word alone: the server's unit changes nothing."""
    page, place = it.page, Page(
        it.scene.owner, it.front.origin, more=["--streets", "town.ids", "--lengths", "seconds", "--least", "4"]
    )
    far = it.town.distances(START)[END]
    it.front.wrong = (
        lambda path, _headers, status, more, octets: (
            status,
            more,
            octets.replace(b"{", b'{"lengths": "metres", "unit": "km", ', 1),
        )
        if path == "/v1/info"
        else None
    )
    try:
        page.open(place.origin)
        text = page.ask("route", START, END)[1]
        holds("minutes by the owner's word", f", {far // 3600} h {round(far / 60) % 60} min long, " in text, text)
        (line,) = json.loads(page.saves("GeoJSON", "proved.geojson"))["features"]
        said = {name: line["properties"].get(name) for name in ("length", "minutes", "kilometres")}
        holds(
            "minutes in GeoJSON",
            said == {**said, "length": far, "kilometres": None} and abs(said["minutes"] - far / 60) <= 0.005,
            said,
        )
        same("the radius in minutes", page.text("#lengths"), ", in minutes")
        holds("a radius in minutes", f"within {1_020 // 60} min of " in page.ask("reach", START, "17")[1], page.state())
    finally:
        it.front.wrong = None
        place.end()


def pushed(it: Any) -> None:
    """Plays the places where a cycle is pushed: the way, the drawing and the GeoJSON show them exactly where the
    owner's file of shapes does."""
    page, owner = it.page, it.scene.owner
    page.open(it.place.origin)
    page.ask("route", START, END)
    nodes, plain = page.ids(), page.coloured()["route"]
    same("push: without a file", (page.shown("#pushed"), "push" in page.text("#ways ol")), (False, False))
    hop = nodes[3:5]
    far = min(length for to, length in it.town.arcs[hop[0]] if to == hop[1])
    owner.keep("push.shapes", json.dumps({"shapes": 1, "push": [f"{min(hop)} {max(hop)}"], "lines": {}}).encode())
    place = Page(owner, it.front.origin, more=["--streets", "town.ids", "--shapes", "push.shapes"])
    try:
        page.open(place.origin)
        page.ask("route", START, END)
        page.until(lambda: page.shown("#pushed"))
        told = page.driver.execute_script(
            "return [...document.querySelectorAll('#ways .push')].map((it) => it.textContent)"
        )
        same("push: the way says how far", told, [f"push {length_said(far)}"])
        seen = page.coloured()["route"]
        holds("push: the route is dashed there", 0 < seen < plain, (plain, seen))
        (line,) = json.loads(page.saves("GeoJSON", "proved.geojson"))["features"]
        same("push: GeoJSON", line["properties"]["push"], [hop])
        it.shot("push")
        page.ask("route", nodes[4], END)
        same("push: a route beside it", (page.shown("#pushed"), page.text("#ways ol").count("push")), (False, 0))
    finally:
        place.end()


def shown(it: Any) -> None:
    """Plays a map that misleads users who tap on it. The page drops the map, and shows both ends as tapped and as
    proved."""
    page, front = it.page, it.front
    page.open(it.place.origin)
    honest = taps(it, (-60, -40), (50, 60))
    same(
        "an honest map",
        [row[2:] for row in honest],
        [[f"tapped at {it.town.said(node)}", f"proved at {it.town.said(node)}"] for node in ends_of(page)],
    )
    holds("it is still behind", page.coloured()["grey"] > 50, page.coloured())
    same(
        "nothing is said of it", page.driver.execute_script("return document.querySelectorAll('#verdict em').length"), 0
    )
    front.wrong = (
        lambda path, _headers, status, more, octets: (status, more, turned_about(octets))
        if path.endswith("/publication") and status == 200
        else None
    )
    page.driver.execute_cdp_cmd("Network.clearBrowserCache", {})
    page.open(it.place.origin)
    rows = taps(it, (-60, -40), (50, 60))
    ids = ends_of(page)
    other = [len(it.town.places) + 1 - node for node in ids]
    same("a map that lies: the verdict", page.state()[0], "accepted")
    holds(
        "a map that lies: it is said",
        "The server's map is dropped" in page.state()[1] and "at another place" in page.state()[1],
        page.state(),
    )
    same("a map that lies: it is dropped", page.coloured()["grey"], 0)
    same(
        "a map that lies: both ends",
        [row[1:4] for row in rows],
        [
            [it.town.streets[node], f"tapped at {it.town.said(there)}", f"proved at {it.town.said(node)}"]
            for node, there in zip(ids, other)
        ],
    )
    holds("a map that lies: how far that is", all(row[4].endswith(" from where you tapped") for row in rows), rows)
    it.shot("map-lies")
    page.ask("route", START, END)
    same("a map that was dropped does not come back", page.coloured()["grey"], 0)
    front.wrong = (
        lambda path, _headers, status, more, octets: (status, more, with_shorter_road(octets, START))
        if path.endswith("/publication") and status == 200
        else None
    )
    page.driver.execute_cdp_cmd("Network.clearBrowserCache", {})
    page.open(it.place.origin)
    page.until(page.has_map)
    page.ask("route", START, END)
    holds("a map with another length: it is said", "another road between the nodes" in page.state()[1], page.state())
    same("a map with another length: it is dropped", page.coloured()["grey"], 0)
    other_map(it)
    front.wrong = None
    page.driver.execute_cdp_cmd("Network.clearBrowserCache", {})
    before(it)


def other_map(it: Any) -> None:
    """Plays a lying map of a publication that gets no query: the two ends reveal it."""
    page, front = it.page, it.front

    def wrong(path: str, _headers: Any, status: int, more: Any, octets: bytes) -> Any:
        if path == "/v1/info":
            told = json.loads(octets)
            return status, more, json.dumps({**told, "publications": told["publications"][::-1]}).encode()
        return (status, more, turned_about(octets)) if path.endswith("/publication") and status == 200 else None

    front.wrong = wrong
    page.driver.execute_cdp_cmd("Network.clearBrowserCache", {})
    page.open(it.place.origin)
    rows = taps(it, (-60, -40), (50, 60))
    holds(
        "an older map that lies: it is said",
        page.state()[0] == "accepted" and "The places that you tapped are not those that are proved" in page.state()[1],
        page.state(),
    )
    same("an older map that lies: both ends", [row[4].endswith(" from where you tapped") for row in rows], [True, True])


def ends_of(page: Any) -> list[int]:
    """The requested nodes, from the link."""
    link = page.driver.execute_script("return location.hash")
    return [int(part.partition("=")[2]) for part in link.lstrip("#").split("&")]


def taps(it: Any, *places: tuple[int, int]) -> Any:
    """Taps on the drawing. Returns the rows of both ends."""
    page = it.page
    page.until(page.has_map)
    page.until(page.has_streets)
    for place in places:
        page.tap(*place)
    page.settled()
    return page.rows("#ends li")


def before(it: Any) -> None:
    """Plays the previous answer: it stays visible until the next verdict, marked as belonging to another question. An
    empty end removes it."""
    page = it.page
    page.open(it.place.origin)
    page.until(page.has_map)
    page.until(page.has_streets)
    text = page.ask("route", START, END)[1]
    page.tap(30, 40)
    page.until(lambda: page.shown("#hint"))
    same(
        "the first tap: what was proved is of another question",
        page.state()[:2],
        ("before", f"Of another question: {text}"),
    )
    seen = page.colours()
    holds(
        "the first tap: it is drawn, but faintly",
        seen["route"]["faint"] > 100 and seen["leaf"]["faint"] > 10 and seen["route"]["count"] < 50,
        seen,
    )
    holds("the first tap is marked at once", seen["start"]["count"] > 60, seen["start"])
    holds(
        "the first tap: what comes next",
        page.text("#hint").startswith("From ") and page.text("#hint").endswith("Now tap the place to go to."),
        page.text("#hint"),
    )
    page.fill("[name=from]", "")
    page.driver.execute_script("arguments[0].requestSubmit()", page.find("#question"))
    same("an empty end", page.settled()[:2], ("failed", "There is no verdict: say where to start."))
    seen = page.coloured()
    same(
        "an empty end: nothing is drawn as proved",
        (seen["route"], seen["leaf"], page.shown("#ends"), page.shown("#ways"), page.shown("#handed")),
        (0, 0, False, False, False),
    )


def moves(it: Any) -> None:
    """Plays pan and zoom by wheel, mouse, fingers, keys and buttons, and the switch of the proof."""
    from selenium.webdriver.common.keys import Keys

    page = it.page
    page.open(it.place.origin)
    page.until(page.has_map)
    page.ask("route", START, END)

    def apart() -> tuple[float, float, float]:
        (a, b), (c, d) = page.marks()
        return ((c - a) ** 2 + (d - b) ** 2) ** 0.5, (a + c) / 2, (b + d) / 2

    now = apart()

    def near(what: str, times: float, right: float = 0.0, down: float = 0.0) -> None:
        """Tests that the two ends are this many times as far apart as before, and moved."""
        nonlocal now
        was, now = now, apart()
        page.until(lambda: True)
        holds(
            what,
            abs(now[0] / was[0] - times) < 0.04
            and abs(now[1] - was[1] - right) < 4
            and abs(now[2] - was[2] - down) < 4,
            (was, now),
        )

    page.wheel(120)
    near("the wheel", 2.718281828 ** (-120 / 300))
    page.drag(40, 30)
    near("a drag", 1, 40, 30)
    page.drag(-40, -30)
    near("a drag back", 1, -40, -30)
    page.touch([(-40, 0), (40, 0)], [(-50, 0), (50, 0)], [(-60, 0), (60, 0)])
    near("two fingers", 1.5)
    page.touch([(0, 0)], [(10, 10)], [(25, -20)])
    near("one finger", 1, 25, -20)
    page.driver.execute_script("arguments[0].focus()", page.find("#picture"))
    page.find("#picture").send_keys("-")
    was = apart()
    holds("the key -", abs(was[0] / now[0] - 1 / 1.5) < 0.04, (now, was))
    now = was
    page.find("#picture").send_keys(Keys.ARROW_RIGHT, Keys.ARROW_UP)
    near("arrows", 1, -60, 60)
    page.find("#picture").send_keys("0")
    whole = apart()
    page.driver.execute_script("document.querySelectorAll('[data-zoom]')[0].click()")
    now = whole
    page.driver.execute_script("document.querySelectorAll('[data-zoom]')[1].click()")
    near("buttons, in and out", 1)
    page.find("#picture").send_keys(Keys.ENTER)
    page.until(lambda: page.state()[0] == "before")
    holds(
        "Enter chooses the place in the middle",
        page.driver.execute_script("return document.querySelector('[name=from]').value") != str(START),
        page.state(),
    )
    page.ask("route", START, END)
    page.driver.execute_script("document.getElementById('proof').click()")
    seen = page.coloured()
    holds("without the proof", seen["leaf"] == 0 and seen["route"] > 200 and seen["start"] > 100, seen)
    page.driver.execute_script("document.getElementById('proof').click()")
    holds(
        "with the proof, the route is above it",
        page.coloured()["leaf"] > 50 and page.coloured()["route"] >= seen["route"],
        (seen, page.coloured()),
    )


def link(it: Any) -> None:
    """Plays a link: it contains only the ends, and nothing is requested before a user presses."""
    page, front = it.page, it.front
    front.seen.clear()
    page.open("about:blank", waits=False)
    page.open(f"{it.place.origin}/#from={START}&to={END}&key=00&gateway=http://127.0.0.1:9&least=1&map=x")
    page.until(page.has_map)
    values = page.driver.execute_script(
        "return ['from', 'to', 'map'].map((name) => document.querySelector(`[name=${name}]`).value)"
    )
    same("a link fills the form", values, [str(START), str(END), ""])
    same("a link asks nothing", [path for path, _ in front.seen if "route?" in path or "reach?" in path], [])
    same("a link changes no least version", page.text("#least") != "1", True)
    page.driver.execute_script("arguments[0].requestSubmit()", page.find("#question"))
    same("somebody presses", page.settled()[0], "accepted")
    same("the link of a question", page.driver.execute_script("return location.hash"), f"#from={START}&to={END}")
    page.ask("reach", START, "0.5")
    same("the link of a radius", page.driver.execute_script("return location.hash"), f"#from={START}&within=0.5")
    page.open("about:blank", waits=False)
    page.open(f"{it.place.origin}/#from=Pear+Street&within=0.5")
    same(
        "a link of a radius fills the form",
        page.driver.execute_script(
            "return [question.elements.ask.value, question.elements.from.value, question.elements.radius.value]"
        ),
        ["reach", "Pear Street", "0.5"],
    )


def paper(it: Any) -> None:
    """Plays the printed sheet."""
    page = it.page
    page.media(prefers_color_scheme="dark")
    page.open(it.place.origin)
    page.until(page.has_map)
    page.ask("route", START, END)
    page.media("print", prefers_color_scheme="dark")
    there = {
        selector: page.shown(selector)
        for selector in (
            "#verdict",
            "#picture",
            "#ways li",
            "#key",
            "#facts",
            "#again",
            "#ends li",
            "#question",
            "#lie",
            "#walk",
            "#zooms",
            "#hint",
            "#forget",
            "footer",
        )
    }
    same(
        "the sheet",
        [selector for selector, is_there in there.items() if is_there],
        ["#verdict", "#picture", "#ways li", "#key", "#facts", "#again", "#ends li", "footer"],
    )
    same(
        "the sheet is on white",
        page.driver.execute_script("return getComputedStyle(document.body).backgroundColor"),
        "rgb(255, 255, 255)",
    )
    octets = base64.b64decode(page.driver.execute_cdp_cmd("Page.printToPDF", {})["data"])
    holds("the sheet as a file", octets[:5] == b"%PDF-" and len(octets) > 20_000, len(octets))
    holds(
        "the sheet says when",
        page.text("#printed").startswith("Printed 20") and page.text("#printed").endswith(" UTC"),
        page.text("#printed"),
    )
    if it.screens:
        (it.screens / "sheet.pdf").write_bytes(octets)
    page.media()


def everybody(it: Any) -> None:
    page, driver = it.page, it.page.driver
    script = driver.execute_cdp_cmd("Page.addScriptToEvaluateOnNewDocument", {"source": MADE})["identifier"]
    page.open(it.place.origin)
    same(
        "a check beside the page",
        (page.ask("route", START, END)[0], driver.execute_script("return made")),
        ("accepted", 0),
    )
    driver.execute_cdp_cmd("Page.removeScriptToEvaluateOnNewDocument", {"identifier": script})
    same("a secure one says nothing", page.find("#insecure").is_displayed(), False)
    page.until(page.has_streets)
    names = "Beech Street; Heron Lane"
    told = [
        str(TOP / "tools/nearest.py"),
        "town.roads",
        "--ids",
        "town.ids",
        "--name",
        "Beech Street",
        "--name",
        "Heron Lane",
    ]
    node = int(subprocess.run(told, cwd=it.scene.owner.folder, capture_output=True, text=True, check=True).stdout)
    page.ask("route", START, names)
    same(
        "by streets",
        (page.state()[0], page.rows("#ends li")[1][1:]),
        ("accepted", [it.town.streets[node], f"asked for as {names}", f"proved at {it.town.said(node)}"]),
    )
    same("no street", page.ask("route", START, "Nowhere Road")[0], "failed")
    by_keys(it)
    named(it)
    narrow(it)
    slow(it)


def named(it: Any) -> None:
    """Tests that each control has its name and role, that each text has enough contrast, and that nothing moves."""
    page, driver = it.page, it.page.driver
    page.ask("route", START, END)
    driver.execute_script("document.querySelectorAll('details').forEach((it) => { it.open = true; })")
    nodes = driver.execute_cdp_cmd("Accessibility.getFullAXTree", {})["nodes"]
    told = [
        (one["role"]["value"], one.get("name", {}).get("value", ""))
        for one in nodes
        if not one.get("ignored") and "role" in one
    ]
    same("controls without a name", [role for role, name in told if role in CONTROLS and not name.strip()], [])
    same(
        "controls by role and name",
        sorted(NAMES - {("combobox" if role == "ComboBoxMenuButton" else role, name) for role, name in told}),
        [],
    )
    drawn = [name for role, name in told if role == "application"]
    holds(
        "the drawing", len(drawn) == 1 and drawn[0].startswith("Map of what was proved: a shortest route from "), drawn
    )
    same("the live regions", [role for role, _ in told if role == "status"], ["status"])
    for scheme in ("light", "dark"):
        page.media(prefers_color_scheme=scheme, prefers_reduced_motion="reduce")
        seen = page.contrasts()
        same(f"{scheme}: texts below 4.5", [one for one in seen["texts"] if one[1] < 4.5], [])
        same(f"{scheme}: lines below 3", [one for one in seen["lines"] if one[1] < 3], [])
        holds(f"{scheme}: texts", len(seen["texts"]) > 25, seen)
        same(f"{scheme}: motion", driver.execute_script("return document.getAnimations().length"), 0)
    page.media()


def by_keys(it: Any) -> None:
    """Plays a question and a lie by keys alone."""
    from selenium.webdriver.common.keys import Keys

    page, driver = it.page, it.page.driver
    page.open(it.place.origin)
    page.lies()
    passed = []

    def go(name: str) -> Any:
        for _ in range(40):
            driver.switch_to.active_element.send_keys(Keys.TAB)
            now = driver.switch_to.active_element
            passed.append(now.get_attribute("name") or now.tag_name)
            if passed[-1] == name:
                return now
        raise AssertionError(f"keys do not lead to {name}")

    go("from").send_keys(str(START))
    go("to").send_keys(str(END) + Keys.ENTER)
    same("a question by keys", page.settled()[0], "accepted")
    go("lie").send_keys(Keys.ARROW_DOWN)
    driver.switch_to.active_element.send_keys(Keys.TAB)
    driver.switch_to.active_element.send_keys(Keys.SPACE)
    same("a lie by keys", page.settled()[::2], ("refused", page.state()[2]))
    holds(
        "the focus stays",
        driver.switch_to.active_element.text == "Let the server lie",
        driver.switch_to.active_element.text,
    )


def narrow(it: Any) -> None:
    """Plays narrow and wide screens, dark and light. On a phone, the hint on the next step is visible where the user
    taps."""
    page, driver = it.page, it.page.driver
    for name, width, height, scheme in (
        ("phone", 390, 844, "light"),
        ("phone-dark", 390, 844, "dark"),
        ("phone-small", 360, 640, "light"),
        ("narrow", 320, 640, "light"),
        ("wide", 1920, 1080, "dark"),
    ):
        is_phone = width < 500
        page.shape(width, height, 2 if is_phone else 1, is_phone)
        page.media(prefers_color_scheme=scheme)
        page.open(it.place.origin)
        page.until(page.has_map)
        page.ask("route", START, END)
        driver.execute_script("document.querySelectorAll('details').forEach((it) => { it.open = true; })")
        seen = driver.execute_script("return [document.scrollingElement.scrollWidth, innerWidth]")
        holds(f"{width} wide: no scroll to the side", seen[0] <= width and seen[1] == width, seen)
        driver.execute_script("document.querySelectorAll('details').forEach((it) => { it.open = false; })")
        it.shot(name)
        driver.execute_script("document.getElementById('picture').scrollIntoView({ block: 'center' })")
        holds(
            f"{width} wide: the whole drawing is on the screen",
            page.in_view("#picture"),
            driver.execute_script("return document.getElementById('picture').getBoundingClientRect().toJSON()"),
        )
        page.touch([(20, 30)])
        page.until(lambda: page.shown("#hint"))
        holds(
            f"{width} wide: what to do next is on the screen",
            page.in_view("#hint") and "Now tap the place to go to." in page.text("#hint"),
            page.text("#hint"),
        )
        if name == "phone":
            it.shot_here("phone-tapped")
        page.touch([(-50, -60)])
        holds(
            f"{width} wide: two taps by a finger",
            page.settled()[0] == "accepted" and not page.shown("#hint"),
            page.state(),
        )
    page.shape(1280, 1000)
    page.media()


def slow(it: Any) -> None:
    """Measures when the first request is possible on a slow line, and the octets that were transferred."""
    page, driver = it.page, it.page.driver
    driver.execute_cdp_cmd("Network.enable", {})
    driver.execute_cdp_cmd("Network.setCacheDisabled", {"cacheDisabled": True})
    driver.execute_cdp_cmd(
        "Network.emulateNetworkConditions",
        {"offline": False, "latency": 150, "downloadThroughput": 200_000, "uploadThroughput": 200_000},
    )
    times = []
    for _ in range(3):
        page.open(it.place.origin)
        times.append(driver.execute_script("return performance.getEntriesByName('ready')[0].startTime") / 1000)
    same("a route over a slow line", page.ask("route", START, END)[0], "accepted")
    octets = driver.execute_script(
        "return performance.getEntries().reduce((sum, one) => sum + (one.transferSize ?? 0), 0)"
    )
    driver.execute_cdp_cmd(
        "Network.emulateNetworkConditions",
        {"offline": False, "latency": 0, "downloadThroughput": -1, "uploadThroughput": -1},
    )
    driver.execute_cdp_cmd("Network.setCacheDisabled", {"cacheDisabled": False})
    print(
        f"page: at 1.6 Mbit/s and 150 ms the first ask is possible after {min(times):.2f} s, behind {octets:,} octets"
    )
    holds("octets over the wire", 20_000 < octets < OCTETS, octets)
    if os.getloadavg()[0] > (os.cpu_count() or 1):
        return print("skipped: the time to the first ask, since this machine has other work")
    holds("the time to the first ask", min(times) < SECONDS, times)
    return None
