"""Plays stations on the page: the nearest ones, and the area that they cover. Nobody trusts this file."""

from __future__ import annotations

import math
import pathlib
import tempfile
from typing import Any

from expected import ISLAND, START, holds, same

NAMES = {18: "North", 200: "South", 30: "East", ISLAND: "Island"}
TEXT = "\n".join(f"{node} {name}" for node, name in NAMES.items())


def said(length: int) -> str:
    """A length of decimetres in the page's words."""
    metres = length / 10
    return f"{round(metres)} m" if metres < 999.5 else f"{metres / 1000:.2f} km"


def plan(it: Any, ask: str, text: str, first: str) -> tuple[str, str, str]:
    """Asks about stations: from a node, or within a limit."""
    page = it.page
    page.until(lambda: page.driver.execute_script("return document.querySelector('[name=file]') !== null"))
    page.driver.execute_script("arguments[0].click()", page.find(f"[name=ask][value={ask}]"))
    page.fill("[name=stations]", text)
    page.fill("[name=from]" if ask == "nearest" else "[name=radius]", first)
    page.driver.execute_script("arguments[0].requestSubmit()", page.find("#question"))
    found: tuple[str, str, str] = page.settled()
    return found


def stations(it: Any) -> None:
    page = it.page
    page.open(it.place.origin)
    page.until(page.has_map)
    page.until(page.has_streets)
    nearest(it)
    covers(it)
    chosen(it)
    wrong(it)


def nearest(it: Any) -> None:
    """Plays the nearest three stations with way and cost, in bands, by a link, and on paper."""
    page, lengths = it.page, it.town.distances(START)
    order = sorted((lengths[node], node) for node in NAMES if node in lengths)
    seen = plan(it, "nearest", TEXT, str(START))
    told = "; ".join(f"{NAMES[node]}, {said(length)}" for length, node in order)
    holds(
        "the nearest stations",
        seen[0] == "accepted"
        and seen[1].startswith(
            f"Proved: 3 stations nearest to {it.town.streets[START]}, of 4: {told}, in version 4 of"
        ),
        seen,
    )
    rows = page.rows("#plan li")
    same(
        "their list",
        [row[:3] for row in rows],
        [["BCD"[at], NAMES[node], f"{length:,} decimetres"] for at, (length, node) in enumerate(order)],
    )
    holds("the ways there", all(row[3].count(" ") > 1 for row in rows), rows)
    drawn = page.coloured()
    holds(
        "ways and bands are drawn",
        drawn["route"] > 200 and drawn["band1"] > 50 and drawn["start"] > 60 and drawn["end"] > 100,
        drawn,
    )
    same(
        "its link",
        page.driver.execute_script("return location.hash"),
        f"#from={START}&stations={'%2C'.join(map(str, NAMES))}",
    )
    holds("directions", "both ways alike: no one-way streets, no turns" in page.text("#both"))
    it.shot("stations")
    page.media("print")
    same(
        "the sheet",
        [
            name
            for name in (
                "#plan li",
                "#both",
                "#verdict",
                "#picture",
                "#question",
                "#print-plan",
                "#ends li",
                "#ways li",
            )
            if page.shown_any(name)
        ],
        ["#plan li", "#both", "#verdict", "#picture"],
    )
    page.media()
    by_link(it, f"#from={START}&stations=18,200", ["nearest", str(START), "18\n200"])
    seen = plan(it, "nearest", str(ISLAND), str(START))
    holds(
        "no station is joined",
        seen[1].startswith(f"Proved: no station is joined to {it.town.streets[START]}, in version 4 of"),
        seen,
    )
    page.ask("route", START, 18)
    holds("another question", not page.shown("#plan") and page.shown("#ways"), page.state())


def by_link(it: Any, link: str, wanted: list[str]) -> None:
    page = it.page
    it.front.seen.clear()
    page.open("about:blank", waits=False)
    page.open(f"{it.place.origin}/{link}")
    page.until(page.has_map)
    page.until(lambda: page.driver.execute_script("return question.elements.stations.value !== ''"))
    first = "from" if wanted[0] == "nearest" else "radius"
    same(
        f"{link} fills the form",
        page.driver.execute_script(
            f"return ['ask', '{first}', 'stations'].map((name) => question.elements[name].value)"
        ),
        wanted,
    )
    same(f"{link} asks nothing", [path for path, _ in it.front.seen if "route?" in path or "reach?" in path], [])


def covers(it: Any) -> None:
    """Plays the area that stations cover, the count of nodes that none reaches, and the roads of the server's map."""
    page, limit = it.page, 3_000
    costs: dict[int, float] = {}
    for station in NAMES:
        for node, length in it.town.distances(station).items():
            if length <= limit:
                costs[node] = min(costs.get(node, math.inf), length)
    seen = plan(it, "cover", TEXT, "0.3")
    count = f"within {said(limit)} of 4 stations are {len(costs)} nodes, and {len(it.town.places) - len(costs)} nodes that none reaches"
    holds(
        "what stations cover", seen[0] == "accepted" and seen[1].startswith(f"Proved: {count}, in version 4 of"), seen
    )
    holds("what is not proved is said", "drawn by the server's map, which nobody proved" in seen[1], seen)
    drawn = page.coloured()
    holds("it is drawn", drawn["lack"] > 100 and drawn["band1"] > 50 and drawn["route"] == 0, drawn)
    served = sum(int(row[2].split()[2].replace(",", "")) for row in page.rows("#plan li"))
    same("each node has one nearest station", served, len(costs))
    it.shot("cover")
    by_link(it, "#within=0.3&stations=18,200", ["cover", "0.3", "18\n200"])


def chosen(it: Any) -> None:
    """Plays stations from a file, and by taps."""
    page = it.page
    page.open(it.place.origin)
    page.until(page.has_map)
    page.until(page.has_streets)
    page.driver.execute_script("arguments[0].click()", page.find("[name=ask][value=cover]"))
    with tempfile.TemporaryDirectory() as folder:
        file = pathlib.Path(folder) / "stations.txt"
        file.write_text(TEXT + "\n")
        page.find("[name=file]").send_keys(str(file))
        page.until(lambda: page.driver.execute_script("return question.elements.stations.value") == TEXT)
    page.fill("[name=stations]", "")
    for place in ((-60, -40), (50, 60), (-60, -40)):
        page.tap(*place)
        page.until(lambda: page.text("#hint").endswith(" is a station. Tap another one, or ask."))
    lines = page.driver.execute_script("return question.elements.stations.value").split("\n")
    holds(
        "stations by taps",
        len(lines) == 2 and all(line.partition(" ")[2] == it.town.streets[int(line.split()[0])] for line in lines),
        lines,
    )
    page.fill("[name=radius]", "1")
    page.driver.execute_script("arguments[0].requestSubmit()", page.find("#question"))
    same("tapped stations", page.settled()[0], "accepted")


def wrong(it: Any) -> None:
    """Plays invalid lists, and a lying gateway."""
    page = it.page
    for text, first, told in (
        ("18\n18", str(START), "line 2 of the stations: node 18 occurs twice"),
        ("x", str(START), "line 1 of the stations does not begin with a node's id"),
        ("", str(START), "name a station, or tap one"),
        ("18", "", "say where to start"),
    ):
        seen = plan(it, "nearest", text, first)
        holds(f"stations {text!r}", seen[0] == "failed" and told in seen[1] and not page.shown("#plan"), seen)
    it.front.wrong = (
        lambda path, _headers, status, more, octets: (status, more, octets[:-1] + bytes([octets[-1] ^ 1]))
        if "reach?" in path and "radius=0" not in path and status == 200
        else None
    )
    page.driver.execute_cdp_cmd("Network.clearBrowserCache", {})
    seen = plan(it, "cover", TEXT, "0.2")
    same("a gateway that lies", (seen[0], seen[2], page.shown("#plan")), ("refused", "refused BadCover Differs", False))
    it.front.wrong = None
    page.driver.execute_cdp_cmd("Network.clearBrowserCache", {})
    same("no more", plan(it, "cover", TEXT, "0.2")[0], "accepted")
