"""Plays the age of a map and its name: dated versions, a clock that advances and a wrong one, a server that keeps an
old map, and a server that gives the map a name. Nobody trusts this file."""

import json
import re
import time
import urllib.parse
from typing import Any

from expected import END, SECRETS, START, holds, same
from front import Front
from scene import Page, Scene

DAY, MINUTE = 86_400, 60
NAME = "Winter roads of the valley"
OTHER = "Roads of another map"


class Dated(Scene):
    """The town with three versions: a count, a date three days ago, and a date one day ago."""

    def lay(self) -> None:
        self.owner.lay_town()
        self.now = int(time.time())
        self.versions = [7, self.now - 3 * DAY, self.now - DAY]
        self.published = [self.owner.publish(version, "dij") for version in self.versions]
        self.more = ["--streets", "town.ids", "--max-age", "2d", "--name", NAME]


def later(page: Any, seconds: int) -> None:
    """Sets the page's clock this many seconds ahead of this machine's clock."""
    page.driver.execute_script(
        "window.machine ??= Date.now; Date.now = () => machine() + 1000 * arguments[0];".replace(
            "arguments[0]", str(seconds)
        )
    )


def kept(page: Any) -> int | None:
    """The greatest version in the browser's storage, or nothing."""
    found = page.driver.execute_script(
        "return Object.entries(localStorage).filter(([name]) => name.startsWith('gogbetiku')).map(([, value]) => value)"
    )
    return int(found[0]) if found else None


def asked_least(front: Front) -> int:
    """The minimum version in the last request for the newest map."""
    paths = [path for path, _ in front.seen if path.startswith("/v1/route?")]
    return int(urllib.parse.parse_qs(urllib.parse.urlsplit(paths[-1]).query)["least"][0])


def young(it: Any, scene: Dated, front: Front) -> None:
    """Plays a map that is young enough, its name, and the request for it."""
    page, newest = it.page, scene.versions[-1]
    state, text, _ = page.ask("route", START, END)
    holds("a young map", state == "accepted" and f"in version {newest} of the owner's map “{NAME}”." in text, text)
    known = page.facts()
    same(
        "its name and its date",
        (known["Map"], known["Signed"]),
        (NAME, time.strftime("%Y-%m-%d %H:%M UTC", time.gmtime(newest))),
    )
    least, oldest = asked_least(front), int(time.time()) - 2 * DAY
    holds(
        "asked in whole minutes, and never below the age",
        least % MINUTE == 0 and oldest - 30 <= least < oldest + MINUTE,
        (least, oldest),
    )
    same("what is kept", kept(page), newest)
    same(
        "the age in words",
        (page.text("#age"), page.driver.execute_script("return document.getElementById('aged').hidden")),
        ("2 days", False),
    )
    same("the name above it all", page.text("#named"), NAME)
    page.ask("route", START, 20)
    same("asked the next time: the floor as it is", asked_least(front), newest)
    same(
        "a date that is too old",
        page.ask("route", START, END, scene.versions[1])[::2],
        ("refused", f"refused Stale {scene.versions[1]}"),
    )
    same("a count", page.ask("route", START, END, 7)[::2], ("refused", "refused Stale 7"))
    same("a refusal has the map's name too", page.facts()["Map"], NAME)


def grown_old(it: Any, scene: Dated, front: Front) -> None:
    """Plays a clock that advances while the owner does not sign. The server has no map that is young enough, and the
    page does not say that the server asks to wait."""
    page, newest = it.page, scene.versions[-1]
    later(page, DAY - 600)
    same("a day less ten minutes later", page.ask("route", START, 21)[0], "accepted")
    later(page, DAY + 600)
    state, text, _ = page.ask("route", START, 22)
    same("ten minutes more", (state, text), ("failed", "There is no verdict: no map younger than 2 days is here."))
    # a malicious server answers all the same, over its old map
    front.wrong = lambda path, _headers, status, more, octets: answered_by(scene, path) if status == 503 else None
    same(
        "a server that answers by its old map",
        page.ask("route", START, 23)[::2],
        ("refused", f"refused Stale {newest}"),
    )
    same("nothing of it is drawn", page.coloured()["route"], 0)
    front.wrong = None
    later(page, 0)
    page.driver.execute_script("document.getElementById('forget').click()")
    same(
        "what is forgotten lets no old map in",
        page.ask("route", START, END, scene.versions[1])[::2],
        ("refused", f"refused Stale {scene.versions[1]}"),
    )
    same("nor a count", page.ask("route", START, END, 7)[::2], ("refused", "refused Stale 7"))
    same("the young one is taken", page.ask("route", START, END)[0], "accepted")


def answered_by(scene: Dated, path: str) -> Any:
    """The honest reply over the newest map to a request for a newer one."""
    asked = urllib.parse.parse_qs(urllib.parse.urlsplit(path).query)
    scene.owner.keep("newest.pub", scene.published[-1])
    octets = scene.owner.run(f"prove newest.pub {asked['from'][0]} {asked['to'][0]}")
    return 200, [("Access-Control-Allow-Origin", "*"), ("Content-Type", "application/octet-stream")], octets


def wrong_clocks(it: Any, scene: Dated) -> None:
    """Plays an impossible clock, and a map from the future, which is not kept."""
    page, now = it.page, int(time.time())
    page.driver.execute_script("window.machine ??= Date.now; Date.now = () => 1000 * 946684800;")
    state, text, _ = page.ask("route", START, END)
    holds(
        "a clock of the year 2000",
        state == "failed" and "The clock here says 946684800, which is impossible." in text,
        text,
    )
    later(page, 0)
    ahead = now + 2 * DAY
    scene.gateway.serve(scene.owner.publish(ahead, "dij"))
    before = kept(page)
    state, text, line = page.ask("route", START, END)
    holds(
        "a map from the future",
        (state, line) == ("refused", "Ahead")
        and f"The map is dated {ahead}, more than a day ahead of the clock here" in text,
        (state, text, line),
    )
    same("it is not kept", kept(page), before)
    later(page, DAY + 600)
    same("a clock that is less than a day behind it", page.ask("route", START, END)[0], "accepted")
    same("then it is kept", kept(page), ahead)
    later(page, 0)


def floors(it: Any, front: Front) -> None:
    """Plays a server whose newest map is older than an accepted one. The page names the version, not an age."""
    page, version = it.page, kept(it.page)
    body = json.dumps(
        {
            "type": "urn:problem-type:gogbetiku:no-map-so-new",
            "title": "Service Unavailable",
            "status": 503,
            "detail": "none",
        }
    ).encode()
    front.wrong = lambda path, *_: (
        503,
        [("Access-Control-Allow-Origin", "*"), ("Content-Type", "application/problem+json")],
        body,
    )
    state, text, _ = page.ask("route", START, 24)
    same(
        "a server that was left behind",
        (state, text),
        ("failed", f"There is no verdict: no map of version {version} or later is here."),
    )
    front.wrong = lambda path, *_: (503, [("Access-Control-Allow-Origin", "*")], b"{") if "/route?" in path else None
    state, text, _ = page.ask("route", START, 25)
    holds("a server that asks to wait", "the server asks to wait" in text, text)
    front.wrong = None


def renamed(path: str, _headers: Any, status: int, more: Any, octets: bytes) -> Any:
    """The server's description of a map, with a name that the server made up."""
    if path != "/v1/info" or status != 200:
        return None
    page = json.loads(octets)
    for one in [page, *page["publications"]]:
        one["name"] = one["map"] = one["title"] = OTHER
    return status, more, json.dumps(page).encode()


def old(it: Any) -> None:
    """Plays the age of a map, and its name."""
    page, scene = it.page, Dated(it.scene.owner.program, SECRETS[0])
    front = Front(scene.gateway.origin)
    place = Page(scene.owner, front.origin, more=scene.more)
    try:
        front.wrong = renamed
        page.open(place.origin)
        page.until(lambda: page.maps(7))
        young(it, scene, front)
        same(
            "a server's name for a map is shown nowhere",
            OTHER in page.driver.execute_script("return document.documentElement.innerText + document.title"),
            False,
        )
        it.shot("old-young")
        grown_old(it, scene, front)
        it.shot("old-none")
        wrong_clocks(it, scene)
        floors(it, front)
        page.faults()  # an answer of status 503 is an error on the console
    finally:
        place.end()
        front.shutdown()
        scene.end()
    page.open(it.place.origin)
    same(
        "a page without an age says none",
        (page.driver.execute_script("return document.getElementById('aged').hidden"), page.text("#named")),
        (True, ""),
    )
    holds("and no name", re.search("“", page.state()[1]) is None, page.state())
