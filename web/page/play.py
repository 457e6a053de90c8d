#!/usr/bin/python3
"""Plays the owner's page in a browser: web/page/play.py PROGRAM [--screens FOLDER] [--parts NAME..]

PROGRAM publishes the made-up towns and serves them; web/module has made the client's module. The page must say about a
reply, honest or not, what the reference in Python says about its octets. Lengths are compared with a search of this
test.

words       lengths, times, streets, bends and bands, each module by itself; minutes if the owner says so
methods     a route under each method, with all lies about it; a radius with its bands; an island; saved files and the command
pushed      the places where a cycle is pushed, from the owner's file
shown       a server's map that misleads users who tap on it; the previous answer; an empty end
moves       pan and zoom by wheel, mouse, fingers, keys and buttons; the switch of the proof
link        a link that contains the question
paper       the printed sheet
old         the greatest age of a map, by right and wrong clocks; a map's name, from the owner alone
stations    the nearest of a list, with ways and bands; the area that they cover; a list from a file and by taps
kept        the minimum version after a reload; the owner's next key while a page is open
servers     a lying cache; a server with another chain, with no map, or with a lying map; a server that asks to wait
owners      files with other hashes than the page's; the policy; an insecure connection
everybody   streets, the keyboard alone, roles and names of controls, contrast, screens from 320 pixels on, a slow line
large       all lies over thousands of nodes, while the page stays responsive
demo        web/demo, from its address through its tour to its end

Errors on the console are counted. A part that needs a missing package is skipped by name. Ends with status 1 if
anything differs. Nobody trusts this file."""

import argparse
import contextlib
import importlib.util
import json
import pathlib
import shutil
import subprocess
import sys
import tempfile
import time
import urllib.request
from collections.abc import Callable
from typing import Any

HERE = pathlib.Path(__file__).resolve().parent
sys.path.insert(0, str(HERE))

from expected import SECRETS, Town, holds, judge, same  # noqa: E402
from front import Front  # noqa: E402
from play_large import large  # noqa: E402
from play_old import old  # noqa: E402
from play_verdicts import kept, methods, owners, servers  # noqa: E402
from scene import Page, Scene  # noqa: E402


def demo(it: Any) -> None:
    """web/demo prints an address, gives its tour, and ends all processes that it started."""
    page = it.page
    process = subprocess.Popen([HERE.parent / "demo", it.scene.owner.program], stdout=subprocess.PIPE, text=True)
    assert process.stdout
    line = next((line for line in process.stdout if line.startswith("Open ")), "")
    origin = line.split()[1]
    with urllib.request.urlopen(origin) as found:
        text, policy = found.read().decode(), found.headers["Content-Security-Policy"]
    gateway = json.loads(text.partition('id="owner">')[2].partition("</script>")[0])["gateway"]
    same("the gateway of the demonstration", urllib.request.urlopen(f"{gateway}/v1/ready").read(), b"ready\n")
    holds("its policy", f"connect-src 'self' {gateway};" in policy, policy)
    walk(it, origin)
    process.terminate()
    same("its end", process.wait(60), 0)
    try:
        ended = urllib.request.urlopen(f"{gateway}/v1/health").read()
    except OSError:
        ended = b""
    same("its gateway has ended", ended, b"")
    page.open(it.place.origin)


def walk(it: Any, origin: str) -> None:
    """Plays the four steps of the tour: the words of the verdict, and the drawing."""
    page = it.page
    page.shape(1280, 860)
    page.open(origin)
    page.until(lambda: page.has_map() and page.shown("#walk"))
    wanted = [
        ("accepted", "Proved: a shortest route from ", ""),
        ("accepted", "Proved: no road leads from ", ""),
        ("refused", "The lie is refused:", "refused "),
        ("refused", "Refused:", "refused Stale 1"),
    ]
    for at, (state, text, line) in enumerate(wanted):
        same(
            f"walk, step {at + 1}: it is the next",
            page.driver.execute_script(
                "return [...document.querySelectorAll('#steps li')].findIndex((it) => it.ariaCurrent === 'step')"
            ),
            at,
        )
        page.driver.execute_script("document.querySelectorAll('#steps button')[arguments[0]].click()", at)
        page.until(
            lambda at=at: page.driver.execute_script(
                "return document.querySelectorAll('#steps li')[arguments[0]].dataset.state", at
            )
        )
        seen = page.settled()
        holds(f"walk, step {at + 1}", seen[0] == state and seen[1].startswith(text) and seen[2].startswith(line), seen)
        holds(
            f"walk, step {at + 1}: what it means",
            "otherwise" not in page.rows("#steps li")[at][-1] and page.rows("#steps li")[at][-1],
            page.rows("#steps li")[at],
        )
        seen = page.coloured()
        holds(f"walk, step {at + 1}: drawn", (seen["leaf"] > 20) == (state == "accepted") and seen["grey"] > 200, seen)
        it.shot(f"walk-{at + 1}")
    page.shape(1280, 1000)


class Play:
    """The scene, and the page in a browser."""

    def __init__(self, program: str, saved: str, screens: str | None) -> None:
        self.screens = pathlib.Path(screens) if screens else None
        if self.screens:
            self.screens.mkdir(parents=True, exist_ok=True)
        with contextlib.ExitStack() as starting:
            self.scene = Scene(program, SECRETS[0])
            starting.callback(self.scene.end)
            self.town = Town(self.scene.owner)
            self.front = Front(self.scene.gateway.origin)
            starting.callback(self.front.shutdown)
            self.place = Page(self.scene.owner, self.front.origin)
            starting.callback(self.place.end)
            from driven import Used, chromium  # this one needs selenium

            self.page = Used(chromium(saved), saved)
            starting.callback(self.page.driver.quit)
            self.started = starting.pop_all()

    def shot(self, name: str) -> None:
        if self.screens:
            self.page.shot(self.screens / f"{name}.png")

    def shot_here(self, name: str) -> None:
        """Saves a picture of the page at its present scroll position."""
        if self.screens:
            self.page.driver.save_screenshot(str(self.screens / f"{name}.png"))

    def end(self) -> None:
        self.started.close()


def lacking() -> str | None:
    """The first missing package or file."""
    server = "h11" if "import h11" in (HERE.parent / "gateway.py").read_text() else "waitress"
    return next(
        (
            name
            for name in ("chromium", "chromedriver", "selenium", server)
            if not (shutil.which(name) or importlib.util.find_spec(name))
        ),
        None,
    )


def parts() -> dict[str, Callable[[Any], None]]:
    """The parts to play. Their modules need a browser's driver, so they are imported late."""
    from play_people import everybody, link, moves, paper, pushed, shown, words
    from play_stations import stations

    return {
        part.__name__: part
        for part in (
            words,
            methods,
            pushed,
            shown,
            moves,
            link,
            paper,
            old,
            stations,
            kept,
            servers,
            owners,
            everybody,
            large,
            demo,
        )
    }


def played_parts(it: Play, names: list[str]) -> None:
    """Plays the parts in turn. An exception in a part counts as a fault."""
    known, began = parts(), time.monotonic()
    it.page.open(it.place.origin)
    for name in names or known:
        before = len(judge.faults)
        try:
            known[name](it)
        except Exception as error:
            faults = [f"{frame.f_code.co_name} {line}" for frame, line in frames_of(error)]
            judge.faults.append(f"{name}: {type(error).__name__}, {str(error)[:300]}, {' '.join(faults)}")
        # each fault is told where it is found, since a reader of a gate may see a part of what it printed
        for fault in judge.faults[before : before + 5]:
            print(f"DIFFERS {fault}", flush=True)
        print(f"page: {name}, {time.monotonic() - began:.0f} s, {len(judge.faults)} faults", flush=True)
    same("errors on the console", it.page.faults(), [])


def frames_of(error: Exception) -> list[tuple[Any, int]]:
    """The places of an error in this test's own files."""
    import traceback

    return [
        (frame, line)
        for frame, line in traceback.walk_tb(error.__traceback__)
        if frame.f_code.co_filename.startswith(str(HERE))
    ]


def main(words: list[str]) -> int:
    parser = argparse.ArgumentParser(description=(__doc__ or "").splitlines()[0])
    parser.add_argument("program")
    parser.add_argument("--screens", metavar="FOLDER", help="save pictures of the page there")
    parser.add_argument("--parts", nargs="+", metavar="NAME", help="play these alone")
    given = parser.parse_args(words)
    lack = lacking()
    if lack:
        print(f"skipped: the page in a browser, since this machine has no {lack}")
        return 0
    began = time.monotonic()
    with tempfile.TemporaryDirectory() as saved:
        it = Play(given.program, saved, given.screens)
        try:
            played_parts(it, given.parts)
        finally:
            it.end()
    for fault in judge.faults[:30]:
        print(f"DIFFERS {fault}")
    print(f"page: {judge.played} comparisons, {len(judge.faults)} differ, {time.monotonic() - began:.0f} s")
    return 1 if judge.faults else 0


if __name__ == "__main__":
    sys.exit(main(sys.argv[1:]))
