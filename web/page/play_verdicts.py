"""Plays verdicts, servers and owners for the page's test. Nobody trusts this file."""

import json
import subprocess
import time
import xml.etree.ElementTree as ElementTree
from typing import Any

from expected import END, ISLAND, KINDS, RADIUS, REACHED, SECRETS, START, TOP, holds, line_of, same
from front import far_away
from scene import METHODS


def about_a_route(it: Any, method: str, version: int) -> Any:
    """Plays a route under a method, and all lies about it."""
    page, owner = it.page, it.scene.owner
    state, text, _ = page.ask("route", START, END, version)
    far, asked = it.town.distances(START)[END], ("route", START, END)
    same(f"{method}: state", state, "accepted")
    octets = page.saves("the reply's octets", "checked.reply")
    nodes = page.ids()
    same(f"{method}: the reference", line_of(owner, octets, asked, version), f"{far}: {' '.join(map(str, nodes))}")
    wanted = f"Proved: a shortest route from {it.town.streets[START]} to {it.town.streets[END]}, {far / 10_000:.2f} km long, in version {version} of the owner's map."
    same(f"{method}: the sentence", text, wanted)
    known = page.facts()
    same(
        f"{method}: facts",
        (known["Version"], known["Method"].split(",")[0], known["Reply"], known["Length"]),
        (str(version), method.upper(), f"{len(octets):,} octets", f"{far:,} decimetres"),
    )
    streets(it, nodes, method)
    seen = page.coloured()
    # under FULL all leaves belong to the route, which is drawn above them
    holds(
        f"{method}: drawn", seen["route"] > 200 and (seen["leaf"] > 50 or method == "full") and seen["grey"] > 50, seen
    )
    holds(f"{method}: cells, landmarks", (seen["cell"] > 20) == (method in ("ldm", "hyp")), seen)
    holds(f"{method}: distances", seen["pair"] > 0 or method in ("dij", "ldm"), seen)
    it.shot(f"desk-{method}")
    return lies_about(it, asked, method, version)


def streets(it: Any, nodes: Any, what: str) -> None:
    """Tests the streets in order. A street continues while both ends of each hop have its name, and is as long as its
    roads."""
    names = [
        set(it.town.streets[a].split("; ")) & set(it.town.streets[b].split("; ")) for a, b in zip(nodes, nodes[1:])
    ]
    lengths = [min(length for to, length in it.town.arcs[a] if to == b) for a, b in zip(nodes, nodes[1:])]
    wanted, begins = [], 0
    while begins < len(names):
        ends = {
            name: next((at for at in range(begins, len(names)) if name not in names[at]), len(names))
            for name in names[begins]
        }
        end = max(ends.values())
        wanted.append(({name for name in ends if ends[name] == end}, length_said(sum(lengths[begins:end]))))
        begins = end
    seen = it.page.rows("#ways li")
    same(f"{what}: how long each street is", [said for _, said in seen], [said for _, said in wanted])
    same(f"{what}: streets in order", [name for (name, _), (known, _) in zip(seen, wanted) if name not in known], [])


def length_said(decimetres: int) -> str:
    metres = decimetres / 10
    if metres < 10:
        return f"{int(metres * 10 + 0.5) / 10:g} m"
    return f"{int(metres + 0.5)} m" if metres < 999.5 else f"{metres / 1000:.2f} km"


def lies_about(it: Any, asked: tuple[str, int, int], what: str, version: int) -> Any:
    """Plays each lie about the last accepted answer. It is refused as by the reference, and nothing of it is drawn."""
    page, found = it.page, set()
    for name in page.lies():
        state, text, line = page.lie(name)
        if "no room for that lie" in text:
            continue
        same(f"{what}, {name}: state", state, "refused")
        octets = page.saves("the reply's octets", "checked.reply")
        same(f"{what}, {name}: the reference", line, line_of(it.scene.owner, octets, asked, version))
        kind = KINDS[name] if isinstance(KINDS[name], str) else KINDS[name].get(what)
        holds(f"{what}, {name}: kind", kind is None or line.split()[1] == kind, line)
        seen = page.coloured()
        same(f"{what}, {name}: nothing of it is drawn", (seen["route"], seen["leaf"], seen["pair"]), (0, 0, 0))
        found.add((name, line.split()[1]))
        if (what, name) == ("dij", "round"):
            it.shot("lie")
    return found


def methods(it: Any) -> None:
    """Plays a route under each method with all lies about it, a radius, an island without a route, and saved files."""
    it.page.open(it.place.origin)
    it.page.until(it.page.has_streets)
    found = set()
    for version, method in enumerate(METHODS, 1):
        found |= about_a_route(it, method, version)
    same("each kind is seen", REACHED - {kind for _, kind in found}, set())
    same("each lie is seen", set(KINDS) - {name for name, _ in found}, set())
    radius(it)
    page = it.page
    state, text, _ = page.ask("route", START, ISLAND)
    same("no route: the town has none", ISLAND in it.town.distances(START), False)
    same(
        "no route",
        (state, text),
        (
            "accepted",
            f"Proved: no road leads from {it.town.streets[START]} to {it.town.streets[ISLAND]}, in version 4 of the owner's map.",
        ),
    )
    same("no route: no streets", page.rows("#ways li"), [])
    it.shot("desk-none")
    lies_about(it, ("route", START, ISLAND), "no route", 4)
    files(it)


def radius(it: Any) -> None:
    """Plays a radius: its nodes, and bands of equal cost as filled outlines."""
    page, distances = it.page, it.town.distances(START)
    state, text, _ = page.ask("reach", START, "1")
    wanted = {node: far for node, far in distances.items() if far <= RADIUS}
    same(
        "a radius",
        (state, text),
        (
            "accepted",
            f"Proved: {len(wanted)} nodes, and no other, within 1.00 km of {it.town.streets[START]}, in version 4 of the owner's map.",
        ),
    )
    same(
        "a radius: nodes",
        page.listed(),
        [f"{node}, {it.town.streets[node]}, at {far:,} decimetres" for node, far in sorted(wanted.items())],
    )
    bands = [
        f"within {length_said(bound)}: {sum(far <= bound for far in wanted.values())} nodes"
        for bound in range(2_000, RADIUS + 1, 2_000)
    ]
    same(
        "a radius: bands of equal cost",
        page.driver.execute_script("return [...document.querySelectorAll('#bands li')].map((it) => it.textContent)"),
        bands,
    )
    seen = page.colours()
    holds(
        "a radius: each band is filled, and an outline is around them",
        all(seen[name]["count"] > 300 for name in ("band1", "band2", "band3", "band4", "band5", "outline")),
        seen,
    )
    far = [
        sum((a - b) ** 2 for a, b in zip(seen[name]["middle"], seen["start"]["middle"])) for name in ("band1", "band5")
    ]
    holds("a radius: the least cost is around the start", far[0] < far[1], far)
    it.shot("desk-reach")
    lies_about(it, ("reach", START, RADIUS), "a radius", 4)
    seen = page.coloured()
    same("a radius: nothing of a lie is drawn", (seen["band1"], seen["outline"], page.shown("#bands")), (0, 0, False))


def files(it: Any) -> None:
    """Plays saved files: they have the places of the road file, and equal the output of tools/geojson.py if its library
    exists. The shown command checks the saved reply again."""
    page, owner = it.page, it.scene.owner
    page.ask("route", START, END)
    it.shot("page")
    owner.keep("checked.reply", page.saves("the reply's octets", "checked.reply"))
    owner.keep("saved.key", page.saves("the owner's key", "owner.key"))
    nodes = page.ids()
    command = page.text("#again").replace("owner.key", "saved.key").split()
    done = subprocess.run([owner.program, *command[1:]], cwd=owner.folder, capture_output=True, text=True, check=False)
    far = it.town.distances(START)[END]
    same(
        "the command checks it again",
        (command[0], done.returncode, done.stdout),
        ("road_proof", 0, f"accepted {far}: {' '.join(map(str, nodes))}\n"),
    )
    (line,) = json.loads(page.saves("GeoJSON", "proved.geojson"))["features"]
    same(
        "GeoJSON: places",
        line["geometry"]["coordinates"],
        [[x / 1e7, y / 1e7] for x, y in map(it.town.places.get, nodes)],
    )
    root = ElementTree.fromstring(page.saves("GPX", "proved.gpx"))
    name = "{http://www.topografix.com/GPX/1/1}"
    same(
        "GPX: places",
        [
            (round(float(one.attrib["lon"]) * 1e7), round(float(one.attrib["lat"]) * 1e7))
            for one in root.iter(f"{name}rtept")
        ],
        [it.town.places[node] for node in nodes],
    )
    mark = root.find(f"{name}metadata/{name}copyright")
    same("GPX: whose map", None if mark is None else mark.get("author"), "A made-up town that does not exist")
    if not (TOP / "crates/route_check_c/out/libgogbetiku.so.0").exists():
        return print("skipped: the page's GeoJSON beside tools/geojson.py, since bindings/build made no library")
    for kind, end, typed in (("route", END, END), ("route", ISLAND, ISLAND), ("reach", RADIUS, "1")):
        page.ask(kind, START, typed)
        owner.keep("one.reply", page.saves("the reply's octets", "checked.reply"))
        words = [
            "owner.key",
            "one.reply",
            START,
            end,
            1,
            *(["--reach"] if kind == "reach" else []),
            "--ids",
            "town.ids",
            "--licence",
            "A made-up town that does not exist",
        ]
        made = subprocess.run(
            [TOP / "tools/geojson.py", *map(str, words)], cwd=owner.folder, capture_output=True, check=True
        ).stdout
        same(f"GeoJSON of {kind} {end}", json.loads(page.saves("GeoJSON", "proved.geojson")), json.loads(made))
    return None


def kept(it: Any) -> None:
    """Plays the minimum version, and the owner's next key."""
    page, scene = it.page, it.scene
    page.open(it.place.origin)
    page.ask("route", START, END)
    same("an older map", page.ask("route", START, END, 1)[::2], ("refused", "refused Stale 1"))
    page.open(it.place.origin)
    same(
        "the least version is kept",
        page.driver.execute_script("return document.getElementById('least').textContent"),
        "4",
    )
    same("an older map, after a reload", page.ask("route", START, END, 1)[::2], ("refused", "refused Stale 1"))
    page.driver.execute_script("document.getElementById('forget').click()")
    same("the least version is forgotten", page.ask("route", START, END, 1)[0], "accepted")
    same("no chain", page.facts().get("Chain of keys"), None)
    scene.owner.keep("owner.chain", scene.owner.succeed(SECRETS[1]))
    scene.gateway.serve(scene.owner.publish(5, "dij"))
    state, text, _ = page.ask("route", START, END)
    holds("the owner's next key under an open page", state == "accepted" and "in version 5 " in text, text)
    same("the chain", page.facts()["Chain of keys"], "1 link")
    page.until(lambda: page.maps(5))  # from then on the page offers the chain
    scene.owner.keep("checked.reply", page.saves("the reply's octets", "checked.reply"))
    scene.owner.keep("saved.chain", page.saves("the chain of keys", "owner.chain"))
    command = page.text("#again").replace("owner.chain", "saved.chain").split()
    done = subprocess.run(
        [scene.owner.program, *command[1:]], cwd=scene.owner.folder, capture_output=True, text=True, check=False
    )
    same(
        "the command checks it again, under the chain",
        (command[-1], done.returncode, done.stdout[:9]),
        ("saved.chain", 0, "accepted "),
    )


def servers(it: Any) -> None:
    """Plays servers and caches that misbehave."""
    page, front = it.page, it.front

    def cached(path: str, headers: Any, status: int, kept_headers: Any, octets: bytes) -> Any:
        is_reply = "/route?" in path and status == 200
        return (
            (status, kept_headers, octets[:-1] + bytes([octets[-1] ^ 1]))
            if is_reply and headers.get("Cache-Control") != "no-cache"
            else None
        )

    front.wrong = cached
    before = len(front.seen)
    same("a cache that lies", page.ask("route", START, 20)[0], "accepted")
    asks = [control for path, control in front.seen[before:] if "/p/" in path and "/route?" in path]
    same("it is asked for past caches", asks[-1:], ["no-cache"])
    front.wrong = (
        lambda path, _headers, status, more, octets: (status, more, octets[:-1])
        if "/route?" in path and status == 200
        else None
    )
    same("a server that lies", page.ask("route", START, 21)[0], "refused")
    page.open(it.place.origin)
    front.wrong = (
        lambda path, _headers, status, more, _octets: (status, more, b"RPL1 and no chain")
        if path == "/v1/chain"
        else None
    )
    same("a server with another chain", page.ask("route", START, END)[::2], ("refused", "refused BadSignature NoMatch"))
    front.wrong = None
    same("behind it the owner's", page.ask("route", START, END)[0], "accepted")
    busy(it)
    page.faults()  # an answer of status 503 is an error on the console
    front.wrong = (
        lambda path, *_: (404, [("Access-Control-Allow-Origin", "*")], b"")
        if "publication" in path or "info" in path
        else None
    )
    page.driver.execute_cdp_cmd("Network.clearBrowserCache", {})  # the cache keeps maps for ever, by their addresses
    page.open(it.place.origin)
    same("a server without a map", page.ask("route", START, END)[0], "accepted")
    holds("nothing is grey then", page.coloured()["grey"] == 0, page.coloured())
    front.wrong = (
        lambda path, _headers, status, more, octets: (status, more, far_away(octets))
        if path.endswith("/publication") and status == 200
        else None
    )
    page.faults()
    page.open(it.place.origin)
    page.ask("route", START, END)
    page.until(lambda: page.maps(5))
    time.sleep(0.5)
    holds("a map that lies sets no scale", page.coloured()["route"] > 200, page.coloured())
    front.wrong = None
    page.driver.execute_cdp_cmd("Network.clearBrowserCache", {})


def busy(it: Any) -> None:
    """Plays a server that asks to wait: the page repeats the request once, and not again."""
    page, front = it.page, it.front
    asked: list[str] = []

    def wait(after: str, times: int) -> Any:
        def wrong(path: str, *_: Any) -> Any:
            if "/route?" not in path or len(asked) >= times:
                return None
            asked.append(path)
            headers = [("Access-Control-Allow-Origin", "*"), ("Access-Control-Expose-Headers", "Retry-After")]
            return 503, [*headers, *([("Retry-After", after)] if after else [])], b""

        return wrong

    for what, after, times, state in (
        ("once", "0", 1, "accepted"),
        ("twice", "0", 9, "failed"),
        ("without a time", "", 9, "failed"),
        ("long", "3600", 1, "accepted"),
    ):
        asked.clear()
        front.wrong = wait(after, times)
        began = time.monotonic()
        seen, text, _ = page.ask("route", START, 22)
        same(f"a server that asks to wait, {what}: state", seen, state)
        same(
            f"a server that asks to wait, {what}: asked",
            len(asked),
            {"once": 1, "twice": 2, "without a time": 1, "long": 1}[what],
        )
        holds(
            f"a server that asks to wait, {what}: the page waits so long",
            time.monotonic() - began < 100,
            time.monotonic() - began,
        )
        if state == "failed":
            holds("a server that stands still", text.startswith("There is no verdict: the server asks to wait"), text)
    front.wrong = None


def owners(it: Any) -> None:
    """Plays the files and headers that come from the owner."""
    page, place = it.page, it.place.place
    same("no other error on the console", page.faults(), [])
    parts = {
        "page.mjs": "The page's script has not started",
        "lengths.mjs": "The page's script has not started",
        "route_check.mjs": "The page's script has not started",
        "picture.mjs": "not the file that this page names",
        "check_worker.mjs": "not the file that this page names",
        "route_check.wasm": "not the file that this page names",
    }
    for name, words in parts.items():
        kind, octets, packed = place.files[f"/{name}"]
        other = octets.replace(b"const", b"let  ", 1) if name.endswith(".mjs") else octets + b"\0\1\0"
        place.files[f"/{name}"] = (kind, other, b"")
        page.open(it.place.origin, waits=False)
        if "not started" in words:
            time.sleep(1)
        else:
            page.until(lambda: page.state()[0] == "failed")
        holds(f"another {name}", words in page.state()[1], page.state())
        place.files[f"/{name}"] = (kind, octets, packed)
    page.faults()
    page.open(it.place.origin)
    asked = page.driver.execute_async_script(
        "const done = arguments[0]; fetch('http://127.0.0.1:9/').then(() => done('asked'), () => done('not asked'));"
    )
    same("another origin is not asked", asked, "not asked")
    held = page.driver.execute_script(
        "const it = document.createElement('script'); it.textContent = 'document.title = 1'; document.body.append(it); return document.title;"
    )
    same("a script that is put in does not run", held, "Routes that prove themselves")
    policy = dict(line.split(" ", 1) for line in dict(place.policy)["Content-Security-Policy"].split("; "))
    same("whom the page may ask", policy["connect-src"], f"'self' {it.front.origin}")
    same(
        "no frames, and no referrer",
        (policy["frame-ancestors"], dict(place.policy)["Referrer-Policy"]),
        ("'none'", "no-referrer"),
    )
    same("evaluation", "'unsafe-eval'" in policy["script-src"] or "unsafe-inline" in policy["script-src"], False)
    page.faults()
    page.open(f"http://owner.test:{it.place.port}/")
    same(
        "a connection that is not secure",
        (page.driver.execute_script("return isSecureContext"), page.find("#insecure").is_displayed()),
        (False, True),
    )
    same("it still checks", page.ask("route", START, END)[0], "accepted")
