#!/usr/bin/env python3
"""Plays the module for JavaScript beside the library: web/play.py PROGRAM LIBRARY [--long [ROADS]]

It uses the module from web/module and LIBRARY, the libgogbetiku.so.0 from bindings/build, which bindings/play.py
compares with PROGRAM. It compares the results of both for the vectors, and for honest and changed replies to queries
over the map of five nodes, or over ROADS: 2,000 changed replies, with --long 100,000. Under Node it also flips bits,
limits memory, lets eight workers check at once, and passes wrong arguments to the calls (web/play_calls.mjs). It packs
the package with npm, installs it into an empty folder without a network, and checks a reply with the package imported
by its name. TypeScript must find its types by each way of resolving modules. In Chromium, if it is installed, it
compares the cases again. A part that needs a missing program is skipped by name. Ends with status 1 if anything
differs. Nobody trusts this file."""

import functools
import http.server
import pathlib
import queue
import re
import shutil
import subprocess
import sys
import tempfile
import threading
from typing import Any

HERE = pathlib.Path(__file__).resolve().parent
sys.path.insert(0, str(HERE))
from cases import Party, write_cases  # noqa: E402

PAGE = """<!doctype html><meta charset="utf-8"><title>playing</title><script type="module">
import { load } from "./route_check.mjs";
import { compare } from "./play_cases.mjs";
const bring = async (name) => (await fetch(name)).arrayBuffer();
await load();
const given = JSON.parse(new TextDecoder().decode(await bring("cases.json")));
const { differ } = compare(given, new Uint8Array(await bring("cases.bin")));
await fetch("said", { method: "POST", body: `played ${given.cases.length}, ${differ.length} differ` });
</script>"""
SECONDS = 600
BY_NAME = """import { Client, Refused, load } from "gogbetiku";
import { WorkerClient } from "gogbetiku/worker";
import { readFileSync } from "node:fs";
await load();
const { key, bits: [{ from, to, reply }] } = JSON.parse(readFileSync("cases.json"));
const octets = Uint8Array.from(reply.match(/../g), (two) => parseInt(two, 16));
const worker = await WorkerClient.start(key);
const found = [new Client(key).checkRoute(octets, from, to, 0), await worker.checkRoute(octets, from, to, 0)];
worker.end();
console.log(found.map(({ nodes }) => nodes.map(({ id }) => id).join(" ")).join(", "), typeof Refused);
"""


# a program in TypeScript that uses both entries
TYPED = """import { Client, load, type Octets } from "gogbetiku";
import { WorkerClient } from "gogbetiku/worker";
export async function ask(key: string, reply: Octets): Promise<bigint[]> {
    const module = await load(undefined, { integrity: "sha256-AAAAAAAAAAAAAAAAAAAAAAAAAAAAAAAAAAAAAAAAAAA=" });
    const worker = await WorkerClient.start(key, { module, seconds: 5, memory: 2n ** 30n });
    const near = await worker.nearest(reply, 1, 4n, [1, 2n], 0, { count: 3 });
    const nodes = new Client(key).nearest(reply, 1, 4n, new Uint32Array([1, 2]), 0).nodes.map(({ distance }) => distance);
    if (near.kind === "nearest" && near.inside > near.nodes.length) return nodes;
    const [here, there] = [new Client(key, { mostOctets: 9 }).checkReach(reply, 1n, 4, 0n), await worker.checkRoute(reply, 1, 3, 1)];
    return [here.version, there.kind === "route" ? there.length : there.version];
}
"""


def has(name: str, what: str) -> bool:
    if shutil.which(name):
        return True
    print(f"skipped: {what}, since this machine has no {name}")
    return False


def by_name(folder: pathlib.Path) -> int:
    """Installs the packed package into an empty folder, and imports it by its name."""
    room = folder / "room"
    room.mkdir()
    packed = subprocess.run(
        ["npm", "pack", "--silent", folder], cwd=room, capture_output=True, text=True, check=True
    ).stdout.strip()
    quiet = ["--offline", "--no-audit", "--no-fund", "--silent"]
    (room / "package.json").write_text('{"private": true, "type": "module"}')
    subprocess.run(["npm", "install", *quiet, f"./{packed}"], cwd=room, check=True)
    (room / "by_name.mjs").write_text(BY_NAME)
    shutil.copy(folder / "cases.json", room)
    said = subprocess.run(["node", "by_name.mjs"], cwd=room, capture_output=True, text=True, check=False)
    if said.stdout != "1 2 3, 1 2 3 function\n":
        print(f"the packed module: {said.stdout}{said.stderr}")
        return 1
    return by_types(room) if has("tsc", "the types of the package") else 0


def by_types(room: pathlib.Path) -> int:
    """Tests that a program finds the types of both entries, by each way of this compiler, and that a wrong type is
    reported."""
    ways = re.search(
        r"moduleResolution.*?one of: (.*?)\n\n",
        subprocess.run(["tsc", "--all"], capture_output=True, text=True, check=False).stdout,
        re.S,
    )
    known = set(re.findall(r"\w+", ways[1])) if ways else {"node", "node16", "nodenext"}
    status = 0
    for way, kind in (
        ("node", "es2022"),
        ("node10", "es2022"),
        ("node16", "node16"),
        ("nodenext", "nodenext"),
        ("bundler", "es2022"),
    ):
        if way not in known:
            continue
        for text, wanted in (
            (TYPED, 0),
            (TYPED.replace("checkRoute(reply, 1, 3, 1)", 'checkRoute(reply, 1, 3, "1")'), 2),
        ):
            (room / "typed.ts").write_text(text)
            words = [
                "tsc",
                "--noEmit",
                "--strict",
                "--target",
                "es2022",
                "--module",
                kind,
                "--moduleResolution",
                way,
                "typed.ts",
            ]
            said = subprocess.run(words, cwd=room, capture_output=True, text=True, check=False)
            if said.returncode != wanted:
                print(f"tsc, moduleResolution {way}: status {said.returncode}, and not {wanted}: {said.stdout}")
                status = 1
    return status


def in_chromium(folder: pathlib.Path) -> int:
    """Compares the cases in a page, which posts its result: so nothing rests on how fast this machine is."""
    (folder / "page.html").write_text(PAGE)
    said: queue.Queue[str] = queue.Queue()
    handler = functools.partial(Quiet, directory=folder, said=said)
    with http.server.ThreadingHTTPServer(("127.0.0.1", 0), handler) as server:
        threading.Thread(target=server.serve_forever, daemon=True).start()
        words = ["chromium", "--headless", "--no-sandbox", "--disable-gpu", "--remote-debugging-port=0"]
        words += [f"--user-data-dir={folder / 'profile'}", f"http://127.0.0.1:{server.server_port}/page.html"]
        with open(folder / "chromium.log", "w+", encoding="utf-8") as log:
            browser = subprocess.Popen(words, stdout=log, stderr=log)
            try:
                result = said.get(timeout=SECONDS)
            except queue.Empty:
                result = f"no result within {SECONDS} s"
            browser.terminate()
            browser.wait(SECONDS)
            server.shutdown()
            if result.endswith(", 0 differ"):
                return 0
            log.seek(0)
            print(f"chromium: {result}: {log.read()[-500:]}")
    return 1


class Quiet(http.server.SimpleHTTPRequestHandler):
    """Serves the folder, and keeps what a page posts."""

    extensions_map = {
        **http.server.SimpleHTTPRequestHandler.extensions_map,
        ".mjs": "text/javascript",
        ".wasm": "application/wasm",
    }

    def __init__(self, *words: Any, said: queue.Queue[str], **options: Any):
        self.said = said
        super().__init__(*words, **options)

    def do_POST(self) -> None:
        self.said.put(self.rfile.read(int(self.headers["Content-Length"])).decode())
        self.send_response(204)
        self.end_headers()

    def log_message(self, *words: object) -> None:
        pass


def main(
    program: str, library: str, long: str = "", roads: str = str(HERE.parent / "crates/road_proof/data/m1.roads")
) -> int:
    if not has("node", "the module for JavaScript"):
        return 0
    status = 0
    with tempfile.TemporaryDirectory() as name:
        folder = pathlib.Path(name) / "package"
        subprocess.run([HERE / "build", folder], check=True)
        codes = write_cases(Party(program, library, folder / "party", roads), folder, 100_000 if long else 2_000)
        shutil.rmtree(folder / "party")
        for script in ("play_cases.mjs", "play_calls.mjs", "page/server.mjs"):
            shutil.copy(HERE / script, folder)
        print(f"web: cases of each code {dict(sorted(codes.items()))}")
        status |= subprocess.run(
            ["node", folder / "play_cases.mjs", folder, *([long] if long else [])], check=False
        ).returncode
        status |= subprocess.run(["node", folder / "play_calls.mjs", folder], check=False).returncode
        if has("npm", "the package for npm"):
            status |= by_name(folder)
        if has("chromium", "the module in a browser"):
            status |= in_chromium(folder)
    print("web: the module says what the library says" if status == 0 else "web: the module differs")
    return status


if __name__ == "__main__":
    if len(sys.argv) < 3:
        print(
            "web/play.py: name the program and the library: web/play.py PROGRAM LIBRARY [--long [ROADS]]",
            file=sys.stderr,
        )
        sys.exit(2)
    sys.exit(main(*sys.argv[1:]))
