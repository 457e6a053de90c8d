#!/usr/bin/python3
"""Plays the owner's page in Firefox, by hand: checks/web/firefox.py PROGRAM [PICTURE]

Debian has no driver for Firefox, so this script uses its Marionette protocol. It plays a route under each of the four
methods with each lie about it, an island, a radius, the saving of the picture as PICTURE, and a changed module and a
changed import that the page must refuse. The expected verdicts are those of web/page/play.py. No client trusts this
file.
"""

import base64
import json
import os
import pathlib
import shutil
import socket
import subprocess
import sys
import tempfile
import time
from collections.abc import Callable
from typing import Any

TOP = pathlib.Path(__file__).resolve().parents[2]
sys.path.insert(0, str(TOP / "web/page"))
from expected import END, ISLAND, KINDS, RADIUS, SECRETS, START, Town  # noqa: E402
from scene import METHODS, Scene, free_port  # noqa: E402

SECONDS = 120
ASK = """
const [ask, from, end, map] = arguments;
document.querySelector(`[name=ask][value=${ask}]`).click();
const fields = document.getElementById("question").elements;
[fields.from.value, fields[ask === "route" ? "to" : "radius"].value, fields.map.value] = [from, end, map];
document.getElementById("question").requestSubmit();"""
LIE = "document.querySelector('[name=lie]').value = arguments[0]; document.getElementById('lie').requestSubmit();"
SAID = "const it = document.getElementById('verdict'); return [it.getAttribute('aria-busy'), it.dataset.state, it.innerText, it.querySelector('code')?.innerText ?? ''];"


class Firefox:
    """Firefox without a window."""

    def __init__(self, folder: pathlib.Path) -> None:
        port = free_port()
        (folder / "user.js").write_text(f'user_pref("marionette.port", {port});\n')
        words = ["firefox-esr", "--headless", "--marionette", "--no-remote", "--profile", str(folder)]
        self.process = subprocess.Popen(
            words, stdout=subprocess.DEVNULL, stderr=subprocess.DEVNULL, env={**os.environ, "HOME": str(folder)}
        )
        self.line = self.connected(port)
        self.file, self.count = self.line.makefile("rb"), 0
        self.read()
        self.told("WebDriver:NewSession", capabilities={"alwaysMatch": {}})
        self.told("WebDriver:SetWindowRect", width=1280, height=1100)

    def connected(self, port: int) -> socket.socket:
        until = time.monotonic() + SECONDS
        while True:
            try:
                return socket.create_connection(("127.0.0.1", port), SECONDS)
            except OSError:
                if time.monotonic() > until:
                    raise
                time.sleep(0.2)

    def read(self) -> Any:
        length = b""
        while not length.endswith(b":"):
            length += self.file.read(1)
        return json.loads(self.file.read(int(length[:-1])))

    def told(self, command: str, **words: Any) -> Any:
        """The answer to a command."""
        self.count += 1
        text = json.dumps([0, self.count, command, words]).encode()
        self.line.sendall(b"%d:%b" % (len(text), text))
        _, _, error, result = self.read()
        if error:
            sys.exit(f"{command}: {error['message']}")
        return result

    def run(self, script: str, *words: object) -> Any:
        return self.told("WebDriver:ExecuteScript", script=script, args=list(words))["value"]

    def open(self, address: str) -> None:
        self.told("WebDriver:Navigate", url=address)

    def until(self, test: Callable[[], bool]) -> None:
        end = time.monotonic() + SECONDS
        while not test():
            if time.monotonic() > end:
                sys.exit(f"Firefox: not yet: {self.run(SAID)}")
            time.sleep(0.1)

    def settled(self) -> list[str]:
        self.until(lambda: bool(self.run(SAID)[0] == "false"))
        said: list[str] = self.run(SAID)[1:]
        return said

    def end(self) -> None:
        self.process.terminate()
        self.process.wait(30)


def played(firefox: Firefox, scene: Scene, picture: pathlib.Path | None) -> int:
    """The number of unexpected verdicts."""
    far, place, faults = Town(scene.owner).distances(START), scene.page.place, 0

    def same(what: str, seen: object, wanted: object) -> None:
        nonlocal faults
        faults += seen != wanted
        print(f"{what}: {seen}" if seen == wanted else f"DIFFERS {what}: {seen}, and not {wanted}")

    firefox.open(scene.page.origin)
    firefox.until(lambda: bool(firefox.run("return document.querySelectorAll('[name=map] option').length") == 5))
    maps = firefox.run("return [...document.querySelectorAll('[name=map] option')].map((it) => it.value)")
    for version, method in enumerate(METHODS, 1):
        firefox.run(ASK, "route", START, END, maps[5 - version])
        state, text, _ = firefox.settled()
        same(
            method,
            (state, f" {far[END] / 10_000:.2f} km long" in text, f"in version {version} " in text),
            ("accepted", True, True),
        )
        for name, kind in KINDS.items():
            firefox.run(LIE, name)
            state, text, line = firefox.settled()
            kind = kind if isinstance(kind, str) else kind.get(method)
            if "no room for that lie" not in text:
                same(f"{method}, {name}", (state, line.split()[1]), ("refused", kind or line.split()[1]))
    firefox.run(ASK, "route", START, ISLAND, "")
    same("no route", (firefox.settled()[0], "no road leads" in firefox.run(SAID)[2]), ("accepted", ISLAND not in far))
    firefox.run(ASK, "reach", START, RADIUS // 10_000, "")
    count = sum(one <= RADIUS for one in far.values())
    same("a radius", (firefox.settled()[0], f"{count} nodes, and no other" in firefox.run(SAID)[2]), ("accepted", True))
    if picture:
        picture.write_bytes(base64.b64decode(firefox.told("WebDriver:TakeScreenshot", full=False)["value"]))
    for name, state in (("route_check.wasm", "failed"), ("lengths.mjs", "waiting")):
        held = place.files[f"/{name}"]
        place.files[f"/{name}"] = (held[0], held[1] + b"\0\1\0" if name.endswith("m") else b"//\n" + held[1], b"")
        firefox.open(f"{scene.page.origin}/?{name}")
        time.sleep(3)
        same(f"another {name}", firefox.run(SAID)[1], state)
        print(f"  {firefox.run(SAID)[2]}")
        place.files[f"/{name}"] = held
    return faults


def main(program: str, picture: str | None = None) -> int:
    if not shutil.which("firefox-esr"):
        sys.exit("this machine has no firefox-esr")
    with tempfile.TemporaryDirectory() as folder:
        scene, firefox = Scene(program, SECRETS[0]), None
        try:
            firefox = Firefox(pathlib.Path(folder))
            return 1 if played(firefox, scene, pathlib.Path(picture) if picture else None) else 0
        finally:
            if firefox:
                firefox.end()
            scene.end()


if __name__ == "__main__":
    sys.exit(main(*sys.argv[1:]))
