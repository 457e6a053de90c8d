"""Starts an owner with a made-up map, a gateway, and the owner's site with the page. It has a town under the four
methods for the page's test, and a town in the mountains with a tour for web/demo.

Nobody trusts this file: the page's client checks what it serves."""

import json
import os
import pathlib
import socket
import subprocess
import sys
import tempfile
import threading
import time
import urllib.request
from collections.abc import Sequence

HERE = pathlib.Path(__file__).resolve().parent
TOP = HERE.parents[1]
sys.path[:0] = [str(HERE), str(TOP / "reference")]
from gogbetiku_reference.layout import IN_PUBLICATION, version_of  # noqa: E402
from place import Place  # noqa: E402

TOOLS = TOP / "tools"
PYTHON = "/usr/bin/python3"  # Debian's Python, which has h11
PROGRAM = TOP / "crates/road_proof/out/road_proof"
ATTRIBUTION = "A made-up town that does not exist"
METHODS = {
    "dij": "hilbert 0 2 0 0 0",
    "full": "kd 0 2 0 0 0",
    "ldm": "hilbert 0 2 16 10 24",
    "hyp": "hilbert 0 2 4 4 0",
}


class Owner:
    """A folder with a desk, road files, the table of streets, and publications."""

    def __init__(self, program: pathlib.Path | str, secret: bytes) -> None:
        self.program = str(pathlib.Path(program).resolve())
        self.held = tempfile.TemporaryDirectory(prefix="gogbetiku_page.")
        self.folder = pathlib.Path(self.held.name)
        self.keep("secret.hex", secret.hex().encode())
        self.keep("owner.key", self.run("key secret.hex h5"))
        (self.folder / "secret.hex").unlink()
        self.keep("owner.chain", b"")

    def keep(self, name: str, octets: bytes) -> None:
        """Replaces a file atomically."""
        (self.folder / f"{name}.fresh").write_bytes(octets)
        (self.folder / f"{name}.fresh").rename(self.folder / name)

    def read(self, name: str) -> bytes:
        return (self.folder / name).read_bytes()

    def run(self, words: str) -> bytes:
        """Runs a command. Returns its standard output."""
        done = subprocess.run([self.program, *words.split()], cwd=self.folder, stdout=subprocess.PIPE, check=False)
        if done.returncode:
            sys.exit(f"road_proof {words}: status {done.returncode}")
        return done.stdout

    def publish(self, version: int, method: str, roads: str = "town.roads") -> bytes:
        """Runs `publish`. Returns the octets of the publication."""
        return self.run(f"publish {roads} {method} {version} {METHODS[method]}")

    def lay_town(self) -> None:
        """Makes the town of docs/MAPS.md."""
        self.keep("town.osm", subprocess.run([TOOLS / "town.py"], stdout=subprocess.PIPE, check=True).stdout)
        words = [str(TOOLS / "osm_roads.py"), "town.osm", "--ids", "town.ids"]
        self.keep("town.roads", subprocess.run(words, cwd=self.folder, capture_output=True, check=True).stdout)

    def lay_mountain(self) -> None:
        """Makes the town in the mountains, in summer and in winter."""
        subprocess.run([TOOLS / "mountain.py", "."], cwd=self.folder, check=True)

    def succeed(self, secret: bytes) -> bytes:
        """Makes the owner's next key."""
        self.keep("next.hex", secret.hex().encode())
        self.run("succeed next.hex h5")
        (self.folder / "next.hex").unlink()
        return self.run("links")


class Gateway:
    """Runs web/gateway.py over the owner's files."""

    def __init__(self, owner: Owner, port: int, *more: str) -> None:
        self.owner, self.origin = owner, f"http://127.0.0.1:{port}"
        words = [
            PYTHON,
            str(HERE.parent / "gateway.py"),
            owner.program,
            "map.pub",
            "owner.key",
            "owner.chain",
            "--listen",
            f"127.0.0.1:{port}",
        ]
        with open(owner.folder / "gateway.log", "ab") as log:
            self.process = subprocess.Popen([*words, "--attribution", ATTRIBUTION, *more], cwd=owner.folder, stderr=log)

    def versions(self) -> list[int]:
        """The versions that it serves, the newest first."""
        try:
            with urllib.request.urlopen(f"{self.origin}/v1/info", timeout=10) as found:
                return [int(one["version"]) for one in json.load(found)["publications"]]
        except OSError:
            return []

    def serve(self, octets: bytes, seconds: int = 120) -> None:
        """Moves a publication to its place, and waits until the gateway serves it."""
        self.owner.keep("map.pub", octets)
        version = version_of(octets, IN_PUBLICATION)
        until = time.monotonic() + seconds
        while version not in self.versions():
            if time.monotonic() > until or self.process.poll() is not None:
                sys.exit(f"the gateway does not serve version {version}:\n{self.owner.read('gateway.log').decode()}")
            time.sleep(0.05)

    def end(self) -> None:
        self.process.terminate()
        try:
            self.process.wait(20)
        except subprocess.TimeoutExpired:
            self.process.kill()
            self.process.wait()


class Page:
    """The owner's site, with the page for a gateway."""

    def __init__(
        self, owner: Owner, gateway: str, port: int = 0, more: Sequence[str] = ("--streets", "town.ids")
    ) -> None:
        folder = owner.folder / f"page{len(list(owner.folder.glob('page*')))}"
        subprocess.run(
            [HERE / "build", folder, "owner.key", gateway, "--attribution", ATTRIBUTION, *more],
            cwd=owner.folder,
            check=True,
        )
        self.folder = folder
        self.place = Place(folder, port=port)
        self.port = self.place.server_address[1]
        self.origin = f"http://127.0.0.1:{self.port}"
        threading.Thread(target=self.place.serve_forever, daemon=True).start()

    def end(self) -> None:
        self.place.shutdown()
        self.place.server_close()


class Scene:
    """An owner with a gateway that serves some maps, and the page. `end` ends all started processes."""

    def __init__(
        self, program: pathlib.Path | str, secret: bytes | None = None, ports: tuple[int, int] = (0, 0)
    ) -> None:
        self.owner = Owner(program, secret or os.urandom(48))
        self.published: list[bytes] = []
        self.more: list[str] = []
        # the started processes, the last first
        self.started: list[Gateway | Page] = []
        try:
            self.lay()
            self.owner.keep("map.pub", next(iter(self.published)))
            self.gateway = Gateway(self.owner, ports[0] or free_port(), "--keep", str(len(self.published)))
            self.started.insert(0, self.gateway)
            for octets in self.published:
                self.gateway.serve(octets)
            self.page = Page(self.owner, self.gateway.origin, ports[1], self.more)
            self.started.insert(0, self.page)
        except BaseException:
            self.end()
            raise

    def lay(self) -> None:
        """The town under the four methods, versions 1 to 4."""
        self.owner.lay_town()
        self.published = [self.owner.publish(version, method) for version, method in enumerate(METHODS, 1)]
        self.more = ["--streets", "town.ids"]

    def end(self) -> None:
        for part in self.started:
            part.end()
        self.owner.held.cleanup()


class Mountain(Scene):
    """The town in the mountains: version 1 is the map of last summer, versions 2 to 5 are the map of this winter."""

    def lay(self) -> None:
        self.owner.lay_mountain()
        maps = [("ldm", "summer.roads"), *((method, "winter.roads") for method in ("dij", "full", "hyp", "ldm"))]
        self.published = [self.owner.publish(version, *one) for version, one in enumerate(maps, 1)]
        self.more = ["--streets", "town.ids", "--shapes", "town.shapes", "--walk", "walk.json"]


def free_port() -> int:
    with socket.socket() as one:
        one.bind(("127.0.0.1", 0))
        return int(one.getsockname()[1])
