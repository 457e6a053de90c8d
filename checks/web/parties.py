"""An owner, gateways and clients, for the scripts in this folder. Nothing here is proved, and no client trusts it."""

import contextlib
import http.client
import json
import os
import pathlib
import re
import shutil
import signal
import socket
import subprocess
import sys
import tempfile
import threading
import time
import urllib.parse
from email.message import Message
from typing import Any

TOP = pathlib.Path(__file__).resolve().parents[2]
sys.path.insert(0, str(TOP / "checks"))

from common.layout import IN_ANSWER, version_of  # noqa: E402

PYTHON = "/usr/bin/python3"
STREETS, GRID = TOP / "checks/speed/streets.py", TOP / "checks/speed/grid.py"
METHODS = {"dij": "hilbert 0 2 0 0 0", "full": "kd 0 2 0 0 0", "ldm": "hilbert 0 2 16 12 0", "hyp": "hilbert 0 2 4 4 0"}


class Owner:
    """A folder with a desk, and publications of one map."""

    def __init__(self, program: str, roads: bytes) -> None:
        """`roads` is the text of a road file."""
        self.program = os.path.abspath(program)
        self.held = tempfile.TemporaryDirectory(prefix="web_play.")
        self.folder = pathlib.Path(self.held.name)
        self.folder.chmod(0o711)
        self.keep("map.roads", roads)
        self.ids = [int(line.split()[1]) for line in roads.decode().splitlines() if line.startswith("node ")]
        self.keep("secret.hex", b"00" * 48)
        self.keep("next.hex", b"01" * 48)
        self.keep("owner.key", self.run("key secret.hex h5"))
        self.keep("owner.chain", b"")

    def keep(self, name: str, octets: bytes) -> None:
        (self.folder / name).write_bytes(octets)

    def path(self, name: str) -> pathlib.Path:
        return self.folder / name

    def run(self, words: str, wanted: int = 0) -> bytes:
        """The output of a command."""
        status, octets = self.ended(words)
        if status != wanted:
            sys.exit(f"{words}: status {status}")
        return octets

    def ended(self, words: str) -> tuple[int, bytes]:
        done = subprocess.run(
            [self.program, *words.split()],
            cwd=self.folder,
            stdout=subprocess.PIPE,
            stderr=subprocess.DEVNULL,
            check=False,
        )
        return done.returncode, done.stdout

    def publish(self, version: int, method: str = "dij", settings: str | None = None) -> str:
        """The name of a publication."""
        name = f"{method}-{version}.pub"
        self.keep(name, self.run(f"publish map.roads {method} {version} {settings or METHODS[method]}"))
        return name

    def succeed(self) -> None:
        self.run("succeed next.hex h5")
        self.keep("owner.chain", self.run("links"))

    def prove(self, name: str, start: int, end: int) -> bytes:
        return self.ended(f"prove {name} {start} {end}")[1]

    def reach(self, name: str, start: int, radius: int) -> bytes:
        return self.ended(f"reach {name} {start} {radius}")[1]

    def verdict(self, reply: bytes, start: int, end: int, least: int, chain: bool = True) -> str:
        """The command line's verdict on a reply with a route."""
        name = f"{os.getpid()}-{time.monotonic_ns()}.reply"
        self.keep(name, reply)
        words = f"check owner.key {name} {start} {end} {least}" + (" owner.chain" if chain else "")
        line = self.ended(words)[1].decode()
        self.path(name).unlink()
        return line


def roads(script: pathlib.Path, size: int) -> bytes:
    return subprocess.run([sys.executable, script, str(size)], capture_output=True, check=True).stdout


def replace(file: pathlib.Path, octets: bytes) -> None:
    """Replaces a file atomically."""
    fresh = pathlib.Path(f"{file}.fresh")
    fresh.write_bytes(octets)
    fresh.rename(file)


def priority_of(process: int | str) -> int | None:
    """The priority of a process's session, if the system groups processes by sessions."""
    found = re.search(rb" nice (-?\d+)", read(f"/proc/{process}/autogroup"))
    return int(found[1]) if found else None


def descendants(process: int) -> list[int]:
    """The processes that this one has started, with their descendants."""
    found: list[int] = []
    with contextlib.suppress(OSError):  # it may end in the meantime
        for task in os.listdir(f"/proc/{process}/task"):
            found += map(int, read(f"/proc/{process}/task/{task}/children").split())
    return found + [below for one in found for below in descendants(one)]


def pass_priority_on() -> None:
    """Gives the priority of this script's session to all processes that it starts. Gateways, `serve` and balancers have sessions
    of their own, which would begin with no priority: a busy machine would then measure itself."""
    wanted = priority_of("self")

    def watch() -> None:
        while True:
            for one in descendants(os.getpid()):
                if priority_of(one) not in (None, wanted):
                    with contextlib.suppress(OSError):
                        pathlib.Path(f"/proc/{one}/autogroup").write_text(str(wanted))
            time.sleep(0.2)

    if wanted:
        threading.Thread(target=watch, daemon=True).start()


def free_port() -> int:
    with socket.socket() as one:
        one.bind(("127.0.0.1", 0))
        return int(one.getsockname()[1])


class Place:
    """An HTTP address over one connection."""

    def __init__(self, address: str, seconds: float = 30, headers: dict[str, str] | None = None) -> None:
        parts = urllib.parse.urlsplit(address)
        self.host, self.port, self.seconds, self.headers = parts.hostname or "", parts.port or 0, seconds, headers or {}
        self.connection: http.client.HTTPConnection | None = None

    def ask(self, path: str, method: str = "GET", **headers: str) -> tuple[int, Message, bytes]:
        """Returns status, headers and octets. Opens a closed connection again, and repeats a request once if its answer ends early."""
        for trial in (1, 2):
            if self.connection is None:
                self.connection = http.client.HTTPConnection(self.host, self.port, timeout=self.seconds)
            try:
                self.connection.request(
                    method,
                    path,
                    headers={**self.headers, **{name.replace("_", "-"): value for name, value in headers.items()}},
                )
                found = self.connection.getresponse()
                return found.status, found.headers, found.read()
            except (OSError, http.client.HTTPException):
                self.close()
                if trial == 2:
                    raise
        raise AssertionError

    def close(self) -> None:
        if self.connection is not None:
            self.connection.close()
            self.connection = None


class Client:
    """An honest client: it sends its minimum version, checks each reply, and asks past caches if a reply is refused."""

    def __init__(self, owner: Owner, address: str, least: int = 0, checks: bool = True) -> None:
        self.owner, self.place, self.least, self.checks = owner, Place(address), least, checks
        self.asked = 0

    def route(self, start: int, end: int) -> str:
        """The line of an accepted reply, or `servers disagree`."""
        refused: list[str] = []
        for trial in range(3):
            reply = self.reply(f"from={start}&to={end}", past_caches=trial > 0)
            line = self.owner.verdict(reply, start, end, self.least)
            if line.startswith("accepted"):
                self.least = max(self.least, version_of(reply, IN_ANSWER))
                return line
            refused.append(line)
        return "servers disagree"

    def reply(self, words: str, past_caches: bool = False, kind: str = "route") -> bytes:
        """The octets over the newest publication, which has at least the minimum version."""
        more = {"Cache_Control": "no-cache"} if past_caches else {}
        for _ in range(20):
            self.asked += 1
            status, headers, octets = self.place.ask(f"/v1/{kind}?{words}" + f"&least={self.least}")
            if status == 307:
                status, headers, octets = self.place.ask(headers["Location"], **more)
            if status == 200:
                return octets
            if status not in (410, 429, 502, 503, 504):
                raise AssertionError(f"status {status}: {octets[:200]!r}")
            time.sleep(min(0.2, float(headers.get("Retry-After", 0.2))))
        raise AssertionError(f"no answer: status {status}")


class Started:
    """A process that ends with the script."""

    def __init__(self, words: list[Any], cwd: pathlib.Path, log: pathlib.Path | str) -> None:
        with open(log, "ab") as it:
            self.process = subprocess.Popen(
                list(map(str, words)), cwd=cwd, stdin=subprocess.DEVNULL, stdout=subprocess.PIPE, stderr=it
            )

    def end(self, number: signal.Signals = signal.SIGTERM, seconds: float = 20) -> int:
        if self.process.poll() is None:
            self.process.send_signal(number)
        try:
            return self.process.wait(seconds)
        except subprocess.TimeoutExpired:
            self.process.kill()
            return self.process.wait()


class Gateway(Started):
    """A gateway with its own files in an owner's folder."""

    def __init__(
        self,
        owner: Owner,
        name: str,
        *more: Any,
        program: Any = None,
        log: pathlib.Path | str | None = None,
        wait: bool = True,
    ) -> None:
        self.folder = owner.folder / f"gateway-{free_port()}"
        self.folder.mkdir()
        for file, held in (("map.pub", name), ("owner.key", "owner.key"), ("owner.chain", "owner.chain")):
            shutil.copy(owner.path(held), self.folder / file)
        self.address = f"http://127.0.0.1:{free_port()}"
        listen = self.address.removeprefix("http://")
        words = [
            PYTHON,
            TOP / "web/gateway.py",
            program or owner.program,
            "map.pub",
            "owner.key",
            "owner.chain",
            "--listen",
            listen,
            *more,
        ]
        self.log = log or self.folder / "log"
        super().__init__(words, self.folder, self.log)
        self.place = Place(self.address)
        if wait:
            self.wait()

    def wait(self, seconds: float = 60) -> None:
        """Waits until it is ready."""
        until = time.monotonic() + seconds
        while time.monotonic() < until:
            try:
                if Place(self.address).ask("/v1/ready")[0] == 200:
                    return
            except (OSError, http.client.HTTPException):
                pass
            if self.process.poll() is not None:
                break
            time.sleep(0.05)
        sys.exit(f"the gateway does not start: {pathlib.Path(self.log).read_text()}")

    def info(self) -> list[dict[str, Any]]:
        found: list[dict[str, Any]] = json.loads(self.place.ask("/v1/info")[2])["publications"]
        return found

    def newest(self) -> str:
        return str(self.info()[0]["id"])

    def serves(self) -> list[int]:
        """The processes of `serve`."""
        return serves_of(self.process.pid)

    def memory(self) -> tuple[float, int]:
        """Its memory in MB, and its number of open files."""
        lines = pathlib.Path(f"/proc/{self.process.pid}/status").read_text().splitlines()
        held = next(int(line.split()[1]) for line in lines if line.startswith("VmRSS"))
        return held / 1024, len(os.listdir(f"/proc/{self.process.pid}/fd"))


def serves_of(gateway: int) -> list[int]:
    """The processes of `serve` that a gateway has started."""
    found: list[bytes] = []
    for task in pathlib.Path(f"/proc/{gateway}/task").iterdir():
        found += read(task / "children").split()
    return sorted({int(pid) for pid in found if b"serve" in read(f"/proc/{int(pid)}/cmdline")})


def read(file: pathlib.Path | str) -> bytes:
    try:
        return pathlib.Path(file).read_bytes()
    except OSError:
        return b""


class Many(Started):
    """web/many over a publication."""

    def __init__(self, owner: Owner, name: str, *more: Any, program: Any = None) -> None:
        command = [
            TOP / "web/many",
            program or owner.program,
            owner.path(name),
            owner.path("owner.key"),
            owner.path("owner.chain"),
            *more,
        ]
        self.log = owner.folder / f"many-{free_port()}.log"
        super().__init__(command, owner.folder, self.log)
        assert self.process.stdout
        line = self.process.stdout.readline()
        if not line:
            sys.exit(f"web/many does not start: {self.log.read_text()}")
        self.said = json.loads(line)
        self.address, self.gateways, self.folder = (
            self.said["service"],
            self.said["gateways"],
            pathlib.Path(self.said["folder"]),
        )

    def replica(self, number: int) -> pathlib.Path:
        return self.folder / f"replica-{number}"

    def number_of(self, name: str) -> int:
        """The number of the process that has this name now."""
        return int(json.loads((self.folder / "processes.json").read_text())[name])
