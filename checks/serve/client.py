#!/usr/bin/env python3
"""Plays clients of `serve` over a pipe: checks/serve/client.py PROGRAM [parties | speed | memory | frames]

parties  Three parties hold sessions over two publications under two methods. Their frames alternate, with the install
         of a newer publication between them. No octet of a frame is written before the previous reply has come. Each
         reply must be the one that docs/SPEC.md requires. Each answer is checked with `check` under its party's minimum
         version, and compared with the reply of `prove` over the publication that the session began with.
speed    Measures the answers of `serve` in a second over grids of 10,000 and of 65,536 nodes, for near and for distant
         ends, and the command `prove`.
memory   Measures the memory of `serve` while its 16 sessions are pinned to 16 publications of 65,536 nodes.
frames   Sends 1,000,000 empty frames, and one octet more.

Without such an argument it does all four. Ends with status 1 if anything differs.
"""
import os
import struct
import subprocess
import sys
import tempfile
import threading
import time
from pathlib import Path

sys.path.insert(0, str(Path(__file__).resolve().parents[1]))

from common.desks import ZEROS  # noqa: E402
from common.layout import IN_ANSWER, version_of  # noqa: E402
from common.maps import made  # noqa: E402
from common.runs import written  # noqa: E402
from common.served import Served, ask, begin, finish, install  # noqa: E402

PROGRAM = os.path.abspath(sys.argv[1])
OVER = "the two replies differ"
# the limit of seconds for a reply
LONGEST = 60


def run(*words: object, wanted: int = 0, given: bytes | None = None) -> bytes:
    """The output of a command, which must end with this status."""
    return written([PROGRAM, *words], status=wanted, given=given)


def keep(name: str, octets: bytes) -> None:
    Path(name).write_bytes(octets)


def grid(width: int) -> str:
    """The road file of a grid."""
    name = f"grid{width}.roads"
    keep(name, made("grid", width))
    return name


def publish(
    roads: str, version: int, method: str = "dij", order: str = "hilbert", parameters: tuple[int, int, int] = (0, 0, 0)
) -> str:
    """The name of a publication's file."""
    name = f"{roads}.{method}.{version}.pub"
    keep(name, run("publish", roads, method, version, order, 0, 2, *parameters))
    return name


def installing(name: str) -> bytes:
    """The body that installs a publication."""
    return install(Path(name).read_bytes())


class Server(Served):
    """`serve` over a publication, which must answer in time and end with the right status."""

    def __init__(self, publication: str) -> None:
        super().__init__(PROGRAM, publication)

    def told(self, body: bytes) -> bytes:
        """The reply to a body; it must come before the server has an octet of another frame."""
        self.send(body)
        watch = threading.Timer(LONGEST, self.child.kill)
        watch.start()
        try:
            return self.reply()
        except struct.error:
            sys.exit(f"serve: no reply to {body[:10].hex()} before the next frame")
        finally:
            watch.cancel()

    def memory(self, what: str) -> float:
        """A line of /proc/PID/status, in MB."""
        with open(f"/proc/{self.child.pid}/status", encoding="ascii") as file:
            for line in file:
                if line.startswith(what):
                    return int(line.split()[1]) / 1024
        return 0.0

    def end(self, status: int = 0) -> None:
        self.words.close()
        rest = self.answers.read()
        if rest or self.child.wait() != status:
            sys.exit(f"serve: status {self.child.returncode}, {len(rest)} octets behind the last reply")


def wants(what: str, got: bytes, wanted: bytes) -> None:
    if got != wanted:
        sys.exit(f"{what}: {got[:40].hex()} in place of {wanted[:40].hex()}")


class Party:
    """A client with a session: its minimum version, and its checks."""

    def __init__(self, server: Server, session: int) -> None:
        self.server, self.session, self.publication = server, session, ""
        self.version: int | None = None
        self.answers = 0

    def begin(self, version: int, publication: str) -> None:
        wants("begin", self.server.told(begin(self.session)), struct.pack(">BBQ", 0x81, self.session, version))
        self.version, self.publication = version, publication

    def ask(self, start: int, end: int) -> None:
        reply = self.server.told(ask(self.session, start, end))
        wants("answer", reply[:2], bytes([0x82, self.session]))
        proved = subprocess.run(
            [PROGRAM, "prove", self.publication, str(start), str(end)], capture_output=True, check=False
        )
        wants(f"{OVER}: {start} {end}", reply[2:], proved.stdout)
        keep("a.reply", reply[2:])
        if reply[2] in (0, 3):
            line = run("check", "owner.key", "a.reply", start, end, self.version)
        else:
            line = run("check", "owner.key", "a.reply", start, end, self.version, wanted=1)
        if not line.startswith(b"accepted " if reply[2] in (0, 3) else b"refused NotAnswer"):
            sys.exit(f"check {start} {end}: {line.decode()}")
        self.answers += 1

    def finish(self) -> None:
        wants("finish", self.server.told(finish(self.session)), bytes([0x83, self.session]))
        self.version = None


def owner() -> None:
    keep("secret.hex", ZEROS.encode())
    keep("owner.key", run("key", "secret.hex", "h10"))


def parties() -> None:
    roads = grid(20)
    first, second = publish(roads, 1), publish(roads, 2, "hyp", "kd", (3, 3, 0))
    third = publish(roads, 3, "ldm", "hilbert", (4, 12, 2))
    server = Server(first)
    one, two, three = Party(server, 0), Party(server, 7), Party(server, 15)
    one.begin(1, first)
    two.begin(1, first)
    one.ask(1, 400)
    wants("install", server.told(installing(second)), struct.pack(">BQ", 0x84, 2))
    three.begin(2, second)
    for party in (three, two, one, two, three, one):
        party.ask(21, 399)
        party.ask(5, 5)
        party.ask(5, 999)
    wants("an older version", server.told(installing(first)), struct.pack(">BQ", 0xE6, 2))
    wants("no publication", server.told(b"\4RPP1"), b"\xe5\1")
    forged = bytearray(installing(third))
    forged[1 + 4 + 30] ^= 1
    wants("another header", server.told(bytes(forged)), b"\xe5\4")
    wants("begun already", server.told(begin(7)), b"\xe3\7")
    two.finish()
    wants("not begun", server.told(ask(7, 1, 2)), b"\xe4\7")
    wants("no session", server.told(begin(16)), b"\xe2\x10")
    wants("no form", server.told(b"\5"), b"\xe1")
    two.begin(2, second)
    for party in (one, two, three):
        party.ask(1, 400)
        party.ask(400, 1)
    server.end()
    count = one.answers + two.answers + three.answers
    print(
        f"parties: {count} answers of three sessions over two publications: each is the octets of prove, and check says so"
    )


def asked(server: Server, queries: list[tuple[int, int]]) -> tuple[float, float]:
    """The answers in a second, with frames and replies in both directions at once, and the octets of the replies."""
    begun = time.monotonic()
    sender = threading.Thread(target=lambda: server.send(*(ask(0, *query) for query in queries)))
    sender.start()
    octets = sum(len(server.reply()) for _ in queries)
    sender.join()
    return len(queries) / (time.monotonic() - begun), octets / len(queries)


def speed() -> None:
    for width, method, parameters in (
        (100, "dij", (0, 0, 0)),
        (100, "ldm", (16, 12, 2)),
        (256, "dij", (0, 0, 0)),
        (256, "ldm", (16, 12, 2)),
    ):
        roads = grid(width)
        begun = time.monotonic()
        pub = publish(roads, 1, method, "hilbert", parameters)
        published = time.monotonic() - begun
        begun = time.monotonic()
        server = Server(pub)
        wants("begin", server.told(begin(0)), struct.pack(">BBQ", 0x81, 0, 1))
        installed = time.monotonic() - begun
        middle = width * width // 2 + width // 2
        for what, end, count in (("next", middle + 1, 200), ("20 apart", middle + 20, 50), ("corners", None, 4)):
            query = (1, width * width) if end is None else (middle, end)
            rate, octets = asked(server, [query] * count)
            begun = time.monotonic()
            proved = run("prove", pub, *query)
            once = time.monotonic() - begun
            print(
                f"speed: {width * width} nodes, {method}, {what}: {rate:.1f} asks a second, {octets:.0f} octets each; prove takes {once:.3f} s for {len(proved)}",
                flush=True,
            )
        print(
            f"speed: {width * width} nodes, {method}: published in {published:.2f} s, begun {installed:.2f} s after the start",
            flush=True,
        )
        server.end()


def memory() -> None:
    roads = grid(256)
    names = [publish(roads, version) for version in range(1, 17)]
    server = Server(names[0])
    wants("begin", server.told(begin(0)), struct.pack(">BBQ", 0x81, 0, 1))
    print(
        f"memory: one publication of 65,536 nodes: {server.memory('VmRSS'):.0f} MB, at most {server.memory('VmHWM'):.0f} MB"
    )
    for session in range(1, 16):
        wants("install", server.told(installing(names[session])), struct.pack(">BQ", 0x84, session + 1))
        wants("begin", server.told(begin(session)), struct.pack(">BBQ", 0x81, session, session + 1))
    print(
        f"memory: 16 pinned publications of 65,536 nodes: {server.memory('VmRSS'):.0f} MB, at most {server.memory('VmHWM'):.0f} MB"
    )
    for session in range(16):
        reply = server.told(ask(session, 1, 2))
        wants("answer", reply[:3], bytes([0x82, session, 0]))
        wants("its version", struct.pack(">Q", version_of(reply[2:], IN_ANSWER)), struct.pack(">Q", session + 1))
    server.end()


def frames() -> None:
    roads = "one.roads"
    keep(roads, b"roads 1\nnode 7 -1 2\n")
    pub = publish(roads, 1)
    for octets, status in ((4_000_000, 0), (4_000_001, 13)):
        begun = time.monotonic()
        written = run("serve", pub, wanted=status, given=bytes(octets))
        if written != b"\0\0\0\1\xe1" * 1_000_000:
            sys.exit(f"frames: {len(written)} octets")
        print(
            f"frames: {octets} octets of empty frames: 1,000,000 replies and status {status}, in {time.monotonic() - begun:.2f} s"
        )


def main() -> None:
    parts = {"parties": parties, "speed": speed, "memory": memory, "frames": frames}
    with tempfile.TemporaryDirectory() as folder:
        os.chdir(folder)
        owner()
        for name in sys.argv[2:] or parts:
            parts[name]()


if __name__ == "__main__":
    main()
