#!/usr/bin/python3
"""Plays the gateway, the caches in front of it, and good and bad clients: checks/web/play.py PROGRAM [PART ..]

examples  the examples of web/openapi.json: statuses, headers and octets, compared with `prove` and `reach`
files     publications and chains that are moved into place: new, broken, old, another owner's, and a key's successor
killed    `serve` is killed while clients ask
shared    ten clients ask the same query while `serve` is stopped, which then continues or is killed
odd       octets that are not HTTP, requests in a row, 200 connections held open, clients that read nothing
limits    requests by address, with and without a named proxy
stopped   a stop while clients ask
many      two replicas behind cache and balancer: a killed gateway, a publication rolled by moving it to FOLDER/map.pub, a
          replica that lies
anew      queries past the cache are limited for each address, for IPv6 by its prefix; both forms of an answer are kept
samples   nginx -t, haproxy -c, systemd-analyze and promtool over the samples

These are short forms, in half a minute, of what checks/web/measure.py measures by hand. Parts whose package is missing
are skipped by name. Ends with status 1 if anything differs. The script ends only processes that it started. No client
trusts this file.
"""

import concurrent.futures
import gzip
import json
import os
import pathlib
import random
import re
import shutil
import signal
import socket
import subprocess
import sys
import time
from collections.abc import Callable

sys.path.insert(0, str(pathlib.Path(__file__).resolve().parents[1]))

from common.desks import id_of  # noqa: E402
from common.looks import Looks  # noqa: E402
from parties import STREETS, TOP, Client, Gateway, Many, Owner, Place, replace, roads

LOOKS = Looks(120)
same, faults = LOOKS.same, LOOKS.faults
LIAR = """#!/usr/bin/env python3
# `serve` as it is, but in replica-0, where it turns the last octet of each third answer
import os, struct, subprocess, sys
if sys.argv[1] != "serve" or not os.getcwd().endswith("replica-0"):
    os.execv({program!r}, [{program!r}, *sys.argv[1:]])
files = [int(word.rpartition("/")[2]) for word in sys.argv[2:]]
serve = subprocess.Popen([{program!r}, *sys.argv[1:]], stdin=subprocess.PIPE, stdout=subprocess.PIPE, pass_fds=files)
count = 0
while True:
    head = sys.stdin.buffer.read(4)
    if len(head) < 4:
        sys.exit(0)
    serve.stdin.write(head + sys.stdin.buffer.read(struct.unpack(">I", head)[0]))
    serve.stdin.flush()
    reply = bytearray(serve.stdout.read(struct.unpack(">I", serve.stdout.read(4))[0]))
    count += reply[0] == 0x82
    if reply[0] == 0x82 and count % {each} == 0:
        reply[-1] ^= 1
    sys.stdout.buffer.write(struct.pack(">I", len(reply)) + reply)
    sys.stdout.buffer.flush()
"""


def examples(owner: Owner, draw: random.Random) -> None:
    name = "dij-3.pub"
    octets = owner.path(name).read_bytes()
    gateway = Gateway(owner, name, "--unit", "decimetres", "--attribution", "a made map")
    place, here = gateway.place, id_of(octets)
    same(
        "info",
        gateway.info(),
        [{"id": here, "version": "3", "age": None, "method": "dij", "nodes": len(owner.ids), "octets": len(octets)}],
    )
    described = json.loads((TOP / "web/openapi.json").read_text())
    for path, page in described["paths"].items():
        for example in page["get"]["x-examples"]:
            asked = path.replace("{id}", here) + ("?" + example["query"] if example["query"] else "")
            status, headers, found = place.ask(asked)
            same(asked, status, example["status"])
            same(f"{asked} is described", str(status) in page["get"]["responses"], True)
            words = example.get("same-as", "").split()
            if words == ["publication"]:
                same(asked, found, octets)
            elif words:
                same(asked, found, owner.ended(f"{words[0]} {name} {words[1]} {words[2]}")[1])
            if status == 200 and words:
                same("cache", headers["Cache-Control"], "public, max-age=31536000, immutable")
            elif status == 307:
                same("the way", headers["Location"].split("?")[0], f"/v1/p/{here}/{path.split('/')[-1]}")
                same(
                    "the way's cache", headers["Cache-Control"], "no-store" if "least" in asked else "public, max-age=5"
                )
            elif status >= 400:
                same(
                    "a problem",
                    (headers["Content-Type"], headers["Cache-Control"], json.loads(found)["status"]),
                    ("application/problem+json", "no-store", status),
                )
    for _ in range(40):
        start, end, radius = draw.choice(owner.ids), draw.choice(owner.ids), draw.randrange(3000)
        same("route", place.ask(f"/v1/p/{here}/route?from={start}&to={end}")[2], owner.prove(name, start, end))
        same(
            "reach", place.ask(f"/v1/p/{here}/reach?from={start}&radius={radius}")[2], owner.reach(name, start, radius)
        )
    spellings(place, here, owner, name)
    same("end", gateway.end(), 0)
    same("no query is logged", bool(re.search(r"from=|to=", pathlib.Path(gateway.log).read_text())), False)


def spellings(place: Place, here: str, owner: Owner, name: str) -> None:
    """Each address has one spelling; the answers to each method and header."""
    far = f"/v1/p/{here}/reach?from={owner.ids[0]}&radius=100000"
    wanted = owner.reach(name, owner.ids[0], 100000)
    for path, status in (
        (f"/v1/p/{here}/route?from=1&to=3&", 400),
        (f"/v1/p/{here}/route?from=+1&to=3", 400),
        (f"/v1/p/{here}/route?from=1&to=%33", 400),
        (f"/v1/p/{here}/route?from=1&to=3&least=1", 400),
        (f"/v1/p/{here.upper()}x/route?from=1&to=3", 400),
        ("/v1/p//route?from=1&to=3", 400),
        (f"/v1/p/{here}/route/?from=1&to=3", 404),
        (f"/v1/p/{here}/%72oute?from=1&to=3", 404),
        ("/v1/../v1/info", 404),
        ("/owner.desk", 404),
        ("/", 404),
        ("/v1/info?x", 400),
        ("/v1/p/0123456789abcdef/publication", 503),
        ("/v1/route?from=1&to=3&least=99", 503),
    ):
        same(path, place.ask(path)[0], status)
    for method in ("POST", "PUT", "DELETE", "TRACE", "PATCH"):
        status, headers, _ = place.ask(far, method)
        same(method, (status, headers["Allow"]), (405, "GET, HEAD, OPTIONS"))
    status, headers, found = place.ask(far, "OPTIONS")
    same(
        "OPTIONS",
        (status, headers["Access-Control-Allow-Origin"], headers["Access-Control-Allow-Methods"], found),
        (204, "*", "GET, HEAD, OPTIONS", b""),
    )
    status, headers, found = place.ask(far, "HEAD")
    same("HEAD", (status, headers["Content-Length"], found), (200, str(len(wanted)), b""))
    status, headers, found = place.ask(far, Accept_Encoding="gzip")
    packed = headers["Content-Encoding"] == "gzip"
    same("gzip", (status, gzip.decompress(found) if packed else found), (200, wanted))
    same("gzip pays", packed and len(found) <= 0.9 * len(wanted), True)
    same("no gzip", place.ask(far, Accept_Encoding="gzip;q=0")[2], wanted)
    tag = place.ask(far)[1]["ETag"]
    same("known", place.ask(far, If_None_Match=f'"x", {tag}')[::2], (304, b""))
    same("not known", place.ask(far, If_None_Match='"x"')[0], 200)
    same("health", place.ask("/v1/health")[::2], (200, b"alive\n"))
    if shutil.which("promtool"):
        page = place.ask("/metrics")[2]
        done = subprocess.run(["promtool", "check", "metrics"], input=page, capture_output=True, check=False)
        same("promtool", (done.returncode, done.stdout + done.stderr), (0, b""))
        same("no query is counted", bool(re.search(rb"from=|to=", page)), False)
    else:
        print("skipped: promtool check metrics, since this machine has no promtool")


def until(what: str, test: Callable[[], bool], seconds: float = 20) -> None:
    """Waits until a test holds."""
    end = time.monotonic() + seconds
    while not test():
        if time.monotonic() > end:
            same(what, "not yet", "done")
            return
        time.sleep(0.05)


def files(owner: Owner, _draw: random.Random) -> None:
    octets = {version: owner.path(f"dij-{version}.pub").read_bytes() for version in (3, 4, 5, 6)}
    ids = {version: id_of(it) for version, it in octets.items()}
    gateway = Gateway(owner, "dij-3.pub", "--keep", "2")
    file = gateway.folder / "map.pub"
    query = f"from={owner.ids[0]}&to={owner.ids[-1]}"

    def status(version: int) -> int:
        return gateway.place.ask(f"/v1/p/{ids[version]}/route?{query}")[0]

    same("not here yet", status(4), 503)
    broken = (
        b"",
        b"junk",
        octets[4][:-1],
        octets[4][:300] + b"\0" + octets[4][301:],
        octets[3],
        owner.path("other-9.pub").read_bytes(),
    )
    for junk in broken:
        before = pathlib.Path(gateway.log).read_text().count("are not accepted")
        replace(file, junk)
        if junk != octets[3]:
            until(
                "a broken one is told", lambda: pathlib.Path(gateway.log).read_text().count("are not accepted") > before
            )
        same("a broken one changes nothing", [it["id"] for it in gateway.info()], [ids[3]])
    for version in (4, 5):
        replace(file, octets[version])
        until(f"version {version}", lambda: gateway.newest() == ids[version])
        same(
            "the new one",
            gateway.place.ask(f"/v1/p/{ids[version]}/route?{query}")[2],
            owner.prove(f"dij-{version}.pub", owner.ids[0], owner.ids[-1]),
        )
    same("newest, older, dropped", [status(it) for it in (5, 4, 3)], [200, 200, 410])
    replace(file, octets[4])
    time.sleep(0.6)
    same("none goes back", gateway.newest(), ids[5])
    file.unlink()
    time.sleep(0.6)
    same("a file that is gone", gateway.newest(), ids[5])
    # The successor's map comes before its link, and is installed when the link has come.
    replace(file, octets[6])
    time.sleep(0.6)
    same("not along the chain", gateway.newest(), ids[5])
    replace(gateway.folder / "owner.chain", owner.path("later.chain").read_bytes())
    until("along the chain", lambda: gateway.newest() == ids[6])
    same("the chain", gateway.place.ask("/v1/chain")[2], owner.path("later.chain").read_bytes())
    same("end", gateway.end(), 0)


def killed(owner: Owner, draw: random.Random) -> str:
    gateway = Gateway(owner, "dij-3.pub")
    here = gateway.newest()
    asked = [(draw.choice(owner.ids), draw.choice(owner.ids)) for _ in range(120)]

    def one(ends: tuple[int, int]) -> tuple[int, bytes]:
        return Place(gateway.address).ask("/v1/p/{}/route?from={}&to={}".format(here, *ends))[::2]

    with concurrent.futures.ThreadPoolExecutor(6) as pool:
        seen = [pool.submit(one, ends) for ends in asked]
        for _ in range(4):
            time.sleep(0.05)
            for pid in gateway.serves():
                os.kill(pid, signal.SIGKILL)
        late = 0
        for ends, answer in zip(asked, seen):
            status, octets = answer.result()
            late += status == 503
            if status != 503:
                same("killed", (status, octets), (200, owner.prove("dij-3.pub", *ends)))
    same("after it", one(asked[0]), (200, owner.prove("dij-3.pub", *asked[0])))
    until("one serve stays", lambda: len(gateway.serves()) == 1)
    same("end", gateway.end(), 0)
    return f"{late} of {len(asked)} put off"


def shared(owner: Owner, _draw: random.Random) -> None:
    """A query that is in progress already is shared: its answer and its failure."""
    gateway = Gateway(owner, "dij-3.pub")
    here, ends = gateway.newest(), (owner.ids[0], owner.ids[-1])
    wanted = owner.prove("dij-3.pub", *ends)

    def one(_: int) -> tuple[int, bytes]:
        return Place(gateway.address).ask("/v1/p/{}/route?from={}&to={}".format(here, *ends))[::2]

    before = frames_of(gateway)
    for number in (signal.SIGCONT, signal.SIGKILL):
        (pid,) = gateway.serves()
        os.kill(pid, signal.SIGSTOP)
        with concurrent.futures.ThreadPoolExecutor(10) as pool:
            asked = pool.map(one, range(10))
            time.sleep(0.5)
            os.kill(pid, number)
            same("asks at once", list(asked), [(200, wanted)] * 10)
        if number == signal.SIGCONT:
            same("their frames", frames_of(gateway) - before, 1)
    same("end", gateway.end(), 0)


def number_of(line: bytes, gateway: Gateway) -> int:
    """The number in a line of a gateway's /metrics."""
    found = re.search(line, Place(gateway.address).ask("/metrics")[2], re.MULTILINE)
    assert found
    return int(found[1])


def frames_of(gateway: Gateway) -> int:
    """The number of frames that the running `serve` has taken."""
    return number_of(rb"^road_gateway_serve_frames (\d+)$", gateway)


def raw(gateway: Gateway, octets: bytes, seconds: float = 3) -> bytes:
    host, port = gateway.place.host, gateway.place.port
    with socket.create_connection((host, port), timeout=seconds) as one:
        try:
            one.sendall(octets)
            return one.recv(65536)
        except OSError:
            return b""


def odd(owner: Owner, draw: random.Random) -> None:
    gateway = Gateway(owner, "dij-3.pub", "--request-seconds", "2", "--reply-seconds", "3")
    here, (start, end) = gateway.newest(), (owner.ids[0], owner.ids[-1])
    wanted = owner.prove("dij-3.pub", start, end)

    def well(what: str, most: float = 1.0) -> None:
        began = time.monotonic()
        same(what, Place(gateway.address).ask(f"/v1/p/{here}/route?from={start}&to={end}")[::2], (200, wanted))
        if time.monotonic() - began > most:
            faults.append(f"{what}: {time.monotonic() - began:.1f} s")

    line = f"GET /v1/p/{here}/route?from={start}&to={end} HTTP/1.1\r\nHost: a\r\n".encode()
    for octets in (
        b"\0" * 4096,
        draw.randbytes(20_000),
        b"GET / HTTP/9.9\r\n\r\n",
        b"GET\r\n\r\n",
        b"GET /" + b"a" * 100_000,
        line + b"X: " + b"b" * 100_000 + b"\r\n\r\n",
        line + b"Content-Length: -1\r\n\r\n",
        line + b"Content-Length: 5\r\nContent-Length: 6\r\n\r\nabcdef",
        line + b"Transfer-Encoding: chunked\r\n\r\nffffffffff\r\n",
        line.replace(b" HTTP", b"\xff\xfe HTTP") + b"\r\n",
    ):
        raw(gateway, octets, 1)
    well("odd octets")
    same(
        "a problem of octets",
        b"application/problem+json" in raw(gateway, b"GET / HTTP/9.9\r\n\r\n" + line * 9, 1).split(b"\r\n\r\n")[0],
        True,
    )
    with socket.create_connection((gateway.place.host, gateway.place.port), timeout=20) as one:
        one.sendall((line + b"\r\n") * 100)
        seen = b""
        while seen.count(b"HTTP/1.1 200 OK") < 100 and (piece := one.recv(1 << 20)):
            seen += piece
        same("requests in a row", seen.count(b"HTTP/1.1 200 OK"), 100)
    held = [socket.create_connection((gateway.place.host, gateway.place.port), timeout=5) for _ in range(200)]
    for one in held[:100]:
        one.send(line[:20])
    well("200 connections held open")
    deaf: list[socket.socket] = []
    for _ in range(20):
        one = socket.socket()
        one.setsockopt(socket.SOL_SOCKET, socket.SO_RCVBUF, 4096)
        one.connect((gateway.place.host, gateway.place.port))
        one.sendall(f"GET /v1/p/{here}/reach?from={start}&radius=4000000000 HTTP/1.1\r\nHost: a\r\n\r\n".encode())
        deaf.append(one)
    well("deaf clients")
    until("slow requests are closed", lambda: connections(gateway) < 140)
    for one in held + deaf:
        one.close()
    well("then")
    same("end", gateway.end(), 0)


def connections(gateway: Gateway) -> int:
    return number_of(rb"^road_gateway_connections (\d+)$", gateway)


def limits(owner: Owner, _draw: random.Random) -> None:
    gateway = Gateway(owner, "dij-3.pub", "--asks-per-second", "0.01", "--burst", "3", "--proxy", "127.0.0.1")
    place = gateway.place
    for named, statuses in (
        ("192.0.2.1", [200] * 3 + [429]),
        ("6.6.6.6, 192.0.2.2", [200] * 3 + [429]),
        ("192.0.2.9, 192.0.2.2", [429]),
        ("192.0.2.2, 127.0.0.1", [429]),
    ):
        same(named, [place.ask("/v1/info", X_Forwarded_For=named)[0] for _ in statuses], statuses)
    same("how long", int(place.ask("/v1/info", X_Forwarded_For="192.0.2.1")[1]["Retry-After"]) > 1, True)
    same(
        "health is not counted", [place.ask("/v1/health", X_Forwarded_For="192.0.2.1")[0] for _ in range(5)], [200] * 5
    )
    same("end", gateway.end(), 0)
    other = Gateway(owner, "dij-3.pub", "--asks-per-second", "0.01", "--burst", "3")
    same(
        "a proxy that is not named",
        [other.place.ask("/v1/info", X_Forwarded_For=f"192.0.2.{n}")[0] for n in range(4)],
        [200] * 3 + [429],
    )
    same("end", other.end(signal.SIGINT), 0)


def stopped(owner: Owner, _draw: random.Random) -> str:
    gateway = Gateway(owner, "dij-3.pub", "--drain-seconds", "0.5")
    here, (start, end) = gateway.newest(), (owner.ids[0], owner.ids[-1])
    serves = gateway.serves()
    for pid in serves:
        os.kill(pid, signal.SIGSTOP)
    with concurrent.futures.ThreadPoolExecutor(4) as pool:
        seen = [pool.submit(Place(gateway.address).ask, f"/v1/p/{here}/route?from={start}&to={end}") for _ in range(4)]
        time.sleep(0.3)
        gateway.process.terminate()
        until("not ready", lambda: Place(gateway.address).ask("/v1/ready")[0] == 503, 5)
        for pid in serves:
            os.kill(pid, signal.SIGCONT)
        same("asks in flight", [it.result()[::2] for it in seen], [(200, owner.prove("dij-3.pub", start, end))] * 4)
    began = time.monotonic()
    same("status", gateway.process.wait(20), 0)
    same("serve is ended", [pid for pid in serves if os.path.exists(f"/proc/{pid}")], [])
    return f"ended {time.monotonic() - began:.1f} s later"


def many(owner: Owner, draw: random.Random) -> None:
    lacking = [name for name in ("nginx", "haproxy") if shutil.which(name) is None]
    if lacking:
        print(f"skipped: web/many, since this machine has no {' and no '.join(lacking)}")
        return
    page = owner.folder / "page"
    page.mkdir()
    (page / "index.html").write_text("<p>a page\n")
    (page / "headers").write_text("Content-Security-Policy: script-src 'self'\nReferrer-Policy: no-referrer\n")
    started = Many(owner, "dij-3.pub", "--replicas", "2", "--haproxy", "--page", page)
    client = Client(owner, started.address)
    asked = [(draw.choice(owner.ids), draw.choice(owner.ids)) for _ in range(30)]
    wanted = [owner.prove("dij-3.pub", *ends) for ends in asked]
    # a gateway is killed while a client asks
    os.kill(started.number_of("gateway-0"), signal.SIGKILL)
    for (start, end), reply in zip(asked, wanted):
        same("beside a killed gateway", client.reply(f"from={start}&to={end}"), reply)
    for (start, end), reply in zip(asked, wanted):
        same("from the cache", client.reply(f"from={start}&to={end}"), reply)
    # a publication rolls through the replicas, and no client goes back
    until("the gateway is back", lambda: all_ready(started))
    later = owner.path("dij-4.pub").read_bytes()
    replace(started.folder / "map.pub", later)
    versions = []
    while not all(newest_of(it) == id_of(later) for it in started.gateways):
        for ends in asked[:5]:
            same("accepted", client.route(*ends).split()[0], "accepted")
            versions.append(client.least)
    client.route(*asked[0])
    same("never back", versions, sorted(versions))
    same("the new one", client.least, 4)
    status, headers, octets = Place(started.said["owner"]).ask("/owner.key")
    same("the owner's place", (status, octets), (200, owner.path("owner.key").read_bytes()))
    wanted_headers = ("script-src 'self'", "no-referrer", "nosniff")
    for path in ("/", "/index.html", "/owner.key", "/none"):
        headers = Place(started.said["owner"]).ask(path)[1]
        found = tuple(headers[it] for it in ("Content-Security-Policy", "Referrer-Policy", "X-Content-Type-Options"))
        same(f"the page's headers with {path}", found, wanted_headers)
    same("its list of headers is not served", Place(started.said["owner"]).ask("/headers")[0], 404)
    same("end", started.end(), 0)
    without_page(owner)
    lies(owner, draw)


def anew(owner: Owner, _draw: random.Random) -> None:
    """A client that asks past the cache too often is told so, and nobody else."""
    if shutil.which("nginx") is None:
        print("skipped: asks past the cache, since this machine has no nginx")
        return
    started = Many(owner, "dij-3.pub", "--replicas", "1")
    conf = started.folder / "nginx/nginx.conf"
    # the client that a request names replaces its address here, since this machine has only one of IPv6
    conf.write_text(
        conf.read_text().replace(
            "server_tokens off;", "server_tokens off; set_real_ip_from 127.0.0.0/8; real_ip_header X-Real-IP;", 1
        )
    )
    os.kill(started.number_of("nginx"), signal.SIGHUP)
    time.sleep(1)
    until("nginx is back", lambda: answers(started.address))
    here = id_of(owner.path("dij-3.pub").read_bytes())
    path, wanted = f"/v1/p/{here}/route?from={owner.ids[0]}&to={owner.ids[-1]}", owner.prove(
        "dij-3.pub", owner.ids[0], owner.ids[-1]
    )
    place = Place(started.address)

    def statuses(*names: str) -> list[int]:
        """The statuses of requests that are all sent before the first answer, since a busy machine answers few in a second."""
        held = [socket.create_connection((place.host, place.port), timeout=30) for _ in names]
        for one, name in zip(held, names):
            one.sendall(
                f"GET {path} HTTP/1.1\r\nHost: a\r\nCache-Control: no-cache\r\nX-Real-IP: {name}\r\n\r\n".encode()
            )
        found = [int(one.recv(4096)[9:12]) for one in held]
        for one in held:
            one.close()
        return found

    for much, likewise, other in (
        ("192.0.2.1", "192.0.2.1", "192.0.2.2"),
        ("2001:db8:1:2::1", "2001:db8:1:2:3:4:5:6", "2001:db8:1:3::1"),
    ):
        seen = statuses(*[much] * 60, *[likewise] * 10, *[other] * 3)
        same(f"{much} asks too much", 429 in seen[:60], True)
        same(f"{likewise} is the same", 429 in seen[60:70], True)
        same(f"{other} is another", seen[70:], [200] * 3)
    for accepted, is_packed in (("gzip", True), ("", False), ("gzip;q=0", False), ("br, gzip", True)):
        for _ in range(2):
            status, headers, octets = place.ask(path, Accept_Encoding=accepted)
            same(
                f"cached for {accepted}",
                (status, headers["Content-Encoding"] == "gzip", gzip.decompress(octets) if is_packed else octets),
                (200, is_packed, wanted),
            )
    same("end", started.end(), 0)


def answers(address: str) -> bool:
    try:
        return Place(address).ask("/v1/ready")[0] == 200
    except OSError:
        return False


def all_ready(started: Many) -> bool:
    try:
        return all(Place(address).ask("/v1/ready")[0] == 200 for address in started.gateways)
    except OSError:
        return False


def newest_of(address: str) -> str:
    return str(json.loads(Place(address).ask("/v1/info")[2])["publications"][0]["id"])


def without_page(owner: Owner) -> None:
    """The policy of an owner's site without a page allows no scripts."""
    started = Many(owner, "dij-3.pub", "--replicas", "1")
    status, headers, _ = Place(started.said["owner"]).ask("/owner.key")
    same(
        "the policy without a page",
        (status, "default-src 'none'" in (headers["Content-Security-Policy"] or "")),
        (200, True),
    )
    same("end", started.end(), 0)


def lies(owner: Owner, draw: random.Random) -> None:
    """One replica of two lies in a third of its answers, and the cache keeps them."""
    liar = owner.path("liar")
    liar.write_text(LIAR.format(program=owner.program, each=3))
    liar.chmod(0o755)
    started = Many(owner, "dij-3.pub", "--replicas", "2", "--haproxy", program=liar)
    until("both gateways are ready", lambda: all_ready(started))
    client, refused, asks = Client(owner, started.address), 0, 0
    # more queries, if the liar got none of those that it lies about
    while asks < 30 or not refused and asks < 300:
        asks += 1
        start, end = draw.choice(owner.ids), draw.choice(owner.ids)
        before = client.asked
        line = client.route(start, end)
        refused += client.asked - before > 1
        right = owner.verdict(owner.prove("dij-3.pub", start, end), start, end, 3)
        same("a lie is not believed", line in (right, "servers disagree"), True)
        if line == right and client.asked - before > 1:
            same(
                "the cache has the true answer now",
                client.reply(f"from={start}&to={end}"),
                owner.prove("dij-3.pub", start, end),
            )
    same("some lies were met", refused > 0, True)
    same("end", started.end(), 0)


def samples(owner: Owner, _draw: random.Random) -> None:
    folder = owner.folder / "samples"
    (folder / "temporary").mkdir(parents=True)
    words: dict[str, object] = {
        "FOLDER": folder,
        "LISTEN": "127.0.0.1:1",
        "OCTETS": "1g",
        "OWNER": "",
        "NAME": "a.example",
        "CHAIN": folder / "cert.pem",
        "KEY": folder / "key.pem",
    }

    def filled(name: str, gateways: str = "") -> str:
        lines = (TOP / "web/replicas" / name).read_text().splitlines(keepends=True)
        text = "".join(line for line in lines if not line.startswith("#"))
        given: dict[str, object] = {**words, "GATEWAYS": gateways}
        for word, value in given.items():
            text = text.replace(f"@{word}@", str(value))
        return text

    def passes(what: str, command: list[str], file: str, text: str) -> None:
        if shutil.which(command[0]) is None:
            print(f"skipped: {what}, since this machine has no {command[0]}")
            return
        (folder / file).write_text(text)
        done = subprocess.run([*command, str(folder / file)], capture_output=True, text=True, check=False)
        same(what, done.returncode, 0)
        if done.returncode:
            faults.append(done.stderr[:300])

    conf = filled("nginx.conf.in", "server 127.0.0.1:2 max_fails=0;")
    passes("nginx -t", ["nginx", "-e", str(folder / "log"), "-t", "-c"], "nginx.conf", conf)
    passes("haproxy -c", ["haproxy", "-c", "-f"], "haproxy.cfg", filled("haproxy.cfg.in", "server one 127.0.0.1:2"))
    if shutil.which("openssl"):
        made = [
            "openssl",
            "req",
            "-x509",
            "-newkey",
            "rsa:2048",
            "-nodes",
            "-subj",
            "/CN=a.example",
            "-keyout",
            str(words["KEY"]),
            "-out",
            str(words["CHAIN"]),
        ]
        subprocess.run(made, capture_output=True, check=True)
        with_tls = conf.replace("listen 127.0.0.1:1;", filled("tls.conf.in"), 1)
        passes("nginx -t with TLS", ["nginx", "-e", str(folder / "log"), "-t", "-c"], "tls.conf", with_tls)
    else:
        print("skipped: nginx -t with TLS, since this machine has no openssl")
    if shutil.which("systemd-analyze"):
        for unit in ("gateway.service", "replicas/gateway@.service"):
            done = subprocess.run(
                ["systemd-analyze", "security", "--offline=true", "--no-pager", "--threshold=20", TOP / "web" / unit],
                capture_output=True,
                check=False,
            )
            same(f"systemd-analyze security {unit}", done.returncode, 0)
    else:
        print("skipped: systemd-analyze security, since this machine has no systemd-analyze")


def main(program: str, *names: str) -> int:
    try:
        import h11  # noqa: F401
    except ImportError:
        print("skipped: checks/web/play.py, since this machine has no python3-h11")
        return 0
    owner, draw = Owner(program, roads(STREETS, 900)), random.Random(7)
    for version in (3, 4, 5):
        owner.publish(version)
    other = Owner(program, owner.path("map.roads").read_bytes())
    other.keep("secret.hex", b"02" * 48)
    other.path("owner.desk").unlink()
    other.keep("owner.key", other.run("key secret.hex h5"))
    owner.keep("other-9.pub", other.path(other.publish(9)).read_bytes())
    owner.succeed()
    owner.path("owner.chain").rename(owner.path("later.chain"))
    owner.keep("owner.chain", b"")
    owner.publish(6)
    parts: tuple[Callable[[Owner, random.Random], str | None], ...] = (
        examples,
        files,
        killed,
        shared,
        odd,
        limits,
        stopped,
        many,
        anew,
        samples,
    )
    for part in parts:
        if names and part.__name__ not in names:
            continue
        began = time.monotonic()
        said = part(owner, draw)
        print(f"{part.__name__}: {time.monotonic() - began:.1f} s{'; ' + said if said else ''}", flush=True)
    for fault in faults[:20]:
        print("DIFFERS", fault)
    print(f"web: {len(faults)} of {LOOKS.played} differ" if faults else f"web: {LOOKS.played} cases as they should be")
    return 1 if faults else 0


if __name__ == "__main__":
    sys.exit(main(*sys.argv[1:]))
