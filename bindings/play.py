#!/usr/bin/env python3
"""Compares the library with the program: bindings/play.py PROGRAM [--long]

It builds the library with bindings/build. PROGRAM makes a key, publications under the four methods, replies and a
chain. The output of the examples in C and in Python must agree with PROGRAM's `check` and `check-reach`, and the places
of their nodes with the road file. The numbers of the header and of the modules for Python and JavaScript must agree
with the crate's definitions. It also tests these points:

- a code that the Python module does not know is a refusal;
- a library in the working folder is not loaded;
- null pointers count as nothing;
- the greatest accepted version is kept;
- a write by another thread does not change the checked octets;
- each number has its range;
- with `simple`, a route that passes a node twice is refused;
- the nearest of listed nodes are those of a plain search.

With --long it flips each bit of a reply of each method, and checks from eight threads. Ends with status 1 if anything
differs. Nobody trusts this file."""

import array
import ctypes
import functools
import mmap
import pathlib
import re
import shutil
import struct
import subprocess
import sys
import tempfile
import threading
from collections.abc import Callable
from typing import Any

HERE = pathlib.Path(__file__).resolve().parent
TOP = HERE.parent
METHODS = {"dij": "3 id 0 2 0 0 0", "full": "4 kd 0 2 0 0 0", "ldm": "5 id 0 2 1 2 0", "hyp": "6 hilbert 0 2 3 1 0"}
WARNINGS = ["-std=c99", "-Wall", "-Wextra", "-Werror"]
SANITIZERS = ["-g", "-fsanitize=address,undefined", "-fno-sanitize-recover=all"]
sys.path[:0] = [str(HERE / "python"), str(TOP / "web"), str(TOP / "reference")]

import gogbetiku  # noqa: E402
from cases import Party, changed  # noqa: E402
from gogbetiku import Client, NoRoute, Refused  # noqa: E402
from gogbetiku_reference import layout  # noqa: E402
from nearest_cases import nearest_cases  # noqa: E402

faults: list[str] = []


def same(what: str, seen: object, wanted: object) -> None:
    if seen != wanted:
        faults.append(f"{what}: {seen!r}, and not {wanted!r}")


def refusal_of(check: Callable[..., object], *words: object, **options: object) -> Refused:
    """Returns the refusal of a check. An accepted reply is a fault."""
    try:
        faults.append(f"accepted: {check(*words, **options)}")
        return Refused(0, 0, 0, "", "")
    except Refused as refusal:
        return refusal


def numbers_of_the_header() -> None:
    """Tests that the header, the crate's definitions and both modules have the same codes and names."""
    header = (HERE / "gogbetiku.h").read_text()
    listed = dict(re.findall(r"(GOG_[A-Z_]+) = (\d+)", header))
    codes = (TOP / "crates/route_check_c/specs/Codes.antt").read_text()
    named = re.findall(r"^(?:route|judged)_(?:reason) \(?\w+\.(\w+)[^=]*= told (\d+)", codes, re.M)
    assert len(named) >= 12
    for name, code in named:
        macro = "GOG_" + re.sub(r"(?<=[a-z])(?=[A-Z])", "_", name).upper()
        same(macro, listed.get(macro.replace("GOG_MEMORY", "GOG_NO_MEMORY")), code)
        same(f"the name of {code} in Python", gogbetiku._KINDS[int(code)], name.replace("Memory", "NoMemory"))
    for name, number in re.findall(r"^seal_number seals\.(\w+) = (\d+)", codes, re.M):
        macro = "GOG_" + re.sub(r"(?<=[a-z])(?=[A-Z])", "_", name).upper()
        same(macro, listed.get(macro), number)
    for name, number in re.findall(r"^cover_number faults\.(\w+) = (\d+)", codes, re.M):
        same(name, listed.get("GOG_COVER_" + name.upper()), number)
    same(
        "the codes that accept",
        (listed["GOG_ACCEPTED"], listed["GOG_NO_ROUTE"], listed["GOG_NONE_WITHIN"]),
        ("1", "2", "19"),
    )
    same(
        "the crate's code of none within", re.findall(r"if count == 0 then (\d+)", codes)[0], listed["GOG_NONE_WITHIN"]
    )
    same("the codes that Python knows", sorted(gogbetiku._REFUSALS), [*range(3, 19), 32, 33, 34])
    kinds = re.findall(r"KINDS = \[(.*?)\]", (TOP / "web/route_check.mjs").read_text(), re.S)[0]
    names = [name.strip().strip('"') for name in kinds.split(",")][:-1]
    same(
        "the names in JavaScript",
        {at: name for at, name in enumerate(names) if at > 2},
        {code: name for code, name in gogbetiku._KINDS.items() if code < 32},
    )


class Played:
    """A folder with a key, publications and replies, and the library."""

    def __init__(self, program: pathlib.Path, folder: pathlib.Path) -> None:
        self.program, self.folder = str(program), folder
        subprocess.run([HERE / "build", folder], check=True)
        for name, words in (("example", ["-O2"]), ("sanitized", SANITIZERS)):
            subprocess.run(
                ["cc", *WARNINGS, *words, "-I", HERE, HERE / "example.c", "libgogbetiku.a", "-o", name],
                cwd=folder,
                check=True,
            )
        self.library = folder / "libgogbetiku.so.0"
        shutil.copy(TOP / "crates/road_proof/data/m1.roads", folder)
        (folder / "secret.hex").write_text("00" * 48)
        (folder / "next.hex").write_text("01" * 48)
        (folder / "owner.key").write_bytes(self.run("key secret.hex h5")[1])
        for method, settings in METHODS.items():
            (folder / f"{method}.pub").write_bytes(self.run(f"publish m1.roads {method} {settings}")[1])
        self.replies = {f"{method}.reply": self.run(f"prove {method}.pub 1 3")[1] for method in METHODS}
        self.replies["near.reply"] = self.run("reach dij.pub 1 4")[1]
        for name, octets in self.replies.items():
            (folder / name).write_bytes(octets)

    def run(self, words: str) -> tuple[int, bytes]:
        done = subprocess.run([self.program, *words.split()], cwd=self.folder, capture_output=True)
        return done.returncode, done.stdout

    def client(self, **words: Any) -> Any:
        """A client without types, so that it also takes wrong arguments."""
        return Client.from_file(self.folder / "owner.key", library=self.library, **words)

    def example(self, words: str) -> tuple[int, bytes]:
        """The output of the examples in C and in Python, which must be the same. C also runs under the sanitizers."""
        runs = []
        for command in (["./example"], ["./sanitized"], [sys.executable, str(HERE / "example.py")]):
            done = subprocess.run(
                [*command, *words.split()],
                cwd=self.folder,
                capture_output=True,
                text=True,
                env={"LD_LIBRARY_PATH": str(self.folder), "PYTHONPATH": str(HERE / "python"), "PATH": "/usr/bin:/bin"},
            )
            runs.append((done.returncode, done.stdout, done.stderr))
        same(f"under the sanitizers, {words}", runs[1], runs[0])
        same(f"python, {words}", runs[2], runs[0])
        return runs[0][0], runs[0][1].encode()

    def compare(self, words: str) -> None:
        same(f"check {words}", self.example(words), self.run(f"check {words}"))


def routes(played: Played) -> None:
    for method, words in METHODS.items():
        least = int(words.split()[0])
        played.compare(f"owner.key {method}.reply 1 3 {least}")
        played.compare(f"owner.key {method}.reply 1 3 {least + 1}")
        played.compare(f"owner.key {method}.reply 1 2 {least}")
        (played.folder / "none.reply").write_bytes(played.run(f"prove {method}.pub 1 5")[1])
        for end in (5, 3):
            played.compare(f"owner.key none.reply 1 {end} {least}")
        octets = bytearray(played.replies[f"{method}.reply"])
        for place in (0, 1, 50, 105, 130, 1300, len(octets) - 1):
            turned = octets.copy()
            turned[place] ^= 1
            (played.folder / "turned.reply").write_bytes(turned)
            played.compare(f"owner.key turned.reply 1 3 {least}")
        (played.folder / "turned.reply").write_bytes(octets[:-1])
        played.compare(f"owner.key turned.reply 1 3 {least}")


def places(played: Played) -> None:
    """Tests that nodes have the places of the road file."""
    text = (played.folder / "m1.roads").read_text()
    lines = [line.split() for line in text.splitlines() if line.startswith("node ")]
    wanted = {int(words[1]): (int(words[2]), int(words[3])) for words in lines}
    client = played.client()
    for method in METHODS:
        found = client.check_route(played.replies[f"{method}.reply"], 1, 3, 0)
        same(f"{method}: the ids", found.ids, [1, 2, 3])
        same(f"{method}: the places", [(node.x, node.y) for node in found.nodes], [wanted[id] for id in found.ids])
    found = client.check_reach(played.replies["near.reply"], 1, 4, 0)
    same("the places within 4", [(node.x, node.y) for node in found.nodes], [wanted[node.id] for node in found.nodes])


def passes_twice(played: Played) -> None:
    """Tests a route in a circle over a road of length 0: it is a shortest route, and `simple` refuses it."""
    (played.folder / "round.roads").write_text("roads 1\nnode 1 0 0\nnode 2 5 0\nnode 3 5 0\nroad 1 2 7\nroad 2 3 0\n")
    status, publication = played.run("publish round.roads dij 7 id 0 2 0 0 0")
    same("publish round.roads", status, 0)
    (played.folder / "round.pub").write_bytes(publication)
    reply = played.run("prove round.pub 1 3")[1]
    at = layout.behind(reply, layout.IN_ANSWER)
    same("the route of the reply", reply[at : at + 16], struct.pack(">4I", 3, 1, 2, 3))
    longer = reply[:at] + struct.pack(">6I", 5, 1, 2, 3, 2, 3) + reply[at + 16 :]
    client = played.client()
    same("a route that passes a node twice", client.check_route(longer, 1, 3, 7).ids, [1, 2, 3, 2, 3])
    same("where none such is wanted", refusal_of(client.check_route, longer, 1, 3, 7, simple=True).kind, "PassesTwice")
    same("one that does not", client.check_route(reply, 1, 3, 7, simple=True).ids, [1, 2, 3])


def unknown_codes(played: Played) -> None:
    """Tests that an unknown code is a refusal, and so is the code of a verdict that no check has written."""
    for code in (0, 19, 20, 2**32 - 1):
        client = played.client()

        class Calls:
            gog_check_route = staticmethod(lambda *words: code)
            gog_accepted, gog_sentence = client._calls.gog_accepted, client._calls.gog_sentence

        client._calls = Calls
        same(f"the code {code}", refusal_of(client.check_route, b"", 1, 3, 0).kind, "Unknown")
    same("wrong keys", [*map(wrong_key, (b"", bytes(55))), *map(wrong_key, ("00" * 55, "g" * 112))], [True] * 4)


def wrong_key(key: bytes | str) -> bool:
    try:
        Client(key)
        return False
    except ValueError:
        return True


def names(played: Played) -> None:
    """Tests the short name of the key of a secret of zeros, as in `desk`. By coreutils' sha256sum it is 29a0f89a."""
    key = (played.folder / "owner.key").read_text().strip()
    same(
        "a short name", (gogbetiku.short_name(key), gogbetiku.short_name(bytes.fromhex(key))), ("29a0f89a", "29a0f89a")
    )


def nulls(played: Played) -> None:
    """Tests that null pointers count as no octets and no room, that a verdict of zeros is a refusal, and that a buffer
    may be too small."""
    calls = ctypes.CDLL(str(played.library))
    calls.gog_filled.restype = ctypes.c_size_t
    key = bytes.fromhex((played.folder / "owner.key").read_text())
    reply = played.replies["dij.reply"]
    verdict = gogbetiku._Verdict()
    size = ctypes.c_size_t
    seen = ctypes.byref(verdict)
    same("a verdict of zeros", calls.gog_accepted(seen), 0)

    def check(key: bytes | None, reply: bytes | None, room: Any, places: int) -> Any:
        words = (key, size(len(key or b"")), None, size(0), reply, size(len(reply or b"")))
        return calls.gog_check_route(*words, 1, 3, ctypes.c_uint64(0), 0, room, size(places), seen)

    for places in (0, 2, 3, 4):
        room = (gogbetiku._Node * 5)()
        same("the code", check(key, reply, room, places), 1)
        same(f"ids in a room of {places}", [node.id for node in room], [1, 2, 3][:places] + [0] * (5 - min(places, 3)))
        same("how much is filled", (calls.gog_filled(seen, size(places)), verdict.count), (min(places, 3), 3))
    same("no room", (check(key, reply, None, 9), verdict.count), (1, 3))
    same("no reply", (check(key, None, None, 0), calls.gog_accepted(seen)), (4, 0))
    same("no key", (check(None, reply, None, 0), verdict.first), (7, 1))
    words = (key, size(56), None, size(0), reply, size(len(reply)))
    same("no verdict", calls.gog_check_route(*words, 1, 3, ctypes.c_uint64(0), 0, None, size(0), None), 0)
    same("accepted without a node", calls.gog_accepted(ctypes.byref(gogbetiku._Verdict(code=1))), 0)


def sentences(played: Played) -> None:
    """Tests that each sentence is complete, and is cut correctly if the buffer is too small."""
    calls = ctypes.CDLL(str(played.library))
    calls.gog_sentence.restype = ctypes.c_size_t
    wide = [ctypes.c_uint64(number) for number in (2**64 - 1, 12)]
    for code in [*range(20), 20, 2**32 - 1]:
        whole = ctypes.create_string_buffer(256)
        length = calls.gog_sentence(code, *wide, whole, ctypes.c_size_t(256))
        same(f"the length of the sentence {code}", length, len(whole.value))
        same(f"the sentence {code}", (whole.value[-1:], b"#" in whole.value, length > 15), (b".", False, True))
        for room in (0, 1, 9):
            cut = ctypes.create_string_buffer(b"?" * 12)
            same("a room that is too small", calls.gog_sentence(code, *wide, cut, ctypes.c_size_t(room)), length)
            same("what is cut", cut.raw, (whole.value[: room - 1] + b"\0" if room else b"").ljust(12, b"?") + b"\0")


def buffers(played: Played) -> None:
    """Tests that a reply may be any buffer, and that a reply that is too long is not read."""
    client, reply = played.client(), played.replies["ldm.reply"]
    for octets in (reply, bytearray(reply), memoryview(b"x" + reply + b"y")[1:-1], memoryview(bytes(reply))):
        same(f"a {type(octets).__name__}", client.check_route(octets, 1, 3, 5).ids, [1, 2, 3])
    same("too long", refusal_of(played.client(most_octets=99).check_route, reply, 1, 3, 5).kind, "TooLong")
    same("too long as told", refusal_of(Huge(played).check_route, reply, 1, 3, 5).kind, "TooLong")
    for words in ((-1, 3, 5), (1, 2**32, 5), (1, 3, 2**64)):
        same(f"{words}", error_of(client.check_route, reply, *words), "ValueError")


def error_of(call: Callable[..., object], *words: object, **options: object) -> str:
    """Returns the class of a call's error, or its result."""
    try:
        return f"gives {call(*words, **options)}"
    except Refused as refusal:
        return f"Refused {refusal.kind}"
    except Exception as error:
        return type(error).__name__


class Writer:
    """A client, and a thread that overwrites a buffer during the client's call. The octets that the library reads must
    stay unchanged."""

    def __init__(self, played: Played, octets: Any, write: Callable[[], None]) -> None:
        client = played.client()
        call = client._calls.gog_check_route
        kept = bytes(octets)

        def during(*words: Any) -> Any:
            write()
            same("what is read while another thread writes", ctypes.string_at(words[4], words[5]) == kept, True)
            return call(*words)

        client._calls = type(
            "Calls",
            (),
            {
                "gog_accepted": client._calls.gog_accepted,
                "gog_check_route": staticmethod(during),
                "gog_sentence": client._calls.gog_sentence,
            },
        )
        self.check_route = client.check_route


def writers(played: Played) -> None:
    """Tests that octets that another thread may write are copied before they are checked: replies, a chain and a
    key."""
    reply = played.replies["dij.reply"]
    for what in (
        "a bytearray",
        "a view of one",
        "a view that is read only",
        "an array",
        "a mapped file",
        "a mapped file that is read only",
    ):
        if "mapped" in what:
            (played.folder / "mapped.reply").write_bytes(reply)
            file = open(played.folder / "mapped.reply", "r+b")
            shown: Any = mmap.mmap(file.fileno(), 0)
            octets: Any = shown if what == "a mapped file" else mmap.mmap(file.fileno(), 0, access=mmap.ACCESS_READ)
        else:
            shown = array.array("B", reply) if what == "an array" else bytearray(reply)
            octets = {
                "a view of one": memoryview(shown),
                "a view that is read only": memoryview(shown).toreadonly(),
            }.get(what, shown)
        write = functools.partial(memoryview(shown).__setitem__, slice(0, 200), bytes(200))
        same(what, Writer(played, octets, write).check_route(octets, 1, 3, 3).ids, [1, 2, 3])
    lent = Writer(played, reply, lambda: None)
    same("octets as they lie", lent.check_route(memoryview(b"x" + reply)[1:], 1, 3, 3).ids, [1, 2, 3])
    with gogbetiku._Lent(reply) as (at, _), gogbetiku._Lent(memoryview(reply)) as (again, _):
        same("bytes are not copied", at, again)
    key = bytearray.fromhex((played.folder / "owner.key").read_text())
    chain = bytearray()
    client: Any = Client(key, chain, library=played.library)
    key[:], chain[:] = bytes(56), b"no chain"
    same("a key and a chain that are written later", client.check_route(reply, 1, 3, 3).ids, [1, 2, 3])


def numbers(played: Played) -> None:
    """Tests that each number must be a whole number in its range. Anything else is an error and never becomes another
    number."""
    client, reply = played.client(), played.replies["dij.reply"]
    calls = {
        "start": lambda value: client.check_route(reply, value, 3, 0),
        "end": lambda value: client.check_route(reply, 1, value, 0),
        "least": lambda value: client.check_route(reply, 1, 3, value),
        "radius": lambda value: client.check_reach(reply, 1, value, 0),
        "most_octets": lambda value: played.client(most_octets=value),
    }
    for name, call in calls.items():
        for value in (1.0, "1", None, float("nan"), [], b"1"):
            same(f"{name} of {value!r}", error_of(call, value), "TypeError")
        for value in (-1, 2**64, 2**64 + 1, -(2**64)):
            same(f"{name} of {value}", error_of(call, value), "ValueError")
    same("a key that is a number", error_of(Client, 56), "TypeError")
    same("a chain that is a number", error_of(Client, bytes(56), 9), "TypeError")
    same("a reply that is a number", error_of(client.check_route, 9, 1, 3, 0), "TypeError")
    same("least of 2^64 - 1", error_of(client.check_route, reply, 1, 3, 2**64 - 1), "Refused Stale")


class Huge:
    """A client that passes a length of 2^32 octets to the library."""

    def __init__(self, played: Played) -> None:
        client = played.client()
        call = client._calls.gog_check_route
        calls: Any = type(
            "Calls", (), {"gog_accepted": client._calls.gog_accepted, "gog_sentence": client._calls.gog_sentence}
        )
        calls.gog_check_route = staticmethod(lambda *words: call(*words[:5], 2**32, *words[6:]))
        client._calls = calls
        self.check_route = client.check_route


def floors(played: Played) -> None:
    """Tests that the greatest accepted version is kept for each key, and that lower versions are refused."""
    floor = played.folder / "floor.json"
    client = played.client(floor=floor)
    for method in ("dij", "hyp"):
        client.check_route(played.replies[f"{method}.reply"], 1, 3, 0)
    same(
        "below the floor",
        refusal_of(played.client(floor=floor).check_route, played.replies["full.reply"], 1, 3, 0).kind,
        "Stale",
    )
    other = Client("11" * 56, library=played.library, floor=floor)
    same("another key", refusal_of(other.check_route, played.replies["full.reply"], 1, 3, 0).kind, "BadSignature")
    key, ask = (played.folder / "owner.key").read_text().strip(), (played.replies["dij.reply"], 1, 3, 7)
    for version in (2**64, 2**64 + 3, 2**80, -1, "true", "7.0", '"7"'):
        floor.write_text(f'{{"{key}": {version}}}')
        same(f"a floor of {version}", error_of(played.client(floor=floor).check_route, *ask), "ValueError")
    floor.write_text(f'{{"{key}": {2**64 - 1}}}')
    same("a floor of 2^64 - 1", error_of(played.client(floor=floor).check_route, *ask), "Refused Stale")


def hardened(played: Played) -> None:
    """Tests that the library's addresses are bound when it is loaded, and that the table of addresses is read-only from
    then on."""
    said = subprocess.run(
        ["readelf", "-W", "-d", "-l", played.library], capture_output=True, text=True, check=True
    ).stdout
    same("bound at once", ("BIND_NOW" in said or "NOW" in said.split(), "GNU_RELRO" in said), (True, True))


def not_found(played: Played) -> None:
    """Tests that one sentence says what to install if there is no library."""
    ask = f"import sys; sys.path.append({str(HERE / 'python')!r}); import gogbetiku; gogbetiku.Client(bytes(56))"
    none: dict[str, str] = {}
    done = subprocess.run([sys.executable, "-c", ask], cwd=played.folder, capture_output=True, text=True, env=none)
    last = done.stderr.strip().splitlines()[-1]
    same(
        "no library",
        [word in last for word in ("OSError: ", "libgogbetiku.so.0", "install the wheel", "libgogbetiku0")],
        [True] * 4,
    )


def planted(played: Played) -> None:
    """Tests that a library in the working folder is not loaded."""
    folder = played.folder / "planted"
    folder.mkdir()
    shown = re.findall(r"global: (.*)", (HERE / "exported.map").read_text())[0].split()
    (folder / "planted.c").write_text("".join(f"int {name.rstrip(';')}() {{ return 1; }}\n" for name in shown))
    subprocess.run(["cc", "-w", "-shared", "-fPIC", "planted.c", "-o", "libgogbetiku.so.0"], cwd=folder, check=True)
    shutil.copy(folder / "libgogbetiku.so.0", folder / "libgogbetiku.so")
    named = "import gogbetiku; gogbetiku.Client(bytes(56), library='libgogbetiku.so.0'); print('loaded')"
    there = {"PYTHONPATH": str(HERE / "python")}
    done = subprocess.run([sys.executable, "-c", named], cwd=folder, capture_output=True, text=True, env=there)
    same("a planted library that is named", (done.returncode, done.stdout), (0, "loaded\n"))
    ask = f"import sys; sys.path.append({str(HERE / 'python')!r}); import gogbetiku; gogbetiku.Client(bytes(56)); print('loaded')"
    none: dict[str, str] = {}
    for path in ("", ":", f"{played.folder}/none:", ".", "planted/.."):
        done = subprocess.run(
            [sys.executable, "-c", ask],
            cwd=folder,
            capture_output=True,
            text=True,
            env={"LD_LIBRARY_PATH": path} if path else none,
        )
        same(f"a planted library, LD_LIBRARY_PATH={path!r}", (done.returncode, done.stdout), (1, ""))


def chains(played: Played) -> None:
    """Tests that, after a succession, a reply under the new key is accepted only with the chain."""
    played.run("succeed next.hex h5")
    (played.folder / "owner.chain").write_bytes(played.run("links")[1])
    (played.folder / "later.pub").write_bytes(played.run("publish m1.roads dij 9 id 0 2 0 0 0")[1])
    (played.folder / "later.reply").write_bytes(played.run("prove later.pub 1 3")[1])
    for words in ("later.reply 1 3 9", "later.reply 1 3 9 owner.chain", "dij.reply 1 3 3 owner.chain"):
        played.compare(f"owner.key {words}")
    same("the new key", played.example("owner.key later.reply 1 3 9 owner.chain"), (0, b"accepted 9: 1 2 3\n"))


def radii(played: Played) -> None:
    client = played.client()
    within = client.check_reach(played.replies["near.reply"], 1, 4, 0)
    same("the nodes within 4", within.distances, {1: 0, 2: 4, 4: 3})
    line = f"within {len(within.distances)}: {' '.join(map(str, within.distances))}\n"
    same("check-reach", played.run("check-reach owner.key near.reply 1 4 0")[1].decode(), line)
    for radius in (9, 2**63):
        refusal = refusal_of(client.check_reach, played.replies["near.reply"], 1, radius, 0)
        same(
            f"check-reach {radius}",
            played.run(f"check-reach owner.key near.reply 1 {radius} 0")[1].decode(),
            refusal.line + "\n",
        )


def said_of_nearest(party: Party, case: dict[str, Any], reply: bytes) -> dict[str, Any]:
    try:
        found = party.clients[True].nearest(
            reply, case["from"], case["end"], iter(case["ids"]), case["least"], count=case["count"]
        )
    except Refused as refused:
        return {
            "code": refused.code,
            "kind": refused.kind,
            "first": str(refused.first),
            "second": str(refused.second),
            "line": refused.line,
            "sentence": refused.sentence,
        }
    nodes = [[node.id, node.x, node.y, str(node.distance)] for node in found.nodes]
    return {"code": 1 if found.inside else 19, "version": str(found.version), "nodes": nodes, "inside": found.inside}


def nearest(played: Played) -> None:
    """Tests that the nearest of listed nodes are those of a plain search, and that a refusal is the one of the same
    reply for a radius. A buffer takes the nearest nodes that fit. A null list is empty. No id is truncated."""
    party = Party(played.program, played.library, played.folder / "party", played.folder / "m1.roads")
    codes: dict[int, int] = {}
    for case, reply in nearest_cases(party, changed):
        said = said_of_nearest(party, case, reply)
        same(f"nearest of {case['ids']} within {case['end']} of {case['from']}", said, case["said"])
        codes[said["code"]] = codes.get(said["code"], 0) + 1
    same("codes of the nearest", codes.get(1, 0) > 20 and codes.get(19, 0) > 5 and len(codes) > 4, True)

    calls, key, reply = (
        ctypes.CDLL(str(played.library)),
        bytes.fromhex((played.folder / "owner.key").read_text()),
        played.replies["near.reply"],
    )
    calls.gog_filled.restype = ctypes.c_size_t
    size, long, verdict = ctypes.c_size_t, ctypes.c_uint64, gogbetiku._Verdict()
    lists: tuple[tuple[list[int] | None, int, list[int], int], ...] = (
        ([4, 2, 1, 2, 9], 5, [1, 4, 2], 3),
        ([4, 2, 1], 2, [1, 4], 3),
        ([2], 0, [], 1),
        ([3, 5], 5, [], 0),
        (None, 5, [], 0),
    )
    for ids, places, filled, inside in lists:
        room = (gogbetiku._ReachedNode * 5)()
        list_of = (ctypes.c_uint32 * 7)(*(ids or []))
        code = calls.gog_nearest(
            key,
            size(56),
            None,
            size(0),
            reply,
            size(len(reply)),
            1,
            long(4),
            long(0),
            list_of if ids else None,
            size(len(ids) if ids else 7),
            room,
            size(places),
            ctypes.byref(verdict),
        )
        same(f"nearest in C, {ids}", (code, verdict.count, verdict.version), (1 if inside else 19, inside, 3))
        same(
            f"the room for {places}",
            [(node.id, node.distance) for node in room],
            ([(id, {1: 0, 2: 4, 4: 3}[id]) for id in filled] + [(0, 0)] * 5)[:5],
        )
        seen = ctypes.byref(verdict)
        same("what is filled", (calls.gog_accepted(seen), calls.gog_filled(seen, size(places))), (1, len(filled)))
    client = played.client()
    for wrong in ("12", b"12", 12, None, [1.0], ["1"], [None]):
        same(f"ids of {wrong!r}", error_of(client.nearest, reply, 1, 4, wrong, 0), "TypeError")
    for wrong in ([-1], [2**32], [2**64 + 1]):
        same(f"ids of {wrong}", error_of(client.nearest, reply, 1, 4, wrong, 0), "ValueError")
    same("a count below 0", error_of(client.nearest, reply, 1, 4, [1], 0, count=-1), "ValueError")
    same(
        "as many as one likes",
        client.nearest(reply, 1, 4, array.array("I", [2, 4]), 0, count=2**63).distances,
        {4: 3, 2: 4},
    )


def long_runs(played: Played) -> None:
    client = played.client()
    for method in METHODS:
        reply = played.replies[f"{method}.reply"]
        for place in range(8 * len(reply)):
            turned = bytearray(reply)
            turned[place // 8] ^= 1 << place % 8
            refusal_of(client.check_route, turned, 1, 3, 0)
        print(f"{method}: each of {8 * len(reply)} bits turned")

    def check_often() -> None:
        for turn in range(2_000):
            method = list(METHODS)[turn % 4]
            same("a thread's route", client.check_route(played.replies[f"{method}.reply"], 1, 3, 0).ids, [1, 2, 3])

    threads = [threading.Thread(target=check_often) for _ in range(8)]
    for thread in threads:
        thread.start()
    for thread in threads:
        thread.join()


def main(program: str, is_long: bool) -> int:
    numbers_of_the_header()
    with tempfile.TemporaryDirectory() as name:
        played = Played(pathlib.Path(program).resolve(), pathlib.Path(name))
        for part in (
            routes,
            places,
            radii,
            passes_twice,
            unknown_codes,
            names,
            nulls,
            sentences,
            buffers,
            writers,
            numbers,
            floors,
            hardened,
            nearest,
            not_found,
            planted,
        ):
            part(played)
        if is_long:
            long_runs(played)
        chains(played)
    for fault in faults:
        print(fault)
    print(f"bindings: {len(faults)} differ" if faults else "bindings: the library agrees with the program")
    return 1 if faults else 0


if __name__ == "__main__":
    if len(sys.argv) < 2:
        print("bindings/play.py: name the program: bindings/play.py PROGRAM [--long]", file=sys.stderr)
        sys.exit(2)
    sys.exit(main(sys.argv[1], "--long" in sys.argv[2:]))
