"""Makes honest and changed replies, each with the library's verdict, in the form that the tests of the JavaScript
module read. Nobody trusts this file."""

import json
import pathlib
import random
import struct
import subprocess
import sys
from collections.abc import Iterator
from typing import Any

TOP = pathlib.Path(__file__).resolve().parent.parent
sys.path[:0] = [str(TOP / "bindings/python"), str(TOP / "reference")]

from gogbetiku import Client, NoRoute, Refused, Route, Within  # noqa: E402
from gogbetiku_reference import layout  # noqa: E402
from gogbetiku_vectors import files  # noqa: E402
from nearest_cases import nearest_cases  # noqa: E402

METHODS = {
    "dij": "3 hilbert 0 2 0 0 0",
    "full": "4 kd 0 2 0 0 0",
    "ldm": "5 id 0 2 4 8 2",
    "hyp": "6 hilbert 0 3 3 3 0",
}


Fields = dict[str, Any]
# a query with the verdict on its reply, and the reply
Case = tuple[Fields, bytes]


class Party:
    """A folder with a key, the next key, and publications under the four methods and both keys."""

    def __init__(
        self, program: pathlib.Path | str, library: pathlib.Path | str, folder: pathlib.Path, roads: pathlib.Path | str
    ) -> None:
        self.program, self.folder = str(pathlib.Path(program).resolve()), pathlib.Path(folder)
        self.folder.mkdir(parents=True, exist_ok=True)
        self.roads = pathlib.Path(roads).resolve()
        self.ids = [int(line.split()[1]) for line in self.roads.read_text().splitlines() if line.startswith("node ")]
        (self.folder / "secret.hex").write_text("00" * 48)
        (self.folder / "next.hex").write_text("01" * 48)
        self.key = bytes.fromhex(self.run("key secret.hex h5").decode())
        for method, words in METHODS.items():
            self.publish(method, words)
        self.run("succeed next.hex h5")
        self.chain = self.run("links")
        self.publish("dij", METHODS["dij"].replace("3", "7", 1), "later")
        self.clients = [Client(self.key, chain, library=library) for chain in (b"", self.chain)]

    def publish(self, method: str, words: str, name: str | None = None) -> None:
        octets = self.run(f"publish {self.roads} {method} {words}")
        assert octets, (method, words)
        (self.folder / f"{name or method}.pub").write_bytes(octets)

    def run(self, words: str) -> bytes:
        return subprocess.run([self.program, *words.split()], cwd=self.folder, capture_output=True, check=False).stdout

    def said(self, case: Fields, reply: bytes) -> Fields:
        """The library's verdict on a reply."""
        client = self.clients[case["chain"]]
        found: Within | Route | NoRoute
        try:
            if case["ask"] == "reach":
                found = client.check_reach(reply, case["from"], case["end"], case["least"])
            else:
                found = client.check_route(reply, case["from"], case["end"], case["least"], simple=case["simple"])
        except Refused as refused:
            return {
                "code": refused.code,
                "kind": refused.kind,
                "first": str(refused.first),
                "second": str(refused.second),
                "line": refused.line,
                "sentence": refused.sentence,
            }
        if isinstance(found, NoRoute):
            return {"code": 2, "version": str(found.version)}
        nodes = [[node.id, node.x, node.y, str(getattr(node, "distance", ""))] for node in found.nodes]
        return {"code": 1, "version": str(found.version), "nodes": nodes, "length": str(getattr(found, "length", ""))}


def honest(party: Party, draw: random.Random, queries: int) -> Iterator[Case]:
    """Queries with their honest replies, under the four methods, along a chain, and for radii."""
    for name in [*METHODS, "later"]:
        for _ in range(queries):
            start, end = draw.choice(party.ids), draw.choice(party.ids)
            asked = {"from": start, "least": 3, "chain": name == "later", "simple": draw.random() < 0.5}
            yield {"ask": "route", "end": end, **asked}, party.run(f"prove {name}.pub {start} {end}")
            radius = draw.choice([0, 4, 9, 500])
            yield {"ask": "reach", "end": radius, **asked}, party.run(f"reach {name}.pub {start} {radius}")


def changed(reply: bytes, others: list[bytes], draw: random.Random) -> bytes:
    """A changed reply that a hostile server may send in place of an honest one."""
    octets = bytearray(reply)
    at = draw.randrange(len(octets))
    match draw.randrange(10):
        case 0 | 1 | 2:
            octets[at] ^= 1 << draw.randrange(8)
        case 3:
            octets[at] = draw.randrange(256)
        case 4:
            del octets[at:]
        case 5:
            octets += draw.randbytes(draw.randrange(1, 40))
        case 6:
            octets[at : at + 4] = struct.pack(">I", draw.choice([0, 1, 2**16, 2**31, 2**32 - 1]))
        case 7:
            del octets[at : at + draw.choice([1, 4, 32, 50])]
        case 8:
            other = draw.choice(others)
            octets = octets[:at] + other[min(at, len(other)) :]
        case 9:
            # after the signature: the items
            at = min(len(octets) - 1, 1500 + draw.randrange(max(1, len(octets) - 1500)))
            octets[at] ^= 1 << draw.randrange(8)
    return bytes(octets)


def vector_cases() -> Iterator[Case]:
    """The client cases of vectors/, each with its key and its chain."""
    for family in files.FAMILIES:
        for case in files.read_family(TOP / "vectors", family) if family.name in ("client", "client_radius") else []:
            given, result = case["given"], case["result"]
            reach = "radius" in given
            asked = {
                "ask": "reach" if reach else "route",
                "from": given["from"],
                "least": given["least"],
                "simple": False,
                "end": given["radius"] if reach else given["to"],
                "key": given["public"],
                "chain": given["chain"],
            }
            said = {name: result[name] for name in ("code", "first", "second", "line")}
            if result["code"] in (1, 2):
                said = {"code": result["code"], "version": result["version"], "line": result["line"]}
            yield {**asked, "said": said}, bytes.fromhex(given["reply"])


def chain_cases(party: Party) -> Iterator[Case]:
    """The octets in vectors/ that are not a chain."""
    for family in files.FAMILIES:
        for case in files.read_family(TOP / "vectors", family) if family.name == "chain_files" else []:
            if "malformed" in case["result"]:
                asked = {"ask": "route", "from": 1, "end": 3, "least": 0, "simple": False, "key": party.key.hex()}
                said = {"code": 18, "kind": "MalformedChain", "first": str(case["result"]["malformed"])}
                yield {**asked, "chain": case["given"]["octets"], "said": said}, b"\x01"


def round_cases(party: Party) -> Iterator[Case]:
    """A route in a circle over a road of length 0, with `simple` and without."""
    roads = party.folder / "round.roads"
    roads.write_text("roads 1\nnode 1 0 0\nnode 2 5 0\nnode 3 5 0\nroad 1 2 7\nroad 2 3 0\n")
    (party.folder / "round.pub").write_bytes(party.run("publish round.roads dij 8 id 0 2 0 0 0"))
    reply = party.run("prove round.pub 1 3")
    at = layout.behind(reply, layout.IN_ANSWER)
    longer = reply[:at] + struct.pack(">6I", 5, 1, 2, 3, 2, 3) + reply[at + 16 :]
    for simple in (False, True):
        case = {"ask": "route", "from": 1, "end": 3, "least": 3, "simple": simple, "chain": True}
        said = party.said(case, longer)
        assert said["code"] == (15 if simple else 1)
        yield {**case, "key": party.key.hex(), "chain": party.chain.hex(), "said": said}, longer


def made_cases(party: Party, count: int, queries: int, seed: int) -> Iterator[Case]:
    """Honest replies, honest replies to other queries, and `count` changed ones."""
    draw = random.Random(seed)
    told = list(honest(party, draw, queries))
    replies = [reply for _, reply in told]
    asked = list(told)
    for case, reply in told:
        asked.append(
            ({**case, "end": draw.choice(party.ids) if case["ask"] == "route" else case["end"] * 2 + 9}, reply)
        )
    for _ in range(count):
        case, reply = draw.choice(told)
        turn = draw.randrange(8)
        case = {**case, "least": case["least"] + (5 if turn == 0 else 0), "chain": case["chain"] != (turn == 1)}
        asked.append((case, changed(reply, replies, draw)))
    for case, reply in asked:
        chain = party.chain.hex() if case["chain"] else ""
        yield {**case, "key": party.key.hex(), "chain": chain, "said": party.said(case, reply)}, reply


def write_cases(party: Party, folder: pathlib.Path, count: int, queries: int = 6, seed: int = 1) -> dict[int, int]:
    """Writes cases.json and cases.bin. Returns the number of cases for each code."""
    cases: list[Fields] = []
    codes: dict[int, int] = {}
    octets = bytearray()
    told = [
        *vector_cases(),
        *chain_cases(party),
        *round_cases(party),
        *nearest_cases(party, changed),
        *made_cases(party, count, queries, seed),
    ]
    for case, reply in told:
        cases.append({**case, "at": len(octets), "octets": len(reply)})
        octets += reply
        codes[case["said"]["code"]] = codes.get(case["said"]["code"], 0) + 1
    bits = [{"from": 1, "to": 3, "reply": party.run(f"prove {method}.pub 1 3").hex()} for method in METHODS]
    (folder / "cases.bin").write_bytes(octets)
    (folder / "cases.json").write_text(json.dumps({"key": party.key.hex(), "cases": cases, "bits": bits}))
    return codes
