"""Computes what the page's test expects, by a search of its own over the made-up town and by the Python reference over
a reply's octets. Counts the differences. Nobody trusts this file."""

from __future__ import annotations

import heapq
import pathlib
import sys
from typing import Any

TOP = pathlib.Path(__file__).resolve().parents[2]
sys.path.insert(0, str(TOP / "reference"))

from gogbetiku_reference import clients  # noqa: E402
from gogbetiku_reference.chains import read_chain  # noqa: E402
from gogbetiku_reference.faults import Refused  # noqa: E402

SECRETS = (bytes(48), bytes([1]) * 48)
START, END, ISLAND, RADIUS = 346, 18, 441, 10_000
# the test that refuses a lie about a route, by SPEC's order of tests; by method if the method decides
KINDS: dict[str, Any] = {
    "unknown": "NotAnswer",
    "cut": "Malformed",
    "old": "Stale",
    "new": "BadSignature",
    "road": "BadCover",
    "hop": "BadRoute",
    "hide": "MissingTuple",
    "pair": {"full": "MissingPair", "hyp": "MissingPair"},
    "round": {"dij": "Shorter", "full": "Disagrees"},
    "none": {"full": "Disagrees"},
}
REACHED = {
    "NotAnswer",
    "Malformed",
    "Stale",
    "BadSignature",
    "BadCover",
    "BadRoute",
    "MissingTuple",
    "MissingPair",
    "Shorter",
    "Disagrees",
}


class Judge:
    """Counts comparisons, and keeps the ones that differ."""

    def __init__(self) -> None:
        self.faults: list[str] = []
        self.played = 0

    def same(self, what: str, seen: object, wanted: object) -> None:
        self.played += 1
        if seen != wanted:
            self.faults.append(f"{what}: {str(seen)[:300]}, and not {str(wanted)[:300]}")

    def holds(self, what: str, fact: object, seen: object = "") -> None:
        self.same(what if fact else f"{what} ({str(seen)[:300]})", bool(fact), True)


judge = Judge()
same, holds = judge.same, judge.holds


class Town:
    """A road file with its table of streets, searched by this script."""

    def __init__(self, owner: Any, roads: str = "town.roads") -> None:
        self.places: dict[int, tuple[int, int]] = {}
        self.arcs: dict[int, list[tuple[int, int]]] = {}
        for line in owner.read(roads).decode().splitlines():
            word, *numbers = line.split()
            if word == "node":
                node, x, y = map(int, numbers)
                self.places[node] = (x, y)
            elif word == "road":
                a, b, length = map(int, numbers)
                self.arcs.setdefault(a, []).append((b, length))
                self.arcs.setdefault(b, []).append((a, length))
        rows = [line.split("\t") for line in owner.read("town.ids").decode().splitlines()[1:]]
        self.streets = {int(row[0]): row[-1] for row in rows}

    def distances(self, start: int) -> dict[int, int]:
        found: dict[int, int] = {}
        open_nodes = [(0, start)]
        while open_nodes:
            far, here = heapq.heappop(open_nodes)
            if here not in found:
                found[here] = far
                for to, length in self.arcs.get(here, []):
                    heapq.heappush(open_nodes, (far + length, to))
        return found

    def said(self, node: int) -> str:
        """A place in the page's words."""
        x, y = self.places[node]
        return f"{abs(y) / 1e7:.5f}° {'N' if y >= 0 else 'S'}, {abs(x) / 1e7:.5f}° {'E' if x >= 0 else 'W'}"


def line_of(owner: Any, octets: bytes, asked: tuple[str, int, int], least: int) -> str:
    """The reference's line for a reply: its refusal or the accepted answer."""
    kind, start, end = asked
    public, chain = bytes.fromhex(owner.read("owner.key").decode()), read_chain(owner.read("owner.chain"))
    try:
        if kind == "reach":
            within = clients.check_near(public, chain, octets, start, end, least)
            return f"within {' '.join(map(str, within.distances))}"
        found = clients.check(public, chain, octets, start, end, least)
    except Refused as refused:
        return str(refused.line().strip())
    return "none" if found.route is None else f"{found.length}: {' '.join(map(str, found.route))}"
