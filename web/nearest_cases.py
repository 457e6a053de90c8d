"""Makes cases of the nearest of listed nodes, for the tests in all languages. The expected result for an honest reply
comes from a plain search over the road file. The expected refusal of a changed reply comes from the library's call for
a radius, which refuses it in the same way. Nobody trusts this file."""

from __future__ import annotations

import heapq
import random
from collections.abc import Iterator
from typing import Any

SIDE = 7


def street_grid(draw: random.Random) -> str:
    """A town with an island. Most streets have length 10, so that many nodes are equally far; some streets are
    longer."""
    nodes = {(x, y): 10 * y + x + 1 for x in range(SIDE) for y in range(SIDE)}
    lines = [
        "roads 1",
        *(f"node {id} {100 * x} {100 * y}" for (x, y), id in nodes.items()),
        "node 900 0 -500",
        "node 901 9 -500",
    ]
    for (x, y), id in nodes.items():
        for end in ((x + 1, y), (x, y + 1)):
            if end in nodes:
                lines.append(f"road {id} {nodes[end]} {draw.choice([10, 10, 10, 25])}")
    return "\n".join([*lines, "road 900 901 5", ""])


def distances(roads: str, start: int) -> dict[int, int]:
    """The distance of each node that is joined to a start, by Dijkstra's algorithm."""
    arcs: dict[int, list[tuple[int, int]]] = {}
    for words in (line.split() for line in roads.splitlines()):
        if words[0] == "road":
            one, other, length = map(int, words[1:])
            arcs.setdefault(one, []).append((other, length))
            arcs.setdefault(other, []).append((one, length))
    found: dict[int, int] = {}
    queue = [(0, start)]
    while queue:
        distance, node = heapq.heappop(queue)
        if node not in found:
            found[node] = distance
            for end, length in arcs.get(node, []):
                heapq.heappush(queue, (distance + length, end))
    return found


def wanted(roads: str, case: dict[str, Any], version: int) -> dict[str, Any]:
    """The expected result: the nearest of the listed nodes within the radius, ties by id, at most `count` of them."""
    places = {int(words[1]): words[2:] for words in (line.split() for line in roads.splitlines()) if words[0] == "node"}
    far = distances(roads, case["from"])
    inside = sorted((far[id], id) for id in set(case["ids"]) if far.get(id, case["end"] + 1) <= case["end"])
    first = inside[: case["count"]] if case["count"] is not None else inside
    nodes = [[id, *map(int, places[id]), str(distance)] for distance, id in first]
    return {"code": 1 if inside else 19, "version": str(version), "nodes": nodes, "inside": len(inside)}


def nearest_cases(
    party: Any, changed: Any, count: int = 120, version: int = 12
) -> Iterator[tuple[dict[str, Any], bytes]]:
    """Queries over a town under the owner's later key, each with its reply and the expected result."""
    draw = random.Random(73)
    roads = street_grid(draw)
    (party.folder / "town.roads").write_text(roads)
    (party.folder / "town.pub").write_bytes(party.run(f"publish town.roads dij {version} id 0 2 0 0 0"))
    known = list(distances(roads, 1)) + [900, 901]
    replies: list[bytes] = []
    for turn in range(count):
        start, radius = draw.choice(known), draw.choice([0, 9, 10, 20, 30, 45, 60, 200, 2**40])
        ids = draw.choices([*known, 0, 77777, 2**32 - 1], k=draw.choice([0, 1, 3, 12, 200]))
        case: dict[str, Any] = {
            "ask": "nearest",
            "from": start,
            "end": radius,
            "least": 3,
            "simple": False,
            "chain": True,
            "ids": ids,
            "count": draw.choice([None, None, 0, 1, 2, 3, 5, 70000]),
        }
        reply = party.run(f"reach town.pub {start} {radius}")
        replies.append(reply)
        if turn % 3 < 2:
            said = wanted(roads, case, version)
        else:
            case["least"] += draw.choice([0, 0, 99])
            reply = changed(reply, replies, draw)
            said = party.said({**case, "ask": "reach"}, reply)
            if said["code"] == 1:  # the reply is unchanged
                said = wanted(roads, case, version)
        yield {**case, "key": party.key.hex(), "chain": party.chain.hex(), "said": said}, reply
