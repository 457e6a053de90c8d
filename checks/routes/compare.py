#!/usr/bin/env python3
"""Compares the program's routes with those of networkx on a street-like map.

    checks/routes/compare.py PROGRAM [SEED]

PROGRAM is the built program (crates/road_proof/out/road_proof after `rt run`). The map is a grid of 20 by 20 crossings
with some streets left out, some doubled with another length, and a few diagonals. For each of 50 pairs of nodes the
length must be networkx's, and the printed ids must be a path of that length. The program must find no route exactly if
networkx finds none. It needs networkx (Debian: python3-networkx). Ends with status 1 at the first difference.
"""
import random
import sys
import tempfile
from pathlib import Path

import networkx

sys.path.insert(0, str(Path(__file__).resolve().parents[1]))

from common.maps import Triple, road_file  # noqa: E402
from common.runs import outcome  # noqa: E402

SIDE = 20


def street_map(draw: random.Random) -> tuple[list[Triple], list[Triple]]:
    """The nodes and roads of a street-like map: (nodes, roads) as the road file lists them."""
    nodes = [
        (row * SIDE + column + 1, column * 100 + draw.randrange(40), row * 100 + draw.randrange(40))
        for row in range(SIDE)
        for column in range(SIDE)
    ]
    roads: list[Triple] = []
    for row in range(SIDE):
        for column in range(SIDE):
            here = row * SIDE + column + 1
            steps = [
                (1, column + 1 < SIDE),
                (SIDE, row + 1 < SIDE),
                (SIDE + 1, column + 1 < SIDE and row + 1 < SIDE and draw.random() < 0.1),
            ]
            for step, exists in steps:
                if exists and draw.random() < 0.85:
                    roads.append((here, here + step, draw.randrange(200)))
                    if draw.random() < 0.05:
                        roads.append((here + step, here, draw.randrange(200)))
    return nodes, roads


def main() -> None:
    program = sys.argv[1]
    seed = int(sys.argv[2]) if len(sys.argv) > 2 else 1
    draw = random.Random(seed)
    nodes, roads = street_map(draw)
    graph = networkx.MultiGraph()
    graph.add_nodes_from(node[0] for node in nodes)
    for a, b, length in roads:
        graph.add_edge(a, b, weight=length)
    found = 0
    with tempfile.TemporaryDirectory() as folder:
        Path(folder, "streets.roads").write_text(road_file(nodes, roads), encoding="ascii")
        for _ in range(50):
            start, end = draw.randrange(1, len(nodes) + 1), draw.randrange(1, len(nodes) + 1)
            run = outcome([program, "route", "streets.roads", start, end], folder)
            try:
                expected = networkx.dijkstra_path_length(graph, start, end)
            except networkx.NetworkXNoPath:
                assert run[:2] == (11, b""), (start, end, run)
                continue
            assert run[0] == 0, (start, end, run)
            told, ids = run[1].decode().rstrip("\n").split(":")
            route = [int(word) for word in ids.split()]
            assert int(told) == expected, (start, end, told, expected)
            assert (route[0], route[-1]) == (start, end), (start, end, route)
            total = sum(min(edge["weight"] for edge in graph[a][b].values()) for a, b in zip(route, route[1:]))
            assert total == expected, (start, end, total, expected)
            found += 1
    print(f"{len(nodes)} nodes, {len(roads)} roads: 50 pairs agree, {found} of them joined")


if __name__ == "__main__":
    main()
