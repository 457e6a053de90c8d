#!/usr/bin/env python3
"""Converts a piece of a file in the form of the DIMACS challenge into a publication, and compares distances.

    checks/dimacs/turn.py PROGRAM [SEED]

PROGRAM is the built program (crates/road_proof/out/road_proof after `rt run`). The script makes a graph file and a
coordinate file in the form of the 9th DIMACS Implementation Challenge: a street-like map of 220 by 220 crossings, with
an arc in each direction for each street, some streets twice, a few arcs from a crossing to itself, and comment lines.
It cuts out a connected piece of 20,000 nodes, with ids from 1 on, in the same form.

`dimacs` converts the piece into a road file, `publish` signs it under DIJ and under LDM, and each of 15 pairs is proved
and checked under both. The accepted length must be networkx's distance over the directed arcs of the piece. The
accepted route must be a path of that length along these arcs. If the length of one arc is changed, the piece must be
refused with that arc's index. It needs networkx (Debian: python3-networkx) and exits with 1 at the first difference.
"""
import collections
import random
import sys
import tempfile
import time
from collections.abc import Iterator
from pathlib import Path

import networkx

sys.path.insert(0, str(Path(__file__).resolve().parents[1]))

from common.runs import Ended, outcome  # noqa: E402

SIDE = 220
PIECE = 20_000
Arc = tuple[int, int, int]
METHODS = (("dij", "0", "0", "0"), ("ldm", "8", "10", "0"))


def make_files(draw: random.Random, graph_name: str, places_name: str) -> None:
    """Writes a graph and its coordinates in the form of the challenge."""
    arcs: list[Arc] = []

    def street(a: int, b: int) -> None:
        length = draw.randrange(1, 3000)
        arcs.append((a, b, length))
        arcs.append((b, a, length))

    for row in range(SIDE):
        for column in range(SIDE):
            here = row * SIDE + column + 1
            for step, exists in ((1, column + 1 < SIDE), (SIDE, row + 1 < SIDE)):
                if exists and draw.random() < 0.9:
                    street(here, here + step)
                    if draw.random() < 0.03:
                        street(here, here + step)
            if draw.random() < 0.01:
                arcs.append((here, here, draw.randrange(5)))
    draw.shuffle(arcs)
    with open(graph_name, "w", encoding="ascii") as file:
        file.write("c 9th DIMACS Implementation Challenge: Shortest Paths\nc http://www.dis.uniroma1.it/~challenge9\n")
        file.write(
            f"c graph of made streets\nc\np sp {SIDE * SIDE} {len(arcs)}\nc graph contains {SIDE * SIDE} nodes\n"
        )
        for arc in arcs:
            file.write("a %d %d %d\n" % arc)
    with open(places_name, "w", encoding="ascii") as file:
        file.write(f"c 9th DIMACS Implementation Challenge: Shortest Paths\np aux sp co {SIDE * SIDE}\n")
        for row in range(SIDE):
            for column in range(SIDE):
                file.write(f"v {row * SIDE + column + 1} {column * 900 - 73000000} {row * 900 + 40000000}\n")


def lines_of(name: str, kind: str) -> Iterator[tuple[int, ...]]:
    """The numbers in the lines of one kind in a file of the challenge."""
    with open(name, encoding="ascii") as file:
        for line in file:
            words = line.split()
            if words and words[0] == kind:
                yield tuple(int(word) for word in words[1:])


def cut(draw: random.Random, graph_name: str, places_name: str) -> tuple[dict[int, tuple[int, int]], list[Arc]]:
    """A connected piece: its places by ids from 1 on, and its arcs in the order of the file."""
    neighbours: dict[int, list[int]] = collections.defaultdict(list)
    arcs = list(lines_of(graph_name, "a"))
    for a, b, _ in arcs:
        neighbours[a].append(b)
    places = {node: (x, y) for node, x, y in lines_of(places_name, "v")}
    while True:
        start = draw.choice(sorted(places))
        new_id, queue = {start: 1}, collections.deque([start])
        while queue and len(new_id) < PIECE:
            for node in neighbours[queue.popleft()]:
                if node not in new_id and len(new_id) < PIECE:
                    new_id[node] = len(new_id) + 1
                    queue.append(node)
        if len(new_id) == PIECE:
            break
    kept = [(new_id[a], new_id[b], length) for a, b, length in arcs if a in new_id and b in new_id]
    return {number: places[node] for node, number in new_id.items()}, kept


def write_piece(folder: str, name: str, places: dict[int, tuple[int, int]], arcs: list[Arc]) -> None:
    with open(f"{folder}/{name}.gr", "w", encoding="ascii") as file:
        file.write(f"c a piece\nc\np sp {len(places)} {len(arcs)}\n")
        for arc in arcs:
            file.write("a %d %d %d\n" % arc)
    with open(f"{folder}/{name}.co", "w", encoding="ascii") as file:
        file.write(f"c a piece\np aux sp co {len(places)}\nc\n")
        for number, place in places.items():
            file.write("v %d %d %d\n" % (number, *place))


def main() -> None:
    program = sys.argv[1]
    seed = int(sys.argv[2]) if len(sys.argv) > 2 else 1
    draw = random.Random(seed)
    with tempfile.TemporaryDirectory() as folder:

        def run(*words: str, status: int = 0, output: str | None = None) -> Ended:
            done = outcome([program, *words], folder)
            assert done[0] == status, (words, done[0], done[2])
            if output:
                Path(folder, output).write_bytes(done[1])
            return done

        make_files(draw, f"{folder}/made.gr", f"{folder}/made.co")
        places, arcs = cut(draw, f"{folder}/made.gr", f"{folder}/made.co")
        write_piece(folder, "piece", places, arcs)

        begun = time.monotonic()
        run("dimacs", "piece.gr", "piece.co", output="piece.roads")
        took = time.monotonic() - begun
        index = next(i for i, (a, b, _) in enumerate(arcs) if a != b)
        a, b, length = arcs[index]
        write_piece(folder, "odd", places, arcs[:index] + [(a, b, length + 5000)] + arcs[index + 1 :])
        refused = run("dimacs", "odd.gr", "odd.co", status=3)
        assert f"The arc at index {index} has no arc back" in refused[2], refused[2]

        graph = networkx.DiGraph()
        graph.add_nodes_from(places)
        for a, b, length in arcs:
            if not graph.has_edge(a, b) or graph[a][b]["weight"] > length:
                graph.add_edge(a, b, weight=length)
        with open(f"{folder}/secret.hex", "w", encoding="ascii") as file:
            file.write("%096x" % draw.getrandbits(384))
        run("key", "secret.hex", "h5", output="owner.key")
        pairs = [(draw.randrange(1, PIECE + 1), draw.randrange(1, PIECE + 1)) for _ in range(15)]
        for method, *parameters in METHODS:
            run("publish", "piece.roads", method, "1", "hilbert", "0", "2", *parameters, output="piece.pub")
            for start, end in pairs:
                expected = networkx.dijkstra_path_length(graph, start, end)
                run("prove", "piece.pub", str(start), str(end), output="piece.reply")
                done = run("check", "owner.key", "piece.reply", str(start), str(end), "1")
                accepted, ids = done[1].decode().rstrip("\n").split(":")
                route = [int(word) for word in ids.split()]
                assert accepted == f"accepted {expected}", (method, start, end, accepted, expected)
                assert (route[0], route[-1]) == (start, end), (start, end, route)
                assert sum(graph[a][b]["weight"] for a, b in zip(route, route[1:])) == expected, (start, end)
    print(f"{len(places)} nodes, {len(arcs)} arcs, turned in {took:.2f} s: {len(pairs)} pairs agree under dij and ldm")


if __name__ == "__main__":
    main()
