#!/usr/bin/env python3
"""Compares the nodes within radii with networkx's ego graphs: checks/near/ego.py PROGRAM [COUNT [SEED]]

PROGRAM is the built program (crates/road_proof/out/road_proof after `rt run`). The map is the street-like one of
checks/speed/streets.py with about COUNT nodes (5,000), published under DIJ in Hilbert order. The script takes five
starts and several radii. For each, `check-reach` must accept the reply of `reach` with exactly the nodes of the ego
graph, and `audit-reach` must find the first of them right. Without networkx it uses a plain search instead. For each
radius it prints the number of nodes within it, the octets of a reply, and the CPU seconds of `reach` and of
`check-reach`, as means over the five starts. Radius 0 shows the cost of reading the publication and building its book.
Ends with status 1 if anything differs.
"""
import heapq
import os
import random
import resource
import subprocess
import sys
import tempfile
from collections.abc import Callable
from pathlib import Path
from typing import Any

sys.path.insert(0, str(Path(__file__).resolve().parents[1]))

from common.desks import ZEROS  # noqa: E402
from common.maps import least_lengths, made, read_roads  # noqa: E402

GREATEST = 2**64 - 1
RADII = (0, 200, 1000, 4000, GREATEST)
STARTS = 5
# the least length between two nodes, both ways, and the nodes within a radius of one, ascending
Lengths = dict[tuple[int, int], int]
Within = Callable[[int, int], list[int]]


def within_by_networkx(ids: list[int], lengths: Lengths) -> Within:
    import networkx

    graph: Any = networkx.Graph()
    graph.add_nodes_from(ids)
    graph.add_weighted_edges_from((a, b, length) for (a, b), length in lengths.items())
    return lambda start, radius: sorted(networkx.ego_graph(graph, start, radius=radius, distance="weight").nodes)


def within_by_search(ids: list[int], lengths: Lengths) -> Within:
    arcs: dict[int, list[tuple[int, int]]] = {node: [] for node in ids}
    for (a, b), length in lengths.items():
        arcs[a].append((b, length))

    def within(start: int, radius: int) -> list[int]:
        found: set[int] = set()
        waiting = [(0, start)]
        while waiting:
            distance, node = heapq.heappop(waiting)
            if node not in found:
                found.add(node)
                for there, length in arcs[node]:
                    if distance + length <= radius:
                        heapq.heappush(waiting, (distance + length, there))
        return sorted(found)

    return within


def reference(ids: list[int], lengths: Lengths) -> tuple[Within, str]:
    try:
        return within_by_networkx(ids, lengths), "networkx"
    except ImportError:
        return within_by_search(ids, lengths), "a plain search"


def run(folder: str, *words: str) -> tuple[bytes, float]:
    """The output of a command, and its CPU seconds."""
    before = resource.getrusage(resource.RUSAGE_CHILDREN)
    done = subprocess.run(words, cwd=folder, capture_output=True, check=True)
    now = resource.getrusage(resource.RUSAGE_CHILDREN)
    return done.stdout, now.ru_utime + now.ru_stime - before.ru_utime - before.ru_stime


def keep(folder: str, name: str, octets: bytes) -> None:
    with open(f"{folder}/{name}", "wb") as file:
        file.write(octets)


def ask(program: str, folder: str, start: int, radius: int, nodes: list[int]) -> tuple[bool, int, float, float]:
    """Whether one reply is accepted with these nodes, its number of octets, and the CPU seconds of server and client."""
    query = [str(start), str(radius)]
    reply, served = run(folder, program, "reach", "map.pub", *query)
    keep(folder, "reply", reply)
    line, checked = run(folder, program, "check-reach", "owner.key", "reply", *query, "1")
    words = " ".join(map(str, nodes))
    return line == f"within {len(nodes)}: {words}\n".encode(), len(reply), served, checked


def publish(program: str, folder: str, roads: bytes) -> None:
    keep(folder, "streets.roads", roads)
    keep(folder, "secret.hex", ZEROS.encode())
    keep(folder, "owner.key", run(folder, program, "key", "secret.hex", "h5")[0])
    words = "publish streets.roads dij 1 hilbert 0 2 0 0 0".split()
    keep(folder, "map.pub", run(folder, program, *words)[0])


def main() -> None:
    program = os.path.abspath(sys.argv[1])
    count, seed = (sys.argv[2:] + ["5000", "1"][len(sys.argv) - 2 :])[:2]
    with tempfile.TemporaryDirectory() as folder:
        roads = made("streets", count, seed)
        publish(program, folder, roads)
        places, pieces = read_roads(roads.decode())
        ids, lengths = list(places), least_lengths(pieces)
        within, by = reference(ids, lengths)
        starts, differ = random.Random(int(seed)).sample(ids, STARTS), 0
        print(f"{len(ids)} nodes, {len(lengths) // 2} roads, {STARTS} starts, by {by}")
        for radius in RADII:
            nodes = [within(start, radius) for start in starts]
            asked = [ask(program, folder, start, radius, found) for start, found in zip(starts, nodes)]
            differ += sum(not same for same, _, _, _ in asked)
            mean: Callable[[list[float]], float] = lambda numbers: sum(numbers) / STARTS
            print(
                f"radius {radius}: {mean([len(found) for found in nodes]):.0f} nodes, "
                f"{mean([octets for _, octets, _, _ in asked]):.0f} octets, "
                f"reach {mean([served for _, _, served, _ in asked]):.3f} s, "
                f"check-reach {mean([checked for _, _, _, checked in asked]):.3f} s"
            )
        query = [str(starts[-1]), str(RADII[-1])]
        finding, seconds = run(folder, program, "audit-reach", "owner.key", "map.pub", "reply", *query)
        differ += finding != b"right\n"
        print(f"audit-reach {seconds:.3f} s: {finding.decode().strip()}; {differ} differ")
    sys.exit(1 if differ else 0)


if __name__ == "__main__":
    main()
