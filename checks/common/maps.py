"""Makes and reads road files: small ones, and those of the generators of checks/speed."""
import subprocess
import sys
from collections.abc import Iterable
from pathlib import Path

GENERATORS = Path(__file__).resolve().parents[1] / "speed"
# five nodes; the last has no road
FIVE = "roads 1\nnode 1 0 0\nnode 2 10 0\nnode 3 20 0\nnode 4 10 10\nnode 5 50 50\nroad 1 2 4\nroad 2 3 5\nroad 1 4 3\nroad 4 3 7\n"
# three nodes in a row
THREE = "roads 1\nnode 1 0 0\nnode 2 10 0\nnode 3 20 0\nroad 1 2 4\nroad 2 3 5\n"
Triple = tuple[int, int, int]


def made(generator: str, *words: object) -> bytes:
    """The road file from `grid` or `streets`."""
    command = [sys.executable, str(GENERATORS / f"{generator}.py"), *map(str, words)]
    return subprocess.run(command, stdout=subprocess.PIPE, check=True).stdout


def road_file(nodes: Iterable[Triple], roads: Iterable[Triple]) -> str:
    """A road file with nodes (id and place) and roads (ends and length)."""
    lines = [*("node %d %d %d\n" % node for node in nodes), *("road %d %d %d\n" % road for road in roads)]
    return "roads 1\n" + "".join(lines)


def read_roads(text: str) -> tuple[dict[int, tuple[int, int]], list[Triple]]:
    """Reads a road file: the places of its nodes by id, and its roads in order."""
    places: dict[int, tuple[int, int]] = {}
    roads: list[Triple] = []
    for words in map(str.split, text.splitlines()):
        if words[:1] == ["node"]:
            places[int(words[1])] = (int(words[2]), int(words[3]))
        elif words[:1] == ["road"]:
            roads.append((int(words[1]), int(words[2]), int(words[3])))
    return places, roads


def least_lengths(roads: Iterable[Triple]) -> dict[tuple[int, int], int]:
    """The least length of a road between two nodes, for both directions."""
    least: dict[tuple[int, int], int] = {}
    for a, b, length in roads:
        for pair in ((a, b), (b, a)):
            least[pair] = min(length, least.get(pair, length))
    return least
