#!/usr/bin/env python3
"""Cuts a piece out of a graph of the DIMACS shortest path challenge: tools/dimacs_cut.py GRAPH PLACES BOX PIECE

GRAPH is a `.gr` and PLACES a `.co` file, plain or compressed by gzip; BOX is W,S,E,N. It writes PIECE.gr and PIECE.co
for `road_proof dimacs`, with the nodes in the box and the arcs between them. New ids count from 1, in the order of the
old ids. Routes are the shortest within the piece.

No client trusts it: an owner looks at its output before signing it.
"""
import argparse
import gzip
import sys
from typing import Iterator

from network import numbers, parts_of
from roads import MOST_LENGTH, MOST_NODES, MOST_ROADS, UNITS, Place, Trouble, command_line, end_of, write_table

TOOL = "dimacs_cut.py"
Arc = tuple[int, int, int]
Words = tuple[int, list[bytes]]


def lines_of(path: str) -> Iterator[Words]:
    """The words of each line that is not a comment, with the line's number."""
    try:
        with gzip.open(path) if path.endswith(".gz") else open(path, "rb") as file:
            for number, line in enumerate(file, 1):
                words = line.split()
                if words and not words[0].startswith(b"c"):
                    yield number, words
    except (EOFError, gzip.BadGzipFile) as error:
        raise Trouble(f"{path}: cannot be decompressed: {error}") from None


def rows_of(path: str, head: list[bytes], kind: bytes) -> Iterator[tuple[int, Arc]]:
    """The three numbers of each line of one kind, after a problem line that begins with `head`."""
    lines = lines_of(path)
    _, problem = next(lines, (0, []))
    if problem[: len(head)] != head:
        raise Trouble(f"{path}: it has no problem line `{b' '.join(head).decode()}`")
    for number, words in lines:
        if words[0] != kind or len(words) != 4:
            raise Trouble(f"{path}: line {number}: not `{kind.decode()}` followed by three numbers")
        try:
            a, b, c = map(int, words[1:])
        except ValueError:
            raise Trouble(f"{path}: line {number}: a number cannot be read") from None
        yield number, (a, b, c)


def places_in(path: str, box: tuple[float, ...], scale: int) -> dict[int, Place]:
    """The nodes in the box, by their ids. The edges of the box belong to it."""
    west, south, east, north = (edge * scale for edge in box)
    return {
        node: (x, y)
        for _, (node, x, y) in rows_of(path, b"p aux sp co".split(), b"v")
        if west <= x <= east and south <= y <= north
    }


def arcs_in(path: str, places: dict[int, Place]) -> list[Arc]:
    """The arcs between these nodes."""
    arcs = []
    for line, (a, b, length) in rows_of(path, b"p sp".split(), b"a"):
        if not 0 <= length <= MOST_LENGTH:
            raise Trouble(f"{path}: line {line}: {length} is not a length that a road file can express")
        if a in places and b in places:
            arcs.append((a, b, length))
    return arcs


def few(places: dict[int, Place], arcs: list[Arc], path: str) -> None:
    if len(places) > MOST_NODES or len(arcs) > 2 * MOST_ROADS:
        raise Trouble(
            f"{path}: the box has {len(places):,} nodes and {len(arcs):,} arcs, but at most {MOST_NODES:,} and {2 * MOST_ROADS:,} are allowed: take a smaller box"
        )


def write_piece(piece: str, places: dict[int, Place], arcs: list[Arc], told: str) -> dict[int, int]:
    """Writes both files. Returns each node's new id by its old id."""
    ids = {node: number for number, node in enumerate(sorted(places), 1)}
    with open(f"{piece}.gr", "w", encoding="utf-8") as file:
        file.write(f"c {told}\np sp {len(ids)} {len(arcs)}\n")
        file.writelines(f"a {ids[a]} {ids[b]} {length}\n" for a, b, length in arcs)
    with open(f"{piece}.co", "w", encoding="utf-8") as file:
        file.write(f"c {told}\np aux sp co {len(ids)}\n")
        file.writelines(f"v {number} {places[node][0]} {places[node][1]}\n" for node, number in ids.items())
    return ids


def main() -> None:
    parser = argparse.ArgumentParser(
        description="Cuts a piece out of a graph of the DIMACS challenge, and writes PIECE.gr and PIECE.co."
    )
    parser.add_argument("graph", metavar="GRAPH")
    parser.add_argument("places", metavar="PLACES")
    parser.add_argument("box", metavar="BOX", type=numbers(4), help="W,S,E,N")
    parser.add_argument("piece", metavar="PIECE")
    parser.add_argument(
        "--unit",
        choices=UNITS,
        default="1e-6",
        help="the unit of a coordinate, in degrees (1e-6); with plane, BOX has coordinates",
    )
    parser.add_argument("--largest", action="store_true", help="keep only the largest connected component")
    parser.add_argument("--ids", metavar="FILE", help="write a table from the piece's ids to those of the graph")
    asked = parser.parse_args(command_line())
    places = places_in(asked.places, asked.box, UNITS[asked.unit] or 1)
    if not asked.largest:
        few(places, [], asked.places)
    arcs = arcs_in(asked.graph, places)
    if asked.largest:
        kept = parts_of(places, (arc[:2] for arc in arcs)).largest()
        places = {node: place for node, place in places.items() if node in kept}
        arcs = [arc for arc in arcs if arc[0] in kept]
    if not places:
        raise Trouble(f"{asked.places}: no node lies in the box")
    few(places, arcs, asked.graph)
    told = "cut to the box %r,%r,%r,%r by tools/dimacs_cut.py: routes are the shortest within it" % asked.box
    ids = write_piece(asked.piece, places, arcs, told)
    if asked.ids:
        write_table(asked.ids, ("node", "graph_node"), ((number, node) for node, number in ids.items()))
    sys.stderr.write(
        f"{TOOL}: {len(ids):,} nodes, {len(arcs):,} arcs: routes are the shortest within the box\n"
        f"{TOOL}: {parts_of(places, (arc[:2] for arc in arcs)).told()}\n"
    )


if __name__ == "__main__":
    end_of(TOOL, main)
