#!/usr/bin/env python3
"""Measures tools/osm_roads.py over a large extract, by hand: checks/tools/large.py [NODES]

Makes an extract with this many nodes (1,000,000), like that of a country: a tenth of the nodes is on streets, with
bends every 40 nodes, and the rest is outlines of buildings. Cuts a piece out of it by --around, and prints the CPU
seconds and the peak memory. No client trusts it.
"""
import os
import pathlib
import random
import resource
import subprocess
import sys
import tempfile

TOOLS = pathlib.Path(__file__).resolve().parents[2] / "tools"


def write_extract(path: pathlib.Path, count: int) -> None:
    """A grid of streets, a bend of four nodes between two crossings, one way a row or column stretch of 10; then
    buildings of five nodes until all nodes are there."""
    draw = random.Random(1)
    side = int((count * 0.6 / 9) ** 0.5)
    with open(path, "w", encoding="ascii") as file:
        file.write('<?xml version="1.0" encoding="UTF-8"?>\n<osm version="0.6" generator="made">\n')

        def node(number: int, x: float, y: float) -> None:
            file.write(
                f' <node id="{number}" version="3" timestamp="2020-01-01T00:00:00Z" changeset="1" uid="1" user="maker" lat="{50 + y / 1000:.7f}" lon="{7 + x / 700:.7f}"/>\n'
            )

        crossings = {(row, column): row * side + column + 1 for row in range(side) for column in range(side)}
        for (row, column), number in crossings.items():
            node(number, column + draw.random() / 3, row + draw.random() / 3)
        number = len(crossings)
        ways: list[tuple[list[int], list[tuple[str, str]]]] = []
        for row in range(side):
            for column in range(side):
                for there in ((row, column + 1), (row + 1, column)):
                    if there in crossings and draw.random() < 0.9:
                        bends = range(number + 1, number + 5)
                        for part, bend in enumerate(bends, 1):
                            node(bend, column + (there[1] - column) * part / 5, row + (there[0] - row) * part / 5)
                        number = bends[-1]
                        ways.append(
                            (
                                [crossings[row, column], *bends, crossings[there]],
                                [
                                    ("highway", "residential"),
                                    ("name", f"Street {row}"),
                                    ("surface", "asphalt"),
                                    ("maxspeed", "30"),
                                ],
                            )
                        )
        while number + 5 <= count:
            corners = list(range(number + 1, number + 6))
            for corner in corners:
                node(corner, draw.random() * side, draw.random() * side)
            number = corners[-1]
            ways.append(([*corners, corners[0]], [("building", "yes"), ("addr:housenumber", str(number))]))
        for way, (nodes, tags) in enumerate(ways, 1):
            file.write(
                f' <way id="{way}" version="3" timestamp="2020-01-01T00:00:00Z" changeset="1" uid="1" user="maker">\n'
            )
            file.writelines(f'  <nd ref="{step}"/>\n' for step in nodes)
            file.writelines(f'  <tag k="{key}" v="{value}"/>\n' for key, value in tags)
            file.write(" </way>\n")
        file.write("</osm>\n")
    print(f"{number:,} nodes, {len(ways):,} ways, {os.path.getsize(path):,} octets, {side * side:,} crossings")


def main() -> None:
    count = int(sys.argv[1]) if len(sys.argv) > 1 else 1_000_000
    with tempfile.TemporaryDirectory() as folder:
        extract = pathlib.Path(folder, "large.osm")
        write_extract(extract, count)
        cuts: tuple[list[str], ...] = (
            [],
            ["--around", "7.1,50.1,12000"],
            ["--largest", "--box", "7.05,50.05,7.2,50.2"],
        )
        for words in cuts:
            before = resource.getrusage(resource.RUSAGE_CHILDREN)
            run = subprocess.run([TOOLS / "osm_roads.py", extract, *words], capture_output=True, text=True, check=False)
            after = resource.getrusage(resource.RUSAGE_CHILDREN)
            took = after.ru_utime + after.ru_stime - before.ru_utime - before.ru_stime
            print(
                f"{' '.join(words) or 'whole'}: status {run.returncode}, {took:.1f} s of a processor, at most {after.ru_maxrss / 1024:.0f} MB so far, {len(run.stdout):,} octets"
            )
            print("  " + run.stderr.replace("\n", "\n  ").rstrip())


if __name__ == "__main__":
    main()
