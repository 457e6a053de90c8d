#!/usr/bin/env python3
"""Plays `all` and `figures` over small maps: checks/speed/play.py PROGRAM

Each table must have its rows, each with a number as time. Each picture must be well-formed, with axes, units and
caption. The data, drawn again, must give the same pictures. The times themselves are not tested. Nobody trusts this
script. Ends with status 1 if anything is missing.
"""
import os
import re
import subprocess
import sys
import tempfile
import xml.etree.ElementTree as tree
from collections.abc import Iterator

HERE = os.path.dirname(os.path.abspath(__file__))
CHARTS = ["range", "nodes", "landmarks", "cells", "trees"]
SVG = "{http://www.w3.org/2000/svg}"
# the number of rows that `all` prints: comparisons without other programs, then maps and methods
ROWS = [2, 5, 9]


def said(*words: str) -> str:
    return subprocess.run(
        [sys.executable, *words], stdout=subprocess.PIPE, stderr=subprocess.DEVNULL, check=True, text=True
    ).stdout


def tables_of(text: str) -> list[list[str]]:
    """The rows of each table, without its header."""
    return [found.strip().split("\n")[2:] for found in re.findall(r"(?m)(?:^\|.*\n)+", text)]


def texts_of(picture: str) -> list[str]:
    return [found.text or "" for found in tree.parse(picture).getroot().iter(f"{SVG}text")]


def faults(program: str, folder: str) -> Iterator[str]:
    rows = tables_of(said(f"{HERE}/all", "--program", program, "--small", "--alone", "--runs", "1", "beside", "routes"))
    if [len(found) for found in rows] != ROWS:
        yield f"all: tables of {[len(found) for found in rows]} rows, not {ROWS}"
    yield from (f"all: no time in {row}" for row in rows[0] + rows[2] if not re.search(r"\d (s|ms|µs)\b", row))
    costs = tables_of(said(f"{HERE}/figures", "--program", program, "--small", "--queries", "1", "--out", folder))
    if len(costs) != 1 or len(costs[0]) < 4:
        yield f"figures: {len(costs)} tables"
    again = f"{folder}/again"
    said(f"{HERE}/figures", "--data", f"{folder}/figures.json", "--out", again)
    for name in CHARTS:
        told = texts_of(f"{folder}/{name}.svg")
        yield from (f"{name}.svg: no {word}" for word in ("kB",) if not any(word in text for text in told))
        with open(f"{folder}/{name}.svg", encoding="utf-8") as one, open(
            f"{again}/{name}.svg", encoding="utf-8"
        ) as two:
            if one.read() != two.read():
                yield f"{name}.svg: drawn again it differs"


def main() -> None:
    with tempfile.TemporaryDirectory() as folder:
        found = list(faults(os.path.abspath(sys.argv[1]), folder))
    print(
        "\n".join(found)
        if found
        else f"speed: {len(ROWS)} tables and {len(CHARTS)} pictures over small maps, as they are to be"
    )
    sys.exit(1 if found else 0)


if __name__ == "__main__":
    main()
