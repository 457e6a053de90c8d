#!/usr/bin/env python3
"""Writes a table of proved lengths: tools/table.py GATEWAY KEY SOURCES TARGETS > table.csv

SOURCES and TARGETS are files of nodes, with an id at the start of each line. A cell is one of these: a length in the
map's unit, from a reply that the proved client accepted; `none`, if the client accepted that no route leads there; `not
reached or no node`; or `refused`, if the client refused the replies, even past all caches. If any cell is `refused`,
the status is 1. Each line names version, key and publication. Every road can be used in both directions: there are no
one-way streets and no turns.

A stopped table continues from its file, over the same publication: tools/table.py .. --from table.csv > whole.csv
"""
import argparse
import contextlib
import csv
import itertools
import os
import sys
import time
from collections import Counter
from collections.abc import Iterator

from asking import add_arguments, count, in_one_sentence, octets, parser_of, publication_of, read_ids, tell
from roads import UNITS, Trouble, command_line, end_of, plain

from gogbetiku.gateway import Publication
from gogbetiku.table import NONE, REFUSED, ROADS, UNKNOWN, Length, Row, table

TOOL = "table.py"
COLUMNS = ["source", "target", "length", "version", "key", "publication", ROADS]
BAR = 30


class Known:
    """The lines of a stopped table. Its last line may be incomplete. Refused cells are requested again."""

    def __init__(self, path: str):
        self.path = path
        self.cells: dict[int, dict[int, Length]] = {}
        self.of: tuple[str, str, str] | None = None
        with open(path, encoding="utf-8", newline="") as file:
            whole = file.read()
        rows = csv.reader(whole[: whole.rfind("\n") + 1].splitlines())
        if next(rows, COLUMNS) != COLUMNS:
            raise Trouble(f"{path}: line 1: it is not a table of this tool")
        for number, row in enumerate(rows, 2):
            self._take(row, f"{path}: line {number}")

    def _take(self, row: list[str], where: str) -> None:
        if len(row) != len(COLUMNS) or not all(word.isdecimal() for word in row[:2]):
            raise Trouble(f"{where}: it is not a line of a table")
        source, target, cell = int(row[0]), int(row[1]), row[2]
        of = row[3], row[4], row[5]
        if self.of not in (None, of):
            raise Trouble(f"{where}: it belongs to another publication than the lines before")
        self.of = of
        if cell != REFUSED:
            if cell not in (NONE, UNKNOWN) and not cell.isdecimal():
                raise Trouble(f"{where}: {plain(cell)!r} is not a length")
            self.cells.setdefault(source, {})[target] = int(cell) if cell.isdecimal() else cell

    def check(self, over: Publication) -> None:
        """Refuses a table of another publication or under another key."""
        if self.of and self.of[1:] != (over.key, over.id):
            raise Trouble(
                f"{self.path}: it belongs to version {self.of[0]}, publication {self.of[2]} under the key {self.of[1]}, "
                f"and not to {over.id} under {over.key}: begin another table"
            )


class Progress:
    """A progress bar on a terminal; elsewhere it shows nothing."""

    def __init__(self, rows: int, over: Publication):
        self.rows, self.over, self.is_shown = rows, over, sys.stderr.isatty()

    def show(self, done: int) -> None:
        if self.is_shown:
            full = BAR * done // self.rows
            sys.stderr.write(
                f"\r[{'#' * full}{'.' * (BAR - full)}] {done:,} of {self.rows:,} rows, {self.over.gateway.octets:,} octets "
            )
            sys.stderr.flush()

    def end(self) -> None:
        if self.is_shown:
            sys.stderr.write("\n")


@contextlib.contextmanager
def shown(rows: int, over: Publication) -> Iterator[Progress]:
    progress = Progress(rows, over)
    progress.show(0)
    try:
        yield progress
    finally:
        progress.end()


def arguments() -> argparse.Namespace:
    parser = parser_of("Writes a table of proved lengths, as comma-separated values.")
    parser.add_argument("sources", metavar="SOURCES", help="a file of nodes, with an id at the start of each line")
    parser.add_argument("targets", metavar="TARGETS", help="another, or the same")
    parser.add_argument(
        "--from", dest="before", metavar="FILE", help="a stopped table: its cells are not requested again"
    )
    parser.add_argument("--asks", type=count, default=8, metavar="COUNT", help="at a time (8)")
    parser.add_argument("--held", type=octets, default=256 << 20, metavar="OCTETS", help="of replies at a time (256M)")
    add_arguments(parser, has_places=False)
    return parser.parse_args(command_line())


def version_of(over: Publication, known: Known | None) -> object:
    """The version of the map. It is not known before the first accepted reply."""
    return over.header.version if over.header else known.of[0] if known and known.of else ""


def lines_of(rows: list[Row], targets: list[int], over: Publication, known: Known | None) -> Iterator[list[object]]:
    version = version_of(over, known)
    for row in rows:
        for target, cell in zip(targets, row.cells):
            yield [row.source, target, cell, version, over.key, over.id, ""]


def written(
    asked: argparse.Namespace, sources: list[int], targets: list[int], over: Publication, known: Known | None
) -> Counter[str]:
    """Writes the table, a row as soon as it is known, and counts the kinds of cells."""
    file, counts = csv.writer(sys.stdout, lineterminator="\n"), Counter[str]()
    waiting: list[Row] = []
    with in_one_sentence(), shown(len(sources), over) as progress:
        rows = table(
            over,
            sources,
            targets,
            asks=asked.asks,
            known=lambda source: known.cells.get(source, {}) if known else {},
            degree=UNITS[asked.unit] or 2**40,
        )
        first = next(rows)
        file.writerow(COLUMNS)
        for done, row in enumerate(itertools.chain([first], rows), 1):
            counts.update(cell if isinstance(cell, str) else "lengths" for cell in row.cells)
            waiting.append(row)
            if version_of(over, known) != "" or done == len(sources):
                file.writerows(lines_of(waiting, targets, over, known))
                waiting.clear()
            sys.stdout.flush()
            progress.show(done)
    return counts


def main() -> None:
    asked = arguments()
    sources, targets = list(read_ids(asked.sources)), list(read_ids(asked.targets))
    known = Known(asked.before) if asked.before and os.path.exists(asked.before) else None
    if known and known.of and asked.publication is None:
        asked.publication = known.of[2]
    over = publication_of(asked, held=asked.held)
    if known:
        known.check(over)
    began = time.monotonic()
    counts = written(asked, sources, targets, over, known)
    tell(
        TOOL,
        over,
        ", ".join(f"{counts[name]:,} {name}" for name in ("lengths", NONE, UNKNOWN, REFUSED))
        + f"; {time.monotonic() - began:.1f} s",
    )
    if counts[REFUSED]:
        raise Trouble(f"refused cells: {counts[REFUSED]:,}; the gateway's answers for them are not shown")


if __name__ == "__main__":
    try:
        end_of(TOOL, main)
    except KeyboardInterrupt:
        sys.exit(f"\n{TOOL}: stopped; continue with --from and the file that it wrote")
