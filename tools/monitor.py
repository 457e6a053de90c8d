#!/usr/bin/env python3
"""Keeps what owners have signed, as clients see it: tools/monitor.py BOOK KEY PROGRAM FILE.. [--desk SLOT]

Each FILE is a publication or a reply, on a route or a radius, that a client received. BOOK is a text file that only
grows. For each FILE it gets a line `KEY SLOT VERSION HEADER FROM` with the header and the one-time key that signed it.
FROM is the file's name; a space, a percent sign and an unprintable octet are written as `%` and two hex digits. The
tool reports each of these cases with a line on standard output and with status 1:

- one slot with two headers: that one-time key is broken. The public key is enough to show this. The proved client
  verifies both signatures.
- one version with two headers.
- a version that falls while the slot rises.
- with `--desk SLOT`, a slot at or above SLOT: somebody else signs. SLOT is the first free slot of the owner's desk: the
  last number that `desk` writes less the number before it.
- a file whose header is not signed; it is not kept.

If the book has any other line, the tool names that line's number, reads no file and ends with status 2. No client
trusts this script.
"""
import argparse
import os
import re
import sys
from typing import Iterator, NamedTuple

from roads import Trouble
from signed import Client, Signed, signed_in

ROW = re.compile(rb"([0-9a-fA-F]{112}) ([0-9]{1,10}) ([0-9]{1,20}) ([0-9a-f]{64}) ([^ ]+)")


class Row(NamedTuple):
    """A line of a book."""

    key: str
    slot: int
    version: int
    digest: str
    name: str

    def line(self) -> bytes:
        return f"{self.key} {self.slot} {self.version} {self.digest} {self.name}\n".encode("utf-8")


def told_name(path: str) -> str:
    """A file's name as one printable word."""
    return "".join(
        c if c.isprintable() and c not in " %" else "".join(f"%{octet:02x}" for octet in os.fsencode(c))
        for c in os.path.basename(path)
    )


def rows_of(octets: bytes, path: str) -> list[Row]:
    """The rows of a book."""
    rows = []
    lines = octets.split(b"\n")
    for number, line in enumerate(lines[:-1], 1):
        parts = ROW.fullmatch(line)
        if parts is None:
            raise Trouble(f"{path}: line {number} is not of the form KEY SLOT VERSION HEADER FROM")
        key, slot, version, digest, name = (part.decode("utf-8", "backslashreplace") for part in parts.groups())
        rows.append(Row(key.lower(), int(slot), int(version), digest, name))
    if lines[-1]:
        raise Trouble(f"{path}: line {len(lines)} has no line end")
    return rows


def kept(path: str) -> list[Row]:
    """The rows of a book; no rows if the book does not exist yet."""
    if not os.path.exists(path):
        return []
    with open(path, "rb") as file:
        return rows_of(file.read(), path)


def findings(rows: list[Row], new: Row, desk: int | None) -> Iterator[str]:
    """The findings about a new header, compared with the kept headers."""
    for row in rows:
        if row.key != new.key or row.digest == new.digest:
            continue
        if row.slot == new.slot:
            yield f"broken: one-time key {row.slot} has signed two headers, in {row.name} and in {new.name}"
        elif row.version == new.version:
            yield f"version {row.version} has two headers, in {row.name} and in {new.name}"
        elif (row.version < new.version) != (row.slot < new.slot):
            yield (
                f"versions {row.version} and {new.version} are of one-time keys {row.slot} and {new.slot}, in {row.name} and in {new.name}: "
                "one falls while the other rises"
            )
    if desk is not None and new.slot >= desk:
        yield f"one-time key {new.slot} in {new.name} is at or above {desk}, the desk's first free slot: somebody else signs"


def signed_of(path: str) -> Signed | None:
    with open(path, "rb") as file:
        return signed_in(file.read())


def look(book: str, client: Client, paths: list[str], desk: int | None) -> list[str]:
    """Adds the headers of the files to the book. Returns the findings."""
    rows, told, key = kept(book), [], client.keys[0]
    for path in paths:
        signed, name = signed_of(path), told_name(path)
        if signed is None or client.signer(signed) is None:
            told.append(f"unsigned: {name} has no header signed by this key")
            continue
        row = Row(key, signed.slot, signed.version, signed.digest, name)
        told += findings(rows, row, desk)
        if row[:4] not in [known[:4] for known in rows]:
            rows.append(row)
            with open(book, "ab") as file:
                file.write(row.line())
    return told


def main() -> int:
    parser = argparse.ArgumentParser(description=__doc__.split("\n", maxsplit=1)[0])
    parser.add_argument("book")
    parser.add_argument("key")
    parser.add_argument("program")
    parser.add_argument("files", nargs="+")
    parser.add_argument("--desk", type=int)
    given = parser.parse_args()
    try:
        told = look(given.book, Client(given.program, given.key), given.files, given.desk)
    except Trouble as trouble:
        print(f"monitor.py: {trouble}", file=sys.stderr)
        return 2
    except OSError as error:
        print(f"monitor.py: {error.filename or 'output'}: {error.strerror or error}", file=sys.stderr)
        return 2
    for line in dict.fromkeys(told):
        print(line)
    return 1 if told else 0


if __name__ == "__main__":
    sys.exit(main())
