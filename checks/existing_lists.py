#!/usr/bin/env python3
"""Finds each list whose existence a statement claims, with the fields that constrain it: checks/existing_lists.py
[--check] [CRATE..]

A clause such as "texts exist for which this holds" is met by any lists. So each such list must be tied to the octets of
a file, a sink, the disk or a result. For each list, in the order of the crates, the script prints the file and the
line, the record or the definition, the name of the list, and the other fields that mention it. A record counts if one
of its fields is a statement; plain data does not count. Ends with status 1 if nothing mentions a list; with --check it
prints only these lists. It reads the definitions and proves nothing. No client trusts it.
"""
import glob
import os
import re
import sys
from collections.abc import Iterator

TOP = os.path.join(os.path.dirname(os.path.abspath(__file__)), "..")
LISTS = r"List \S+|List \(List \S+\)|Option \(List \S+\)"
STATEMENT = re.compile(r"[≡≢≤<×⊎¬↔]|\b(?:Is|Are|Has|Can|Each|All|Appends|Verified|Meet)(?:[A-Z]\w*)?\b")
PLAIN = re.compile(r"(?:[\s×()ℕ]|\b(?:List|Option|Bool)\b)+")
RECORD = re.compile(r"\s*(?:pub )?record (\S+)")
FIELD = re.compile(r"\s*(?:pub )?([a-z_]+(?: [a-z_]+)*) : (.*)")
EXISTS = re.compile(r"\(([a-z_]+(?: [a-z_]+)*) : (?:" + LISTS + r")\) ×")
DEFINED = re.compile(r"\s*(?:abbrev |unfoldable )*pub (\S+) :|\s*([A-Z]\w*) .*=")


# a field of a record: its line, its names and its type
Field = tuple[int, list[str], str]


def paragraph(lines: list[str], at: int) -> Iterator[tuple[int, str]]:
    """The lines from a place to the next empty line, without comments."""
    for number in range(at, len(lines)):
        if not lines[number].strip():
            return
        if not lines[number].strip().startswith("--"):
            yield number, lines[number]


def fields_of(lines: list[str], at: int) -> list[Field]:
    """The fields of the record whose head ends before a line: line, names and type of each."""
    fields: list[Field] = []
    for number, line in paragraph(lines, at):
        field = FIELD.match(line)
        if field:
            fields.append((number, field[1].split(), field[2]))
        elif fields:
            begun, names, kind = fields[-1]
            fields[-1] = begun, names, kind + " " + line.strip()
    return fields


def ties_of(name: str, fields: list[Field]) -> list[str]:
    """The fields of a record that mention one of them."""
    word = re.compile(r"\b" + name + r"\b")
    return [f"{' '.join(names)} : {kind}" for _, names, kind in fields if word.search(kind)]


def lists_of_record(lines: list[str], at: int) -> Iterator[tuple[int, str, list[str]]]:
    """The lists of the record whose head begins at a line, if one of its fields is a statement."""
    head = at
    while not lines[head].rstrip().endswith("where") and head + 1 < len(lines):
        head += 1
    fields = fields_of(lines, head + 1)
    if not any(STATEMENT.search(kind) and not PLAIN.fullmatch(kind) for _, _, kind in fields):
        return
    for number, names, kind in fields:
        if re.fullmatch(LISTS, kind.strip()):
            for name in names:
                yield number + 1, name, ties_of(name, fields)


def equation(lines: list[str], at: int, where: str) -> Iterator[str]:
    """The rest of the equation of a definition that a line belongs to."""
    for number, line in paragraph(lines, at):
        if number > at and line.strip().startswith(where + " "):
            return
        yield line.strip()


def lists_of_line(lines: list[str], at: int, where: str) -> Iterator[tuple[int, str, list[str]]]:
    """The lists whose existence a line of a definition claims."""
    for found in EXISTS.finditer(lines[at]):
        rest = " ".join(equation(lines, at, where))
        rest = rest[rest.index(found[0]) + len(found[0]) :].strip()
        for name in found[1].split():
            yield at + 1, name, [rest] if re.search(r"\b" + name + r"\b", rest) else []


def lists_in(path: str) -> Iterator[tuple[int, str, str, list[str]]]:
    """The lists whose existence a file's statements claim: line, place, name and ties of each."""
    with open(path, encoding="utf-8") as file:
        lines = file.read().splitlines()
    where = ""
    for at, line in enumerate(lines):
        defined = DEFINED.match(line)
        record = RECORD.match(line)
        if record:
            where = record[1]
            for number, name, ties in lists_of_record(lines, at):
                yield number, where, name, ties
        elif defined:
            where = defined[1] or defined[2]
        for number, name, ties in lists_of_line(lines, at, where):
            yield number, where, name, ties


def main() -> int:
    names = [name for name in sys.argv[1:] if name != "--check"]
    with open(os.path.join(TOP, "crates.txt"), encoding="utf-8") as file:
        crates = [line.split(":")[0].split()[0] for line in file if ":" in line and not line.startswith("#")]
    loose = 0
    for crate in names or crates:
        for path in sorted(glob.glob(os.path.join(TOP, "crates", crate, "specs", "*.antt"))):
            for line, where, name, ties in lists_in(path):
                loose += not ties
                if not ties or "--check" not in sys.argv:
                    told = "; ".join(ties) or "nothing speaks of it"
                    print(f"{os.path.relpath(path, TOP)}:{line} {where} {name}: {told}")
    return 1 if loose else 0


if __name__ == "__main__":
    sys.exit(main())
