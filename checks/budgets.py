#!/usr/bin/env python3
"""Compares the sizes of the crates with their limits: checks/budgets.py

It counts the crates, the lines of each crate's sources without empty lines and comments, the functions of each crate
with its tests, and the must-fail edits of the gate. It also tests the number of the client's crates and the length of
the longest chain of crates. docs/ARCHITECTURE.md must name each crate, and must list the client's crates in an order in
which each follows the crates that it depends on. It prints the six largest crates. Ends with status 1 if a number
exceeds its limit. Nothing here is proved, and no client trusts it.
"""
import functools
import glob
import os
import re
import sys
from collections.abc import Iterator

TOP = os.path.dirname(os.path.dirname(os.path.abspath(__file__)))
CRATES, LINES, FUNCTIONS, EDITS, CLIENT, CHAIN, TOLD = 66, 1_800, 120, 90, 12, 14, 6
FUNCTION = re.compile(r"^\s*(?:pub(?:\(crate\))? )?(?:const )?(?:extern \"C\" )?fn \w", re.M)
# a cell of a table that names crates, such as `map_` .. `client_commands`; the last name completes the others
NAMES = re.compile(r"`(\w+)`")


# crates, and the crates that each depends on
Uses = dict[str, list[str]]


def read(name: str) -> str:
    with open(f"{TOP}/{name}", encoding="utf-8") as file:
        return file.read()


def listed() -> Uses:
    """The crates of crates.txt, each with the crates of the repository that it depends on."""
    rows = [line.partition(":") for line in read("crates.txt").splitlines() if ":" in line and not line.startswith("#")]
    uses = {head.split()[0]: rest.split() for head, _, rest in rows}
    return {crate: [it for it in below if it in uses] for crate, below in uses.items()}


def below(uses: Uses, crate: str) -> set[str]:
    """A crate, and all crates that it depends on."""
    found = {crate}
    for it in uses[crate]:
        found |= below(uses, it)
    return found


def chain(uses: Uses) -> tuple[str, ...]:
    """The longest chain of crates; each depends on the one before."""

    @functools.cache
    def longest(crate: str) -> tuple[str, ...]:
        none: tuple[str, ...] = ()
        return (*max((longest(it) for it in uses[crate]), key=len, default=none), crate)

    return max((longest(crate) for crate in uses), key=len)


def sources_of(crate: str) -> str:
    """The text of a crate's sources, without comments and empty lines."""
    lines: list[str] = []
    for name in sorted(glob.glob(f"{TOP}/crates/{crate}/src/**/*.rt", recursive=True)):
        lines += [line for line in read(os.path.relpath(name, TOP)).splitlines() if not re.match(r"\s*(//.*)?$", line)]
    return "\n".join(lines)


def tables_of(page: str) -> tuple[list[str], list[str]]:
    """The crates in the tables below a page's first two headings on crates: the client's crates, and the others."""
    parts = re.split(r"^## ", page, flags=re.M)
    cells = []
    for head in ("The client", "The others"):
        part = next(it for it in parts if it.startswith(head))
        cells.append([line.split("|")[1] for line in part.splitlines() if line.startswith("| ") and "`" in line])
    return [name for cell in cells[0] for name in NAMES.findall(cell)], [
        spelled for cell in cells[1] for spelled in spell(cell)
    ]


def spell(cell: str) -> Iterator[str]:
    """The names in a cell. The first later name without a final `_` completes a name that ends with `_`."""
    names = NAMES.findall(cell)
    for at, name in enumerate(names):
        whole = next((it for it in names[at:] if not it.endswith("_")), "")
        yield name + whole.rsplit("_", 1)[-1] if name.endswith("_") else name


def faults_of_page(uses: Uses) -> Iterator[str]:
    """The differences between the page of crates and crates.txt."""
    client, others = tables_of(read("docs/ARCHITECTURE.md"))
    wanted = below(uses, "route_client")
    if set(client) != wanted:
        yield f"the client's crates in ARCHITECTURE are not those below route_client: {sorted(set(client) ^ wanted)}"
    for at, crate in enumerate(client):
        early = [it for it in uses.get(crate, []) if it not in client[:at]]
        if early:
            yield f"ARCHITECTURE has {crate} before {', '.join(early)}, on which it depends"
    for crate in sorted(set(uses) - set(client) - set(others)):
        yield f"ARCHITECTURE does not name {crate}"


def main() -> None:
    uses = listed()
    faults: list[str] = []
    counts: dict[str, tuple[int, int]] = {}
    for crate in uses:
        text = sources_of(crate)
        counts[crate] = (len(text.splitlines()), len(FUNCTION.findall(text)))
        for count, budget, what in zip(counts[crate], (LINES, FUNCTIONS), ("lines", "functions")):
            if count > budget:
                faults.append(f"{crate} has {count} {what}, but at most {budget} are allowed")
    edits = len(glob.glob(f"{TOP}/crates/*/must-fail/*.edit"))
    longest = chain(uses)
    for count, budget, what in (
        (len(uses), CRATES, "crates"),
        (len(below(uses, "route_client")), CLIENT, "crates of the client"),
        (len(longest), CHAIN, f"crates in a chain ({' '.join(longest)})"),
        (edits, EDITS, "edits of the gate"),
    ):
        print(f"{count:6} {what.split(' (')[0]}, of at most {budget}")
        if count > budget:
            faults.append(f"there are {count} {what}, but at most {budget} are allowed")
    for at, what in enumerate(("lines", "functions")):
        largest = sorted(counts, key=lambda it: (-counts[it][at], it))[:TOLD]
        rows = ", ".join(f"{crate} {counts[crate][at]}" for crate in largest)
        print(f"{sum(it[at] for it in counts.values()):6} {what} together; the largest crates have {rows}")
    faults += faults_of_page(uses)
    print("\n".join(faults) if faults else "0 faults")
    sys.exit(1 if faults else 0)


if __name__ == "__main__":
    main()
