#!/usr/bin/env python3
"""Compares crates.txt with what the crates name, or writes it: checks/crates.py [--write]

A crate's line has exactly the crates and libraries of the kit that its sources, statements and proofs name. The kit
itself finds the crates that these depend on. Each line follows the lines of the crates that it depends on; otherwise
the order stays. With --write it writes the file in this form. The line of a new crate needs only its name, and
`staticlib` for a static library. Ends with status 1 if a line or the order differs. Nothing here is proved, and no
client trusts it: if a line lacks a name, the prover reports the name as unknown.
"""
import pathlib
import re
import sys

TOP = pathlib.Path(__file__).resolve().parent.parent
KIT = ("hex", "sha2", "thiserror")
# a path from a crate's root, in Rust or in a statement
NAMED = re.compile(r"\bRattle\.(\w+)\.|(?<![\w:.])(\w+)(?=::)|\b(?:use|extern crate) (?!Rattle\b)(\w+)")


def heads() -> dict[str, str]:
    """The crates of crates.txt in order, each with the text before its colon."""
    lines = (TOP / "crates.txt").read_text(encoding="utf-8").splitlines()
    return {
        line.split()[0].rstrip(":"): line.partition(":")[0]
        for line in lines
        if ":" in line and not line.startswith("#")
    }


def named_by(crate: str) -> set[str]:
    """The names in a crate's files at places where a crate can be named."""
    found: set[str] = set()
    for folder in ("src", "specs", "proofs"):
        for path in (TOP / "crates" / crate / folder).rglob("*"):
            if path.suffix in (".rt", ".antt"):
                text = path.read_text(encoding="utf-8")
                text = re.sub(r"//.*" if path.suffix == ".rt" else r"--.*", "", text)
                found |= {name for names in NAMED.findall(text) for name in names if name}
    return found


def sorted_by_use(uses: dict[str, list[str]]) -> list[str]:
    """The crates, each after those that it depends on, and otherwise in their order."""
    order: list[str] = []

    def put(crate: str) -> None:
        for below in uses[crate]:
            if below in uses and below not in order:
                put(below)
        if crate not in order:
            order.append(crate)

    for crate in uses:
        put(crate)
    return order


def wanted() -> str:
    """The right content of crates.txt."""
    head = heads()
    uses: dict[str, list[str]] = {}
    for crate in head:
        named = named_by(crate) - {crate}
        uses[crate] = [it for it in (*head, *KIT) if it in named]
    order = sorted_by_use(uses)
    places = {name: at for at, name in enumerate((*order, *KIT))}
    return "".join(
        f"{head[crate]}: {' '.join(sorted(uses[crate], key=places.__getitem__))}".rstrip() + "\n" for crate in order
    )


def main() -> int:
    said, text = (TOP / "crates.txt").read_text(encoding="utf-8"), wanted()
    if sys.argv[1:] == ["--write"]:
        (TOP / "crates.txt").write_text(text, encoding="utf-8")
        return 0
    lines = said.splitlines()
    for line in text.splitlines():
        if line not in lines:
            print(f"crates.txt should say {line}")
    if said == text:
        print(f"crates.txt names what the crates name: {sum(len(line.split()) - 1 for line in lines)} names")
    elif sorted(lines) == sorted(text.splitlines()):
        print("crates.txt has a line before the lines of the crates that it depends on")
    return 0 if said == text else 1


if __name__ == "__main__":
    sys.exit(main())
