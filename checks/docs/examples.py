#!/usr/bin/env python3
"""Compares the examples at the heads of libraries with tests: checks/docs/examples.py

Each library that other programs could use shows an example of 5 to 15 lines at the head of its root. The same lines,
apart from their indent, must be in a test of a crate of tests, which the gate proves and runs. Ends with status 1 if an
example is missing, too short, too long, or in no test.
"""
import pathlib
import re
import sys

TOP = pathlib.Path(__file__).resolve().parent.parent.parent
LIBRARIES = ("route_client", "route_server", "key_desk", "merkle_cover", "lms_tree", "road_search", "proof_octets")
LEAST, MOST = 5, 15


def example_of(library: str) -> list[str]:
    """The lines of the example at a library's head."""
    text = (TOP / "crates" / library / "src/lib.rt").read_text(encoding="utf-8")
    head = [line[3:].removeprefix(" ") for line in text.splitlines() if line.startswith("//!")]
    found: list[str] = re.findall(r"```rust\n(.*?)\n```", "\n".join(head), re.S)
    return found[0].splitlines() if len(found) == 1 else []


def stands_in(lines: list[str], text: str) -> bool:
    """Whether a text has these lines one below the other, all with the same further indent."""
    of_text = text.splitlines()
    for at in range(len(of_text) - len(lines) + 1):
        before = of_text[at].removesuffix(lines[0])
        if before.strip() == "" and of_text[at].endswith(lines[0]):
            moved = [before + line if line else "" for line in lines]
            if of_text[at : at + len(lines)] == moved:
                return True
    return False


def main() -> int:
    tests = {path: path.read_text(encoding="utf-8") for path in sorted(TOP.glob("crates/*_tests/src/**/*.rt"))}
    faults = 0
    for library in LIBRARIES:
        lines = example_of(library)
        places = [path for path, text in tests.items() if lines and stands_in(lines, text)]
        if not LEAST <= len(lines) <= MOST:
            print(f"{library}: its head has an example of {len(lines)} lines, not of {LEAST} to {MOST}")
        elif not places:
            print(f"{library}: the lines of its example are in no test")
        else:
            continue
        faults += 1
    print(f"{len(LIBRARIES)} examples, {faults} faults")
    return 1 if faults else 0


if __name__ == "__main__":
    sys.exit(main())
