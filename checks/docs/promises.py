#!/usr/bin/env python3
"""Prints every public call of every crate with its promises: checks/docs/promises.py [CRATE ..]

A public call is a function, a method of a public type or a method of a public trait that a crate's root exports. For
each call it prints the first sentence of its comment and the names of its clauses, as Markdown, from the sources alone.
A clause without a name appears as `ensures`. The output is not committed.

With `--whole` it prints for each clause its text, the number of definitions that it unfolds to and a hash over them,
and then each of these definitions once. `diff` can compare two such lists, from before and after a change.

With `--check` it tests instead that each name in docs/CLAIMS.md and docs/ARCHITECTURE.md is in the sources: a crate, a
module or a definition of specs/, a call, a clause or a field. Ends with status 1 if a name is not.
"""
import glob
import hashlib
import os
import re
import signal
import sys
from collections.abc import Iterator

import specs

TOP = os.path.dirname(os.path.dirname(os.path.dirname(os.path.abspath(__file__))))
FUNCTION = re.compile(r"^( *)(pub )?(?:const )?(?:extern \"C\" )?fn (\w+)", re.M)
BLOCK = re.compile(r"^(pub trait|impl|trait)\b(.*)$", re.M)
CHECKED = ["docs/CLAIMS.md", "docs/ARCHITECTURE.md"]
# crates and the logic of the kit; these documents name them too
OTHERS = {"sha2", "hex", "thiserror", "dac8208d650f15bf"}


def read(name: str) -> str:
    with open(name, encoding="utf-8") as file:
        return file.read()


def handed_out(root: str) -> set[str]:
    """The names that a crate's root exports."""
    names: set[str] = set()
    for found in re.finditer(r"^pub use (\w+(?:::\w+)*)(?:::\{([^}]*)\})?;", root, re.M):
        names |= set(re.findall(r"\w+", found[2])) if found[2] else {found[1].split("::")[-1]}
    return names | set(re.findall(r"^pub (?:fn|struct|enum|trait) (\w+)", root, re.M))


def owner_of(text: str, place: int) -> tuple[str | None, bool]:
    """The type or trait whose block contains a place, and whether the block is a trait or an impl of a trait."""
    block = None
    for found in BLOCK.finditer(text, 0, place):
        block = found
    if block is None or "\n}\n" in text[block.start() : place]:
        return None, False
    words = re.sub(r"<[^<>]*(?:<[^<>]*>[^<>]*)*>", "", block[2]).strip()
    named = re.match(r"\s*(\w+)", words)
    if named is None:
        return None, True
    if block[1] != "impl":
        return named[1], True
    if " for " in words:
        return None, True
    return named[1], False


def contract_at(text: str, found: re.Match[str]) -> str:
    """The text of a contract, from the function's name to its body, or to the semicolon of a trait's method."""
    lines: list[str] = []
    is_clause = False
    for line in text[found.start() :].splitlines():
        is_clause = is_clause or re.match(r" *(?:ensures|requires)\b", line) is not None
        if line in (found[1] + "{", found[1] + "{}"):
            break
        lines.append(line)
        whole = "\n".join(lines)
        if line.endswith(";") and whole.count("{") == whole.count("}") or line.endswith("{") and not is_clause:
            break
    return "\n".join(lines)


def comment_before(text: str, place: int) -> str:
    """The comment directly above a place, skipping attributes."""
    lines: list[str] = []
    for line in reversed(text[:place].splitlines()):
        line = line.strip()
        if line.startswith("///"):
            lines.insert(0, line[3:].strip())
        elif not line.startswith("#["):
            break
    return " ".join(lines)


def calls_of(crate: str) -> dict[str, tuple[str, str, str]]:
    """Each public call of a crate, with its name, its comment, its contract and its file."""
    root = next(
        name
        for name in (f"{TOP}/crates/{crate}/src/lib.rt", f"{TOP}/crates/{crate}/src/main.rt")
        if os.path.exists(name)
    )
    names = handed_out(read(root))
    calls: dict[str, tuple[str, str, str]] = {}
    for name in sorted(glob.glob(f"{TOP}/crates/{crate}/src/**/*.rt", recursive=True)):
        text = read(name)
        for found in FUNCTION.finditer(text):
            owner, is_trait = owner_of(text, found.start()) if found[1] else (None, False)
            path = os.path.relpath(name, f"{TOP}/crates/{crate}")
            told = (comment_before(text, found.start()), contract_at(text, found), path)
            if owner is None and not found[1] and found[2] and found[3] in names:
                calls[found[3]] = told
            elif owner in names and (found[2] or is_trait):
                calls[f"{owner}::{found[3]}"] = told
    return calls


def clauses_of(contract: str) -> list[tuple[str, str]]:
    return [(kind, name or kind) for kind, name in re.findall(r"^\s*(ensures|requires)(?: (\w+))? \{", contract, re.M)]


class Clause:
    """A clause of a call: its text, and the file whose ghost imports it uses."""

    def __init__(self, crate: str, call: str, path: str, contract: str, found: re.Match[str]) -> None:
        self.crate, self.call, self.path, self.contract = crate, call, path, contract
        self.kind, self.name = found[1], found[2] or found[1]
        self.text = f"{found[1]} {found[2] + ' ' if found[2] else ''}" + "{" + balanced(contract, found.end()) + "}"

    @property
    def place(self) -> str:
        return f"{self.crate}, {self.path}"

    def reading(self) -> tuple[specs.Scope, str, set[str]]:
        """The arguments for specs.Unfolding.named_in: its file, its text and the names that it binds."""
        file = specs.source(self.crate, re.sub(r"^src/|\.rt$", "", self.path).replace("/", "."))
        assert file
        text = self.text.partition("{")[2]
        bound = set(re.findall(r"(\w+):(?!:)", self.contract)) | specs.bound_in(text) | {"result", "self"}
        return specs.Ghosts(file), text, bound


def balanced(text: str, begins: int) -> str:
    """The text from a place after an opening brace to the matching closing brace."""
    depth, at = 1, begins
    while depth and at < len(text):
        depth += {"{": 1, "}": -1}.get(text[at], 0)
        at += 1
    return text[begins : at - 1]


def whole_clauses(crate: str) -> Iterator[Clause]:
    """Each clause of each public call of a crate."""
    for call, (_, contract, path) in sorted(calls_of(crate).items()):
        for found in re.finditer(r"^\s*(ensures|requires)\*?(?: (\w+))? \{", contract, re.M):
            yield Clause(crate, call, path, contract, found)


def clause_named(name: str) -> Clause | None:
    """The clause named by `crate::call.clause`, or by `crate::call` if it has no name; None if there is no such
    clause."""
    place, _, own = name.partition(".")
    crate, _, call = place.partition("::")
    if not os.path.isdir(f"{TOP}/crates/{crate}/src") or not crate:
        return None
    return next((it for it in whole_clauses(crate) if it.call == call and it.name == (own or "ensures")), None)


def show_whole(wanted: list[str]) -> None:
    """Prints each clause's text with a hash over all definitions that it unfolds to, and each of these definitions
    once."""
    sys.setrecursionlimit(10_000)
    unfolding = specs.Unfolding()
    every: dict[tuple[str, str], specs.Definition] = {}
    for crate in wanted:
        for clause in whole_clauses(crate):
            found = unfolding.below(unfolding.named_in(*clause.reading()))
            every.update((it.key, it) for it in found)
            total = hashlib.sha256("\n".join(sorted(it.text for it in found)).encode()).hexdigest()[:12]
            print(f"{crate}::{clause.call}: {specs.counts(found)}, sum {total}")
            print("    " + "\n    ".join(line.strip() for line in clause.text.splitlines()))
    for it in sorted(every.values(), key=lambda it: it.key):
        print(f"\n{it.path}\n{it.text}")


def crates() -> list[str]:
    found = sorted(os.path.basename(name) for name in glob.glob(f"{TOP}/crates/*"))
    return [crate for crate in found if not crate.endswith("_tests")]


def show(crate: str) -> None:
    root = read(glob.glob(f"{TOP}/crates/{crate}/src/[lm]*[bn].rt")[0])
    # the example at the head is left out
    head = " ".join(line[3:].strip() for line in root.split("//! ```")[0].splitlines() if line.startswith("//!"))
    print(f"## `{crate}`\n\n{head}\n\n| call | says | ensures | requires |\n|---|---|---|---|")
    for call, (comment, contract, _) in sorted(calls_of(crate).items()):
        clauses = clauses_of(contract)
        cells = [
            ", ".join(f"`{name}`" for kind, name in clauses if kind == wanted) for wanted in ("ensures", "requires")
        ]
        print(f"| `{call}` | {comment.replace('|', chr(92) + '|')} | {cells[0]} | {cells[1]} |")
    print()


def known_words() -> set[str]:
    """The names in the sources: crates, modules, definitions, fields, calls, types and clauses."""
    words: set[str] = set()
    for folder in glob.glob(f"{TOP}/crates/*"):
        words.add(os.path.basename(folder))
        for name in glob.glob(f"{folder}/specs/**/*.antt", recursive=True):
            words.add(os.path.basename(name)[:-5])
            words |= set(
                re.findall(r"^(?:abbrev |unfoldable |record )?\s*(?:pub )?(?:record )?(\w+)", read(name), re.M)
            )
            words |= set(re.findall(r"^ *(?:abbrev |unfoldable )?pub (?:record )?(\w+)", read(name), re.M))
        for name in glob.glob(f"{folder}/src/**/*.rt", recursive=True):
            words.add(os.path.basename(name)[:-3])
            words |= set(re.findall(r"\b(?:fn|struct|enum|trait|mod|ensures|requires) (\w+)", read(name)))
            words |= set(re.findall(r"^ *([A-Z]\w+)[ ,({]", read(name), re.M))
    return words


def check() -> int:
    words, wrong = known_words(), 0
    for document in CHECKED:
        for number, line in enumerate(read(f"{TOP}/{document}").split("\n"), 1):
            for quoted in re.findall(r"`([^`]+)`", line):
                is_name = re.fullmatch(r"[A-Za-z]\w*(?:(?:::|\.)\w+)*", quoted) and not quoted.endswith("_")
                if not is_name or any(
                    os.path.exists(f"{TOP}/{folder}{quoted}") for folder in ("", "checks/", "reference/")
                ):
                    continue
                for word in re.split(r"::|\.", quoted):
                    if word not in words | OTHERS:
                        print(f"{document}:{number}: `{quoted}` is not a name in the sources")
                        wrong += 1
                        break
    print(f"{wrong} names of {' and '.join(CHECKED)} are not there" if wrong else "each name is in the sources")
    return wrong


def main() -> None:
    if sys.argv[1:] == ["--check"]:
        sys.exit(1 if check() else 0)
    if sys.argv[1:2] == ["--whole"]:
        signal.signal(signal.SIGPIPE, signal.SIG_DFL)
        show_whole(sys.argv[2:] or crates())
        return
    for crate in sys.argv[1:] or crates():
        show(crate)


if __name__ == "__main__":
    main()
