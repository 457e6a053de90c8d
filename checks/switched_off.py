#!/usr/bin/env python3
"""Makes the reference wrong in each listed way, and finds the vector that catches it: checks/switched_off.py [WORD]
[--write] [--long]

The ways are those of reference/gogbetiku_wrong: the client's, the server's, the owner's and the auditor's. Each
replaces a text of the reference. In addition, each test of each module is left out, and with --long each bound is moved
by one. A test is a `raise`, or a range or a required value of a field that is read. The wrong reference plays the
vectors, and at least one result must differ. reference/gogbetiku_wrong/caught.json names for each way the vector that
caught it last, which is played first; --write writes this file anew. With WORD, only the ways with it in their name are
tried. Ways that no octets can show are listed with the reason, and no vector may catch them. It runs four processes of
low priority. Ends with status 1 if a way passes all vectors. Nothing here is proved, and no client trusts it.
"""
import ast
import json
import multiprocessing
import os
import pathlib
import signal
import sys
from collections import Counter
from collections.abc import Callable, Iterator
from dataclasses import dataclass
from types import CodeType, FrameType
from typing import Any

TOP = pathlib.Path(__file__).resolve().parent.parent
sys.path.insert(0, str(TOP / "reference"))

from gogbetiku_vectors import files  # noqa: E402
from gogbetiku_reference import lms as whole_lms  # noqa: E402
from gogbetiku_wrong import PACKAGE, WRONG, loaded, source_of, switched  # noqa: E402

CAUGHT = TOP / "reference/gogbetiku_wrong/caught.json"
PROCESSES, SECONDS = 4, 15
# these modules have what Python and this package need, and no rules
OTHERS = {"__init__", "__main__", "faults", "hashing", "commands", "codes"}
MOVED = {ast.Lt: ast.LtE, ast.LtE: ast.Lt, ast.Gt: ast.GtE, ast.GtE: ast.Gt}
READ_BEFORE = "words of commands and fields of headers have their ranges tested when they are read"
# the tests whose omission no vector can show
UNSEEN = {
    **{f'left out, books.py: raise Fault("Settings", {number})': READ_BEFORE for number in range(3)},
    'left out, maps.py: raise Fault("TooMany")': "each reader of a file refuses as many parts before they make a map",
    **{
        f"a bound moved, maps.py: if len(parts.nodes) > MOST_NODES or len(parts.roads) > MOST_ROADS:{more}": "a file of exactly as many has a megabyte; that of its reader has vectors"
        for more in ("", " (2)")
    },
    "a bound moved, maps.py: len(route) > 0": "a route that is read has an id",
    "a bound moved, books.py: if len(borders) > MOST_BORDERS:": "the reference takes a minute for the two million pairs of 2,048 borders",
    "a bound moved, desks.py: return area.texts[slot] if len(signature) >= 4 and slot < len(area.texts) else None": "a signature of four octets is refused before",
    'a bound moved, road_files.py: if not UNSIGNED.fullmatch(word) or len(word.lstrip(b"0")) > MOST_DIGITS:': "no number of a file has 20 digits; those of commands are the program's words",
    "a bound moved, servers.py: nodes = with_references(book, nodes | (live if length > 0 else set()))": "where the length is 0 the start alone is live, which is on the route",
}
Fields = dict[str, Any]


@dataclass(frozen=True)
class Way:
    name: str
    module: str
    code: Callable[[], CodeType]
    unseen: str = ""


def is_test(node: ast.AST, bounds: bool) -> bool:
    """Whether a node of the syntax tree refuses something: a `raise`, or a field with limited values; with `bounds`, a comparison."""
    if bounds:
        return isinstance(node, ast.Compare) and type(node.ops[0]) in MOVED
    is_field = (
        isinstance(node, ast.Call) and isinstance(node.func, ast.Attribute) and node.func.attr in ("number", "take")
    )
    return isinstance(node, ast.Raise) or (is_field and len(node.args) > 1)  # type: ignore[attr-defined]


class Off(ast.NodeTransformer):
    """Leaves one test out, or moves one bound."""

    def __init__(self, target: ast.AST):
        self.target = target

    def visit_Raise(self, node: ast.Raise) -> ast.AST:
        return ast.copy_location(ast.Pass(), node) if node is self.target else node

    def visit_Compare(self, node: ast.Compare) -> ast.AST:
        self.generic_visit(node)
        if node is self.target:
            node.ops[0] = MOVED[type(node.ops[0])]()
        return node

    def visit_Call(self, node: ast.Call) -> ast.AST:
        self.generic_visit(node)
        if node is self.target:
            node.args = node.args[:1]
        return node


def without(module: str, at: int, bounds: bool) -> CodeType:
    tree = ast.parse(source_of(module))
    target = [node for node in ast.walk(tree) if is_test(node, bounds)][at]
    code: CodeType = compile(ast.fix_missing_locations(Off(target).visit(tree)), f"{module}.py", "exec")
    return code


def left_out(bounds: bool) -> Iterator[Way]:
    """Each test of each module, by its text."""
    for path in sorted(PACKAGE.glob("*.py")):
        module, seen = path.stem, Counter[str]()
        if module in OTHERS:
            continue
        lines = source_of(module).splitlines()
        for at, node in enumerate(node for node in ast.walk(ast.parse(source_of(module))) if is_test(node, bounds)):
            text = lines[node.lineno - 1].strip()
            seen[text] += 1
            name = f"{'a bound moved' if bounds else 'left out'}, {module}.py: {text}" + (
                f" ({seen[text]})" if seen[text] > 1 else ""
            )
            yield Way(name, module, lambda module=module, at=at: without(module, at, bounds), UNSEEN.get(name, ""))  # type: ignore[misc]


def ways() -> list[Way]:
    found = [Way(one.name(), one.module, one.code, one.unseen) for one in WRONG]
    found += left_out(bounds=False)
    if "--long" in sys.argv:
        found += left_out(bounds=True)
    twice = [name for name, count in Counter(way.name for way in found).items() if count > 1]
    if twice:
        raise SystemExit(f"two ways have one name: {twice}")
    words = [word for word in sys.argv[1:] if not word.startswith("--")]
    return [way for way in found if all(word in way.name for word in words)]


# the played families, a client's first; flipped bits show nothing that the others do not show
LAST = {"turned", "turned_signatures", "great_keys"}


def all_cases() -> list[tuple[str, list[Fields]]]:
    return [
        (family.name, files.read_family(TOP / "vectors", family))
        for family in files.FAMILIES
        if family.name not in LAST
    ]


CASES = all_cases()
RUNS = {family.name: family.run for family in files.FAMILIES}
BY_ID: dict[str, tuple[str, Fields]] = {case["id"]: (name, case) for name, cases in CASES for case in cases}
HINTS: dict[str, str] = json.loads(CAUGHT.read_text()) if CAUGHT.exists() else {}
# the families that show most faults of a module
FIRST: dict[str, list[str]] = {
    "octets": ["leaves", "headers", "chain_files", "client"],
    "leaves": ["leaves", "client"],
    "chains": ["chain_files", "client"],
    "headers": ["headers", "client"],
    "lms": ["signatures", "keys", "client"],
    "trees": ["folds", "trees", "client"],
    "desks": ["desks", "desk_changes", "audits"],
    "audits": ["audits"],
    "reductions": ["reductions"],
    "frames": ["services", "guarded_services"],
    "servers": ["replies", "radii", "installs"],
    "orders": ["orders", "publications"],
    "books": ["publications", "installs"],
    "landmarks": ["client", "publications", "replies"],
    "road_files": ["road_files"],
    "dimacs": ["dimacs_files"],
    "maps": ["road_files", "routes"],
    "publications": ["installs", "publications"],
    "draws": ["surveys"],
    "surveys": ["surveys"],
    "lines": ["routes", "client", "audits", "reductions"],
    "cells": ["publications"],
}

# no client depends on these
NO_CLIENT = {
    *("servers", "frames", "books", "orders", "cells", "desks", "audits", "reductions", "publications"),
    *("road_files", "dimacs", "maps", "draws", "surveys"),
}


def in_order(way: Way) -> Iterator[tuple[str, Fields]]:
    """The vector that caught the way last, then those of the families that show most faults of its module, then all."""
    if HINTS.get(way.name) in BY_ID and "--write" not in sys.argv:
        yield BY_ID[HINTS[way.name]]
    first = FIRST.get(way.module, ["client", "client_radius"])
    for name, cases in sorted(CASES, key=lambda named: first.index(named[0]) if named[0] in first else len(first)):
        if way.module not in NO_CLIENT or not name.startswith("client"):
            yield from ((name, case) for case in cases if name in first or not is_long(case))


def is_long(case: Fields) -> bool:
    """Whether a case takes a second. Such cases are played only if their family shows most faults of a module."""
    return "again" in case["given"] or len(case["given"].get("roads", "")) > 20_000


def too_long(_signal: int, _frame: FrameType | None) -> None:
    raise TimeoutError


def is_same(run: Callable[[Fields], Fields], case: Fields) -> bool:
    signal.setitimer(signal.ITIMER_VIRTUAL, SECONDS)
    try:
        return bool(run(case["given"]) == case["result"])
    except Exception:
        return False
    finally:
        signal.setitimer(signal.ITIMER_VIRTUAL, 0)


def caught_by(way: Way) -> str | None:
    """The first vector with a different result, or None."""
    forget()
    with switched(way.module, way.code()):
        return next((case["id"] for name, case in in_order(way) if not is_same(RUNS[name], case)), None)


def forget() -> None:
    """Caches of calls, except for keys and signatures, which no other module changes."""
    for module in loaded():
        for value in vars(module).values():
            if hasattr(value, "cache_clear") and value not in (whole_lms.why_not, whole_lms.key_of):
                value.cache_clear()


def search(number: int) -> tuple[int, str | None]:
    try:
        return number, caught_by(WAYS[number])
    except Exception as fault:
        return number, f"does not load: {fault!r}"


def calm() -> None:
    os.nice(max(0, 10 - os.nice(0)))
    signal.signal(signal.SIGVTALRM, too_long)


WAYS = ways()


def main() -> int:
    with multiprocessing.get_context("fork").Pool(PROCESSES, calm) as pool:
        found = dict(pool.imap_unordered(search, range(len(WAYS)), chunksize=4))
    wrong, unseen, parts = 0, 0, Counter[str]()
    for number, way in enumerate(WAYS):
        case = found[number]
        parts[way.name.split(",")[0]] += 1
        unseen += bool(way.unseen)
        if way.unseen and case is None:
            print(f"no octets show: {way.name} ({way.unseen})")
        elif way.unseen or case is None or case not in BY_ID:
            wrong += 1
            print(f"{case or 'no vector'} catches: {way.name}")
    if "--write" in sys.argv:
        listed = {way.name: found[number] for number, way in enumerate(WAYS) if found[number] is not None}
        CAUGHT.write_text(json.dumps(listed, indent=0) + "\n", encoding="ascii")
    counts = ", ".join(f"{part} {count}" for part, count in parts.items())
    print(f"switched off: {len(WAYS)} ways to be wrong ({counts}), {wrong} differ, {unseen} that no octets show")
    return 1 if wrong else 0


if __name__ == "__main__":
    sys.exit(main())
