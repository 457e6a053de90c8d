#!/usr/bin/env python3
"""Plays tools/show.py over publications and replies of the reference: checks/tools/shown.py

The expected lines are written by hand: for a map of five nodes, for the codes of one landmark, for cells in three
columns and for distances between their border nodes. The header and the signature that it prints must be those at the
places of docs/SPEC.md, 6. For a file that is truncated anywhere or has a changed octet, the tool must print one
sentence or the file's content. Ends with status 1 if anything differs. No client trusts it.
"""
import os
import pathlib
import random
import re
import shutil
import subprocess
import sys
import tempfile

TOP = pathlib.Path(__file__).resolve().parents[2]
sys.path[:0] = [str(TOP / "tools"), str(TOP / "checks")]

import show  # noqa: E402
from common import layout  # noqa: E402
from common.looks import Looks  # noqa: E402
from roads import Trouble  # noqa: E402

FRONT = ["method {}", "order {}", "fan-out {}", "version {}", "nodes 5, root ROOT"]
NODES = [
    "node 1 at 0 0",
    "node 2 at 10 0",
    "node 3 at 20 0",
    "node 4 at 10 10",
    "node 5 at 50 50",
    "road 1 2 length 4",
    "road 2 3 length 5",
    "road 1 4 length 3",
    "road 4 3 length 7",
]
ONE, TWO, THREE, FOUR = (
    "node 1 at 0 0, roads to 2 length 4, to 4 length 3",
    "node 2 at 10 0, roads to 1 length 4, to 3 length 5",
    "node 3 at 20 0, roads to 2 length 5, to 4 length 7",
    "node 4 at 10 10, roads to 1 length 3, to 3 length 7",
)
# the landmark is node 1; the lengths from it are 4, 9 and 3; the step is 9 / 3 + 1; no walk leads to node 5
LDM = [
    f"leaf 0: {ONE}, codes 0",
    f"leaf 1: {FOUR}, codes of node 1, error 0",
    f"leaf 2: {TWO}, codes 1",
    f"leaf 3: {THREE}, codes 2",
]
# columns of 17: 0 to 16, 17 to 33 and 34 to 50
HYP = [
    f"leaf 0: {ONE}, cell 0",
    f"leaf 1: {TWO}, cell 0, border",
    f"leaf 2: {FOUR}, cell 0, border",
    f"leaf 3: {THREE}, cell 1, border",
]
LOOKS = Looks()
same, faults = LOOKS.same, LOOKS.faults


def reference(at: pathlib.Path, *words: str) -> bytes:
    ran = subprocess.run(
        [sys.executable, "-m", "gogbetiku_reference", *words],
        cwd=at,
        capture_output=True,
        check=True,
        env=dict(os.environ, PYTHONPATH=str(TOP / "reference"), PYTHONDONTWRITEBYTECODE="1"),
    )
    return ran.stdout


def shown(at: pathlib.Path, *words: str) -> tuple[int, str, str]:
    ran = subprocess.run([TOP / "tools/show.py", *words], cwd=at, capture_output=True, text=True, check=False)
    return ran.returncode, ran.stdout, ran.stderr


def front(method: str, order: str, fan: int, version: int) -> list[str]:
    return [form.format(it) for form, it in zip(FRONT, (method, order, fan, version, ""))]


def files(at: pathlib.Path) -> dict[str, list[str]]:
    """Publications and replies, each with its expected lines."""
    shutil.copy(TOP / "crates/road_proof/data/m1.roads", at)
    (at / "zeros.hex").write_text("0" * 96)
    reference(at, "key", "zeros.hex", "h5")
    made: dict[str, list[str]] = {}

    def make(name: str, kind: str, wanted: list[str], *words: str) -> None:
        (at / name).write_bytes(reference(at, *words))
        made[name] = [f"{kind}, {(at / name).stat().st_size} octets", *wanted]

    ldm = [
        *front("LDM", "hilbert", 2, 1),
        "pairs 0",
        "step 4",
        "landmarks 1",
        "signature of 1292 octets, by one-time key 0",
    ]
    make(
        "ldm.pub",
        "a publication",
        [*ldm, "seed 0", "landmarks 1", "bits 2", "threshold 0", *NODES],
        "publish",
        "m1.roads",
        "ldm",
        "1",
        "hilbert",
        "0",
        "2",
        "1",
        "2",
        "0",
    )
    hyp = [
        *front("HYP", "kd", 2, 2),
        "pairs 3, root ROOT",
        "columns 3",
        "rows 1",
        "signature of 1292 octets, by one-time key 1",
    ]
    make(
        "hyp.pub",
        "a publication",
        [*hyp, "seed 9", "columns 3", "rows 1", "P3 0", *NODES],
        "publish",
        "m1.roads",
        "hyp",
        "2",
        "kd",
        "9",
        "2",
        "3",
        "1",
        "0",
    )
    full = [*front("FULL", "id", 3, 3), "pairs 10, root ROOT", "signature of 1292 octets, by one-time key 2"]
    make(
        "full.pub",
        "a publication",
        [*full, "seed 0", "P1 0", "P2 0", "P3 0", *NODES],
        "publish",
        "m1.roads",
        "full",
        "3",
        "id",
        "0",
        "3",
        "0",
        "0",
        "0",
    )
    make(
        "route",
        "a reply with a route",
        [*ldm, "route of 3 nodes: 1 2 3", *LDM, "node tree: digests 1", "pair tree: digests 0"],
        "prove",
        "ldm.pub",
        "1",
        "3",
    )
    make(
        "cells",
        "a reply with a route",
        [
            *hyp,
            "route of 3 nodes: 1 2 3",
            *HYP,
            "pair 0: 2 3 distance 5",
            "pair 2: 3 4 distance 7",
            "node tree: digests 1",
            "pair tree: digests 1",
        ],
        "prove",
        "hyp.pub",
        "1",
        "3",
    )
    make(
        "none",
        "a reply that shows no route",
        [
            *full,
            f"leaf 0: {ONE}",
            "leaf 4: node 5 at 50 50, roads none",
            "pair 3: 1 5 no walk",
            "node tree: digests 3",
            "pair tree: digests 5",
        ],
        "prove",
        "full.pub",
        "1",
        "5",
    )
    make("near", "a reply on a radius", [*ldm, *LDM, "node tree: digests 1"], "reach", "ldm.pub", "1", "9")
    return made


def of_lines(at: pathlib.Path, made: dict[str, list[str]]) -> None:
    for name, wanted in made.items():
        octets = (at / name).read_bytes()
        begins = layout.IN_PUBLICATION if name.endswith(".pub") or name == "near" else layout.IN_ANSWER
        header = octets[begins : begins + layout.HEADER]
        roots = [header[layout.NODE_ROOT : layout.PAIRS].hex(), header[layout.PAIR_ROOT : layout.FIRST].hex()]
        status, out, said = shown(at, name)
        seen = out.splitlines()
        for root, what in zip(roots, ("nodes", "pairs")):
            seen = [re.sub(f"root {root}$", "root ROOT", line) if line.startswith(what) else line for line in seen]
        same(name, (status, seen, said), (0, wanted, ""))
        same(f"{name}, header", shown(at, name, "header"), (0, f"{header.hex()}\n", ""))
        same(
            f"{name}, signature",
            shown(at, name, "signature"),
            (0, f"{octets[begins + layout.SIGNATURE : begins + layout.SIGNATURE + 1292].hex()}\n", ""),
        )


def of_faults(at: pathlib.Path, made: dict[str, list[str]]) -> int:
    (at / "bare").write_bytes(b"\1")
    same(
        "a reply without a proof", shown(at, "bare"), (0, "a reply without a proof: an end is no node, 1 octets\n", "")
    )
    same("its header", shown(at, "bare", "header"), (1, "", "show.py: bare: it has no header\n"))
    same("a road file", shown(at, "m1.roads"), (1, "", "show.py: m1.roads: neither a publication nor a reply\n"))
    same("no file", shown(at, "nothing"), (2, "", "show.py: nothing: No such file or directory\n"))
    usage = (2, "", "show.py: type show.py FILE, or show.py FILE header, or show.py FILE signature\n")
    wrong: tuple[list[str], ...] = ([], ["route", "root"], ["route", "header", "more"], ["--help"])
    for words in wrong:
        same(f"words {words}", shown(at, *words), usage)
    (at / "long").write_bytes((at / "route").read_bytes() + b"\n")
    size = (at / "route").stat().st_size
    same("a line end too many", shown(at, "long")[2], f"show.py: long: octets follow its end, from offset {size} on\n")
    drawn, count = random.Random(3), 0
    for name in made:
        octets = (at / name).read_bytes()
        changed = [octets[:end] for end in range(len(octets))]
        for _ in range(400):
            turned = bytearray(octets)
            turned[drawn.randrange(len(turned))] = drawn.randrange(256)
            changed.append(bytes(turned))
        for it in changed:
            count += 1
            try:
                list(show.Shown(it, name).lines())
                is_cut = len(it) < len(octets)
            except Trouble:
                continue
            if is_cut:
                faults.append(f"{name}: cut after {len(it)} octets, it is shown as whole")
    return count


def main() -> None:
    with tempfile.TemporaryDirectory(prefix="shown-") as room:
        at = pathlib.Path(room)
        made = files(at)
        of_lines(at, made)
        count = of_faults(at, made)
    print("\n".join(faults) if faults else f"{len(made)} files shown line for line, {count} cut or changed")
    sys.exit(1 if faults else 0)


if __name__ == "__main__":
    main()
