#!/usr/bin/env python3
"""Tries wrong bodies that the prover must refuse, in addition to those of the gate: checks/edits/try.py [--apply]
[CRATE..]

The gate tries the edits of crates/CRATE/must-fail. This script tries those of crates/CRATE/more-edits, which have the
same form: on a copy of the repository without other edits, by `rt ci CRATE..`, which uses the proofs of earlier runs on
this machine. Without names it tries the edits of all crates. With --apply it tries nothing: it names the edits of both
folders that cannot be applied, because an old text is not in its file exactly once, and the names that are in both
folders. Ends with status 1 if an edit is not refused or cannot be applied.
"""
import glob
import os
import shutil
import subprocess
import sys
import tempfile
from collections.abc import Iterator

TOP = os.path.dirname(os.path.dirname(os.path.dirname(os.path.abspath(__file__))))
GATE, MORE = "must-fail", "more-edits"


def steps_of(edit: str) -> Iterator[tuple[str, str, str]]:
    """The steps of an edit: a file, its old text, and the new text."""
    path = old = ""
    with open(edit, encoding="utf-8") as file:
        for line in file.read().splitlines():
            word, _, rest = line.partition(":")
            rest = rest.removeprefix(" ")
            if word == "file":
                path = rest
            elif word == "old":
                old = rest
            elif word == "new":
                yield path, old, rest


def faults_of(edit: str, crate: str) -> Iterator[str]:
    """The reason why an edit of a crate cannot be applied."""
    texts: dict[str, str] = {}
    for path, old, new in steps_of(edit):
        name = os.path.join(TOP, "crates", crate, path)
        if path not in texts:
            if not os.path.exists(name):
                yield f"there is no {path}"
                return
            with open(name, encoding="utf-8") as file:
                texts[path] = file.read()
        if texts[path].count(old) != 1:
            yield f"a text stands {texts[path].count(old)} times in {path}: {old.strip()}"
        if old == new:
            yield "it changes nothing"
        texts[path] = texts[path].replace(old, new, 1)


def edits_in(folder: str, crate: str = "*") -> list[str]:
    """The edits in this folder of a crate, or of every crate, in order."""
    return sorted(glob.glob(f"{TOP}/crates/{crate}/{folder}/*.edit"))


def faults_of_names(crate: str) -> list[str]:
    """The names that are in both folders of a crate."""
    names = [{os.path.basename(edit) for edit in edits_in(folder, crate)} for folder in (GATE, MORE)]
    return [f"{name}: it stands in {GATE} and in {MORE}" for name in sorted(names[0] & names[1])]


def apply_all() -> int:
    """Prints the edits that cannot be applied. Returns the number of faults."""
    gate, more = edits_in(GATE), edits_in(MORE)
    faults: list[str] = []
    for edit in gate + more:
        crate = edit.split("/")[-3]
        faults += [f"{crate}: {os.path.basename(edit)}: {fault}" for fault in faults_of(edit, crate)]
    for crate in sorted(os.listdir(f"{TOP}/crates")):
        faults += [f"{crate}: {fault}" for fault in faults_of_names(crate)]
    print("\n".join([*faults, f"{len(gate)} edits of the gate, {len(more)} beside it, {len(faults)} faults"]))
    return len(faults)


def try_all(crates: list[str]) -> int:
    """Tries the edits of crates on a copy. Returns the status of the run."""
    names = subprocess.check_output(["git", "ls-files", "crates", "crates.txt", "HANDLES"], cwd=TOP, text=True)
    with tempfile.TemporaryDirectory() as copy:
        for name in names.splitlines():
            if f"/{GATE}/" not in name and f"/{MORE}/" not in name and os.path.exists(os.path.join(TOP, name)):
                os.makedirs(os.path.dirname(f"{copy}/{name}"), exist_ok=True)
                shutil.copy(os.path.join(TOP, name), f"{copy}/{name}")
        for crate in crates:
            shutil.copytree(f"{TOP}/crates/{crate}/{MORE}", f"{copy}/crates/{crate}/{GATE}")
        return subprocess.run(["rt", "ci", *crates], cwd=copy).returncode


def main(words: list[str]) -> int:
    if words == ["--apply"]:
        return 1 if apply_all() else 0
    here = sorted({edit.split("/")[-3] for edit in edits_in(MORE)})
    unknown = [word for word in words if word not in here]
    if unknown:
        print(f"{unknown[0]} has no {MORE}")
        return 2
    return 1 if try_all(words or here) else 0


if __name__ == "__main__":
    sys.exit(main(sys.argv[1:]))
