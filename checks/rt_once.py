#!/usr/bin/env python3
"""Runs the kit's rt so that it computes the sum of each crate only once: checks/rt_once.py WORD..

rt decides whether a crate's library is built by a sum over its files and over the sums of the crates below it. It
computes that sum anew for each path through crates.txt: 12,000 times for the program's crate, which takes minutes. This
script computes each sum once in a run, so no file may change during the run. ./build uses it, because nobody else
writes to its folders. If the kit's rt has another form, it runs unchanged.
"""
import importlib.machinery
import importlib.util
import os
import shutil
import sys
from typing import Any


def read(path: str) -> str:
    try:
        with open(path, encoding="utf-8") as file:
            return file.read()
    except OSError:
        return ""


def loaded(path: str) -> Any:
    """The script rt as a module, or None if it is not the one that this file knows."""
    library = f"{os.path.dirname(path)}/rtlib.py"
    if (
        "def main(words):" not in read(path)
        or "rtlib = load()" not in read(path)
        or "    def stamp(self):\n" not in read(library)
    ):
        return None
    sys.dont_write_bytecode = True
    loader = importlib.machinery.SourceFileLoader("rt", path)
    spec = importlib.util.spec_from_loader("rt", loader)
    assert spec
    module = importlib.util.module_from_spec(spec)
    loader.exec_module(module)
    return module


def main() -> None:
    words, found = sys.argv[1:], shutil.which("rt")
    if found is None:
        sys.exit("rt_once.py: this machine has no rt, the toolchain's command")
    rt = loaded(os.path.realpath(found))
    if rt is None:
        os.execv(found, ["rt", *words])
    stamp = rt.rtlib.Crate.stamp
    sums: dict[str, Any] = {}

    def once(crate: Any) -> Any:
        if crate.folder not in sums:
            sums[crate.folder] = stamp(crate)
        return sums[crate.folder]

    rt.rtlib.Crate.stamp = once
    sys.exit(rt.main(words))


if __name__ == "__main__":
    main()
