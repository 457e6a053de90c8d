#!/usr/bin/env python3
"""Tests the scripts of bindings/ and web/ as a newcomer would type them: bindings/play_scripts.py

It runs them in a copy of the tree in which nothing is built: without arguments, without the archive, and without the
toolchain. Each script must end with status 2 and one sentence that names the next step, and must leave no files. Ends
with status 1 if a script does not. Nobody trusts this file."""

from __future__ import annotations

import os
import pathlib
import re
import shutil
import subprocess
import sys
import tempfile

TOP = pathlib.Path(__file__).resolve().parent.parent
COPIED = ("bindings", "web", "docs", "VERSION", "SUMS", "crates.txt", "crates/route_check_c/src", "reference")
# the commands without arguments, and a word of the next step
BARE = [
    "bindings/build",
    "bindings/install",
    "bindings/release",
    "bindings/wheel",
    "bindings/sign_release",
    "bindings/verify_release",
    "bindings/manual.py",
    "bindings/packages.py",
    "bindings/play.py",
    "bindings/play_aarch64.py",
    "bindings/play_install.py",
    "bindings/play_more.py",
    "bindings/play_release.py",
    "bindings/play_root.py",
    "web/build",
    "web/play.py",
]
# the commands where nothing is built, and the advice in the sentence
UNBUILT = [
    ("bindings/archive", "type ./build first"),
    ("bindings/build INTO", "type bindings/archive first"),
    ("bindings/build INTO aarch64", "type bindings/archive aarch64-unknown-linux-gnu first"),
    ("web/build INTO", "type web/module first"),
    ("web/module", "type bindings/archive first"),
    ("bindings/install INTO", "type ./build first"),
    ("PROGRAM=/bin/true bindings/install INTO", "type bindings/archive first"),
    ("bindings/install here", "full path"),
    ("bindings/release INTO --dirty", "type ./build, and then bindings/archive"),
    ("bindings/release INTO --odd", "--odd is not an argument"),
    ("bindings/wheel INTO none.so", "type bindings/build FOLDER first"),
    ("bindings/sign_release INTO key", "type bindings/release"),
    ("bindings/verify_release INTO key", "get release.pub"),
]
UNTOOLED = [
    ("bindings/archive", "put rt on the path"),
    ("web/module", "put rt on the path"),
    ("bindings/build INTO", "in RATTLE"),
]

faults: list[str] = []


def play(tree: pathlib.Path, typed: str, wanted: str, env: dict[str, str]) -> None:
    """Tests that a command at the top of the tree ends with one sentence of its own that contains these words."""
    into = tree / "into"
    done = subprocess.run(
        ["bash", "-c", typed.replace("INTO", str(into))], cwd=tree, capture_output=True, text=True, check=False, env=env
    )
    name = re.sub(r"^PROGRAM=\S+ ", "", typed).split(" ")[0]
    # the sentence may come from a script that this one calls
    own = re.match(r"(bindings|web)/[a-z_.]+: ", done.stderr)
    is_said = done.stderr.startswith(f"{name}: ") or ("PROGRAM=" in typed and own)
    if done.returncode != 2 or done.stdout or done.stderr.count("\n") != 1 or not is_said or wanted not in done.stderr:
        faults.append(
            f"{typed}: status {done.returncode}, {done.stdout + done.stderr!r}, and not one sentence with {wanted!r}"
        )
    if into.exists():
        faults.append(f"{typed}: it leaves {sorted(map(str, into.rglob('*')))}")
        shutil.rmtree(into)


def main() -> int:
    env = dict(os.environ)
    for name in ("PROGRAM", "DESTDIR", "RATTLE"):
        env.pop(name, None)
    with tempfile.TemporaryDirectory() as name:
        tree = pathlib.Path(name) / "tree"
        for part in COPIED:
            if (TOP / part).is_dir():
                shutil.copytree(TOP / part, tree / part, ignore=shutil.ignore_patterns("__pycache__", "out"))
            else:
                (tree / part).parent.mkdir(parents=True, exist_ok=True)
                shutil.copy(TOP / part, tree / part)
        (tree / "crates/octet_text").mkdir()
        for words in (
            ["init", "-q"],
            ["add", "."],
            ["-c", "user.name=a", "-c", "user.email=a@b.c", "commit", "-q", "-m", "A tree."],
        ):
            subprocess.run(["git", *words], cwd=tree, check=True)
        for script in BARE:
            play(tree, script, f"{script} ", env)
        for typed, wanted in UNBUILT:
            if typed == "web/module" and shutil.which("wasm-opt") is None:
                print("skipped: web/module without the archive, since this machine has no wasm-opt")
                continue
            play(tree, typed, wanted, env)
        # a PATH with everything except the toolchain
        tools = pathlib.Path(name) / "tools"
        tools.mkdir()
        for folder in reversed(env["PATH"].split(":")):
            for path in pathlib.Path(folder).glob("*"):
                if path.name not in ("rt", "rattle"):
                    (tools / path.name).unlink(missing_ok=True)
                    (tools / path.name).symlink_to(path)
        archive = tree / "crates/route_check_c/out/libroute_check_c.a"
        archive.parent.mkdir()
        archive.write_bytes(b"!<arch>\n")
        for typed, wanted in UNTOOLED:
            play(tree, typed, wanted, {**env, "PATH": str(tools)})
    for fault in faults:
        print(fault)
    print(
        f"scripts: {len(faults)} end without the next step"
        if faults
        else f"scripts: {len(BARE) + len(UNBUILT) + len(UNTOOLED)} end with the next step"
    )
    return 1 if faults else 0


if __name__ == "__main__":
    sys.exit(main())
