#!/usr/bin/env python3
"""Plants each fault that checks/docs/sizes.py must find into a copy of the tree: checks/docs/planted.py

Each fault must be reported with the given words, and the unchanged copy must pass. Nobody trusts this script. Ends with
status 1 if a fault is not found.
"""
import os
import re
import shutil
import subprocess
import sys
import tempfile

TOP = os.path.dirname(os.path.dirname(os.path.dirname(os.path.abspath(__file__))))
LONG = "So " + " ".join(["word"] * 40)
# the planted faults: a file, the text added at its end (or a pattern and its replacement), and the words of the report
FAULTS: list[tuple[str, str | tuple[str, str], str]] = [
    ("README.md", "\n" + "word " * 300, "README.md has"),
    ("docs/MAPS.md", "\n" + "word. " * 20_000, "README.md and docs/*.md have"),
    *[
        (name, f"\n{LONG}.\n", f"{name}: a sentence of 41 words")
        for name in (
            "README.md",
            "docs/SPEC.md",
            "docs/CLAIMS.md",
            "SECURITY.md",
            "CONTRIBUTING.md",
            "CHANGELOG.md",
            "vectors/README.md",
        )
    ],
    ("docs/SPEC.md", f"\nShort. {LONG}\nand it goes on. Short.\n", "docs/SPEC.md: a sentence of 45 words"),
    ("docs/SPEC.md", f"\n- {LONG}\n", "docs/SPEC.md: a sentence of 41 words"),
    ("docs/SPEC.md", f"\n1. {LONG}\n   and it goes on\n", "docs/SPEC.md: a sentence of 45 words"),
    ("docs/SPEC.md", f"\n| a | {LONG} |\n|---|---|\n", "docs/SPEC.md: a sentence of 41 words"),
    ("docs/SPEC.md", f"\n> {LONG}\n", "docs/SPEC.md: a sentence of 41 words"),
    ("docs/SPEC.md", "\n[a](nothing.md)\n", "docs/SPEC.md: nothing.md is not there"),
    ("README.md", "\n| [`a`](docs/NOTHING.md) |\n", "README.md: docs/NOTHING.md is not there"),
    ("README.md", "\n![a](docs/nothing.png)\n", "README.md: docs/nothing.png is not there"),
    (
        "docs/CLAIMS.md",
        "\n[a](SPEC.md#nothing-of-that-name)\n",
        "docs/CLAIMS.md: SPEC.md#nothing-of-that-name is not there",
    ),
    ("docs/CLAIMS.md", "\n`checks/docs/nothing.py`\n", "docs/CLAIMS.md: checks/docs/nothing.py is not there"),
    ("docs/CLAIMS.md", "\n`docs/NOTHING.md`\n", "docs/CLAIMS.md: docs/NOTHING.md is not there"),
    ("docs/CLAIMS.md", "\n(`docs/SPEC.md`, 99.9)\n", "docs/CLAIMS.md: docs/SPEC.md, 99.9 is not there"),
    (
        "docs/CLAIMS.md",
        '\n(`docs/SPEC.md`, "No such part")\n',
        "docs/CLAIMS.md: docs/SPEC.md, No such part is not there",
    ),
    ("VERSION", (r"^.*", "9.9.9"), "but VERSION says 9.9.9"),
    *[
        (name, (pattern, "9.9.9"), f"{name}: it says version 9.9.9")
        for name, pattern in (
            ("crates/road_tell/src/usage.rt", r'(?<=VERSION: &str = ")[^"]*'),
            ("CHANGELOG.md", r"(?<=^## )\S+"),
            ("README.md", r"(?<=gogbetiku-)\d\S*?(?=-x86_64)"),
            ("bindings/gogbetiku.h", r'(?<=GOG_VERSION ")[^"]*'),
            ("bindings/python/gogbetiku/__init__.py", r'(?<=__version__ = ")[^"]*'),
            ("web/route_check.mjs", r'(?<=VERSION = ")[^"]*'),
            ("web/package.json", r'(?<="version": ")[^"]*'),
            ("bindings/rust/Cargo.toml", r'(?<=^version = ")[^"]*'),
        )
    ],
    (
        "crates/road_tell/src/usage.rt",
        (r'(?<=KIT: &str = ")[^"]*', "another kit"),
        "it names another toolchain than SUMS",
    ),
    ("SUMS", (r"^# .*", "# another kit"), "it names another toolchain than SUMS"),
    (
        "README.md",
        (r"(?<=Proved\*\* with `)[^`]*", "another kit"),
        "README.md: it does not say that it is proved with the toolchain",
    ),
    ("out/planted", "octets", "out/planted: Git tracks a file under out/"),
    ("reference/.mypy_cache/planted", "octets", "reference/.mypy_cache/planted: Git tracks a file under .mypy_cache/"),
    ("crates/road_proof/out/planted", "octets", "crates/road_proof/out/planted: Git tracks a file under out/"),
]


def git(folder: str, *words: str) -> None:
    subprocess.run(["git", *words], cwd=folder, check=True, capture_output=True)


def told(folder: str) -> tuple[int, str]:
    run = subprocess.run(
        [sys.executable, "checks/docs/sizes.py"], cwd=folder, capture_output=True, text=True, check=False
    )
    return run.returncode, run.stdout + run.stderr


def plant(path: str, what: str | tuple[str, str]) -> str | None:
    """Puts a fault into a file. Returns the former content, or None if the file did not exist."""
    before = None
    if os.path.exists(path):
        with open(path, encoding="utf-8") as file:
            before = file.read()
    os.makedirs(os.path.dirname(path), exist_ok=True)
    with open(path, "w", encoding="utf-8") as file:
        file.write(
            (before or "") + what
            if isinstance(what, str)
            else re.sub(what[0], what[1], before or "", count=1, flags=re.M)
        )
    return before


def undo(path: str, before: str | None) -> None:
    if before is None:
        os.remove(path)
    else:
        with open(path, "w", encoding="utf-8") as file:
            file.write(before)


def main() -> None:
    failed = 0
    with tempfile.TemporaryDirectory(prefix="planted-") as room:
        git(TOP, "clone", "-q", "--shared", TOP, f"{room}/tree")
        folder = f"{room}/tree"
        # the scripts and documents of this tree
        listed = subprocess.run(
            ["git", "ls-files", "*.md", "checks/docs"], cwd=TOP, capture_output=True, text=True, check=True
        )
        for name in listed.stdout.split():
            shutil.copyfile(f"{TOP}/{name}", f"{folder}/{name}")
        if told(folder)[0] != 0:
            sys.exit(f"checks/docs/planted.py: the tree does not pass as it is\n{told(folder)[1]}")
        for name, what, words in FAULTS:
            before = plant(f"{folder}/{name}", what)
            git(folder, "add", "-f", name)
            status, said = told(folder)
            if status == 0 or words not in said:
                print(f"{name}: {str(what)[:60]!r} is not reported as {words!r}")
                failed += 1
            undo(f"{folder}/{name}", before)
            git(folder, *(["rm", "-q", "--cached", name] if before is None else ["add", "-f", name]))
    print(f"{len(FAULTS) - failed} planted faults found, {failed} not")
    sys.exit(1 if failed else 0)


if __name__ == "__main__":
    main()
