#!/usr/bin/env python3
"""Compares the crate for Rust and the package for Go with the library: bindings/play_more.py PROGRAM

It builds the library with bindings/build, and the crate and the package over it, in a folder outside the tree and
without a network. It runs their own tests, including those in the crate's documentation. Their results for the vectors,
and for honest and changed replies, must agree with the vectors and with the module for Python. It counts their lines,
and compares their names of the codes with the header's. It does the same for aarch64 under qemu, if its archive and the
compilers exist. A part that needs a missing program is `skipped`. Ends with status 1 if anything differs. Nobody trusts
this file."""

from __future__ import annotations

import json
import os
import pathlib
import re
import shutil
import subprocess
import sys
import tempfile
from collections.abc import Iterator
from typing import Any

HERE = pathlib.Path(__file__).resolve().parent
TOP = HERE.parent
CHANGED, MOST_LINES, MOST_OF_AGES = 600, 300, 60
CARGO = "/usr/bin/cargo" if os.path.exists("/usr/bin/cargo") else "cargo"
# Debian's, unless RUSTC names another, such as one that has its library for the board in another folder
RUSTC = os.environ.get("RUSTC", "/usr/bin/rustc" if CARGO == "/usr/bin/cargo" else "rustc")
BOARD = "aarch64-unknown-linux-gnu"
sys.path.insert(0, str(TOP / "web"))

# the program around the lines that docs/LIBRARY.md shows in Go
AROUND_GO = """package main

import (
	"fmt"
	"os"

	"gogbetiku"
)

func draw(nodes []gogbetiku.Node) { fmt.Println(nodes) }

func main() {
	text, _ := os.ReadFile(os.Args[1])
	reply, _ := os.ReadFile(os.Args[2])
	key, _ := gogbetiku.KeyOf(string(text))
%s}
"""
SHOWN_BY_GO = "[{1 0 0} {2 10 0} {3 20 0}]\n"
NODES = "Node { id: 1, x: 0, y: 0 }, Node { id: 2, x: 10, y: 0 }, Node { id: 3, x: 20, y: 0 }"
SHOWN_BY_RUST = f"Route(Route {{ nodes: [{NODES}], length: 9, version: 3 }})\n"

faults: list[str] = []


def same(what: str, seen: object, wanted: object) -> None:
    if seen != wanted:
        faults.append(f"{what}: {str(seen)[:300]}, and not {str(wanted)[:300]}")


def lacks(name: str, what: str) -> bool:
    if shutil.which(name) is None:
        print(f"skipped: {what}, since this machine has no {name}")
        return True
    return False


def run(what: str, *words: object, folder: pathlib.Path, **env: str) -> str:
    done = subprocess.run(
        [*map(str, words)], cwd=folder, capture_output=True, text=True, check=False, env={**os.environ, **env}
    )
    if done.returncode != 0:
        faults.append(f"{what}: status {done.returncode}\n{(done.stdout + done.stderr)[-2000:]}")
    return done.stdout


def written(program: str, library: pathlib.Path, folder: pathlib.Path) -> list[dict[str, Any]]:
    """Writes cases.txt with a case in each line. Returns the expected result of each."""
    from cases import Party, write_cases

    party = Party(program, library, folder / "party", TOP / "crates/road_proof/data/m1.roads")
    write_cases(party, folder, CHANGED)
    told: list[dict[str, Any]] = json.loads((folder / "cases.json").read_text())["cases"]
    octets = (folder / "cases.bin").read_bytes()
    # the files that the lines of docs/LIBRARY.md read
    (folder / "owner.key").write_text(party.key.hex() + "\n")
    (folder / "m1.reply").write_bytes(party.run("prove dij.pub 1 3"))
    with open(folder / "cases.txt", "w", encoding="ascii") as file:
        for case in told:
            reply = octets[case["at"] : case["at"] + case["octets"]].hex()
            line = [
                case["ask"],
                case["key"],
                case["chain"] or "-",
                case["from"],
                case["end"],
                case["least"],
                int(bool(case["simple"])),
                reply or "-",
            ]
            if case["ask"] == "nearest":
                line += [",".join(map(str, case["ids"])) or "-", 65_536 if case["count"] is None else case["count"]]
            file.write(" ".join(map(str, line)) + "\n")
    return told


def shown_in(language: str) -> str:
    """The three lines of docs/LIBRARY.md that use the crate or the package."""
    found = re.findall(rf"^```{language}\n(.*?)^```", (TOP / "docs/LIBRARY.md").read_text(), re.M | re.S)
    same(f"LIBRARY's lines in {language}", [text.count("\n") for text in found], [3])
    return str(found[0]) if found else ""


def is_told(said: str, told: dict[str, Any]) -> bool:
    """Whether a line has everything that a case gives. The vectors give no places, and a line with its line end."""
    code, rest = said.split(" ", 1)
    if int(code) != int(told["code"]):
        return False
    if code in ("2", "19"):
        return rest == str(told["version"])
    if code == "1":
        version, length, *nodes = rest.split(" ")
        wanted = [",".join(map(str, node)).rstrip(",") for node in told.get("nodes", [])]
        is_length = length in ("-", str(told.get("inside", told.get("length", length))))
        is_whole = nodes == wanted if "inside" in told else bool(nodes) and nodes == (wanted or nodes)
        return version == str(told["version"]) and is_length and is_whole
    first, second, texts = rest.split(" ", 2)
    kind, line, sentence = texts.split("|")
    seen = {"first": first, "second": second, "kind": kind, "line": line, "sentence": sentence}
    return all(seen[name] == str(told[name]).rstrip("\n") for name in seen if name in told)


def compare(what: str, said: str, cases: list[dict[str, Any]]) -> None:
    lines = said.splitlines()
    same(f"{what}: how many cases", len(lines), len(cases))
    differ = [(line, case["said"]) for line, case in zip(lines, cases) if not is_told(line, case["said"])]
    same(f"{what}: cases that differ", differ[:3], [])
    same(f"{what}: codes", {"1", "2", "19"} <= {line.split()[0] for line in lines}, True)


def rust(room: pathlib.Path, library: pathlib.Path, cases: list[dict[str, Any]]) -> None:
    if lacks(CARGO, "the crate for Rust"):
        return
    env = {
        "CARGO_TARGET_DIR": str(room / "target"),
        "GOGBETIKU_LIB": str(library),
        "LD_LIBRARY_PATH": str(library),
        "CARGO_NET_OFFLINE": "true",
        "RUSTC": RUSTC,
    }
    if CARGO == "/usr/bin/cargo":
        env["RUSTDOC"] = "/usr/bin/rustdoc"
    crate = room / "rust"
    shutil.copytree(HERE / "rust", crate)
    shown = f"fn main() -> Result<(), Box<dyn std::error::Error>> {{\n{shown_in('rust')}Ok(())\n}}\n"
    (crate / "examples/shown.rs").write_text(shown)
    tests = run("the crate's tests", CARGO, "test", "--offline", "--release", folder=crate, **env)
    # the tests in the documentation and in tests/
    same("the crate's tests", [count != "0" for count in re.findall(r"ok\. (\d+) passed", tests)][-2:], [True, True])
    run("the crate's example", CARGO, "build", "--offline", "--release", "--example", "cases", folder=crate, **env)
    compare("rust", run("rust", room / "target/release/examples/cases", room / "cases.txt", folder=room, **env), cases)
    said = run(
        "what LIBRARY shows in Rust",
        CARGO,
        "run",
        "-q",
        "--offline",
        "--release",
        "--example",
        "shown",
        "--manifest-path",
        crate / "Cargo.toml",
        folder=room,
        **env,
    )
    same("what LIBRARY shows in Rust", said, SHOWN_BY_RUST)
    static = {**env, "GOGBETIKU_STATIC": "1"}
    run("the crate, static", CARGO, "build", "--offline", "--release", "--example", "cases", folder=crate, **static)
    del static["LD_LIBRARY_PATH"]
    compare(
        "rust, static",
        run("rust, static", room / "target/release/examples/cases", room / "cases.txt", folder=room, **static),
        cases,
    )


def go(room: pathlib.Path, library: pathlib.Path, cases: list[dict[str, Any]]) -> None:
    if lacks("go", "the package for Go"):
        return
    package = room / "go"
    shutil.copytree(HERE / "go", package)
    env = go_env(room, library)
    run("go vet", "go", "vet", "./...", folder=package, **env)
    same("gofmt", run("gofmt", "gofmt", "-l", ".", folder=package), "")
    tests = run("the package's tests", "go", "test", "-v", ".", folder=package, **env)
    same("the package's tests", tests.count("--- PASS"), 3)
    run("the package's program", "go", "build", "-o", room / "by_go", "./cases", folder=package, **env)
    (package / "shown").mkdir()
    (package / "shown/main.go").write_text(AROUND_GO % shown_in("go"))
    same(
        "what LIBRARY shows in Go",
        run(
            "what LIBRARY shows in Go",
            "go",
            "run",
            "./shown",
            room / "owner.key",
            room / "m1.reply",
            folder=package,
            **env,
        ),
        SHOWN_BY_GO,
    )
    compare("go", run("go", room / "by_go", room / "cases.txt", folder=room, **env), cases)


def go_env(room: pathlib.Path, library: pathlib.Path) -> dict[str, str]:
    # Go's own compiled library stays in Go's cache
    flags = {
        "CGO_ENABLED": "1",
        "CGO_CFLAGS": f"-O2 -I{HERE}",
        "CGO_LDFLAGS": f"-L{library}",
        "LD_LIBRARY_PATH": str(library),
    }
    return {**flags, "GOPROXY": "off", "GOFLAGS": "-mod=mod -buildvcs=false", "GO111MODULE": "on"}


def board(room: pathlib.Path, cases: list[dict[str, Any]]) -> None:
    """Tests the same over the library for aarch64, linked statically, under qemu."""
    if not (TOP / "crates/route_check_c/out/aarch64/libroute_check_c.a").exists():
        print("skipped: Rust and Go for aarch64, since bindings/archive has not made its archive")
        return
    if lacks("aarch64-linux-gnu-gcc", "Rust and Go for aarch64") or lacks("qemu-aarch64", "Rust and Go for aarch64"):
        return
    library = room / "aarch64"
    subprocess.run([HERE / "build", library, "aarch64"], check=True)
    (library / "libgogbetiku.so.0").unlink()
    some = room / "some.txt"
    some.write_text("".join(line + "\n" for line in (room / "cases.txt").read_text().splitlines()[::10]))
    if shutil.which("go"):
        env = {**go_env(room, library), "GOARCH": "arm64", "CC": "aarch64-linux-gnu-gcc"}
        run(
            "go, aarch64",
            "go",
            "build",
            "-ldflags",
            "-linkmode external -extldflags -static",
            "-o",
            room / "by_go_64",
            "./cases",
            folder=room / "go",
            **env,
        )
        compare("go, aarch64", run("go, aarch64", "qemu-aarch64", room / "by_go_64", some, folder=room), cases[::10])
    if not is_rust_of(BOARD):
        print(f"skipped: Rust for aarch64, since this machine's rustc has no {BOARD}")
        return
    env = {
        "CARGO_TARGET_DIR": str(room / "target"),
        "GOGBETIKU_LIB": str(library),
        "GOGBETIKU_STATIC": "1",
        "CARGO_NET_OFFLINE": "true",
        "RUSTC": RUSTC,
        "CARGO_TARGET_AARCH64_UNKNOWN_LINUX_GNU_LINKER": "aarch64-linux-gnu-gcc",
    }
    env["CARGO_TARGET_AARCH64_UNKNOWN_LINUX_GNU_RUSTFLAGS"] = "-C target-feature=+crt-static"
    run(
        "rust, aarch64",
        CARGO,
        "build",
        "--offline",
        "--release",
        "--target",
        BOARD,
        "--example",
        "cases",
        folder=room / "rust",
        **env,
    )
    by_rust = room / "target" / BOARD / "release/examples/cases"
    compare("rust, aarch64", run("rust, aarch64", "qemu-aarch64", by_rust, some, folder=room), cases[::10])


def is_rust_of(target: str) -> bool:
    done = subprocess.run(
        [RUSTC, "--print", "target-libdir", "--target", target], capture_output=True, text=True, check=False
    )
    return done.returncode == 0 and any(pathlib.Path(done.stdout.strip()).glob("libstd-*"))


def codes_of(text: str, pattern: str) -> dict[str, int]:
    return {name: int(number) for name, number in re.findall(pattern, text, re.M)}


def named() -> None:
    """Tests that the crate and the package have the header's codes and names, and do not exceed their limits of
    lines."""
    header = (HERE / "gogbetiku.h").read_text().partition("enum gog_code {")[2].partition("};")[0]
    listed = {
        name.title().replace("_", ""): number
        for name, number in codes_of(header, r"GOG_([A-Z_]+) = (\d+)").items()
        if number > 2
    }
    same("the header's codes", sorted(listed.values()), [*range(3, 20), 32, 33, 34])
    del listed["NoneWithin"]
    crate, package = (HERE / "rust/src/lib.rs").read_text(), (HERE / "go/gogbetiku.go").read_text()
    same("the crate's kinds", codes_of(crate, r"^    (\w+) = (\d+),$"), listed)
    same(
        "the package's kinds",
        {name: number for name, number in codes_of(package, r"^\t(\w+) +Kind = (\d+)").items() if number},
        listed,
    )
    same("missing docs are errors", "#![deny(missing_docs)]" in crate, True)
    for language, ending in (("rust", "rs"), ("go", "go")):
        for ages, most in ((False, MOST_LINES), (True, MOST_OF_AGES)):
            lines = list(code_of(HERE / language, ending, ages))
            same(
                f"{language}: {len(lines)} lines{' on ages' * ages} without comments and tests",
                len(lines) <= most,
                True,
            )


def code_of(folder: pathlib.Path, ending: str, ages: bool) -> Iterator[str]:
    """The number of lines of code for the age of maps, or of all other lines, without comments, tests and examples."""
    for path in [*folder.glob(f"*.{ending}"), *folder.glob(f"src/*.{ending}")]:
        if not path.name.endswith("_test.go") and (path.stem == "age") == ages:
            yield from (
                line for line in path.read_text().splitlines() if line.strip() and not line.strip().startswith("//")
            )


def main(program: str) -> int:
    program = str(pathlib.Path(program).resolve())
    named()
    with tempfile.TemporaryDirectory() as name:
        room = pathlib.Path(name)
        library = room / "library"
        subprocess.run([HERE / "build", library], check=True)
        cases = written(program, library / "libgogbetiku.so.0", room)
        rust(room, library, cases)
        go(room, library, cases)
        board(room, cases)
    for fault in faults:
        print(fault)
    print(f"rust and go: {len(faults)} differ" if faults else "rust and go: they agree with the library")
    return 1 if faults else 0


if __name__ == "__main__":
    if len(sys.argv) != 2:
        print("bindings/play_more.py: name the program: bindings/play_more.py PROGRAM", file=sys.stderr)
        sys.exit(2)
    sys.exit(main(sys.argv[1]))
