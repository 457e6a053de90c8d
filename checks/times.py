#!/usr/bin/env python3
"""Prints the time that proofs take: checks/times.py [FILE | --crate NAME | --kept FOLDER]

    checks/times.py               each crate of the last ./build by CPU seconds, largest first, and the chain of crates
                                  that decided the elapsed time (out/build.times)
    checks/times.py FILE          the same for another such file
    checks/times.py --table FILE  the rows of checks/times.txt, from which ./build estimates the remaining time
    checks/times.py --crate NAME  checks one crate from scratch, with one job, and lists its functions and its files of
                                  lemmas and definitions by CPU seconds; the libraries below it must be built (./build)
    checks/times.py --kept FOLDER the most expensive functions and files of all crates of a tree, from files that its
                                  builds kept, in elapsed seconds; exact only if the machine was idle and each crate had
                                  one job

Run it by hand, best on an idle machine. The time of a function is the CPU time of the prover's processes between two
files that the prover keeps for successive modules, by the times of these files. Nothing is proved here, and no client
trusts it.
"""
import importlib.machinery
import importlib.util
import os
import re
import shutil
import subprocess
import sys
import tempfile
import time
from collections.abc import Callable
from typing import Any, NoReturn

TOP = os.path.dirname(os.path.dirname(os.path.abspath(__file__)))
TICKS = os.sysconf("SC_CLK_TCK")
# the number of a function's most expensive parts in a line, and the number of lines of a list
PARTS, LINES, KINDS = 3, 40, 12
# seconds by function or file, and by part
Spent = dict[str, dict[str, float]]


def stop(text: str) -> NoReturn:
    sys.exit(f"times.py: {text}")


def build_script() -> Any:
    """./build as a module, whose reading of crates.txt this script uses."""
    loader = importlib.machinery.SourceFileLoader("build", f"{TOP}/build")
    spec = importlib.util.spec_from_loader("build", loader)
    assert spec
    made = importlib.util.module_from_spec(spec)
    sys.dont_write_bytecode = True
    loader.exec_module(made)
    return made


# ---- the crates of a run


class Row:
    """The cost of one crate: its start and end in elapsed seconds, CPU seconds, and megabytes of its largest process."""

    def __init__(self, name: str, began: float, ended: float, took: float, memory: float) -> None:
        self.name, self.began, self.ended, self.took, self.memory = name, began, ended, took, memory


def rows_of(path: str) -> dict[str, Row]:
    """The rows of out/build.times. For a crate with several attempts: the last one, with the CPU seconds of all."""
    rows: dict[str, Row] = {}
    try:
        with open(path, encoding="utf-8") as file:
            lines = file.read().splitlines()
    except OSError as error:
        stop(f"{path}: {error.strerror}; ./build writes it")
    for line in lines:
        words = line.split("\t")
        if len(words) != 7:
            stop(f"{path}: no line of ./build: {line}")
        began, ended, took, memory = (float(it) for it in words[1:5])
        before = rows.get(words[0])
        rows[words[0]] = Row(
            words[0], began, ended, took + (before.took if before else 0.0), max(memory, before.memory if before else 0)
        )
    if not rows:
        stop(f"{path}: it has no line")
    return rows


def chain_of(rows: dict[str, Row], uses: dict[str, list[str]]) -> list[Row]:
    """The crates that decided the elapsed time: the one that ended last, of those below it the one that ended last, and so on."""
    last = max(rows.values(), key=lambda it: it.ended)
    chain = [last]
    while True:
        below = [rows[it] for it in uses.get(chain[0].name, []) if it in rows]
        if not below:
            return chain
        chain.insert(0, max(below, key=lambda it: it.ended))


def show_crates(path: str) -> None:
    rows = rows_of(path)
    uses = {it.name: [use.name for use in it.uses] for it in build_script().crates_of_program()}
    whole = sum(it.took for it in rows.values())
    clock = max(it.ended for it in rows.values()) - min(it.began for it in rows.values())
    print(
        f"{len(rows)} crates, {whole / 60:.1f} CPU minutes in {clock / 60:.1f} elapsed minutes, largest process {max(it.memory for it in rows.values()) / 1000:.1f} GB\n"
    )
    print("CPU seconds, elapsed seconds, MB of the largest process, crate")
    for it in sorted(rows.values(), key=lambda it: -it.took):
        print(f"{it.took:8.0f} {it.ended - it.began:6.0f} {it.memory:6.0f}  {it.name}")
    chain = chain_of(rows, uses)
    print(
        f"\nthe chain that decided the elapsed time, {len(chain)} crates: seconds of waiting for a processor, and of proving"
    )
    before = min(it.began for it in rows.values())
    for it in chain:
        print(f"{max(0.0, it.began - before):8.0f} {it.ended - it.began:6.0f}  {it.name}")
        before = it.ended


def show_table(path: str) -> None:
    for it in rows_of(path).values():
        print(f"{it.name} {it.took:.0f}")


# ---- the functions of a crate


class Watch:
    """The CPU seconds of all processes in a folder at each moment of a run."""

    def __init__(self, room: str) -> None:
        self.room = room
        self.moments: list[tuple[float, float]] = []

    def look(self) -> None:
        total = 0
        for pid in filter(str.isdigit, os.listdir("/proc")):
            try:
                if not os.readlink(f"/proc/{pid}/cwd").startswith(self.room):
                    continue
                with open(f"/proc/{pid}/stat", encoding="utf-8", errors="replace") as file:
                    total += sum(int(it) for it in file.read().rpartition(") ")[2].split()[11:15])
            except OSError:
                continue
        before = self.moments[-1][1] if self.moments else 0.0
        self.moments.append((time.time(), max(before, total / TICKS)))

    def at(self, moment: float) -> float:
        """The CPU seconds until a moment, interpolated between two measurements."""
        before = self.moments[0]
        for it in self.moments:
            if it[0] >= moment:
                part = (moment - before[0]) / (it[0] - before[0]) if it[0] > before[0] else 1.0
                return before[1] + max(0.0, min(1.0, part)) * (it[1] - before[1])
            before = it
        return before[1]


def room_for(build: Any, crate: Any, room: str) -> None:
    """A repository with one crate and the built libraries below it."""
    shutil.copy(f"{TOP}/HANDLES", room)
    with open(f"{room}/crates.txt", "w", encoding="utf-8") as file:
        file.writelines(f"{it.line}\n" for it in [*crate.below, crate])
    for it in [*crate.below, crate]:
        for name in it.sources():
            os.makedirs(os.path.dirname(f"{room}/{name}"), exist_ok=True)
            shutil.copyfile(f"{TOP}/{name}", f"{room}/{name}")
    for it in crate.below:
        if not build.read(f"{it.folder}/out/rlib/stamp"):
            stop(f"crates/{it.name} is not built: type ./build first")
        shutil.copytree(f"{it.folder}/out/rlib", f"{room}/crates/{it.name}/out/rlib")


def file_of(crate: Any, folder: str, path: str) -> str | None:
    """The file from which a module, or a part of it, is made."""
    while path:
        name = f"{folder}/{path.replace('.', '/')}.antt"
        if os.path.exists(f"{crate.folder}/{name}"):
            return name
        path = path.rpartition(".")[0]
    return None


def part_of(module: str, crate: Any, functions: list[str]) -> tuple[str, str]:
    """The function or file to which a module of the prover belongs, and its part."""
    library, _, path = module.partition(".")
    plain = path.replace(".fn.", ".") if ".fn." in path else path
    if library == f"Rattle-{crate.name}-proofs":
        own = next((it for it in functions if plain == it or plain.startswith(f"{it}.")), None)
        if own:
            return f"fn {own.replace('.', '::')}", plain[len(own) + 1 :].split(".")[0].split("-")[0] or "itself"
        file = file_of(crate, "proofs", path)
        if file:
            return file, "itself"
        return "types, impls and links", path.split(".")[0]
    if library == f"Rattle-{crate.name}-specs":
        file = file_of(crate, "specs", path)
        if file:
            return file, "itself"
        return "contracts and declared types", path.split(".")[0]
    return "exports of the crate", library


def modules_in(folder: str) -> list[tuple[float, str]]:
    """The modules that a check kept in a folder, each with its time, in that order."""
    files = [f"{at}/{name}" for at, _, names in os.walk(folder) for name in names if name.endswith(".oantt")]
    return sorted((os.stat(it).st_mtime, os.path.basename(it)[:-6]) for it in files)


def spent_in(crate: Any, kept: list[tuple[float, str]], at: Callable[[float], float]) -> Spent:
    """The share of each function and file in the time between two modules, by part."""
    # (each function has a module for its statement; a closure counts for the function around it)
    paths = {
        path
        for library, _, path in (module.partition(".") for _, module in kept)
        if library == f"Rattle-{crate.name}-proofs"
    }
    functions = sorted(
        (path[: -len(".Statement")].replace(".fn.", ".") for path in paths if path.endswith(".Statement")), key=len
    )
    spent: Spent = {}
    for (before, _), (moment, module) in zip(kept, kept[1:]):
        whole, part = part_of(module, crate, functions)
        parts = spent.setdefault(whole, {})
        parts[part] = parts.get(part, 0.0) + at(moment) - at(before)
    return spent


def show_functions(name: str) -> None:
    build = build_script()
    crate = next((it for it in build.crates_of_program() if it.name == name), None)
    if crate is None:
        stop(f"{name} is no crate that the program stands on")
    if shutil.which("rt") is None:
        stop(build.NO_RT)
    with tempfile.TemporaryDirectory(prefix="times-") as room:
        room_for(build, crate, room)
        at, watch = f"{room}/crates/{name}", Watch(room)
        with open(f"{room}/log", "w+", encoding="utf-8", errors="replace") as log:
            began = time.time()
            with subprocess.Popen(
                [sys.executable, "-B", f"{TOP}/checks/rt_once.py", "check", "--jobs", "1"],
                cwd=at,
                stdin=subprocess.DEVNULL,
                stdout=log,
                stderr=subprocess.STDOUT,
            ) as ran:
                while ran.poll() is None:
                    watch.look()
                    time.sleep(0.2)
            log.seek(0)
            said = log.read()
        if ran.returncode:
            stop(f"{name} is not proved:\n" + "\n".join(said.splitlines()[-5:]))
        kept = modules_in(f"{at}/out/incremental")
    first, last = watch.at(kept[0][0]), watch.moments[-1][1]
    spent = spent_in(crate, kept, watch.at)
    spent["before the first module"], spent["after the last module"] = {"": first}, {"": last - watch.at(kept[-1][0])}
    print(
        f"{name}: {last:.1f} CPU seconds in {watch.moments[-1][0] - began:.0f} elapsed seconds, {len(kept)} modules\n"
    )
    show_spent(spent)


def show_kept(folder: str) -> None:
    build = build_script()
    every: Spent = {}
    for crate in build.crates_of_program():
        kept = modules_in(f"{folder}/crates/{crate.name}/out/incremental")
        for whole, parts in (spent_in(crate, kept, lambda moment: moment) if kept else {}).items():
            every[f"{crate.name}: {whole}"] = parts
    if not every:
        stop(f"{folder}: no build has kept anything there")
    kinds: dict[str, float] = {}
    for whole, parts in every.items():
        for part, took in parts.items():
            kind = f"fn, {part}" if ": fn " in whole else whole.partition(": ")[2].partition("/")[0]
            kinds[kind] = kinds.get(kind, 0.0) + took
    print(f"{sum(kinds.values()) / 60:.1f} minutes between the modules of all crates\n")
    for kind, took in sorted(kinds.items(), key=lambda it: -it[1])[:KINDS]:
        print(f"{took:8.0f}  {kind}")
    print()
    show_spent(every)


def show_spent(spent: Spent) -> None:
    for whole, parts in sorted(spent.items(), key=lambda it: -sum(it[1].values()))[:LINES]:
        dear = [
            f"{part} {took:.1f}"
            for part, took in sorted(parts.items(), key=lambda it: -it[1])[:PARTS]
            if part not in ("", "itself") and took >= 0.05
        ]
        print(f"{sum(parts.values()):8.1f}  {whole}" + (f"  ({', '.join(dear)})" if dear else ""))


def main() -> None:
    words = sys.argv[1:]
    if words[:1] == ["--crate"] and len(words) == 2:
        show_functions(words[1])
    elif words[:1] == ["--kept"] and len(words) == 2:
        show_kept(words[1])
    elif words[:1] == ["--table"] and len(words) == 2:
        show_table(words[1])
    elif len(words) <= 1 and not "".join(words).startswith("-"):
        show_crates(words[0] if words else f"{TOP}/out/build.times")
    else:
        stop((__doc__ or "").splitlines()[0].partition(": ")[2])


if __name__ == "__main__":
    main()
