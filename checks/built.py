#!/usr/bin/env python3
"""Tests ./build over a stand-in for rt: checks/built.py

It uses a copy of the tree with six small crates. It plays a whole build, a build with nothing to do, a build after a
change, a build that Ctrl-C and kill -9 stop and that continues, and builds in which a crate fails or is killed for lack
of memory. It also tests the messages without rt, with wrong arguments, with little memory and with little disk, and the
output of checks/times.py for such a build. Nothing is proved here, and no client trusts it. Ends with status 1 if
anything differs.
"""
import hashlib
import os
import pathlib
import random
import re
import shutil
import signal
import subprocess
import sys
import tempfile
import time

TOP = pathlib.Path(__file__).resolve().parent.parent
CRATES = "low:\nleft: low sha2\nright: low\nhigh: low left right\nroad_proof: low high\nlow_tests: low\n"
BELOW = {"low": "", "left": "low", "right": "low", "high": "low left right", "road_proof": "low left right high"}
# It takes a lower library as built if its stamp exists, treats each crate as the file FATE says, and writes a line for
# each call.
STAND_IN = """#!/usr/bin/env python3
import os, sys, time
if sys.argv[1:] == ["version"]:
    print("stand-in 1")
    sys.exit()
name = os.path.basename(os.getcwd())
fate = dict(line.split() for line in open("FATE"))
with open("CALLS", "a") as file:
    file.write(" ".join([name, *sys.argv[1:2]]) + " over " + " ".join(sorted(it for it in os.listdir("..") if os.path.exists(f"../{it}/out/rlib/stamp") and it != name)) + "\\n")
os.makedirs("out/incremental", exist_ok=True)
if fate.get(name) == "slow":
    time.sleep(60)
if fate.get(name) == "killed" and not os.path.exists("out/incremental/twice"):
    open("out/incremental/twice", "w").close()
    os.kill(os.getpid(), 9)
if fate.get(name) == "ended" and not os.path.exists("out/incremental/again"):
    open("out/incremental/again", "w").close()
    os.kill(os.getpid(), 15)
if fate.get(name) == "refused":
    print("fn " + name + "::f: not proved")
    sys.exit(1)
if sys.argv[1] == "lib":
    os.makedirs("out/rlib", exist_ok=True)
    open("out/rlib/stamp", "w").write(open("src/lib.rt").read())
else:
    open("out/road_proof", "w").write("#!/bin/sh\\n")
    os.chmod("out/road_proof", 0o755)
print("fn " + name + "::f: proved")
"""
faults: list[str] = []


class Tree:
    """A copy of the tree with small crates, and the stand-in on its path."""

    def __init__(self, room: pathlib.Path) -> None:
        self.top, self.bin, self.calls, self.fate = room / "tree", room / "bin", room / "calls", room / "fate"
        self.top.mkdir()
        self.bin.mkdir()
        shutil.copy(TOP / "build", self.top)
        (self.top / "HANDLES").write_text("Handles allowed: none.\n")
        (self.top / "crates.txt").write_text(CRATES)
        (self.top / "checks").mkdir()
        (self.top / "checks" / "times.txt").write_text("low 60\nleft 240\nright 30\nhigh 60\nroad_proof 30\n")
        for name in ("rt_once.py", "times.py"):
            shutil.copy(TOP / "checks" / name, self.top / "checks")
        shown = self.top / "checks" / "shown"
        shown.write_text("#!/bin/sh\necho shown\n")
        shown.chmod(0o755)
        for name in [*BELOW, "low_tests"]:
            (self.top / "crates" / name / "src").mkdir(parents=True)
            (self.top / "crates" / name / "src" / "lib.rt").write_text(name)
        rt = self.bin / "rt"
        rt.write_text(STAND_IN.replace("FATE", str(self.fate)).replace("CALLS", str(self.calls)))
        rt.chmod(0o755)
        self.path = f"{self.bin}:{os.environ['PATH']}"
        self.set()

    def set(self, **fates: str) -> None:
        """Sets the fate of the named crates from now on, and forgets earlier calls."""
        self.fate.write_text("".join(f"{name} {fate}\n" for name, fate in fates.items()))
        self.calls.write_text("")

    def called(self) -> list[str]:
        return sorted(line.split(" over")[0] for line in self.calls.read_text().splitlines())

    def start(self, *words: str, path: str | None = None) -> subprocess.Popen[str]:
        return subprocess.Popen(
            [sys.executable, "build", *words],
            cwd=self.top,
            env=dict(os.environ, PATH=path or self.path, RT_JOBS="2"),
            stdout=subprocess.PIPE,
            stderr=subprocess.PIPE,
            text=True,
            start_new_session=True,
        )

    def run(self, *words: str, path: str | None = None) -> tuple[int, str, str]:
        done = self.start(*words, path=path)
        out, said = done.communicate(timeout=300)
        return done.returncode, out, said

    def until_called(self, name: str) -> None:
        for _ in range(1200):
            if any(it.startswith(f"{name} ") for it in self.called()):
                return
            time.sleep(0.05)
        faults.append(f"{name} was never called")

    def left_over(self) -> list[str]:
        """The files that a build should not leave."""
        return [str(path) for path in (self.top / "out").glob("room/*/*")]


def holds(what: str, is_so: object, told: object = "") -> None:
    if not is_so:
        faults.append(f"{what}: {told}")


def of_whole_builds(tree: Tree) -> None:
    status, _, said = tree.run()
    lines = said.splitlines()
    holds("a whole build", status == 0 and os.access(tree.top / "out" / "road_proof", os.X_OK), said)
    holds(
        "a line for each crate",
        [line.split()[1].rstrip(",") for line in lines[1:-1]]
        in [["low", *middle, "high", "road_proof"] for middle in (["left", "right"], ["right", "left"])],
        said,
    )
    holds(
        "the crates that are left, and for how long",
        re.fullmatch(r"build: low, 4 left, about (a minute|\d+ minutes)", lines[1]) is not None,
        lines[1],
    )
    holds("the last crate leaves none", lines[-2] == "build: road_proof, 0 left", lines[-2])
    overs = dict(re.sub(" (lib|run)", "", line).split(" over ") for line in tree.calls.read_text().splitlines())
    holds(
        "each over all below it",
        overs == {name: " ".join(sorted(below.split())) for name, below in BELOW.items()},
        str(overs),
    )
    (tree.top / "SUMS").write_text(
        f"# stand-in 1\n{hashlib.sha256((tree.top / 'out' / 'road_proof').read_bytes()).hexdigest()}  crates/road_proof/out/road_proof\n"
    )
    holds(
        "no word of SUMS, where there is none",
        lines[-1] == "build: out/road_proof is proved and built; `rt ci` proves all of it from scratch",
        lines[-1],
    )
    rows = [line.split("\t") for line in (tree.top / "out" / "build.times").read_text().splitlines()]
    holds(
        "what each crate took",
        sorted(row[0] for row in rows) == sorted(BELOW) and all(len(row) == 7 and row[6] == "0" for row in rows),
        str(rows),
    )
    holds("the log", "== left\nfn left::f: proved\n" in (tree.top / "out" / "build.log").read_text(), "")
    tree.set()
    holds("nothing to do", tree.run() == (0, "", "") and not tree.called(), str(tree.called()))
    (tree.top / "crates" / "right" / "src" / "lib.rt").write_text("changed")
    status, _, said = tree.run()
    holds(
        "after a change, what it changes",
        status == 0 and tree.called() == ["high lib", "right lib", "road_proof run"],
        f"{tree.called()} {said}",
    )
    holds("its octets are those of SUMS", "proved and built, with the octets that SUMS names;" in said, said)
    holds("how many are proved already", "5 crates, of which 2 are proved already" in said, said)
    (tree.top / "crates" / "low_tests" / "src" / "lib.rt").write_text("changed")
    tree.set()
    holds("a crate that the program does not stand on", tree.run() == (0, "", "") and not tree.called(), "")
    status, out, said = tree.run("test")
    holds("./build test goes on to what it shows", (status, out, said) == (0, "shown\n", ""), out + said)


def of_times(tree: Tree) -> None:
    """Tests the output of checks/times.py for a build: `left` took longest, and the chain contains it."""
    rows = [
        ("low", 0, 10, 9.5),
        ("left", 10, 70, 100.25),
        ("right", 10, 30, 19),
        ("high", 75, 90, 15),
        ("road_proof", 90, 95, 5),
    ]
    times = tree.top / "times"
    times.write_text(
        "".join(
            f"{name}\t{began:.1f}\t{ended:.1f}\t{took:.1f}\t{at + 1}000\t1\t0\n"
            for at, (name, began, ended, took) in enumerate(rows)
        )
    )
    ran = subprocess.run(
        [sys.executable, "-B", "checks/times.py", "times"], cwd=tree.top, capture_output=True, text=True, check=False
    )
    words = [line.split() for line in ran.stdout.splitlines()]
    holds(
        "times of a build",
        ran.stdout.startswith("5 crates, 2.5 CPU minutes in 1.6 elapsed minutes, largest process 5.0 GB\n"),
        ran.stdout + ran.stderr,
    )
    holds(
        "the largest first",
        [it[-1] for it in words[3:8]] == ["left", "right", "high", "low", "road_proof"]
        and words[3][:3] == ["100", "60", "2000"],
        ran.stdout,
    )
    holds(
        "the chain, and what waited",
        [[it[0], it[2]] for it in words[10:]] == [["0", "low"], ["0", "left"], ["5", "high"], ["0", "road_proof"]],
        ran.stdout,
    )
    table = subprocess.run(
        [sys.executable, "-B", "checks/times.py", "--table", "times"],
        cwd=tree.top,
        capture_output=True,
        text=True,
        check=False,
    )
    holds(
        "the table of what crates took",
        table.stdout == "low 10\nleft 100\nright 19\nhigh 15\nroad_proof 5\n",
        table.stdout,
    )
    missing = subprocess.run(
        [sys.executable, "-B", "checks/times.py", "none"], cwd=tree.top, capture_output=True, text=True, check=False
    )
    holds(
        "no times", missing.stderr == "times.py: none: No such file or directory; ./build writes it\n", missing.stderr
    )


def of_stopped_builds(tree: Tree) -> None:
    for number in (signal.SIGINT, signal.SIGTERM, signal.SIGKILL):
        shutil.rmtree(tree.top / "out")
        for out in (tree.top / "crates").glob("*/out"):
            shutil.rmtree(out)
        tree.set(high="slow")
        running = tree.start()
        tree.until_called("high")
        running.send_signal(number)
        _, said = running.communicate(timeout=300)
        if number != signal.SIGKILL:
            holds(
                f"{number.name}: it says what to do",
                running.returncode == 130 and "type ./build again to continue" in said,
                said,
            )
        tree.set()
        status, _, said = tree.run()
        holds(
            f"{number.name}: it goes on where it was",
            status == 0 and tree.called() == ["high lib", "road_proof run"] and "3 are proved already" in said,
            f"{tree.called()} {said}",
        )
        holds(
            f"{number.name}: what a crate had kept of itself stays",
            (tree.top / "crates" / "high" / "out" / "incremental").is_dir(),
            "",
        )
        holds(f"{number.name}: nothing is left over", not tree.left_over(), str(tree.left_over()))


def of_stops_at_any_moment(tree: Tree) -> None:
    drawn = random.Random(5)
    for number in (signal.SIGINT, signal.SIGTERM, signal.SIGKILL) * 3:
        (tree.top / "crates" / "low" / "src" / "lib.rt").write_text(f"changed {drawn.random()}")
        running = tree.start()
        # (after its first line, when it has begun)
        assert running.stderr
        first = running.stderr.readline()
        time.sleep(drawn.uniform(0, 1.5))
        running.send_signal(number)
        _, said = running.communicate(timeout=300)
        is_told = running.returncode in (0, 130) or number == signal.SIGKILL and first
        holds(f"{number.name} at a drawn moment", is_told and "Traceback" not in said, f"{running.returncode} {said}")
        status, _, said = tree.run()
        holds(
            f"{number.name} at a drawn moment: it goes on",
            status == 0 and not tree.left_over(),
            said + str(tree.left_over()),
        )


def of_failures(tree: Tree) -> None:
    (tree.top / "crates" / "low" / "src" / "lib.rt").write_text("changed again")
    tree.set(left="refused")
    status, _, said = tree.run()
    holds(
        "a crate that is refused",
        status == 1
        and "fn left::f: not proved" in said
        and "build: left: not proved; out/build.log has the output of rt" in said,
        said,
    )
    holds(
        "none above it is tried",
        not any(it.startswith(("high", "road_proof")) for it in tree.called()),
        str(tree.called()),
    )
    tree.set(left="killed")
    status, _, said = tree.run()
    holds(
        "a crate that was killed is tried once more",
        status == 0
        and "left was killed, most likely for memory: once more" in said
        and tree.called().count("left lib") == 2,
        said,
    )

    (tree.top / "crates" / "right" / "src" / "lib.rt").write_text("changed again")
    tree.set(right="ended")
    status, _, said = tree.run()
    holds(
        "and one that somebody ended",
        status == 0 and "right was ended by signal 15: once more" in said and tree.called().count("right lib") == 2,
        said,
    )


def of_words(tree: Tree) -> None:
    status, out, said = tree.run("all")
    holds("wrong words", (status, out) == (2, "") and said == "build: type ./build, or ./build test\n", said)
    # a PATH with everything except the toolchain
    tools = tree.bin.parent / "tools"
    tools.mkdir()
    for name in ("python3", "sh", "setpriv"):
        (tools / name).symlink_to(shutil.which(name) or "/bin/false")
    status, out, said = tree.run(path=str(tools))
    holds(
        "no rt", (status, out) == (2, "") and said.count("\n") == 1 and "put its folder bin on the path" in said, said
    )


def of_room(tree: Tree) -> None:
    """Tests the messages of a machine with little memory and with little disk."""
    (tree.top / "crates" / "low" / "src" / "lib.rt").write_text("changed once more")
    tree.set()
    little = (
        "import importlib.machinery as m, importlib.util as u\n"
        "l = m.SourceFileLoader('build', 'build'); b = u.module_from_spec(u.spec_from_loader('build', l)); l.exec_module(b)\n"
        "b.free_memory, b.free_disk = lambda: 4_200_000_000, lambda: 5_100_000_000\nb.main([])\n"
    )
    done = subprocess.run(
        [sys.executable, "-c", little],
        cwd=tree.top,
        env=dict(os.environ, PATH=tree.path, RT_JOBS="2", PYTHONDONTWRITEBYTECODE="1"),
        capture_output=True,
        text=True,
        check=False,
        timeout=60,
    )
    lines = done.stderr.splitlines()
    holds(
        "little memory is said before it starts",
        lines[:1]
        == ["build: 4.2 GB of memory are free, and a process may take 3: 1 of 2 processors are used at a time"],
        done.stderr,
    )
    holds("and little disk", lines[1].startswith("build: 5.1 GB of disk are free, and it may take 13: "), done.stderr)
    holds("and it goes on", done.returncode == 0 and "5 crates" in lines[2], done.stderr)


def main() -> None:
    # a shell starts what stands before its & with this signal ignored, which the builds would inherit
    signal.signal(signal.SIGINT, signal.default_int_handler)
    with tempfile.TemporaryDirectory(prefix="built-") as room:
        tree = Tree(pathlib.Path(room))
        for part in (
            of_whole_builds,
            of_times,
            of_stopped_builds,
            of_stops_at_any_moment,
            of_failures,
            of_words,
            of_room,
        ):
            part(tree)
    print("\n".join(faults) if faults else "./build: as it should")
    sys.exit(1 if faults else 0)


if __name__ == "__main__":
    main()
