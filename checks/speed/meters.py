"""Measures the costs of a `serve`, a command and a plain search, by CPU time or by instructions.

CPU time is the least of several runs. Instructions are counted by valgrind's callgrind, in the program and not in the
system. Other work on the machine does not change them, so one run is enough. Nobody trusts this module.
"""
import glob
import os
import re
import subprocess
import sys
import tempfile
from collections.abc import Callable, Sequence

from measure import Server, seconds
from needed import of_key

from common.runs import processor_seconds  # noqa: E402

CALLGRIND = ["valgrind", "--tool=callgrind"]


def nothing() -> None:
    """Does nothing before a run."""


class Timed:
    """Processor time."""

    what = "processor time"

    def __init__(self, runs: int) -> None:
        self.runs = runs

    def serve(self, program: str, publication: str, *more: str) -> "TimedServer":
        return TimedServer(program, publication, *more)

    def command(self, words: Sequence[str], before: Callable[[], None] = nothing, wanted: int = 0) -> float:
        """A run of a command that ends with this status."""
        costs = []
        for _ in range(5 * self.runs):
            before()
            costs.append(processor_seconds(words, silent=True, wanted=wanted))
        return min(costs)

    def search(self, floor: str, roads: str, kind: str) -> float:
        """A search of the file pairs.txt."""
        words = [floor, roads, "pairs.txt", kind, str(self.runs)]
        return int(subprocess.run(words, stdout=subprocess.PIPE, check=True).stdout) / 1e9

    def told(self, value: float) -> str:
        return seconds(value)


class TimedServer(Server):
    """A `serve` whose cost is CPU time."""

    def spent(self) -> float:
        return self.seconds()


class Counted:
    """Instructions."""

    what = "instructions"
    runs = 1

    def serve(self, program: str, publication: str, *more: str) -> "CountedServer":
        return CountedServer(program, publication, *more)

    def count(self, words: Sequence[str], *options: str, wanted: int = 0) -> float:
        done = subprocess.run(
            [*CALLGRIND, "--callgrind-out-file=/dev/null", *options, *words],
            stdout=subprocess.DEVNULL,
            stderr=subprocess.PIPE,
            check=False,
            text=True,
        )
        found = re.search(r"Collected : (\d+)", done.stderr)
        if found is None or done.returncode != wanted:
            sys.exit(f"{' '.join(words)}: status {done.returncode}: {done.stderr}")
        return int(found[1])

    def command(self, words: Sequence[str], before: Callable[[], None] = nothing, wanted: int = 0) -> float:
        before()
        return self.count(words, wanted=wanted)

    def search(self, floor: str, roads: str, kind: str) -> float:
        """A search of the file pairs.txt: each pair is searched once."""
        with open("pairs.txt", encoding="ascii") as file:
            pairs = sum(1 for _ in file)
        return self.count([floor, roads, "pairs.txt", kind, "0"], "--toggle-collect=searched") / pairs

    def told(self, value: float) -> str:
        for unit, size in (("M", 1e6), ("k", 1e3)):
            if value >= size:
                return f"{value / size:.3g} {unit}"
        return f"{value:.0f}"


class CountedServer(Server):
    """A `serve` under callgrind, which begins to count when `serve` is ready."""

    def __init__(self, program: str, publication: str, *more: str) -> None:
        quiet = ["-q", "--instr-atstart=no", "--callgrind-out-file=counted.%p"]
        super().__init__(program, publication, *more, under=[*CALLGRIND, *quiet])
        self.total = 0
        self.control("-i", "on")
        self.spent()

    def control(self, *asked: str) -> None:
        words = ["callgrind_control", *asked, str(self.child.pid)]
        subprocess.run(words, stdout=subprocess.DEVNULL, stderr=subprocess.DEVNULL, check=True)

    def spent(self) -> float:
        """The instructions so far. Each call takes a fraction of a second."""
        self.control("-d")
        for name in glob.glob(f"counted.{self.child.pid}.*"):
            with open(name, encoding="ascii") as file:
                found = re.search(r"^totals: (\d+)", file.read(), re.M)
            assert found
            self.total += int(found[1])
            os.remove(name)
        return self.total


Meter = Timed | Counted


def compression(meter: Meter, program: str) -> float:
    """The cost of a compression of the program's SHA-256, from `key h5`, which does little else."""

    def empty() -> None:
        if os.path.exists("owner.desk"):
            os.remove("owner.desk")

    here = os.getcwd()
    with tempfile.TemporaryDirectory() as folder:
        os.chdir(folder)
        cost = meter.command([program, "key", f"{here}/secret.hex", "h5"], empty)
        os.chdir(here)
    return cost / of_key(5)
