"""Shared by the scripts in this folder: the cost of a command, a `serve` that answers queries, and made-up maps.

All runs use one processor, one command after the other. The time of a command is the least CPU time of several runs.
Its memory is the peak of a separate run under GNU time, because a child's peak begins with the memory of a large
parent. Nobody trusts this module.
"""
import os
import re
import sys
import tempfile
from typing import Iterable, NamedTuple, Sequence

HERE = os.path.dirname(os.path.abspath(__file__))
TOP = os.path.dirname(os.path.dirname(HERE))
sys.path.insert(0, os.path.dirname(HERE))

from common import layout, maps  # noqa: E402
from common.desks import Desk  # noqa: E402
from common.runs import processor_seconds  # noqa: E402
from common.served import Served, ask, begin  # noqa: E402

PROGRAM = f"{TOP}/crates/road_proof/out/road_proof"
DOCUMENT = f"{TOP}/docs/BENCHMARKS.md"
GNU_TIME = "/usr/bin/time"


class Cost(NamedTuple):
    """CPU seconds, peak memory in megabytes (None if not measured), and octets of standard output."""

    seconds: float
    memory: float | None
    octets: int


def pin() -> None:
    """Restricts this process, and all processes that it starts from now on, to one processor."""
    os.sched_setaffinity(0, {max(os.sched_getaffinity(0))})


def note(*words: object) -> None:
    print(*words, file=sys.stderr, flush=True)


def run(words: Sequence[str], output: str, silent: bool = False) -> float:
    """Runs a program with its output in a file. Returns the CPU seconds. The script ends if the status is not 0."""
    return processor_seconds(words, output=output, silent=silent)


def memory_of(words: Sequence[str], output: str, silent: bool = False) -> float | None:
    if not os.path.exists(GNU_TIME):
        run(words, output, silent)
        return None
    with tempfile.NamedTemporaryFile("r", encoding="ascii") as told:
        run([GNU_TIME, "-q", "-f", "%M", "-o", told.name, *words], output, silent)
        return int(told.read()) / 1024


def cost(words: Sequence[str], output: str, runs: int) -> Cost:
    """The cost of a command: one run for its memory, then RUNS runs for its time."""
    memory = memory_of(words, output)
    return Cost(min(run(words, output) for _ in range(runs)), memory, os.path.getsize(output))


def costs(commands: Sequence[Sequence[str]], output: str, runs: int) -> list[Cost]:
    """The costs of several compared commands, which take turns."""
    memories = [memory_of(words, output, silent=True) for words in commands]
    rounds = [[run(words, output, silent=True) for words in commands] for _ in range(runs)]
    return [Cost(min(seconds), memory, 0) for seconds, memory in zip(zip(*rounds), memories)]


class Server(Served):
    """`serve` over a publication, with session 0 begun."""

    def __init__(self, program: str, publication: str, *more: str, under: Sequence[str] = ()) -> None:
        super().__init__(program, publication, *more, under=under)
        self.told(begin(0))

    def ask(self, start: int, end: int) -> bytes:
        """The reply to a query, as `prove` writes it."""
        return self.told(ask(0, start, end))[2:]

    def seconds_for(self, start: int, end: int, asks: int, runs: int) -> float:
        """The least CPU time of an answer, over runs of this many queries."""

        def once() -> float:
            before = self.seconds()
            for _ in range(asks):
                self.ask(start, end)
            return (self.seconds() - before) / asks

        return min(once() for _ in range(runs))


def owner(program: str, folder: str) -> None:
    """Makes a desk for 31 publications in a folder, as owner.desk and owner.key, with its secret. Changes to this folder."""
    os.chdir(folder)
    if os.path.exists("owner.desk"):
        os.remove("owner.desk")
    Desk(program).make_key()


def publishing(program: str, roads: str, settings: str) -> list[str]:
    """The command that publishes under "METHOD ORDER FAN P1 P2 P3"."""
    method, order, fan, *parameters = settings.split()
    return [program, "publish", roads, method, "1", order, "0", fan, *parameters]


def pairs_of(publication: str) -> int:
    """The number of pairs with a leaf."""
    with open(publication, "rb") as file:
        return int.from_bytes(file.read(layout.IN_PUBLICATION + layout.PAIR_ROOT)[-4:], "big")


def made(name: str, *words: str) -> str:
    """Writes a road file into the working folder, by the generator with this name."""
    path = os.path.abspath("-".join([name, *words]) + ".roads")
    if not os.path.exists(path):
        octets = maps.made(name, *words)
        with open(path, "wb") as file:
            file.write(octets)
    return path


def line_of(count: int) -> str:
    """The road file of a line of nodes, each 7 from the next."""
    path = os.path.abspath(f"line-{count}.roads")
    with open(path, "w", encoding="ascii") as file:
        file.write("roads 1\n")
        file.writelines(f"node {node} {node} 0\n" for node in range(1, count + 1))
        file.writelines(f"road {node} {node + 1} 7\n" for node in range(1, count))
    return path


def ids_of(roads: str) -> list[int]:
    """The ids of a road file, ascending."""
    with open(roads, encoding="ascii") as file:
        return sorted(int(line.split()[1]) for line in file if line.startswith("node"))


def processor() -> str:
    """The name of the processor, and its features that SHA-256 can use."""
    with open("/proc/cpuinfo", encoding="ascii") as file:
        said = file.read()
    name = re.search(r"model name\s*: (.*)", said)
    flags = set((re.search(r"flags\s*: (.*)", said) or ["", ""])[1].split())
    found = [flag for flag in ("sha_ni", "ssse3", "avx2", "bmi2") if flag in flags]
    return f"{name[1] if name else os.uname().machine}, with {', '.join(found)}{'' if 'sha_ni' in flags else ' and no sha_ni'}"


def put_tables(heading: str, tables: list[list[str]]) -> None:
    """Replaces the tables below a heading of docs/BENCHMARKS.md, in order, by the same number of new ones."""
    with open(DOCUMENT, encoding="utf-8") as file:
        text = file.read()
    start = text.index(f"\n## {heading}\n")
    end = text.find("\n## ", start + 1)
    front, section, back = (text[:start], text[start:], "") if end < 0 else (text[:start], text[start:end], text[end:])
    left = iter(tables)
    section, count = re.subn(r"(?m)(?:^\|.*\n)+", lambda _: "\n".join(next(left)) + "\n", section)
    if count != len(tables):
        sys.exit(f"docs/BENCHMARKS.md: below {heading} stand {count} tables, not {len(tables)}")
    with open(DOCUMENT, "w", encoding="utf-8") as file:
        file.write(front + section + back)


def is_busy() -> bool:
    """Whether other programs are using the machine now."""
    return os.getloadavg()[0] > 1.5


def table(head: Sequence[str], rows: Iterable[Sequence[str]]) -> list[str]:
    lines = ["| " + " | ".join(head) + " |", "|" + "---|" * len(head)]
    return lines + ["| " + " | ".join(row) + " |" for row in rows]


def seconds(value: float) -> str:
    """Seconds with two digits, in a suitable unit."""
    for unit, size in (("s", 1), ("ms", 1e-3), ("µs", 1e-6)):
        if value >= size or unit == "µs":
            shown = value / size
            return f"{shown:.0f} {unit}" if shown >= 10 else f"{shown:.1f} {unit}"
    return ""


def megabytes(value: float | None) -> str:
    return "-" if value is None else f"{value:.0f} MB"
