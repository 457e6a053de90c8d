"""Shared by the tools: road files and their limits, the units of coordinates, and how a tool ends.

No client trusts this file: an owner looks at a tool's output before signing it, or the tool shows what the proved
client has accepted.
"""
import io
import os
import re
import sys
from collections import Counter
from dataclasses import dataclass, field
from typing import Callable, Iterable, TextIO

MOST_NODES = 65_536
MOST_ROADS = 262_144
MOST_NEIGHBOURS = 255
MOST_LENGTH = 2**32 - 1
OSM_LICENCE = "© OpenStreetMap contributors, ODbL"
DEGREE = 10_000_000
# the units of a coordinate in a road file: how many make a degree, or None on a plane
UNITS = {"1e-7": DEGREE, "1e-6": 1_000_000, "plane": None}
CONTROLS = re.compile("[\x00-\x1f\x7f-\x9f\u2028\u2029\u202a-\u202e\u2066-\u2069\ud800-\udfff]")

Place = tuple[int, int]


class Trouble(Exception):
    """An error in one line: the file, the element if there is one, and the cause."""


def plain(text: str) -> str:
    """A file's words in a form that is safe on a terminal: control characters, and characters that change the direction
    of text, are escaped as in Python."""
    return CONTROLS.sub(lambda found: found[0].encode("unicode_escape").decode(), text)


def command_line() -> list[str]:
    """The arguments of the command line for argparse. It would read `-74,40,-73,41` as an option, so a space is put in
    front of it."""
    return [f" {word}" if re.match(r"-[\d.]", word) else word for word in sys.argv[1:]]


def end_of(tool: str, main: Callable[[], None]) -> None:
    """Runs a tool. Writes an error as one line on standard error, and returns status 1."""
    try:
        main()
        sys.stdout.flush()
    except Trouble as trouble:
        sys.exit(f"{tool}: {plain(str(trouble))}")
    except BrokenPipeError:
        os.dup2(os.open(os.devnull, os.O_WRONLY), sys.stdout.fileno())
        sys.exit(1)
    except OSError as error:
        sys.exit(plain(f"{tool}: {error.filename or 'output'}: {error.strerror or error}"))


def output() -> TextIO:
    """Standard output, as UTF-8 whatever the locale."""
    if isinstance(sys.stdout, io.TextIOWrapper):
        sys.stdout.reconfigure(encoding="utf-8")
    return sys.stdout


@dataclass
class Roads:
    """A road file: its nodes by id, its roads as (a, b, length), and the text of its comment lines."""

    nodes: dict[int, Place] = field(default_factory=dict)
    roads: list[tuple[int, int, int]] = field(default_factory=list)
    comments: list[str] = field(default_factory=list)

    def neighbours(self) -> Counter[int]:
        """The number of neighbours of each node."""
        pairs = {(min(a, b), max(a, b)) for a, b, _ in self.roads}
        return Counter(node for pair in pairs for node in pair)

    def too_much(self) -> str | None:
        """What exceeds the limits of a road file, with the numbers."""
        if len(self.nodes) > MOST_NODES or len(self.roads) > MOST_ROADS:
            return (
                f"{len(self.nodes):,} nodes and {len(self.roads):,} roads are more than a road file holds, "
                f"{MOST_NODES:,} and {MOST_ROADS:,}"
            )
        node, count = max(self.neighbours().items(), key=lambda item: (item[1], -item[0]), default=(0, 0))
        if count > MOST_NEIGHBOURS:
            return f"{count:,} roads meet at node {node}, {self.nodes[node]}, but at most {MOST_NEIGHBOURS} are allowed"
        return None

    def write(self, file: TextIO) -> None:
        for comment in self.comments:
            file.write(f"# {plain(comment)}\n")
        file.write("roads 1\n")
        file.writelines("node %d %d %d\n" % (node, *place) for node, place in sorted(self.nodes.items()))
        file.writelines("road %d %d %d\n" % road for road in self.roads)


def read_roads(path: str) -> Roads:
    """Reads a road file by docs/SPEC.md."""
    found, titled = Roads(), False
    with open(path, encoding="utf-8", errors="replace") as file:
        for number, line in enumerate(file, 1):
            words = line.split()
            if not words:
                continue
            if words[0].startswith("#"):
                found.comments.append(plain(line.strip()[1:].strip()))
            elif not titled:
                titled = words == ["roads", "1"]
                if not titled:
                    raise Trouble(f"{path}: line {number}: not a road file: it lacks the title")
            else:
                _take(found, words, f"{path}: line {number}")
    if not titled:
        raise Trouble(f"{path}: not a road file: it lacks the title")
    return found


def _take(found: Roads, words: list[str], where: str) -> None:
    if len(words) != 4 or words[0] not in ("node", "road"):
        raise Trouble(f"{where}: neither a node nor a road with three numbers")
    try:
        a, b, c = map(int, words[1:])
    except ValueError:
        raise Trouble(f"{where}: a number cannot be read") from None
    if words[0] == "road":
        found.roads.append((a, b, c))
    elif a in found.nodes:
        raise Trouble(f"{where}: node {a} occurs twice")
    else:
        found.nodes[a] = (b, c)


def degrees(place: Place, unit: str, what: str) -> tuple[float, float]:
    """The longitude and latitude of a place. `what` names the place in an error."""
    scale = UNITS[unit]
    if scale is None:
        raise Trouble(f"{what}: its coordinates are on a plane, so they are not longitude and latitude")
    longitude, latitude = place[0] / scale, place[1] / scale
    if not (-180 <= longitude <= 180 and -90 <= latitude <= 90):
        raise Trouble(
            f"{what}: longitude {longitude}, latitude {latitude} is not a place on earth: is --unit {unit} right?"
        )
    return longitude, latitude


def write_table(path: str, columns: Iterable[str], rows: Iterable[Iterable[object]]) -> None:
    """Writes a table. Tabs separate the columns, and the first line names them."""
    with open(path, "w", encoding="utf-8") as file:
        for row in (columns, *rows):
            file.write("\t".join(plain(" ".join(str(word).split())) for word in row) + "\n")


def read_table(path: str) -> list[dict[str, str]]:
    """The rows of such a table, each by the names of its columns."""
    with open(path, encoding="utf-8", errors="replace") as file:
        lines = [[plain(word) for word in line.rstrip("\n").split("\t")] for line in file]
    if not lines or any(len(line) != len(lines[0]) for line in lines):
        raise Trouble(f"{path}: not a table of named columns separated by tabs")
    return [dict(zip(lines[0], line)) for line in lines[1:]]
