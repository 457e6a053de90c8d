"""Files of the DIMACS shortest path challenge, read as the parts of a map.

docs/SPEC.md, 2.2 DIMACS files. Part of the reference: tested, not proved, and trusted by no client.
"""
from collections import Counter
from collections.abc import Iterator, Sequence

from .faults import Fault
from .maps import MOST_NODES, MOST_ROADS, Parts
from .road_files import NumberReader, coordinate, lines_of, numbers_of, unsigned

GRAPH, PLACES = 1, 2
MOST_ARCS = 2 * MOST_ROADS

Arc = tuple[int, int, int]
Lines = Iterator[tuple[int, list[bytes]]]


def told_lines(text: bytes) -> Lines:
    """The lines that are not skipped."""
    return ((number, words) for number, words in lines_of(text) if words and not words[0].startswith(b"c"))


def problem(lines: Lines, file: int, begins: list[bytes], counts: int) -> tuple[int, ...]:
    """The counts of the problem line, which is the first line."""
    nothing: tuple[int, list[bytes]] = (0, [])
    number, words = next(lines, nothing)
    if words[: len(begins)] != begins or len(words) != len(begins) + counts:
        raise Fault("NoProblem", file)
    numbers = numbers_of(words[len(begins) :], (unsigned,) * counts)
    if numbers is None:
        raise Fault("BadNumber", file, number)
    if numbers[0] > MOST_NODES or (counts == 2 and numbers[1] > MOST_ARCS):
        raise Fault("TooMany", file)
    return numbers


def rows(lines: Lines, file: int, word: bytes, readers: Sequence[NumberReader], ids: int, nodes: int) -> Iterator[Arc]:
    """The numbers of each later line, of which the first `ids` are ids."""
    for number, words in lines:
        if words[0] != word or len(words) != 4:
            raise Fault("BadLine", file, number)
        numbers = numbers_of(words[1:], readers)
        if numbers is None:
            raise Fault("BadNumber", file, number)
        if any(not 1 <= node <= nodes for node in numbers[:ids]):
            raise Fault("Range", file, number)
        one, two, three = numbers
        yield one, two, three


def read_graph(text: bytes) -> tuple[int, list[Arc]]:
    """The number of nodes, and the arcs."""
    lines = told_lines(text)
    nodes, count = problem(lines, GRAPH, [b"p", b"sp"], 2)
    arcs = list(rows(lines, GRAPH, b"a", (unsigned, unsigned, unsigned), 2, nodes))
    if len(arcs) != count:
        raise Fault("Count", GRAPH)
    return nodes, arcs


def read_places(text: bytes, nodes: int) -> list[tuple[int, int, int]]:
    """The nodes with their places, by ascending id."""
    lines = told_lines(text)
    (count,) = problem(lines, PLACES, [b"p", b"aux", b"sp", b"co"], 1)
    places = list(rows(lines, PLACES, b"v", (unsigned, coordinate, coordinate), 1, count))
    if count != nodes or len(places) != count:
        raise Fault("Count", PLACES)
    repeated = [node for node, times in Counter(node for node, _, _ in places).items() if times > 1]
    if repeated:
        raise Fault("Repeated", min(repeated))
    return sorted(places)


def unpaired(arcs: list[Arc]) -> int | None:
    """The index of the first arc between two nodes that has no arc back."""
    all_arcs, so_far = Counter(arcs), Counter[Arc]()
    for index, (start, end, length) in enumerate(arcs):
        so_far[start, end, length] += 1
        if start != end and so_far[start, end, length] > all_arcs[end, start, length]:
            return index
    return None


def read_dimacs(graph: bytes, places: bytes) -> Parts:
    """The parts in a graph and its coordinates. Raises their first fault."""
    nodes, arcs = read_graph(graph)
    placed = read_places(places, nodes)
    index = unpaired(arcs)
    if index is not None:
        raise Fault("Unpaired", index)
    return Parts(tuple(placed), tuple(arc for arc in arcs if arc[0] < arc[1]))
