"""Road files, read and printed.

docs/SPEC.md, 2.1 Road files. Part of the reference: tested, not proved, and trusted by no client.
"""
import re
from collections.abc import Callable, Iterator, Sequence

from .faults import Fault
from .maps import MOST_NODES, MOST_ROADS, Parts

UNSIGNED = re.compile(rb"[0-9]+")
U32 = range(2**32)
MOST_DIGITS = 20
# reads a word as a number, or returns None
NumberReader = Callable[[bytes], int | None]


def lines_of(text: bytes) -> Iterator[tuple[int, list[bytes]]]:
    """The words of each line, by its number."""
    pieces = text.split(b"\n")
    if pieces[-1] == b"":
        pieces.pop()
    for number, line in enumerate(pieces, 1):
        words = line.removesuffix(b"\r").replace(b"\t", b" ").split(b" ")
        yield number, [word for word in words if word]


def unsigned(word: bytes, values: range = U32) -> int | None:
    """A number without a sign, one of `values`."""
    if not UNSIGNED.fullmatch(word) or len(word.lstrip(b"0")) > MOST_DIGITS:
        return None
    number = int(word.lstrip(b"0") or b"0")
    return number if number in values else None


def coordinate(word: bytes) -> int | None:
    """A number of 32 bits, with `-` before a negative one."""
    if not word.startswith(b"-"):
        return unsigned(word, range(2**31))
    number = unsigned(word[1:], range(2**31 + 1))
    return None if number is None else -number


def numbers_of(words: list[bytes], readers: Sequence[NumberReader]) -> tuple[int, ...] | None:
    """The numbers of these words, each by its reader; None if one is not a number in its range."""
    numbers = [reader(word) for reader, word in zip(readers, words)]
    known = tuple(number for number in numbers if number is not None)
    return known if len(known) == len(numbers) else None


FORMS: dict[bytes, tuple[NumberReader, NumberReader, NumberReader]]
FORMS = {b"node": (unsigned, coordinate, coordinate), b"road": (unsigned, unsigned, unsigned)}


def read_roads(text: bytes) -> Parts:
    """The parts in a road file. Raises its first fault."""
    lines = ((number, words) for number, words in lines_of(text) if words and not words[0].startswith(b"#"))
    title = next(lines, None)
    if title is None or title[1] != [b"roads", b"1"]:
        raise Fault("NoTitle")
    found: dict[bytes, list[tuple[int, int, int]]] = {b"node": [], b"road": []}
    for number, words in lines:
        if words[0] not in FORMS or len(words) != 4:
            raise Fault("BadLine", number)
        numbers = numbers_of(words[1:], FORMS[words[0]])
        if numbers is None:
            raise Fault("BadNumber", number)
        if len(found[words[0]]) == (MOST_NODES if words[0] == b"node" else MOST_ROADS):
            raise Fault("TooMany", number)
        one, two, three = numbers
        found[words[0]].append((one, two, three))
    return Parts(tuple(found[b"node"]), tuple(found[b"road"]))


def print_roads(parts: Parts) -> bytes:
    """The road file of parts."""
    lines = ["roads 1"]
    lines += ["node %d %d %d" % node for node in parts.nodes]
    lines += ["road %d %d %d" % road for road in parts.roads]
    return "".join(f"{line}\n" for line in lines).encode()
