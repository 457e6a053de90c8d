"""Asks the proved client about a reply: the only tool that knows its library.

It returns the answer that the client accepted, with the places of the nodes. The client reads these places from the
reply's leaves under the signed root. If no route joins two nodes, this file reads their places from the accepted reply.
A refused reply gives nothing. docs/LIBRARY.md says what the client's verdict guarantees. No client trusts this file.
Whoever runs it trusts that it asks the client.
"""
import argparse
import pathlib
import string
import sys
from dataclasses import dataclass
from typing import Any

from replies import APART, RADIUS, ROUTE, reply_of
from roads import Place, Trouble

TOP = pathlib.Path(__file__).resolve().parent.parent
LIBRARY = TOP / "crates/route_check_c/out/libgogbetiku.so.0"
sys.path.insert(0, str(TOP / "bindings/python"))


@dataclass(frozen=True)
class Question:
    """The query, and the key under which the answer must be signed. `end` is a radius if `reach` is set."""

    key: str
    reply: str
    start: int
    end: int
    least: int
    chain: str | None
    reach: bool
    library: str
    max_age: int | None = None


@dataclass(frozen=True)
class Accepted:
    """The accepted answer: the nodes of the route in order, or the nodes within the radius with their distances, or
    both ends if no route joins them. It also has each node's place and the version of the map."""

    kind: str
    nodes: list[int]
    places: dict[int, Place]
    version: int
    length: int = 0
    distances: dict[int, int] | None = None


def add_arguments(parser: argparse.ArgumentParser) -> None:
    parser.add_argument("--reach", action="store_true", help="the reply is to a range query, and TO is the radius")
    add_age(parser)
    parser.add_argument(
        "--library",
        default=str(LIBRARY),
        metavar="FILE",
        help="the proved client as bindings/build makes it (in crates/route_check_c/out)",
    )


def add_age(parser: argparse.ArgumentParser) -> None:
    parser.add_argument(
        "--max-age",
        type=age_of,
        metavar="AGE",
        help="the greatest age of the map by this machine's clock, such as 2d or 36h, if versions are dates",
    )


def age_of(word: str) -> int:
    """An age in seconds, read by the client's module."""
    from gogbetiku.age import seconds_of

    try:
        return seconds_of(word)
    except ValueError as error:
        raise argparse.ArgumentTypeError(str(error)) from None


def octets_of(path: str) -> bytes:
    return pathlib.Path(path).read_bytes()


def key_of(path: str) -> str:
    """The public key in a file of hex digits that `road_proof key` has written."""
    text = octets_of(path).decode("ascii", "replace").strip()
    if len(text) != 112 or not all(digit in string.hexdigits for digit in text):
        raise Trouble(f"{path}: not a public key in hex digits")
    return text


def places_of(nodes: list[Any]) -> dict[int, Place]:
    return {node.id: (node.x, node.y) for node in nodes}


def accepted(question: Question) -> Accepted:
    """Returns the answer that the client accepts. Raises a Trouble with the client's own line if it refuses the
    reply."""
    import gogbetiku

    if not pathlib.Path(question.library).exists():
        raise Trouble(
            f"{question.library}: the proved client is not there: bindings/archive and bindings/build make it (docs/LIBRARY.md)"
        )
    chain = octets_of(question.chain) if question.chain else b""
    client = gogbetiku.Client(key_of(question.key), chain, library=question.library, max_age=question.max_age)
    octets = octets_of(question.reply)
    check: Any = client.check_reach if question.reach else client.check_route
    try:
        found = check(octets, question.start, question.end, question.least)
    except gogbetiku.Refused as refusal:
        raise Trouble(f"{question.reply}: {refusal.line or refusal}") from None
    except ValueError as error:
        raise Trouble(str(error)) from None
    if isinstance(found, gogbetiku.NoRoute):
        places, ends = reply_of(octets, question.reply).places, [question.start, question.end]
        return Accepted(APART, ends, {node: places[node] for node in ends}, found.version)
    ids = [node.id for node in found.nodes]
    if isinstance(found, gogbetiku.Within):
        return Accepted(RADIUS, ids, places_of(found.nodes), found.version, distances=found.distances)
    return Accepted(ROUTE, ids, places_of(found.nodes), found.version, found.length)
