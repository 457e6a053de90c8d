"""Families of vectors: the purpose of a family, the form of its cases, and the reference's result for each.

Octets are hex, numbers that may need 64 bits decimal strings, other numbers JSON numbers. Tested, not proved; no client trusts it.
"""
from collections.abc import Callable, Iterator
from dataclasses import dataclass
from typing import Any

Fields = dict[str, Any]

# octets in hex; a name in braces stands for the octets with that name at the head of the file
HEX: Fields = {"type": "string", "pattern": r"^([0-9a-f]{2}|\{s[0-9]+\})*$"}
WIDE: Fields = {"type": "string", "pattern": "^(0|[1-9][0-9]*)$"}
NUMBER: Fields = {"type": "integer", "minimum": 0}
WHOLE: Fields = {"type": "integer"}
TEXT: Fields = {"type": "string"}
DIGEST: Fields = {"type": "string", "pattern": "^[0-9a-f]{64}$"}


def listed(items: Fields) -> Fields:
    return {"type": "array", "items": items}


def row(*items: Fields) -> Fields:
    """A list of just these."""
    return {"type": "array", "items": list(items), "minItems": len(items), "maxItems": len(items)}


def record(required: Fields, optional: Fields | None = None) -> Fields:
    return {
        "type": "object",
        "properties": {**required, **(optional or {})},
        "required": list(required),
        "additionalProperties": False,
    }


def one_of(*words: str) -> Fields:
    return {"enum": list(words)}


SPAN = row(NUMBER, NUMBER)


@dataclass
class Case:
    """One vector: its purpose, its input, and its result."""

    why: str
    given: Fields
    result: Fields


@dataclass
class Family:
    """A file of vectors. `run` computes the reference's result for an input; `slow` says that this takes a minute."""

    name: str
    shows: str
    given: Fields
    result: Fields
    run: Callable[[Fields], Fields]
    make: Callable[[], Iterator[Case]]
    slow: bool = False

    def made(self) -> Fields:
        """The content of the file."""
        cases = [
            {"id": f"{self.name}-{number:03}", "why": case.why, "given": case.given, "result": case.result}
            for number, case in enumerate(self.make(), 1)
        ]
        return {"shows": self.shows, "schema": f"{self.name}.schema.json", "cases": cases}

    def schema(self) -> Fields:
        """The JSON Schema of the file."""
        case = record(
            {
                "id": {"type": "string", "pattern": f"^{self.name}-[0-9]{{3,4}}$"},
                "why": TEXT,
                "given": self.given,
                "result": self.result,
            }
        )
        file = record(
            {
                "shows": {"const": self.shows},
                "schema": {"const": f"{self.name}.schema.json"},
                "signatures": {
                    "type": "object",
                    "additionalProperties": {"type": "string", "pattern": "^[0-9a-f]{2584}$"},
                },
                "cases": listed(case),
            }
        )
        return {"$schema": "http://json-schema.org/draft-07/schema#", "title": self.shows, **file}


def octets(digits: str) -> bytes:
    return bytes.fromhex(digits)


# octets that are repeated this many times
AGAIN = row(HEX, NUMBER)


def octets_again(given: Fields, name: str) -> bytes:
    """Octets, followed by those of `again`, repeated as it says."""
    piece, times = given.get("again", ["", 0])
    return octets(given[name]) + octets(piece) * int(times) + octets(given.get("then", ""))


def answered(run: Callable[[Fields], Fields], cases: list[tuple[str, Fields]]) -> Iterator[Case]:
    """Cases with the reference's results."""
    for why, given in cases:
        yield Case(why, given, run(given))
