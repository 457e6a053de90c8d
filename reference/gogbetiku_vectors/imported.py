"""Vectors in the form that libraries import, by the habits of Project Wycheproof: groups of tests under one public key,
each with a number, a comment, flags that say what is tested, and a result, `valid` or `invalid`, none `acceptable`.

One file for LMS alone, that any library of RFC 8554 can play; one for the client. Tested, not proved; no client trusts it.
"""
import json
from collections.abc import Callable, Iterator
from dataclasses import dataclass

from gogbetiku_reference.layout import IN_ANSWER, IN_RANGE_REPLY, METHOD

from .client import both, by_test, make_client, make_near
from .families import HEX, NUMBER, TEXT, WIDE, Case, Fields, listed, octets, one_of, record
from .signing import FIELDS, SIGNATURES
from .asking import turned

SEAL_NOTES = {
    "Standard": "of RFC 8554, Appendix F",
    "OwnKey": "by a key of this project's",
    "GreaterHeight": "of LMS_SHA256_M32_H10",
    "OtherText": "of another text",
    "KeyForm": "a public key of another length or type",
    "SignatureForm": "a signature of another length, type or number",
    "ModifiedSignature": "a bit of the signature is turned, or two values are swapped",
    "OtherKey": "under another key",
}
CLIENT_NOTES = {
    "Route": "a reply with a route",
    "NoRoute": "a reply by which no route exists",
    "Radius": "a reply on the nodes within a radius",
    "Dij": "under DIJ",
    "Full": "under FULL",
    "Ldm": "under LDM",
    "Hyp": "under HYP",
    "Chain": "with a chain of keys",
    "Form": "octets that can or cannot be read",
    "Seal": "versions, chains and signatures",
    "Cover": "items and covers, and ids in two items",
    "Judgement": "routes and their absence, judged by the items",
    "EveryTest": "each test under each method, for each kind of reply",
    "Width": "numbers of 32 and 64 bits and beyond",
    "Limit": "many items, ids, digests, arcs, landmarks or links",
    "Order": "two tests fail, or one fails twice",
    **{
        name: f"refused by {name}"
        for name in (
            "NotAnswer",
            "Malformed",
            "Stale",
            "BadChain",
            "BadSignature",
            "BadCover",
            "RepeatedNode",
            "BadRoute",
            "MissingTuple",
            "MissingPair",
            "Shorter",
            "Disagrees",
        )
    },
}
KINDS = {"00": "Route", "03": "NoRoute", "52": "Radius"}
METHODS = {1: "Dij", 2: "Full", 3: "Ldm", 4: "Hyp"}


@dataclass(frozen=True)
class Imported:
    """A file: its algorithm, its flags with their meanings, the fields of a group and of a test, and its groups."""

    name: str
    algorithm: str
    shows: str
    notes: dict[str, str]
    group: Fields
    test: Fields
    make: Callable[[], list[Fields]]

    def made(self) -> Fields:
        groups, number = self.make(), 0
        for test in (test for group in groups for test in group["tests"]):
            number += 1
            test["tcId"] = number
        return {
            "algorithm": self.algorithm,
            "schema": f"{self.name}.schema.json",
            "numberOfTests": number,
            "header": [self.shows],
            "notes": {flag: {"description": text} for flag, text in self.notes.items()},
            "testGroups": groups,
        }

    def text(self) -> str:
        """One test in each line."""
        made = self.made()
        groups = [
            json.dumps({**group, "tests": []})[:-2] + "\n" + ",\n".join(map(json.dumps, group["tests"])) + "\n]}"
            for group in made.pop("testGroups")
        ]
        return json.dumps(made)[:-1] + ', "testGroups": [\n' + ",\n".join(groups) + "\n]}\n"

    def schema(self) -> Fields:
        common = {
            "tcId": NUMBER,
            "comment": TEXT,
            "flags": listed(one_of(*self.notes)),
            "result": one_of("valid", "invalid"),
        }
        test = record({**common, **self.test.get("required", {})}, self.test.get("optional", {}))
        file = record(
            {
                "algorithm": {"const": self.algorithm},
                "schema": {"const": f"{self.name}.schema.json"},
                "numberOfTests": NUMBER,
                "header": listed(TEXT),
                "notes": {"type": "object", "additionalProperties": record({"description": TEXT})},
                "testGroups": listed(record({**self.group, "tests": listed(test)})),
            }
        )
        return {"$schema": "http://json-schema.org/draft-07/schema#", "title": self.shows, **file}


def grouped(rows: Iterator[tuple[tuple[str, ...], Fields]], head: Callable[[tuple[str, ...]], Fields]) -> list[Fields]:
    """Groups of tests by their common fields."""
    groups: dict[tuple[str, ...], list[Fields]] = {}
    for common, test in rows:
        groups.setdefault(common, []).append(test)
    return [{**head(common), "tests": tests} for common, tests in groups.items()]


def seal_flags(why: str, given: Fields, verdict: str) -> list[str]:
    found = ["Standard" if "RFC 8554" in why or "standard" in why else "OwnKey"]
    found += ["GreaterHeight"] if given["public"].startswith("00000006") else []
    if verdict == "BadKey":
        found.append("KeyForm")
    elif verdict == "BadForm":
        found.append("SignatureForm")
    elif verdict == "NoMatch":
        found.append(
            "OtherText" if "text" in why or "message" in why else "OtherKey" if "key" in why else "ModifiedSignature"
        )
    return found


def seal_tests() -> Iterator[tuple[tuple[str, ...], Fields]]:
    rows = [(case.why, case.given, case.result["verdict"]) for case in SIGNATURES.make()]
    for why, given, verdict in list(rows):
        if verdict == "valid" and len(given["signature"]) == 2 * 1292:
            rows += [
                (f"{why}: a bit of {field}", with_bit(given, bit), said)
                for field, begin, end, said in FIELDS
                for bit in (begin, end - 1)
            ]
    for why, given, verdict in rows:
        test = {
            "tcId": 0,
            "comment": why,
            "flags": seal_flags(why, given, verdict),
            "msg": given["text"],
            "sig": given["signature"],
            "result": "valid" if verdict == "valid" else "invalid",
            "cause": verdict,
        }
        yield (given["public"],), test


def with_bit(given: Fields, bit: int) -> Fields:
    return {**given, "signature": turned(octets(given["signature"]), bit // 8, 128 >> bit % 8).hex()}


SEALS = Imported(
    "lms_verify",
    "LMS",
    "Signatures of LMS (RFC 8554) with LMS_SHA256_M32_H5 or _H10 and LMOTS_SHA256_N32_W8: whether one is good under a public key on a message. `cause` says why not, by docs/SPEC.md, 4.1.",
    SEAL_NOTES,
    {"type": one_of("LmsVerify"), "publicKey": HEX},
    {"required": {"msg": HEX, "sig": HEX, "cause": one_of("valid", "BadKey", "BadForm", "NoMatch")}},
    lambda: grouped(seal_tests(), lambda common: {"type": "LmsVerify", "publicKey": common[0]}),
)


def client_flags(case: Case, themes: dict[int, str]) -> list[str]:
    reply, words = case.given["reply"], case.result["line"].split()
    found = [KINDS[reply[:2]]] if reply[:2] in KINDS else []
    # (two digits an octet)
    at = 2 * (METHOD + (IN_RANGE_REPLY if "radius" in case.given else IN_ANSWER))
    method = int(reply[at : at + 2] or "0", 16)
    found += [METHODS[method]] if found and method in METHODS else []
    found += ["Chain"] if case.given["chain"] else []
    found += [words[1]] if words[0] == "refused" else []
    found += [themes[id(case)]] if id(case) in themes else []
    return found


def themes_of() -> dict[int, str]:
    """The purpose of the cases of each sort."""
    return {id(case): theme for theme, cases in (*by_test().items(), *both()[2].items()) for case in cases}


def client_tests() -> Iterator[tuple[tuple[str, ...], Fields]]:
    themes = themes_of()
    for case in (*make_client(), *make_near()):
        given, result = case.given, case.result
        near = "radius" in given
        kind = "RadiusVerify" if near else "RouteVerify"
        ends = {"radius": given["radius"]} if near else {"to": given["to"]}
        test = {
            "tcId": 0,
            "comment": case.why,
            "flags": client_flags(case, themes),
            "from": given["from"],
            **ends,
            "least": given["least"],
            "reply": given["reply"],
            "result": "valid" if result["code"] in (1, 2) else "invalid",
            "line": result["line"],
        }
        yield (kind, given["public"], given["chain"]), test


CLIENT = Imported(
    "client_verify",
    "Gogbetiku",
    "What a client accepts: a reply to a query for a route or for the nodes within a radius, under a public key and a chain of keys. `line` is that of docs/SPEC.md, 10.",
    CLIENT_NOTES,
    {"type": one_of("RouteVerify", "RadiusVerify"), "publicKey": HEX, "chain": HEX},
    {
        "required": {"from": NUMBER, "least": WIDE, "reply": HEX, "line": TEXT},
        "optional": {"to": NUMBER, "radius": WIDE},
    },
    lambda: grouped(client_tests(), lambda common: dict(zip(("type", "publicKey", "chain"), common))),
)

IMPORTED = [SEALS, CLIENT]
