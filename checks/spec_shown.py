#!/usr/bin/env python3
"""Finds rules of docs/SPEC.md that no vector shows: checks/spec_shown.py

Each error that SPEC names must be the result of a vector. For each number in SPEC that is a bound, and for each order
of tests, reference/gogbetiku_wrong must have a way to be wrong that changes it, and a vector must catch that way.
caught.json names this vector, and checks/switched_off.py compares it with the vectors. The script reports a bound that
is missing from its list, and one that is no longer in SPEC. Nothing here is proved, and no client trusts it. Ends with
status 1 if a rule has no vector and no reason.
"""
import json
import pathlib
import re
import sys
from collections.abc import Iterator

TOP = pathlib.Path(__file__).resolve().parent.parent
SPEC = (TOP / "docs/SPEC.md").read_text(encoding="utf-8")
CAUGHT: dict[str, str] = json.loads((TOP / "reference/gogbetiku_wrong/caught.json").read_text(encoding="ascii"))
SHOWN = {name.split(", ", 1)[1] for name in CAUGHT}
BOUND = re.compile(
    r"\b(?:to|at most|up to|above|longer than|more than|from|below|least|after|last|or)\s+([\d,]*\d)(?![\d,]*[*^]|\.\d)"
)
LOWER = re.compile(r"\b([1-9][\d,]*) to [\d,]+")

# for each section and bound: the ways that change it, or, after `- `, the reason why it has no vector
LIMITS: dict[tuple[str, str], list[str]] = {
    ("2.1", "1"): ["lines are counted without those that are skipped"],
    ("2.2", "1"): ["an id of 0 is taken"],
    ("2.2", "65,536"): ['dimacs.py: raise Fault("TooMany", file)'],
    ("2.2", "524,288"): ['dimacs.py: raise Fault("TooMany", file)'],
    ("2.3", "65,536"): ["any count of nodes", 'road_files.py: raise Fault("TooMany", number)'],
    ("2.3", "262,144"): ["any count of roads", 'road_files.py: raise Fault("TooMany", number)'],
    ("2.3", "255"): ["256 neighbours", "254 neighbours"],
    ("3.1", "255"): ["256 arcs", "at most 32 arcs"],
    ("3.1", "1"): ["any border but 0 is one"],
    ("3.3", "1"): ["no node is counted"],
    ("3.3", "2,097,152"): ["- no header counts more pairs than 2,096,128, which is below it"],
    ("3.3", "2"): ["a fan-out of 1"],
    ("3.3", "32"): ["a fan-out above 32", "a fan-out of at most 16"],
    ("4.1", "1,452"): ["a longer signature is taken"],
    ("5.1", "1,577,836,800"): ["- no test of the program's: bindings/play_age.py holds the clients around it to it"],
    ("4.3", "1,024"): ["- the reference takes a minute for such a key; keys.json's neighbour great_keys has one"],
    ("4.3", "131,136"): ["- it follows from 1,024 slots"],
    ("4.3", "53"): ["- of the layout, which the images of desks show"],
    ("4.3", "63"): ["- of the layout, which the images of desks show"],
    ("4.3", "126"): ["a text may have 127 octets"],
    ("4.3", "64"): ["an area of 63 octets is open"],
    ("4.3", "1"): ["- of the order of device calls, which images do not show"],
    ("4.3", "52"): ["- of the order of device calls, which images do not show"],
    ("4.3", "106"): ["- of the look before a command that signs, whose bits checks/owner/bits.py turns"],
    ("4.3", "127"): ["- of the look before a command that signs, whose bits checks/owner/bits.py turns"],
    ("4.4", "1,452"): ["the longest signature is of the lesser height", "a longer signature is taken"],
    ("5.1", "1"): ["no landmark"],
    ("5.1", "5"): ["any order"],
    ("5.1", "2"): ["a fan-out of 1"],
    ("5.1", "32"): ["a fan-out above 32"],
    ("5.1", "64"): ["65 landmarks", "as many landmarks as 64, whatever the nodes"],
    ("5.1", "1,024"): ["1,025 columns and rows", "1,023 columns and rows", "1,025 nodes under FULL"],
    ("5.1", "16"): ["17 bits of a code", "15 bits of a code"],
    ("5.1", "65,534"): ["a threshold of 65,535", "a threshold of at most 65,533"],
    ("5.1", "2,048"): ["2,049 borders"],
    ("5.3", "65,535"): ["a code of no walk is the greatest of its bits"],
    ("5.3", "64"): ["63 candidates", "65 candidates"],
    ("6.1", "1"): ["no node is counted", "a step of 0"],
    ("6.1", "4"): ["any method is DIJ but 2 to 4"],
    ("6.1", "5"): ["any order"],
    ("6.1", "2"): ["a fan-out of 1"],
    ("6.1", "32"): ["a fan-out above 32"],
    ("6.1", "65,536"): ["at most 65,535 nodes"],
    ("6.1", "523,776"): ["pairs under every method"],
    ("6.1", "2,096,128"): ["pairs under every method"],
    ("6.1", "1,024"): [
        "headers.py: first = reader.number(8, FIRST[method])",
        "headers.py: second = reader.number(8, SECOND[method])",
    ],
    ("6.1", "64"): ["at most 32 landmarks", "headers.py: second = reader.number(8, SECOND[method])"],
    ("6.2", "1,452"): ["a longer signature is taken"],
    ("6.2", "65,536"): ["any count of nodes"],
    ("6.2", "262,144"): ["any count of roads"],
    ("6.3", "1"): ["a route of no id"],
    ("6.3", "65,536"): ["a route of at most 65,535 ids"],
    ("6.5", "4,194,304"): ["a frame may be one octet longer", "the longest frame is too long"],
    ("6.5", "15"): ["15 sessions", "17 sessions"],
    ("6.5", "1,000,000"): ["a frame more is taken", "a frame less is taken"],
    ("8.1", "2"): ["`NotAnswer` is told as malformed"],
    ("8.5", "22"): ["- it follows from 3.3"],
    ("10.1", "2"): ["- a parameter of the survey, whose lines show it"],
    ("10.2", "268,435,456"): ["- a vector would have 256 MB; checks/files/hostile.py plays long files"],
}
# orders of tests, by texts of SPEC, and the ways that exchange two tests
ORDERS: list[tuple[str, str, list[str]]] = [
    (
        "2.1",
        "stops at the first line with an error and reports that line's first error",
        ["words behind the third are ignored"],
    ),
    (
        "2.2",
        "The graph is read before the coordinates. Errors, in order",
        [
            "the coordinates are read first",
            "arcs without one back are told before the coordinates",
            "the range is told before a bad number",
        ],
    ),
    (
        "2.3",
        "The first that does is the answer",
        ["roads are looked at before nodes", "a road to itself is told before an unknown end"],
    ),
    (
        "3.4",
        "Then the cover must have exactly the number of digests",
        ["the count of digests is tested before the places"],
    ),
    ("4.1", "refused by the first of `BadKey`, `BadForm`, `NoMatch`", ["the form is told before the key"]),
    (
        "5.1",
        "the first setting out of range",
        ["the last setting out of range is told", "settings are told before a fault of the map"],
    ),
    ("5.2", "Pairs are listed by ascending first", ["pairs stand by their second id first"]),
    ("5.3", "Codes are in the order of picking", ["codes stand by the ids of their landmarks"]),
    (
        "6.5",
        "If several refusals apply, the first in the order",
        ["a session above 15 is told as not begun", "the signature is told before the version"],
    ),
    (
        "8.1",
        "The first failing test gives the answer",
        [
            "the version is tested behind the signature",
            "the signature is tested before the chain",
            "the cover is judged behind the items",
            "the pair tree is tested before the node tree",
            "the last bad link is told",
            "the reason is that of the first key",
        ],
    ),
    (
        "8.2",
        "The tests follow in order (`Judged`)",
        [
            "repeated ids are tested behind the route",
            "the end is tested before the hops",
            "all leaves of a route are looked for before its hops",
            "DIJ: a shorter way is told before a node without an item",
            "LDM: a shorter way is told before a node without an item",
            "HYP: an inner walk between the ends is told first",
            "HYP: the end's side is tested first",
            "HYP: the end's borders stand outside",
            "HYP: pairs without an item are told first",
            "HYP: borders are looked at by their lengths",
        ],
    ),
    (
        "8.2",
        "`MissingTuple` names the least id",
        ["the greatest id without an item is told", "the nearest id without an item is told"],
    ),
    ("8.2", "`MissingPair` names the lower id first", ["a missing pair is told in the order of the query"]),
    ("8.2", "Of two items for one pair the first counts", ["of two items for one pair the last counts"]),
    (
        "8.3",
        "the start, then the end, has an item",
        [
            "the end's item is tested first",
            "of the ends without an item the lesser is told",
            "the ends are tested before repeated ids",
        ],
    ),
    ("8.3", "Walks may have any length", ["DIJ: a way is told before a node without an item"]),
    ("8.4", "Then no id is in two items", ["nodes without an item are told before repeated ids"]),
    ("8.4", "by ascending id", ["nodes are listed by their distance"]),
    (
        "9.1",
        "The first case that holds is the answer (`Finds`)",
        [
            "the publication is looked at before the reply",
            "the key is looked for behind the reply",
            "another publication is told before a forgery",
            "the header is looked at before the links",
            "the last link that is forged is told",
        ],
    ),
    ("9.2", "it is the first chain where this text's digit", ["the last chain whose digit is less"]),
]


def sections() -> dict[str, str]:
    """The text of each numbered section."""
    parts = re.split(r"^#+ (\d+(?:\.\d+)?)[. ]", SPEC, flags=re.M)
    return dict(zip(parts[1::2], parts[2::2]))


def defined_names() -> set[str]:
    """The names of the definitions and structs of the crates, which SPEC gives in brackets."""
    found: set[str] = set()
    for path in (TOP / "crates").glob("*/specs/**/*.antt"):
        found.update(re.findall(r"pub (?:record |data )?(\w+)", path.read_text(encoding="utf-8")))
    for path in (TOP / "crates").glob("*/src/**/*.rt"):
        found.update(re.findall(r"pub (?:struct|enum) (\w+)", path.read_text(encoding="utf-8")))
    return found


def results() -> str:
    """All results of the vectors."""
    texts = []
    for path in sorted((TOP / "vectors").glob("*.json")):
        if not path.name.endswith((".schema.json", "_verify.json")):
            texts += [json.dumps(case["result"]) for case in json.loads(path.read_text(encoding="ascii"))["cases"]]
    return "\n".join(texts)


def faults_not_shown() -> Iterator[str]:
    named = set(re.findall(r"`([A-Z][a-z]+(?:[A-Z][a-z]+)*)[(` ]", SPEC))
    shown = set(re.findall(r"[A-Z][A-Za-z]+", results()))
    yield from (f"the fault {name} is the result of no vector" for name in sorted(named - shown - defined_names()))


def is_shown(section: str, way: str) -> bool:
    # a bound of a leaf or a header may be caught as a test that is left out, whose name has its module
    return f"{section}: {way}" in SHOWN or any(name.split(": ", 1)[-1] == way or name == way for name in SHOWN)


def not_shown(section: str, what: str, ways: list[str]) -> Iterator[str]:
    for way in ways:
        if way.startswith("- "):
            print(f"no vector shows {section}, {what}: {way[2:]}")
        elif not is_shown(section, way):
            yield f"{section}, {what}: no vector catches {way!r}"


def limits_not_shown() -> Iterator[str]:
    found = {
        (section, number)
        for section, text in sections().items()
        for number in (*BOUND.findall(text), *LOWER.findall(text))
        if not section.startswith("1.") and number != "0"
    }
    yield from (
        f"{section}: {number} bounds something, and stands in no list here"
        for section, number in sorted(found - LIMITS.keys())
    )
    yield from (f"{section}: {number} is no longer in SPEC" for section, number in sorted(LIMITS.keys() - found))
    for (section, number), ways in LIMITS.items():
        yield from not_shown(section, number, ways)


def orders_not_shown() -> Iterator[str]:
    texts = sections()
    for section, words, ways in ORDERS:
        if words not in texts[section]:
            yield f"{section}: SPEC no longer says {words!r}"
        yield from not_shown(section, words, ways)


def main() -> int:
    faults = [*faults_not_shown(), *limits_not_shown(), *orders_not_shown()]
    for fault in faults:
        print(fault)
    print(f"spec: {len(LIMITS)} bounds and {len(ORDERS)} orders of tests of SPEC, {len(faults)} without a vector")
    return 1 if faults else 0


if __name__ == "__main__":
    sys.exit(main())
