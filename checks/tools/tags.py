#!/usr/bin/env python3
"""Compares the table of tags with routino's: checks/tools/tags.py

Makes an extract with one way or one node for each kind of way, value of an access tag, barrier and ferry that either
table knows, and some that neither knows. Routino's `planetsplitter` reads it, and `filedumper` prints which ways and
nodes are open to people on foot and to bicycles; its profiles have speed 0 on kinds that they never use. Each
difference from tools/profiles.py must be one of DECIDED, whose words are in docs/MAPS.md, and each of these must occur.
Without routino (Debian: routino) it is skipped by name. Ends with status 1 if anything differs. No client trusts this
file.
"""
import argparse
import pathlib
import re
import shutil
import subprocess
import sys
import tempfile
import xml.etree.ElementTree as ElementTree
from collections.abc import Callable, Iterator
from dataclasses import dataclass

TOP = pathlib.Path(__file__).resolve().parents[2]
sys.path[:0] = [str(TOP / "tools"), str(TOP / "checks")]

import profiles  # noqa: E402
from common.looks import Looks  # noqa: E402

Tags = dict[str, str]
ROUTINO = pathlib.Path("/usr/share/routino")
MODES = {"walk": "foot", "cycle": "bicycle"}
ACCESS = ("foot", "bicycle", "vehicle", "motor_vehicle", "access")
# words of routino's rules that stand for several values of tags
CLASSES = {"foot_only", "not_wheeled", "no_horse", "no_motorised", "not_2plus_wheels"}
FREE: Tags = {}
UNKNOWN_KINDS = {"platform", "elevator", "via_ferrata", "raceway"}
WALLS = {"wall", "fence", "hedge", "ditch", "debris", "spikes", "guard_rail", "retaining_wall", "yes"}
STILES = set(
    "footgate horse_jump horse_stile kissing_gate squeeze squeeze_stile step_over stile turnstile v_stile".split()
)
LIFTED = set("bump_gate chain full-height_turnstile hampshire_gate jersey_barrier log rope".split())
OLD = set("access byway layby minor rest_area services trail unpaved unsurfaced walkway".split())
LOOKS = Looks()


@dataclass(frozen=True)
class Case:
    """A way, or a node at the end of an open street, with its tags."""

    is_way: bool
    tags: Tags


@dataclass(frozen=True)
class Difference:
    """Tags that only one of the tables opens to a profile."""

    profile: str
    is_ours: bool
    case: Case

    @property
    def kind(self) -> str:
        return self.case.tags.get("highway", "")

    @property
    def barrier(self) -> str:
        return self.case.tags.get("barrier", "")

    @property
    def values(self) -> set[str]:
        """The values of its access tags."""
        return {value for tag, value in self.case.tags.items() if tag in ACCESS}

    @property
    def is_ferry(self) -> bool:
        return profiles.is_ferry(self.case.tags)


# the words of docs/MAPS.md on each kind of difference, and the differences of that kind
DECIDED: dict[str, Callable[[Difference], bool]] = {
    "closes `destination`, `customers`": lambda it: it.is_ours and bool(it.values & {"destination", "customers"}),
    "`discouraged`, `dismount`, `unknown`": lambda it: it.is_ours
    and bool(it.values & {"discouraged", "dismount", "unknown"}),
    "and values that our tools report": lambda it: it.is_ours and bool(it.values & {"customer", "sometimes"}),
    "passes walls, fences and unknown barriers": lambda it: not it.is_ours and it.barrier in WALLS,
    "by cycle also chains, logs and the like": lambda it: not it.is_ours
    and it.profile == "cycle"
    and it.barrier in LIFTED,
    "never a `cycle_barrier`": lambda it: it.is_ours and it.profile == "cycle" and it.barrier == "cycle_barrier",
    "a stile for `access=yes`": lambda it: it.is_ours and it.profile == "cycle" and it.barrier in STILES,
    "At nodes it ignores `use_sidepath` and `military`": lambda it: not it.is_ours
    and not it.case.is_way
    and bool(it.values & {"use_sidepath", "military"}),
    "cycles but not walkers onto trunk roads": lambda it: it.kind in profiles.TRUNKS
    and it.is_ours == (it.profile == "walk"),
    "cycles off paths": lambda it: it.is_ours and it.profile == "cycle" and it.kind == "path",
    "takes bridleways": lambda it: not it.is_ours and it.kind == "bridleway",
    "obsolete kinds": lambda it: not it.is_ours and it.kind in OLD,
    "outlines of areas": lambda it: not it.is_ours and "area" in it.case.tags,
    "no `corridor` or `busway`": lambda it: it.is_ours and it.kind in {"corridor", "busway"},
    "walkers onto ferries for cycles": lambda it: not it.is_ours
    and it.profile == "walk"
    and it.is_ferry
    and it.case.tags.get("bicycle") == "yes",
    "general tags of ferries only if they are `yes`": lambda it: it.is_ours
    and it.is_ferry
    and not it.case.tags.keys() & set(MODES.values())
    and bool(it.values & {"designated", "official", "permissive", "public", "true"}),
    "no `vehicle` open what `access` closes": lambda it: it.is_ours
    and it.profile == "cycle"
    and {"vehicle", "access"} <= it.case.tags.keys(),
}


def cases() -> Iterator[Case]:
    rules = (ROUTINO / "tagging.xml").read_text(encoding="utf-8")
    ours = profiles.PROFILES.values()
    kinds = set(re.findall(r'k="highway" +v="(\w+)"', rules)) - {"ferry"} | UNKNOWN_KINDS
    barriers = set(re.findall(r'k="barrier" +v="([\w-]+)"', rules)) - CLASSES | WALLS
    values = set(re.findall(r'<if +v="(\w+)"', rules)) | {"yes", "sometimes"}
    values |= profiles.OPEN | profiles.RESTRICTED | profiles.OTHERS
    for kind in sorted(kinds.union(*(profile.taken | profile.asked for profile in ours))):
        for more in (FREE, {"foot": "yes"}, {"bicycle": "yes"}):
            yield Case(True, {"highway": kind, **more})
    for barrier in sorted(barriers.union(*(profile.passed for profile in ours))):
        for more in (FREE, {"foot": "yes"}, {"bicycle": "yes"}, {"access": "yes"}):
            yield Case(False, {"barrier": barrier, **more})
    for tag in ACCESS:
        for value in sorted(values):
            yield Case(True, {"highway": "residential", tag: value})
            yield Case(True, {"route": "ferry", tag: value})
            yield Case(False, {tag: value})
            yield Case(False, {"barrier": "gate", tag: value})
    for more in ({"area": "yes"}, {"motorroad": "yes"}, {"access": "no"}):
        for opened in (FREE, {"foot": "yes"}, {"bicycle": "yes"}, {"vehicle": "yes"}):
            yield Case(True, {"highway": "residential", **more, **opened})
    yield Case(True, {"route": "ferry"})


def extract_of(all_cases: list[Case]) -> str:
    """Each case is at its own latitude, a hundredth of a degree from the next."""
    nodes, ways = "", ""
    for number, case in enumerate(all_cases, 1):
        tags = "".join(f"<tag k='{key}' v='{value}'/>" for key, value in case.tags.items())
        first, second = 2 * number - 1, 2 * number
        nodes += f"<node id='{first}' lat='{number / 100:.7f}' lon='0'>{'' if case.is_way else tags}</node>"
        nodes += f"<node id='{second}' lat='{number / 100 + 0.001:.7f}' lon='0'/>\n"
        street = tags if case.is_way else "<tag k='highway' v='residential'/>"
        ways += f"<way id='{number}'><nd ref='{first}'/><nd ref='{second}'/>{street}</way>\n"
    return f"<osm version='0.6'>\n{nodes}{ways}</osm>\n"


def tags_of(element: ElementTree.Element) -> Tags:
    return {tag.attrib["k"]: tag.attrib["v"] for tag in element.iter("tag")}


class Routino:
    """Routino's result for an extract: the tags of its ways and nodes, by the number of the case."""

    def __init__(self, extract: str) -> None:
        with tempfile.TemporaryDirectory() as folder:
            (pathlib.Path(folder) / "tags.osm").write_text(extract, encoding="utf-8")
            at = [f"--dir={folder}", "--prefix=tags"]
            split = [
                "planetsplitter",
                *at,
                f"--tagging={ROUTINO / 'tagging.xml'}",
                "--prune-none",
                f"{folder}/tags.osm",
            ]
            subprocess.run(split, cwd=folder, capture_output=True, check=True)
            dump = ["filedumper", *at, "--dump-osm", "--no-super"]
            root = ElementTree.fromstring(subprocess.run(dump, capture_output=True, text=True, check=True).stdout)
        number_of = {node.attrib["id"]: float(node.attrib["lat"]) * 100 for node in root.iter("node")}
        self.nodes = {
            round(number_of[node.attrib["id"]]): tags_of(node)
            for node in root.iter("node")
            if abs(number_of[node.attrib["id"]] % 1 - 0.5) > 0.45
        }
        self.ways = {
            round(min(number_of[end.attrib["ref"]] for end in way.iter("nd"))): tags_of(way) for way in root.iter("way")
        }
        speeds = ElementTree.parse(ROUTINO / "profiles.xml")
        self.never = {
            (profile.attrib["transport"], speed.attrib["highway"])
            for profile in speeds.iter("profile")
            for speed in profile.iter("speed")
            if float(speed.attrib["kph"]) == 0
        }

    def opens(self, number: int, case: Case, mode: str) -> bool:
        if not case.is_way:
            return self.nodes[number].get(mode) != "no"
        way = self.ways.get(number, {})
        return way.get(mode) == "yes" and (mode, way["highway"]) not in self.never


def ours_opens(case: Case, profile: profiles.Profile) -> bool:
    if case.is_way:
        return profiles.refused(profile, case.tags, ferries=True) is None
    return profiles.blocked(profile, case.tags) is None


def differences(all_cases: list[Case]) -> Iterator[Difference]:
    routino = Routino(extract_of(all_cases))
    for number, case in enumerate(all_cases, 1):
        for name, mode in MODES.items():
            is_ours = ours_opens(case, profiles.PROFILES[name])
            if is_ours != routino.opens(number, case, mode):
                yield Difference(name, is_ours, case)


def main() -> None:
    argparse.ArgumentParser(description=__doc__.split("\n", 1)[0]).parse_args()
    if not all(map(shutil.which, ("planetsplitter", "filedumper"))) or not ROUTINO.exists():
        print("skipped: the table of tags beside routino's, since this machine has no routino")
        return
    all_cases = list(cases())
    found = list(differences(all_cases))
    for one in found:
        said = [words for words, holds in DECIDED.items() if holds(one)]
        LOOKS.holds(f"a decision on {one.case.tags} for {one.profile}, open {'here' if one.is_ours else 'there'}", said)
    page = " ".join((TOP / "docs/MAPS.md").read_text(encoding="utf-8").split())
    for words, holds in DECIDED.items():
        LOOKS.holds(f"docs/MAPS.md says: {words}", words in page)
        LOOKS.holds(f"it occurs: {words}", any(map(holds, found)))
    print(f"tags: {len(all_cases)} ways and nodes, {len(found)} differences")
    sys.exit(LOOKS.told("tags"))


if __name__ == "__main__":
    main()
