#!/usr/bin/env python3
"""Makes a road file from an OpenStreetMap extract: tools/osm_roads.py FILE.osm[.gz|.bz2|.pbf] > FILE.roads

Nodes are the places where ways meet or end; roads are the pieces of ways between them, with the way's length on the
ellipsoid. Standard error reports what was dropped or changed, one line for each reason.

No client trusts it: an owner looks at its output before signing it. docs/MAPS.md has a session with it.
"""
import argparse
from dataclasses import dataclass, replace
from typing import Iterator

import osm
import profiles
from network import COSTS, SMALLER, Line, Meetings, Network, Told, add_arguments, comments_of, network_of, write
from roads import MOST_NODES, OSM_LICENCE, Place, Trouble, command_line, end_of, write_table
from speeds import Speeds

TOOL = "osm_roads.py"


@dataclass(frozen=True, slots=True)
class Way:
    name: str
    nodes: tuple[int, ...]
    speed: float | None
    push: bool


class Extract:
    """The ways of an extract that a profile uses, and the nodes on these ways."""

    def __init__(self, path: str, profile: profiles.Profile, asked: argparse.Namespace, told: Told):
        self.path, self.profile, self.told = path, profile, told
        self.ferries, self.speeds = asked.ferries, Speeds(asked.speeds) if asked.speeds else None
        self.is_whole = not (asked.box or asked.around or asked.largest)
        self.ways: dict[int, Way] = {}
        self.meetings = Meetings()
        self.needed: set[int] = set()
        self.places: dict[int, Place] = {}
        self.closed: set[int] = set()
        osm.read_ways(path, self.take_way)
        osm.read_nodes(path, self.take_node)

    def take_way(self, way: int, tags: osm.Tags, nodes: list[int]) -> None:
        reason, where = profiles.refused(self.profile, tags, self.ferries), f"way {way}"
        if reason:
            self.told.add(f"ways dropped, {reason}", where)
        elif way in self.ways:
            raise Trouble(f"{self.path}: {where}: it occurs twice")
        else:
            self.tell(tags, where)
            speed = self.speeds.of(tags, where) if self.speeds else None
            self.ways[way] = Way(tags.get("name", ""), tuple(nodes), speed, self.is_held(tags, where))
            self.needed.update(nodes)
            self.count(self.ways[way])

    def tell(self, tags: osm.Tags, where: str) -> None:
        if profiles.is_ferry(tags):
            self.told.add("ferries taken, whose timetable no road file has", where)
        if profiles.unknown(self.profile, tags):
            self.told.add(
                f"ways taken, whose {profiles.unknown(self.profile, tags)} the table of tags does not know", where
            )

    def count(self, way: Way) -> None:
        """Refuses the extract as soon as its network will be too large for a road file. A held way may still be left
        out."""
        if self.is_whole and not way.push:
            self.meetings.take(way.nodes)
            if len(self.meetings.met) > MOST_NODES:
                raise Trouble(
                    f"{self.path}: its ways meet or end at more than the {MOST_NODES:,} nodes that a road file can hold: {SMALLER}"
                )

    def is_held(self, tags: osm.Tags, where: str) -> bool:
        """Whether a one-way street is used only if nothing else joins its ends. Reports a street that is used both
        ways."""
        if not profiles.is_one_way(self.profile, tags):
            return False
        if self.profile.both_ways:
            self.told.add("one-way ways taken both ways", where)
        elif profiles.goes_against(tags):
            self.told.add("one-way ways taken both ways, opposite for bicycles", where)
        elif profiles.is_roundabout(tags):
            self.told.add("one-way ways taken both ways, roundabouts", where)
        else:
            return True
        return False

    def take_node(self, node: int, place: Place, tags: osm.Tags) -> None:
        if node not in self.needed:
            return
        if node in self.places:
            raise Trouble(f"{self.path}: node {node}: it occurs twice")
        self.places[node] = place
        reason = profiles.blocked(self.profile, tags) if tags else None
        if reason:
            self.closed.add(node)
            self.told.add(f"nodes closed, {reason}", f"node {node}")

    def lines(self) -> Iterator[Line]:
        """The ways, each cut at its closed nodes. At such a node each piece ends at a point of its own."""
        self.origin: dict[int, int] = {}
        fresh = max(self.needed, default=0) + 1
        for way, found in sorted(self.ways.items()):
            line = Line(f"way {way}", (), found.name, speed=found.speed, push=found.push)
            piece: list[int] = []
            for node in found.nodes:
                if node not in self.places:
                    raise Trouble(f"{self.path}: way {way}: its node {node} is not in the file")
                if node not in self.closed:
                    piece.append(node)
                    continue
                for own in (fresh, fresh + 1):
                    self.origin[own], self.places[own] = node, self.places[node]
                if piece:
                    yield replace(line, keys=(*piece, fresh))
                piece = [fresh + 1]
                fresh += 2
            if len(piece) > 1 or len(found.nodes) < 2:
                yield replace(line, keys=tuple(piece))


def network_in(path: str, profile: str, asked: argparse.Namespace, told: Told) -> tuple[Network, dict[int, int]]:
    """The network of an extract, and the OSM id of each of its nodes."""
    extract = Extract(path, profiles.PROFILES[profile], asked, told)
    if not extract.ways:
        raise Trouble(f"{path}: it has no way for {profile}")
    network = network_of(path, list(extract.lines()), extract.places, asked, told)
    network.roads.comments = comments_of(f"made by tools/osm_roads.py for {profile}", asked.licence, asked)
    return network, {number: extract.origin.get(key, key) for number, key in network.keys.items()}


def main() -> None:
    parser = argparse.ArgumentParser(description="Makes a road file from an OpenStreetMap extract, on standard output.")
    parser.add_argument("extract", metavar="FILE", help=".osm, .osm.gz, .osm.bz2 or .osm.pbf")
    parser.add_argument("--profile", choices=profiles.PROFILES, default="walk", help="who goes there (walk)")
    parser.add_argument("--ferries", action="store_true", help="also take the ferries that the profile may use")
    parser.add_argument(
        "--cost", choices=COSTS, default="decimetres", help="the unit of lengths: decimetres, or seconds with --speeds"
    )
    parser.add_argument(
        "--speeds", metavar="FILE", help="the table of speeds, with --cost seconds: columns highway, surface and km/h"
    )
    parser.add_argument("--licence", default=OSM_LICENCE, help=f"the first comment line ({OSM_LICENCE})")
    add_arguments(parser)
    asked = parser.parse_args(command_line())
    if (asked.cost == "seconds") != bool(asked.speeds):
        parser.error("--cost seconds and --speeds FILE go together")
    told = Told()
    network, origin = network_in(asked.extract, asked.profile, asked, told)
    if asked.ids:
        write_table(
            asked.ids,
            ("node", "osm_node", "streets"),
            ((node, origin[node], "; ".join(network.streets[node])) for node in sorted(origin)),
        )
    network.write_shapes(asked.shapes)
    write(TOOL, network.roads, told, asked.cost)


if __name__ == "__main__":
    end_of(TOOL, main)
