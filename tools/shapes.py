"""Reads the file of `--shapes`: the lines of roads between their ends, which are not signed.

    {"shapes": 1, "lines": {"12 15": [[30007715, 540044786], [30007801, 540044790], [30008000, 540045000]], ..}}

`"push": ["12 15", ..]` may be beside `lines`. It lists the one-way streets along which a cycle is pushed in one direction.
A line has both ends and all bends, from the node with the lower id to the node with the higher id, in the map's
coordinates. It is drawn only if its ends are at the places that another source gives. For lengths in metres and places
on earth, it must also be no longer than the road. No client trusts a line, and each tool that draws one says so.
"""
import json
import re
from itertools import pairwise

import geodesic
from roads import UNITS, Place, Trouble

Shapes = dict[tuple[int, int], list[Place]]

# how many units of a length make a metre
PER_METRE = {"metres": 1, "decimetres": 10, "centimetres": 100, "millimetres": 1000}
# how much longer a measured line may be: readers and writer use different formulas
SLACK = 1.000001
NAME = re.compile(r"(0|[1-9][0-9]{0,9}) ([1-9][0-9]{0,9})")


def read_shapes(path: str) -> Shapes:
    """The lines by their ends, the lower id first."""
    try:
        with open(path, encoding="utf-8") as file:
            whole = json.load(file)
    except (ValueError, RecursionError) as error:
        raise Trouble(f"{path}: not valid JSON: {error}") from None
    lines = whole.get("lines") if isinstance(whole, dict) and whole.get("shapes") == 1 else None
    if not isinstance(lines, dict):
        raise Trouble(f"{path}: not a file of shapes: it has no `lines`")
    found: Shapes = {}
    for name, line in lines.items():
        ends = NAME.fullmatch(name)
        if not ends or not _is_line(line) or int(ends[1]) >= int(ends[2]):
            raise Trouble(f"{path}: {name!r} does not name two nodes")
        found[int(ends[1]), int(ends[2])] = [(x, y) for x, y in line]
    return found


def read_pushed(path: str) -> set[tuple[int, int]]:
    """The one-way streets of the file on which a cycle is pushed against their direction."""
    with open(path, encoding="utf-8") as file:
        names = json.load(file).get("push", [])
    ends = [NAME.fullmatch(name) for name in names if isinstance(name, str)] if isinstance(names, list) else []
    return {(int(found[1]), int(found[2])) for found in ends if found}


def _is_line(line: object) -> bool:
    if not isinstance(line, list) or len(line) < 2:
        return False
    return all(
        isinstance(point, list) and len(point) == 2 and all(type(number) is int for number in point) for point in line
    )


def line_of(
    shapes: Shapes, ends: tuple[int, int], places: tuple[Place, Place], length: int, unit: str, lengths: str
) -> list[Place]:
    """The line of a road between two ends with these places: the shape if it may be drawn, otherwise the straight
    line."""
    is_turned = ends[0] > ends[1]
    line = shapes.get((min(ends), max(ends)), [])[:: -1 if is_turned else 1]
    if not line or (line[0], line[-1]) != places or is_longer(line, length, unit, lengths):
        return list(places)
    return line


def is_longer(line: list[Place], length: int, unit: str, lengths: str) -> bool:
    """Whether a line on earth is longer than a road's length. False if the place is not on earth or the length is not
    in metres."""
    scale = UNITS[unit]
    if scale is None or lengths not in PER_METRE:
        return False
    pieces = [geodesic.metres((a[0] / scale, a[1] / scale), (b[0] / scale, b[1] / scale)) for a, b in pairwise(line)]
    return None in pieces or sum(piece or 0.0 for piece in pieces) * PER_METRE[lengths] > length * SLACK
