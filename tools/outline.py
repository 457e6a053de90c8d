"""Draws an outline around lines: squares of one size near the lines, and the borders of these squares as rings.

It is a drawing, and proves nothing. No client trusts it.
"""
import math
from collections import defaultdict
from itertools import pairwise

Point = tuple[float, float]
Square = tuple[int, int]
Ring = list[Point]

MOST_SQUARES = 400
AROUND = 1


def outline(lines: list[list[Point]], narrow: float, size: float = 0.0) -> list[list[Ring]]:
    """Polygons around lines: closed rings, each counterclockwise and followed by its holes. `size` is the side of a
    square in units of latitude; `narrow` of these make one unit of longitude. By default the size is half of the median
    length of a line."""
    size = max(size or _size_of(lines, narrow), 1e-9)
    squares: set[Square] = set()
    for line in lines:
        for square in _squares(line, narrow, size):
            squares.update(
                (square[0] + right, square[1] + up)
                for right in range(-AROUND, AROUND + 1)
                for up in range(-AROUND, AROUND + 1)
            )
    rings = [[(x * size / narrow, y * size) for x, y in ring] for ring in _rings(squares)]
    return _polygons(rings)


def _size_of(lines: list[list[Point]], narrow: float) -> float:
    """Half of the median length of a line, or more if the whole would have too many squares."""
    longs = sorted(sum(math.hypot((b[0] - a[0]) * narrow, b[1] - a[1]) for a, b in pairwise(line)) for line in lines)
    if not longs:
        return 1.0
    xs, ys = [point[0] * narrow for line in lines for point in line], [point[1] for line in lines for point in line]
    return max(longs[len(longs) // 2] / 2, (max(xs) - min(xs)) / MOST_SQUARES, (max(ys) - min(ys)) / MOST_SQUARES, 1e-9)


def _squares(line: list[Point], narrow: float, size: float) -> set[Square]:
    """The squares that a line crosses or nearly touches."""
    found = {(math.floor(x * narrow / size), math.floor(y / size)) for x, y in line}
    for a, b in pairwise(line):
        steps = math.ceil(2 * math.hypot((b[0] - a[0]) * narrow, b[1] - a[1]) / size)
        for step in range(1, steps):
            x, y = a[0] + (b[0] - a[0]) * step / steps, a[1] + (b[1] - a[1]) * step / steps
            found.add((math.floor(x * narrow / size), math.floor(y / size)))
    return found


def _rings(squares: set[Square]) -> list[Ring]:
    """The borders of the squares as rings, with the squares on the left. If two squares touch only at a corner, the
    ring stays at one of them."""
    behind: defaultdict[Square, list[Square]] = defaultdict(list)
    for x, y in squares:
        for beside, begins, ends in (
            ((x, y - 1), (x, y), (x + 1, y)),
            ((x + 1, y), (x + 1, y), (x + 1, y + 1)),
            ((x, y + 1), (x + 1, y + 1), (x, y + 1)),
            ((x - 1, y), (x, y + 1), (x, y)),
        ):
            if beside not in squares:
                behind[begins].append(ends)
    rings = []
    for first in sorted(behind):
        while behind[first]:
            rings.append(_ring(first, behind))
    return rings


def _ring(first: Square, behind: dict[Square, list[Square]]) -> Ring:
    """One ring from a corner on. It passes through the middles of the edges, which cuts corners. A straight run has two
    points."""
    corners = [first]
    here, there = first, behind[first].pop()
    while there != first:
        corners.append(there)
        here, there = there, _next(here, there, behind[there])
    middles = [((a[0] + b[0]) / 2, (a[1] + b[1]) / 2) for a, b in zip(corners, [*corners[1:], first])]
    kept = [
        spot
        for before, spot, after in zip([middles[-1], *middles], middles, [*middles[1:], middles[0]])
        if (spot[0] - before[0]) * (after[1] - spot[1]) != (spot[1] - before[1]) * (after[0] - spot[0])
    ]
    return [*kept, kept[0]]


def _next(here: Square, corner: Square, ways: list[Square]) -> Square:
    """The next step from a corner. Of two steps it takes the left one, which stays at the same square."""
    if len(ways) > 1:
        left = corner[0] - (corner[1] - here[1]), corner[1] + (corner[0] - here[0])
        if left in ways:
            ways.remove(left)
            return left
    return ways.pop()


def _area(ring: Ring) -> float:
    return sum(a[0] * b[1] - b[0] * a[1] for a, b in pairwise(ring)) / 2


def _polygons(rings: list[Ring]) -> list[list[Ring]]:
    """Each counterclockwise ring with its holes. A hole belongs to the innermost ring around it."""
    outer = sorted((ring for ring in rings if _area(ring) > 0), key=_area)
    found: list[list[Ring]] = [[ring] for ring in outer]
    for hole in (ring for ring in rings if _area(ring) < 0):
        next(polygon for polygon in found if is_inside(hole[0], polygon[0])).append(hole)
    return found


def is_inside(point: Point, ring: Ring) -> bool:
    """Whether a point is inside a ring."""
    found = False
    for a, b in pairwise(ring):
        if (a[1] > point[1]) != (b[1] > point[1]) and point[0] < (b[0] - a[0]) * (point[1] - a[1]) / (b[1] - a[1]) + a[
            0
        ]:
            found = not found
    return found
