"""Selects the bends that a road's line needs, and writes the file of all bends, which is not signed.

No client trusts it: `shapes` says when such a line may be drawn. The selection is by D. Douglas and T. Peucker, "Algorithms
for the Reduction of the Number of Points Required to Represent a Digitized Line or its Caricature", Cartographica 10 (1973).
"""
import json
import math

from roads import Place

# metres in a degree of latitude; the largest allowed distance of a bend from its line is in metres
DEGREE = 111_195.0
# the limit of a reader of the file
MOST_POINTS = 10_000

Degrees = tuple[float, float]


def needed(line: list[Degrees], most: float) -> list[int]:
    """Returns which points of a line are kept, both ends included: each other point is at most the given number of
    metres from the straight piece that replaces it."""
    kept, open_pieces = {0, len(line) - 1}, [(0, len(line) - 1)]
    while open_pieces:
        first, last = open_pieces.pop()
        far, at = max(
            ((beside(line[at], line[first], line[last]), at) for at in range(first + 1, last)), default=(0.0, 0)
        )
        if last - first > 1 and far > most:
            kept.add(at)
            open_pieces += [(first, at), (at, last)]
    return sorted(kept)


def beside(point: Degrees, start: Degrees, end: Degrees) -> float:
    """The metres from a point to the straight piece between two others, on the plane that touches the earth there."""
    wide = math.cos(math.radians(start[1])) * DEGREE

    def flat(place: Degrees) -> Degrees:
        return ((place[0] - start[0] + 180) % 360 - 180) * wide, (place[1] - start[1]) * DEGREE

    (x, y), (east, north) = flat(point), flat(end)
    square = east * east + north * north
    share = min(1.0, max(0.0, (x * east + y * north) / square)) if square else 0.0
    return math.hypot(x - share * east, y - share * north)


def write(path: str, lines: dict[tuple[int, int], list[Place]], pushed: list[tuple[int, int]]) -> None:
    """Writes the lines that bend, by their ends, and the roads on which a cycle must be pushed in one direction."""
    with open(path, "w", encoding="utf-8") as file:
        rows = (
            f'"{a} {b}": {json.dumps(line)}' for (a, b), line in sorted(lines.items()) if 2 < len(line) <= MOST_POINTS
        )
        push = f'"push": {json.dumps([f"{a} {b}" for a, b in pushed])}, ' if pushed else ""
        file.write(f'{{"shapes": 1, {push}"lines": {{\n' + ",\n".join(rows) + "\n}}\n")
