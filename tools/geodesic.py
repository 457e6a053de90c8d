"""Distances on the ellipsoid of WGS 84: the inverse formula of T. Vincenty, "Direct and Inverse Solutions of
Geodesics on the Ellipsoid with Application of Nested Equations", Survey Review 23 (1975).

No client trusts it: the owner signs the lengths. It converges except between places on nearly opposite sides of the
earth. If it converges, its error is below a millimetre.
"""
from math import asin, atan, atan2, cos, radians, sin, sqrt, tan

EQUATOR = 6_378_137.0
FLATTENING = 1 / 298.257223563
POLE = EQUATOR * (1 - FLATTENING)
CLOSE = 1e-12
ROUNDS = 200
# the earth as a ball; a distance on it has an error of at most a hundredth
BALL = 6_371_000.0

Degrees = tuple[float, float]


def metres(start: Degrees, end: Degrees) -> float | None:
    """The distance in metres between two places, each a longitude and a latitude in degrees. None if the places are so
    nearly opposite that the formula fails."""
    if start == end:
        return 0.0
    apart = radians((end[0] - start[0] + 180) % 360 - 180)
    u1, u2 = (atan((1 - FLATTENING) * tan(radians(place[1]))) for place in (start, end))
    sin1, cos1, sin2, cos2 = sin(u1), cos(u1), sin(u2), cos(u2)
    turn = apart
    for _ in range(ROUNDS):
        sin_turn, cos_turn = sin(turn), cos(turn)
        sin_arc = sqrt((cos2 * sin_turn) ** 2 + (cos1 * sin2 - sin1 * cos2 * cos_turn) ** 2)
        if sin_arc == 0:
            return 0.0 if cos_turn > 0 else None
        cos_arc = sin1 * sin2 + cos1 * cos2 * cos_turn
        arc = atan2(sin_arc, cos_arc)
        sin_azimuth = cos1 * cos2 * sin_turn / sin_arc
        square = 1 - sin_azimuth**2
        middle = cos_arc - 2 * sin1 * sin2 / square if square > 1e-15 else 0.0
        bend = FLATTENING / 16 * square * (4 + FLATTENING * (4 - 3 * square))
        inner = arc + bend * sin_arc * (middle + bend * cos_arc * (2 * middle**2 - 1))
        before, turn = turn, apart + (1 - bend) * FLATTENING * sin_azimuth * inner
        if abs(turn - before) < CLOSE:
            return POLE * _stretched(square, arc, sin_arc, cos_arc, middle)
    return None


def _stretched(square: float, arc: float, sin_arc: float, cos_arc: float, middle: float) -> float:
    """The length on the ellipsoid whose short half axis is 1, for an arc on the sphere."""
    ratio = square * (EQUATOR**2 - POLE**2) / POLE**2
    a = 1 + ratio / 16384 * (4096 + ratio * (-768 + ratio * (320 - 175 * ratio)))
    b = ratio / 1024 * (256 + ratio * (-128 + ratio * (74 - 47 * ratio)))
    third = b / 6 * middle * (4 * sin_arc**2 - 3) * (4 * middle**2 - 3)
    return a * (arc - b * sin_arc * (middle + b / 4 * (cos_arc * (2 * middle**2 - 1) - third)))


def is_within(start: Degrees, end: Degrees, most: float) -> bool:
    """Whether the two places are at most `most` metres apart. The distance on the ball decides if it leaves no
    doubt."""
    east, north = radians(end[0] - start[0]) / 2, radians(end[1] - start[1]) / 2
    square = sin(north) ** 2 + cos(radians(start[1])) * cos(radians(end[1])) * sin(east) ** 2
    far = 2 * BALL * asin(min(1.0, sqrt(square)))
    if far * 0.99 > most or far * 1.01 <= most:
        return far <= most
    exact = metres(start, end)
    return exact is not None and exact <= most
