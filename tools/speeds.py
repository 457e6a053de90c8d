"""Reads the owner's table of speeds on each kind of way, for maps whose lengths are seconds. No client trusts it.

Its columns, separated by tabs, are `highway`, `surface` and `km/h`. `*` matches any word, and a ferry's kind is `ferry`.
The most specific row for a way decides; a match of the kind counts before a match of the surface.
"""
from roads import Trouble, read_table

ANY = "*"
MOST = 1_000.0


class Speeds:
    """The speed on a way, in metres a second, by the way's tags."""

    def __init__(self, path: str):
        self.path = path
        self.rows: dict[tuple[str, str], float] = {}
        for row in read_table(path):
            try:
                key, speed = (row["highway"], row["surface"]), float(row["km/h"])
            except (KeyError, ValueError):
                raise Trouble(f"{path}: a row without `highway`, `surface` or a number of `km/h`") from None
            if not 0 < speed <= MOST:
                raise Trouble(f"{path}: {' '.join(key)}: {speed} km/h is not a speed")
            if key in self.rows:
                raise Trouble(f"{path}: {' '.join(key)}: it occurs twice")
            self.rows[key] = speed / 3.6

    def of(self, tags: dict[str, str], where: str) -> float:
        kind = "ferry" if tags.get("route") == "ferry" else tags["highway"]
        surface = tags.get("surface", ANY)
        for key in ((kind, surface), (kind, ANY), (ANY, surface), (ANY, ANY)):
            if key in self.rows:
                return self.rows[key]
        raise Trouble(f"{self.path}: no speed for {where}, highway={kind} and surface={tags.get('surface', '(none)')}")
