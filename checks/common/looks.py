"""Looks: each compares a seen value with the wanted value. Looks are counted, and differences are printed."""
import sys


class Looks:
    """Counts looks, and keeps a fault for each look that fails."""

    def __init__(self, most: int | None = None) -> None:
        """A fault shows at most `most` characters of a value's text or, without `most`, its whole representation."""
        self.played = 0
        self.faults: list[str] = []
        self.most = most

    def same(self, what: str, seen: object, wanted: object) -> None:
        """One look: the two values are equal."""
        self.played += 1
        if seen != wanted:
            self.fault(f"{what}: {self.shown(seen)}, and not {self.shown(wanted)}")

    def holds(self, what: str, fact: object, seen: object = "") -> None:
        """One look: a fact holds. If it does not, the fault shows the seen value."""
        self.same(what if fact else f"{what} ({str(seen)[: self.most]})", bool(fact), True)

    def says(self, what: str, ended: tuple[int, object, str], status: int, *parts: str) -> None:
        """Looks at a command's end: one look at its status, and one for each text in its output."""
        self.same(f"{what}: the status, where it said {ended[2]!r}", ended[0], status)
        for part in parts:
            self.same(f"{what}: {ended[2]!r} has {part!r}", part in ended[2], True)

    def fault(self, said: str) -> None:
        """Handles a failed look."""
        self.faults.append(said)

    def shown(self, value: object) -> str:
        """A value in the form of a fault."""
        return repr(value) if self.most is None else str(value)[: self.most]

    def told(self, name: str) -> int:
        """Prints the faults and the counts of looks. Returns the script's status."""
        print(*self.faults, sep="\n", end="\n" if self.faults else "")
        print(f"{name}: {self.played - len(self.faults)} as wanted, {len(self.faults)} not")
        return 1 if self.faults else 0


class StrictLooks(Looks):
    """Ends the script with status 1 at the first look that fails."""

    def fault(self, said: str) -> None:
        sys.exit(said)
