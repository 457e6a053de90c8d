"""Trees over the texts of leaves, covers of chosen leaves, and folds.

docs/SPEC.md, 3.3 Trees and 3.4 Covers and folds. Part of the reference: tested, not proved, and trusted by no client.
"""
from collections.abc import Iterator, Sequence

from .faults import Fault
from .hashing import Hash, sha256

MOST_LEAVES = 2_097_152
Places = list[set[int]]


def counts_of(leaves: int, fan: int) -> list[int]:
    """The number of places on each level, from the leaves up."""
    counts = [leaves]
    while counts[-1] > 1:
        counts.append(-(-counts[-1] // fan))
    return counts


def leaf_digest(text: bytes, hashed: Hash = sha256) -> bytes:
    return hashed(b"\x00" + text)


def above(digests: Sequence[bytes], hashed: Hash = sha256) -> bytes:
    """The digest of the place above these digests."""
    return hashed(b"\x01" + b"".join(digests))


def levels_of(texts: Sequence[bytes], fan: int, hashed: Hash = sha256) -> list[list[bytes]]:
    """The digests of all places, level by level from the leaves up."""
    levels = [[leaf_digest(text, hashed) for text in texts]]
    while len(levels[-1]) > 1:
        below = levels[-1]
        levels.append([above(below[at : at + fan], hashed) for at in range(0, len(below), fan)])
    return levels


def root_of(texts: Sequence[bytes], fan: int, hashed: Hash = sha256) -> bytes:
    return levels_of(texts, fan, hashed)[-1][0]


def chosen_by_level(leaves: int, fan: int, places: Sequence[int]) -> Places:
    """On each level, the places with a chosen leaf at or below them."""
    chosen = [set(places)]
    for _ in counts_of(leaves, fan)[1:]:
        chosen.append({place // fan for place in chosen[-1]})
    return chosen


def children(counts: list[int], fan: int, level: int, place: int) -> range:
    """The places below a place of this level; none below a leaf."""
    return range(place * fan, min(place * fan + fan, counts[level - 1])) if level else range(0)


def spots(leaves: int, fan: int, places: Sequence[int]) -> list[tuple[int, int]]:
    """The places of the digests of the cover, from left to right: level and place."""
    counts, chosen = counts_of(leaves, fan), chosen_by_level(leaves, fan, places)

    def below(level: int, place: int) -> Iterator[tuple[int, int]]:
        if place not in chosen[level]:
            yield level, place
        for child in children(counts, fan, level, place) if place in chosen[level] else ():
            yield from below(level - 1, child)

    return list(below(len(counts) - 1, 0)) if places else []


def cover_of(levels: list[list[bytes]], fan: int, places: Sequence[int]) -> list[bytes]:
    """The cover of the chosen leaves."""
    return [levels[level][place] for level, place in spots(len(levels[0]), fan, places)]


def test_places(leaves: int, places: Sequence[int]) -> None:
    """Raises the index of the first place that is not a leaf, or not greater than the previous one."""
    for index, place in enumerate(places):
        if place >= leaves:
            raise Fault("Place", index)
        if index > 0 and place <= places[index - 1]:
            raise Fault("Place", index)


def fold(
    leaves: int, fan: int, places: Sequence[int], texts: Sequence[bytes], cover: Sequence[bytes], hashed: Hash = sha256
) -> bytes:
    """The digest of the top place, from the texts of these leaves and the digests of a cover."""
    test_places(leaves, places)
    known = folded(leaves, fan, places, texts, cover, hashed)
    return known[len(counts_of(leaves, fan)) - 1, 0]


def folded(
    leaves: int, fan: int, places: Sequence[int], texts: Sequence[bytes], cover: Sequence[bytes], hashed: Hash = sha256
) -> dict[tuple[int, int], bytes]:
    """The digest of each place that is given or has a chosen leaf at or below it, by level and place."""
    needed = spots(leaves, fan, places)
    if len(cover) < len(needed):
        raise Fault("Short")
    if len(cover) > len(needed):
        raise Fault("Long")
    known = dict(zip(needed, cover))
    known.update({(0, place): leaf_digest(text, hashed) for place, text in zip(places, texts)})
    counts = counts_of(leaves, fan)
    for level, chosen in enumerate(chosen_by_level(leaves, fan, places)):
        for place in sorted(chosen) if level > 0 else ():
            known[level, place] = above(
                [known[level - 1, child] for child in children(counts, fan, level, place)], hashed
            )
    return known


def clash(
    texts: Sequence[bytes],
    fan: int,
    places: Sequence[int],
    given: Sequence[bytes],
    cover: Sequence[bytes],
    hashed: Hash = sha256,
) -> tuple[bytes, bytes] | None:
    """Two different texts with the same digest, if a cover and texts fold to a tree's root but differ from the tree.

    From the top down: the first place whose digests agree, and whose hashed texts, the tree's and the given one, differ.
    """
    levels = levels_of(texts, fan, hashed)
    known = folded(len(texts), fan, places, given, cover, hashed)
    counts = counts_of(len(texts), fan)
    by_place = dict(zip(places, given))
    chosen = chosen_by_level(len(texts), fan, places)

    def below(level: int, place: int) -> tuple[bytes, bytes] | None:
        if place not in chosen[level]:
            return None
        if level == 0:
            return clash_of(b"\x00" + texts[place], b"\x00" + by_place[place])
        below_it = children(counts, fan, level, place)
        own = b"\x01" + b"".join(levels[level - 1][child] for child in below_it)
        other = b"\x01" + b"".join(known[level - 1, child] for child in below_it)
        return clash_of(own, other) or next((found for child in below_it if (found := below(level - 1, child))), None)

    return below(len(counts) - 1, 0) if places else None


def clash_of(left: bytes, right: bytes) -> tuple[bytes, bytes] | None:
    return (left, right) if left != right else None
