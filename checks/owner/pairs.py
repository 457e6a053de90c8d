#!/usr/bin/env python3
"""Counts, by hand, the pairs of bits of an owner's desk that make a one-time key sign twice: checks/owner/pairs.py
PROGRAM [--tries N] [--seed N]

It uses the desks of checks/owner/bits.py. It has its own version of the look at a desk and of the texts that commands
then sign, over octets alone. It applies this to every pair of bits of which one closes a gate: octet 0, or the gate of
a spent slot or of a link. No other pair can make a key sign twice, because a spent slot stays spent; random other pairs
are tried too. Then N pairs of each outcome are flipped before the program runs, which must agree. The script prints the
count and its share of all pairs. Nobody trusts it.
"""
import argparse
import itertools
import os
import random
import sys
import tempfile
from collections.abc import Iterable, Iterator
from concurrent.futures import ThreadPoolExecutor
from functools import lru_cache
from pathlib import Path

from bits import PROCESSORS, RUNS, SECRETS, Owner, desks, faults_of, randomiser, texts_of

CHECKS = Path(__file__).resolve().parents[1]
sys.path[:0] = [str(CHECKS.parent / "reference"), str(CHECKS)]

from common.desks import AREA, BLOCK, SLOT, SLOTS, TEXT  # noqa: E402
from common.layout import HEADER, KIND, LENGTH, NAME, SPARE  # noqa: E402
from gogbetiku_reference.headers import NO_ROOT, read_header  # noqa: E402
from gogbetiku_reference.lms import key_of  # noqa: E402
from gogbetiku_reference.octets import Malformed, Reader  # noqa: E402

LINK, H5, EARLY, DRAWN = 60, 5, SLOTS - 1, 100_000
KEY, PUBLISH, SUCCEED = range(3)
# a one-time key: identifier and seed, and the number
Signs = tuple[bytes, int] | None


@lru_cache(maxsize=1 << 18)
def has_header(text: bytes) -> bool:
    try:
        return read_header(Reader(text)).node_root != NO_ROOT
    except Malformed:
        return False


@lru_cache(maxsize=1 << 18)
def early(slot: bytes) -> tuple[bool, bool, bool]:
    """For a slot for maps: whether it is spent, whether it is empty, and whether it has a whole header."""
    text = slot[TEXT : TEXT + HEADER]
    return slot[0] != 0, not any(slot[LENGTH : TEXT + HEADER]), slot[LENGTH] == HEADER and has_header(text)


@lru_cache(maxsize=1 << 10)
def public_of(kind: int, secret: bytes) -> bytes:
    """The public key of a secret of these desks. With a flipped bit, no desk has it."""
    return key_of(kind, secret).public if secret in SECRETS else b""


def block(image: bytes, at: int) -> bytes | None:
    """Identifier and seed of the key at a place, if its type is known and it is complete."""
    kind = int.from_bytes(image[at + KIND : at + NAME], "big")
    return image[at + NAME : at + SPARE] if kind == H5 and len(image) >= at + AREA else None


def free_slot(image: bytes, at: int) -> int | None:
    """The slot that signs the next map, or None if an area is refused."""
    spent, waits = 0, False
    for slot in range(EARLY):
        place = at + BLOCK + SLOT * slot
        octets = image[place : place + SLOT]
        if any(octets[TEXT + HEADER :]):
            return None
        is_spent, is_empty, is_whole = early(octets)
        if is_spent:
            if spent != slot:
                return None
            spent += 1
        elif spent == slot:
            waits = is_whole
        elif not is_empty:
            return None
    return spent + waits


def is_shut(image: bytes) -> bool:
    """Whether a desk follows a closed first gate."""

    def stands(at: int) -> bool:
        secret = block(image, at) if len(image) >= at + AREA else None
        return secret is not None and len(set(secret)) > 1

    return stands(0) and (any(image[BLOCK:AREA]) or stands(AREA))


def link_at(image: bytes, at: int) -> bytes | None:
    """The key that a whole link text in the last slot of an area names."""
    slot = image[at + AREA - SLOT : at + AREA]
    return slot[TEXT + 4 : TEXT + LINK] if slot[LENGTH] == LINK and slot[TEXT : TEXT + 4] == b"RPK1" else None


def signs(image: bytes, what: int) -> Signs:
    """The one-time key with which a command signs a second text, if any."""
    if image[0] == 0:
        return (SECRETS[0], 0) if what == KEY and not is_shut(image) else None
    if what == KEY:
        return None
    for at in range(0, len(image), AREA):
        secret = block(image, at)
        if secret is None or any(image[at + SPARE : at + BLOCK]) or (at > 0 and image[at] != 0):
            return None
        slot = free_slot(image, at)
        if slot is None:
            return None
        link, is_over = link_at(image, at), image[at + AREA - SLOT] != 0
        behind = block(image, at + AREA)
        is_made = link is not None and behind is not None and public_of(H5, behind) == link
        if is_over and link is not None:
            if not is_made:
                return None
            continue
        if what == PUBLISH:
            return (secret, slot) if slot < EARLY else None
        if is_over:
            return None
        if is_made:
            continue
        is_followed = len(image) > at + AREA + BLOCK and image[at + AREA + BLOCK] != 0
        return None if link is not None and is_followed else (secret, EARLY)
    return None


def turned(image: bytes, pair: Iterable[int]) -> bytes:
    octets = bytearray(image)
    for bit in pair:
        octets[bit // 8] ^= 1 << bit % 8
    return bytes(octets)


def is_twice(image: bytes, pair: tuple[int, int], known: dict[bytes, bytes]) -> bool:
    """Whether a command makes a one-time key sign twice if this pair of bits is flipped."""
    octets = turned(image, pair)
    return any(
        by is not None and randomiser(*by) in known for by in (signs(octets, what) for what in (KEY, PUBLISH, SUCCEED))
    )


def gates(image: bytes) -> list[int]:
    """The bits that close a gate: of octet 0 and of each spent slot."""
    places = [0, *(at + BLOCK + SLOT * slot for at in range(0, len(image), AREA) for slot in range(SLOTS))]
    return [8 * place for place in places if image[place] == 1]


def closing(image: bytes) -> Iterator[tuple[int, int]]:
    """Every pair of bits of which one closes a gate."""
    closes = gates(image)
    for number, first in enumerate(closes):
        yield from (
            (first, second) for second in range(8 * len(image)) if second != first and second not in closes[:number]
        )


def disagree(program: str, image: bytes, public: bytes, pairs: list[tuple[int, int]], wanted: bool) -> list[str]:
    """The pairs of bits after which the program differs from this script."""
    known, found = texts_of(image), []
    with tempfile.TemporaryDirectory() as folder:
        owner = Owner(program, folder)
        for pair in pairs:
            said = [fault for words in RUNS for fault in faults_of(owner, turned(image, pair), None, known, words)]
            if any("signed two texts" in fault for fault in said) != wanted:
                found.append(f"bits {pair}: {wanted} is wanted, and {said}")
    return found


def measure(program: str, name: str, image: bytes, public: bytes, tries: int, rng: random.Random) -> int:
    """Counts the pairs of a desk, tries some, and prints the results. Returns the number of pairs about which the program
    disagrees."""
    known, bits = texts_of(image), 8 * len(image)
    twice: list[tuple[int, int]] = []
    once: list[tuple[int, int]] = []
    for pair in closing(image):
        (twice if is_twice(image, pair, known) else once).append(pair)
    others = [(rng.randrange(bits), rng.randrange(bits)) for _ in range(DRAWN)]
    strays = [
        pair
        for pair in others
        if not set(pair) & set(gates(image)) and pair[0] != pair[1] and is_twice(image, pair, known)
    ]
    all_pairs = bits * (bits - 1) // 2
    print(
        f"{name}: {len(twice)} of {all_pairs} pairs of bits sign twice, one in {all_pairs // max(1, len(twice)):,}; "
        f"{len(twice) + len(once)} close a gate; {len(strays)} of {DRAWN:,} drawn others sign twice"
    )
    samples = [(rng.sample(some, min(tries, len(some))), wanted) for some, wanted in ((twice, True), (once, False))]
    parts = [
        (program, image, public, pairs[part::PROCESSORS], wanted)
        for pairs, wanted in samples
        for part in range(PROCESSORS)
    ]
    with ThreadPoolExecutor(PROCESSORS) as pool:
        wrong = list(itertools.chain(*pool.map(lambda part: disagree(*part), parts)))
    print(
        "\n".join(
            [
                *wrong,
                f"{name}: the program was tried on {sum(len(pairs) for pairs, _ in samples)} pairs, and disagrees on {len(wrong)}",
            ]
        )
    )
    return len(wrong) + len(strays)


def main() -> int:
    parser = argparse.ArgumentParser(description=__doc__.split("\n", maxsplit=1)[0])
    parser.add_argument("program")
    parser.add_argument("--tries", type=int, default=100)
    parser.add_argument("--seed", type=int, default=1)
    given = parser.parse_args()
    program = os.path.abspath(given.program)
    os.umask(0o077)
    with tempfile.TemporaryDirectory() as folder:
        images, public = desks(Owner(program, folder))
    return (
        1
        if sum(
            measure(program, name, image, public, given.tries, random.Random(given.seed))
            for name, image in images.items()
        )
        else 0
    )


if __name__ == "__main__":
    sys.exit(main())
