#!/usr/bin/env python3
"""Flips single bits of an owner's desk, and runs the commands over it: checks/owner/bits.py PROGRAM [--bits N] [--seed
N]

The desks have one key, or two keys with a link, the second with or without signatures. They have signed a few maps. One
bit is flipped. Then each of these runs over a copy of the desk: `key` with the first key's secret, and `publish` after
it; `publish`; `succeed` with a new secret, and `links` after it, with another text in a spent slot; and `links`. No
one-time key may sign another text than the one it has signed before. The randomiser of a signature identifies its
one-time key, because it depends only on identifier, seed and number. A refused command must write nothing and leave the
desk unchanged. The most important bits of gates, lengths and key blocks are always taken, others at random. The script
prints each bit that fails. Nobody trusts it.
"""
import argparse
import hashlib
import itertools
import os
import pathlib
import random
import sys
import tempfile
from collections.abc import Iterator
from concurrent.futures import ThreadPoolExecutor

sys.path.insert(0, str(pathlib.Path(__file__).resolve().parents[1]))

from common import layout  # noqa: E402
from common.desks import AREA, BLOCK, HEADER, SIGNED, SIGNED_AT, SLOT, SLOTS, Desk  # noqa: E402
from common.desks import texts_of as texts_in  # noqa: E402
from common.maps import THREE  # noqa: E402

SECRETS = [bytes(range(first, first + 48)) for first in (0, 50, 100)]
PUBLISH, SECONDS, PROCESSORS = "publish map.roads dij {} id 0 2 0 0 0", 600, 4
KEY, SUCCEED = "key secret-0 h5", "succeed secret-2 h5"
# an octet of a desk, a bit of it, and whether the folder has the file owner.key
Bit = tuple[int, int, bool]
# each command over the changed desk, and the commands that run after it if it succeeded
RUNS = ((KEY, PUBLISH.format(99)), (PUBLISH.format(99),), (SUCCEED, "links"), ("links",))


class Owner(Desk):
    """The program in a folder of an owner."""

    def __init__(self, program: str, folder: str) -> None:
        super().__init__(program, folder, SECONDS)
        (self.folder / "map.roads").write_text(THREE, encoding="ascii")
        for number, secret in enumerate(SECRETS):
            (self.folder / f"secret-{number}").write_text(secret.hex(), encoding="ascii")

    def put(self, image: bytes, public: bytes | None) -> None:
        path, key = self.folder / "owner.desk", self.folder / "owner.key"
        path.write_bytes(image)
        path.chmod(0o600)
        key.unlink(missing_ok=True)
        if public is not None:
            key.write_bytes(public)


def randomiser(secret: bytes, slot: int) -> bytes:
    """The randomiser, which identifies the one-time key of a signature."""
    return hashlib.sha256(secret[:16] + slot.to_bytes(4, "big") + b"\xff\xfd\xff" + secret[16:]).digest()


def texts_of(image: bytes) -> dict[bytes, bytes]:
    """The texts that the spent slots of a desk have signed, by their randomisers."""
    found: dict[bytes, bytes] = {}
    for area in range(-(-len(image) // AREA)):
        secret = image[AREA * area + layout.NAME : AREA * area + layout.SPARE]
        found |= {randomiser(secret, slot): text for slot, text in texts_in(image, area=area).items()}
    return found


def signed_in(told: bytes) -> Iterator[tuple[bytes, bytes]]:
    """The signatures of a publication or of a chain file, as pairs of randomiser and text."""
    if told[:4] == b"RPP1" and len(told) >= SIGNED:
        yield told[SIGNED_AT + 8 : SIGNED_AT + 40], told[HEADER]
    at = 0
    while told[at : at + 4] == b"RPL1":
        yield told[at + 62 + 8 : at + 62 + 40], b"RPK1" + told[at + 4 : at + 60]
        at += 62 + int.from_bytes(told[at + 60 : at + 62], "big")


def faults_of(
    owner: Owner, image: bytes, public: bytes | None, known: dict[bytes, bytes], words: tuple[str, ...]
) -> Iterator[str]:
    """The faults of commands that run over a changed desk, each after the one before if that succeeded."""
    owner.put(image, public)
    signed = dict(known)
    for command in words:
        before = owner.image()
        status, told, said = owner.run(command)
        for key, text in signed_in(told):
            if signed.setdefault(key, text) != text:
                yield f"{command}: a one-time key has signed two texts"
        if status not in (0, 12):
            yield f"{command}: status {status}"
        if (
            status == 0
            and command == SUCCEED
            and all(signed.get(key, text) == text for key, text in texts_of(owner.image()).items())
        ):
            return
        if status != 0:
            # a signature under another key than owner.key's is found after the signing
            is_signed = public is not None and command.startswith("publish") and "not signed by the key" in said
            if told or (owner.image() != before and not is_signed):
                yield f"{command}: status {status}, and it has written"
            return


def telling(image: bytes) -> Iterator[Bit]:
    """The most important bits: of each octet 0 and type, and of the gate and length of each spent, first free or last slot."""
    for at in range(0, len(image), AREA):
        gates = [slot for slot in range(SLOTS) if image[at + BLOCK + SLOT * slot]]
        free = next(slot for slot in range(SLOTS) if slot not in gates)
        fronts = [at + BLOCK + SLOT * slot for slot in sorted({*gates, free, SLOTS - 1})]
        yield from ((place, bit, False) for place in (at, at + 4, *fronts) for bit in (0, 7))
        yield from ((place + 1, 3, False) for place in fronts)


def drawn(image: bytes, count: int, rng: random.Random) -> list[Bit]:
    """This many bits: the most important ones, a third of the others in blocks and fronts of slots, and the rest anywhere.
    The folder of every second desk has the file owner.key."""
    bits = list(telling(image))
    fronts = [place for place in range(len(image)) if place % AREA < BLOCK or (place % AREA - BLOCK) % SLOT < 8]
    while len(bits) < count:
        place = rng.choice(fronts) if len(bits) % 3 == 0 else rng.randrange(len(image))
        bits.append((place, rng.randrange(8), len(bits) % 2 == 0))
    return bits


def desks(owner: Owner) -> tuple[dict[str, bytes], bytes]:
    """A desk with one key, two desks with two keys and a link, with and without signed maps, and the first public key."""
    public = owner.done(KEY)
    for version in (1, 2, 3):
        owner.done(PUBLISH.format(version))
    one = owner.image()
    owner.done("succeed secret-1 h5")
    two = owner.image()
    for version in (4, 5):
        owner.done(PUBLISH.format(version))
    return {"one key": one, "two keys, the second new": two, "two keys": owner.image()}, public


def look(program: str, name: str, image: bytes, public: bytes, bits: list[Bit]) -> list[str]:
    """The bits of a desk that fail."""
    found: list[str] = []
    known = texts_of(image)
    with tempfile.TemporaryDirectory() as folder:
        owner = Owner(program, folder)
        for place, bit, has_key in bits:
            turned = bytearray(image)
            turned[place] ^= 1 << bit
            found += [
                f"a desk of {name}, octet {place}, bit {bit}, {fault}"
                for words in RUNS
                for fault in faults_of(owner, bytes(turned), public if has_key else None, known, words)
            ]
    return found


def main() -> int:
    parser = argparse.ArgumentParser(description=__doc__.split("\n", maxsplit=1)[0])
    parser.add_argument("program")
    parser.add_argument("--bits", type=int, default=500)
    parser.add_argument("--seed", type=int, default=1)
    given = parser.parse_args()
    program, rng = os.path.abspath(given.program), random.Random(given.seed)
    os.umask(0o077)
    with tempfile.TemporaryDirectory() as folder:
        images, public = desks(Owner(program, folder))
    parts: list[tuple[str, str, bytes, bytes, list[Bit]]] = []
    for name, image in images.items():
        # half of them in the desk with one key
        bits = drawn(image, given.bits // 2 if name == "one key" else given.bits // 4, rng)
        parts += [(program, name, image, public, bits[part :: 2 * PROCESSORS]) for part in range(2 * PROCESSORS)]
    with ThreadPoolExecutor(PROCESSORS) as pool:
        faults = list(itertools.chain(*pool.map(lambda part: look(*part), parts)))
    print("\n".join(sorted(faults)), end="\n" if faults else "")
    print(f"{given.bits} bits of desks turned, each of {len(RUNS)} commands behind them: {len(faults)} faults")
    return 1 if faults else 0


if __name__ == "__main__":
    sys.exit(main())
