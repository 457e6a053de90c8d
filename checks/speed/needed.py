"""Counts the compressions of SHA-256 that a reply and its signature need, and those that a key needs.

The reference reads the reply, folds its leaves and covers, and counts each text that it hashes. A text takes one
compression for each 64 octets of the text with one octet and its length appended (FIPS 180-4, 5.1.1). Of the signature,
the text, the remaining steps of its chains, their ends and the path are counted (RFC 8554, algorithms 4b and 6a).
Nobody trusts this module.
"""
import sys
from collections.abc import Sequence
from pathlib import Path

sys.path.append(str(Path(__file__).resolve().parents[2] / "reference"))

from gogbetiku_reference import lms  # noqa: E402
from gogbetiku_reference.hashing import sha256  # noqa: E402
from gogbetiku_reference.headers import Header  # noqa: E402
from gogbetiku_reference.octets import Reader  # noqa: E402
from gogbetiku_reference.replies import NodeItem, PairItem, read_near_reply, read_reply  # noqa: E402
from gogbetiku_reference.trees import fold  # noqa: E402

# the fixed octets of a text of LMS: `I`, a number, and a number or a mark
PREFIX = 16 + 4 + 2


def compressions(octets: int) -> int:
    """The number of compressions for a text of this many octets."""
    return (octets + 1 + 8 + 63) // 64


class Counting:
    """SHA-256 that counts its compressions."""

    def __init__(self) -> None:
        self.count = 0

    def __call__(self, text: bytes) -> bytes:
        self.count += compressions(len(text))
        return sha256(text)


def of_signature(public: bytes, text: bytes, octets: bytes) -> int:
    signature = lms.Signature(lms.kind_of(public), octets)
    digits = lms.digits_of(public[8:24], signature.slot, signature.randomiser, text)
    return (
        compressions(PREFIX + 32 + len(text))
        + sum(lms.LAST_STEP - digit for digit in digits)
        + compressions(PREFIX + 32 * lms.CHAINS)
        + compressions(PREFIX + 32)
        + compressions(PREFIX + 64) * len(signature.path)
    )


def of_cover(leaves: int, fan: int, items: Sequence[NodeItem | PairItem], cover: Sequence[bytes]) -> int:
    hashed = Counting()
    if items:
        fold(leaves, fan, [item.place for item in items], [item.text for item in items], cover, hashed)
    return hashed.count


def of_answer(public: bytes, reply: bytes) -> int:
    """The compressions for the reply to a query for a route."""
    answer = read_reply(Reader(reply))
    assert not isinstance(answer, int)
    header: Header = answer.header
    return (
        of_signature(public, header.octets(), answer.signature)
        + of_cover(header.nodes, header.fan, answer.nodes, answer.node_cover)
        + of_cover(header.pairs, header.fan, answer.pairs, answer.pair_cover)
    )


def of_near(public: bytes, reply: bytes) -> int:
    """The compressions for the reply to a range query."""
    near = read_near_reply(Reader(reply))
    header: Header = near.header
    return of_signature(public, header.octets(), near.signature) + of_cover(
        header.nodes, header.fan, near.nodes, near.node_cover
    )


def of_key(height: int) -> int:
    """The compressions for a key with this many levels: secrets, chains, their ends, leaves and the tree."""
    chains = lms.CHAINS * (1 + lms.LAST_STEP)
    leaf = chains + compressions(PREFIX + 32 * lms.CHAINS) + compressions(PREFIX + 32)
    return (leaf << height) + ((1 << height) - 1) * compressions(PREFIX + 64)
