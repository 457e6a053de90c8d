"""Reduces a verified signature on a text that its slot has not signed.

docs/SPEC.md, 9.2 The reduction of a forgery; RFC 8554, "LM-OTS Public Key", "LM-OTS Signature Generation" and "LMS
Signature Verification", for what is hashed on the way to the root. Part of the reference: tested, not proved, and
trusted by no client.
"""
from collections.abc import Iterator
from dataclasses import dataclass

from .audits import Collision
from .faults import Refused
from .hashing import sha256
from .lms import (
    CHAINS,
    D_INTR,
    D_LEAF,
    D_MESG,
    D_PBLC,
    LAST_STEP,
    STEPS,
    Key,
    Signature,
    claimed_ends,
    digits_of,
    ends_hash,
    inner_value,
    leaf_value,
    verify,
    walked,
)
from .octets import u16, u32

Texts = tuple[bytes, bytes]


@dataclass(frozen=True)
class Chain:
    """A value of a chain that the slot has not released, after this many steps."""

    slot: int
    at: int
    step: int
    value: bytes


@dataclass(frozen=True)
class Signed:
    slot: int


def tree_texts(key: Key, signature: Signature, leaf: bytes) -> Iterator[Texts]:
    """The hashed texts at each inner node from the root to a slot's leaf: the key's own text and the text of the signature."""
    node, value, texts = key.slots + signature.slot, leaf, []
    for beside in signature.path:
        shown = value + beside if node % 2 == 0 else beside + value
        node //= 2
        front = key.name + u32(node) + D_INTR
        texts.append((front + key.nodes[2 * node] + key.nodes[2 * node + 1], front + shown))
        value = inner_value(key.name, node, shown[:32], shown[32:])
    return reversed(texts)


def leaf_texts(key: Key, signature: Signature, text: bytes) -> Iterator[Texts]:
    """The same from the root to the ends of the chains: inner nodes, the leaf, and the ends."""
    own, shown = key.ends(signature.slot), claimed_ends(key.name, signature, text)
    own_hash, shown_hash = (ends_hash(key.name, signature.slot, ends) for ends in (own, shown))
    node = key.slots + signature.slot
    yield from tree_texts(key, signature, leaf_value(key.name, node, shown_hash))
    leaf_front, ends_front = key.name + u32(node) + D_LEAF, key.name + u32(signature.slot) + D_PBLC
    yield leaf_front + own_hash, leaf_front + shown_hash
    yield ends_front + b"".join(own), ends_front + b"".join(shown)


def chain_texts(key: Key, signature: Signature, text: bytes) -> Iterator[Texts]:
    """The hashed text of each step of each chain, from the end back to the value in the signature."""
    for number, digit in enumerate(digits_of(key.name, signature.slot, signature.randomiser, text)):
        for step in range(LAST_STEP - 1, digit - 1, -1):
            front = key.name + u32(signature.slot) + u16(number) + STEPS[step]
            yield (
                front + key.value(signature.slot, number, step),
                front + walked(key.name, signature.slot, number, digit, step, signature.values[number]),
            )


def collision_in(texts: Iterator[Texts]) -> Collision | None:
    return next((Collision(*two) for two in texts if two[0] != two[1] and sha256(two[0]) == sha256(two[1])), None)


def unreleased(key: Key, spent: bytes | None, signature: Signature, text: bytes) -> Chain | Collision:
    """The first chain whose step in the signature is earlier than that of the text that the slot has signed."""
    digits, at = digits_of(key.name, signature.slot, signature.randomiser, text), 0
    if spent is not None:
        signed = key.digits(signature.slot, spent)
        if signed == digits:
            front = key.name + u32(signature.slot) + D_MESG
            return Collision(front + key.randomiser(signature.slot) + spent, front + signature.randomiser + text)
        at = next(number for number in range(CHAINS) if digits[number] < signed[number])
    return Chain(signature.slot, at, digits[at], signature.values[at])


def reduce(key: Key, spent: bytes | None, text: bytes, octets: bytes) -> Signed | Chain | Collision:
    """The result of reducing a signature on a text, given the text that its slot has signed."""
    try:
        verify(key.public, text, octets)
    except Refused as refused:
        raise Refused("BadSignature", refused.name) from None
    signature = Signature(key.kind, octets)
    if spent == text:
        return Signed(signature.slot)
    found = collision_in(leaf_texts(key, signature, text))
    if found is None and not shows_own(key, signature, text):
        found = collision_in(chain_texts(key, signature, text))
    return found or unreleased(key, spent, signature, text)


def shows_own(key: Key, signature: Signature, text: bytes) -> bool:
    """Whether each value is the key's own after the number of steps of its digit."""
    digits = digits_of(key.name, signature.slot, signature.randomiser, text)
    return all(
        value == key.value(signature.slot, number, digit)
        for number, (digit, value) in enumerate(zip(digits, signature.values))
    )
