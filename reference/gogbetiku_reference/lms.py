"""Keys and signatures of LMS, and the values of one-time keys.

RFC 8554, "LM-OTS One-Time Signatures" and "Leighton-Micali Signatures", with secret values from a seed as in its
appendix on pseudorandom key generation; docs/SPEC.md, 4.1 LMS, says which types there are and how the
randomiser is made. Part of the reference: tested, not proved, and trusted by no client.
"""
from functools import lru_cache

from .faults import Refused
from .hashing import SHA256, sha256
from .octets import u8, u16, u32

ONE_TIME_TYPE = 4
HEIGHTS = {5: 5, 6: 10}
KINDS = {"h5": 5, "h10": 6}
CHAINS, LAST_STEP, RANDOMISER = 34, 255, 0xFFFD
D_PBLC, D_MESG, D_LEAF, D_INTR = u16(0x8080), u16(0x8181), u16(0x8282), u16(0x8383)
PUBLIC_OCTETS = 56
STEPS = [u8(step) for step in range(256)]


def secret_value(name: bytes, seed: bytes, slot: int, number: int) -> bytes:
    """The first value of a chain."""
    return sha256(name + u32(slot) + u16(number) + u8(255) + seed)


def walked(name: bytes, slot: int, number: int, begin: int, end: int, value: bytes) -> bytes:
    """A value of a chain after the steps from `begin` to `end`, without `end`."""
    front = name + u32(slot) + u16(number)
    for step in STEPS[begin:end]:
        value = SHA256(front + step + value).digest()
    return value


def digits_of(name: bytes, slot: int, randomiser: bytes, text: bytes) -> bytes:
    """The octets of the hashed text and of its checksum: the steps of each chain in a signature."""
    hashed = sha256(name + u32(slot) + D_MESG + randomiser + text)
    return hashed + u16(sum(LAST_STEP - octet for octet in hashed))


def ends_hash(name: bytes, slot: int, ends: list[bytes]) -> bytes:
    """The public key of a one-time key, from the last values of its chains."""
    return sha256(name + u32(slot) + D_PBLC + b"".join(ends))


def leaf_value(name: bytes, node: int, one_time_public: bytes) -> bytes:
    return sha256(name + u32(node) + D_LEAF + one_time_public)


def inner_value(name: bytes, node: int, left: bytes, right: bytes) -> bytes:
    return sha256(name + u32(node) + D_INTR + left + right)


class Key:
    """A private key: type, `I`, `SEED`, and each node of its tree. Node 1 is the root."""

    def __init__(self, kind: int, secret: bytes):
        self.kind, self.name, self.seed = kind, secret[:16], secret[16:]
        self.slots = 2 ** HEIGHTS[kind]
        self.nodes = {self.slots + slot: self.leaf(slot) for slot in range(self.slots)}
        for node in range(self.slots - 1, 0, -1):
            self.nodes[node] = inner_value(self.name, node, self.nodes[2 * node], self.nodes[2 * node + 1])
        self.public = u32(kind) + u32(ONE_TIME_TYPE) + self.name + self.nodes[1]

    def value(self, slot: int, number: int, steps: int) -> bytes:
        """The key's value of a chain after this many steps."""
        return walked(self.name, slot, number, 0, steps, secret_value(self.name, self.seed, slot, number))

    def ends(self, slot: int) -> list[bytes]:
        return [self.value(slot, number, LAST_STEP) for number in range(CHAINS)]

    def leaf(self, slot: int) -> bytes:
        return leaf_value(self.name, self.slots + slot, ends_hash(self.name, slot, self.ends(slot)))

    def randomiser(self, slot: int) -> bytes:
        return secret_value(self.name, self.seed, slot, RANDOMISER)

    def digits(self, slot: int, text: bytes) -> bytes:
        return digits_of(self.name, slot, self.randomiser(slot), text)

    def sign(self, slot: int, text: bytes) -> bytes:
        """The signature of a text by this one-time key. The caller must not let a slot sign two texts."""
        shown = [self.value(slot, number, digit) for number, digit in enumerate(self.digits(slot, text))]
        one_time = u32(ONE_TIME_TYPE) + self.randomiser(slot) + b"".join(shown)
        return u32(slot) + one_time + u32(self.kind) + b"".join(self.path(slot))

    def path(self, slot: int) -> list[bytes]:
        """The sibling nodes on the way from the leaf to the root."""
        node, path = self.slots + slot, []
        while node > 1:
            path.append(self.nodes[node ^ 1])
            node //= 2
        return path


@lru_cache(maxsize=64)
def key_of(kind: int, secret: bytes) -> Key:
    """The key of a type and a secret of 48 octets: `I`, then `SEED`."""
    return Key(kind, secret)


class Signature:
    """The fields of a signature under a key of this type."""

    def __init__(self, kind: int, octets: bytes):
        height = HEIGHTS[kind]
        if len(octets) != signature_octets(kind):
            raise Refused("BadForm")
        self.slot = int.from_bytes(octets[:4], "big")
        self.randomiser = octets[8:40]
        self.values = [octets[at : at + 32] for at in range(40, 40 + 32 * CHAINS, 32)]
        path_at = 44 + 32 * CHAINS
        self.path = [octets[at : at + 32] for at in range(path_at, path_at + 32 * height, 32)]
        if octets[4:8] != u32(ONE_TIME_TYPE):
            raise Refused("BadForm")
        if octets[path_at - 4 : path_at] != u32(kind):
            raise Refused("BadForm")
        if self.slot >= 2**height:
            raise Refused("BadForm")


def signature_octets(kind: int) -> int:
    return 4 + 4 + 32 + 32 * CHAINS + 4 + 32 * HEIGHTS[kind]


def kind_of(public: bytes) -> int:
    """The type of a public key."""
    if len(public) != PUBLIC_OCTETS:
        raise Refused("BadKey")
    if int.from_bytes(public[:4], "big") not in HEIGHTS:
        raise Refused("BadKey")
    if public[4:8] != u32(ONE_TIME_TYPE):
        raise Refused("BadKey")
    return int.from_bytes(public[:4], "big")


def claimed_ends(name: bytes, signature: Signature, text: bytes) -> list[bytes]:
    """The last values of the chains, computed from the values in a signature."""
    digits = digits_of(name, signature.slot, signature.randomiser, text)
    return [
        walked(name, signature.slot, number, digit, LAST_STEP, value)
        for number, (digit, value) in enumerate(zip(digits, signature.values))
    ]


def claimed_root(name: bytes, signature: Signature, leaf: bytes) -> bytes:
    """The root, computed from a leaf's value and the path."""
    node, value = 2 ** len(signature.path) + signature.slot, leaf
    for beside in signature.path:
        left, right = (value, beside) if node % 2 == 0 else (beside, value)
        node //= 2
        value = inner_value(name, node, left, right)
    return value


def verify(public: bytes, text: bytes, octets: bytes) -> None:
    """Raises `BadKey`, `BadForm` or `NoMatch` if the octets are not a signature of the text under the public key."""
    kind = kind_of(public)
    signature, name = Signature(kind, octets), public[8:24]
    one_time_public = ends_hash(name, signature.slot, claimed_ends(name, signature, text))
    leaf = leaf_value(name, 2 ** HEIGHTS[kind] + signature.slot, one_time_public)
    if claimed_root(name, signature, leaf) != public[24:]:
        raise Refused("NoMatch")


@lru_cache(maxsize=8192)
def why_not(public: bytes, text: bytes, octets: bytes) -> str | None:
    """The reason why a signature does not verify, or None. Cached, since many replies have the same signed header."""
    try:
        verify(public, text, octets)
    except Refused as refused:
        return refused.name
    return None
