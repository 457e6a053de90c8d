"""Vectors of keys, signatures and trees.

Tested, not proved; no client trusts it.
"""
from collections.abc import Iterator, Sequence

from gogbetiku_reference.faults import Fault
from gogbetiku_reference.hashing import sha256
from gogbetiku_reference.leaves import NodeLeaf
from gogbetiku_reference.lms import (
    CHAINS,
    HEIGHTS,
    KINDS,
    LAST_STEP,
    ONE_TIME_TYPE,
    RANDOMISER,
    Key,
    Signature,
    claimed_root,
    digits_of,
    ends_hash,
    key_of,
    leaf_value,
    secret_value,
    walked,
    why_not,
)
from gogbetiku_reference.octets import u32
from gogbetiku_reference.trees import cover_of, fold, levels_of

from .asking import keys, put, turned
from .families import DIGEST, HEX, NUMBER, SPAN, TEXT, Case, Family, Fields, answered, listed, octets, one_of, record
from .rfc8554 import FIRST_PUBLIC, FIRST_SIGNATURE, MESSAGE, SECOND_PUBLIC, SECOND_SIGNATURE
from .scenes import ZEROS, owner

# RFC 8554, Appendix F, test case 2: I and SEED of the key of the second level, whose public key the standard prints
STANDARD = bytes.fromhex(
    "215f83b7ccb9acbcd08db97b0d04dc2b" "a1c4696e2608035a886100d05cd99945eb3370731884a8235e2fb3d4d71f2547"
)
RISING = bytes(range(48))


def run_key(given: Fields) -> Fields:
    return {"public": key_of(KINDS[given["kind"]], octets(given["secret"])).public.hex()}


def make_keys() -> Iterator[Case]:
    rows = [
        ("zeros", "h5", ZEROS),
        ("the octets 0 to 47", "h5", RISING),
        ("the greatest octets", "h5", b"\xff" * 48),
        ("I and SEED of RFC 8554, Appendix F, test case 2, second level", "h5", STANDARD),
    ]
    return answered(run_key, [(why, {"kind": kind, "secret": secret.hex()}) for why, kind, secret in rows])


def make_great_keys() -> Iterator[Case]:
    return answered(run_key, [("zeros", {"kind": "h10", "secret": ZEROS.hex()})])


GREAT_KEYS = Family(
    "great_keys",
    "The public key of the greater height that a secret makes.",
    record({"kind": one_of("h10"), "secret": HEX}),
    record({"public": HEX}),
    run_key,
    make_great_keys,
    slow=True,
)
KEYS = Family(
    "keys",
    "The public key that a secret makes.",
    record({"kind": one_of("h5"), "secret": HEX}),
    record({"public": HEX}),
    run_key,
    make_keys,
)


def run_signature(given: Fields) -> Fields:
    return {"verdict": why_not(octets(given["public"]), octets(given["text"]), octets(given["signature"])) or "valid"}


def signed(why: str, key: Key, slot: int, text: bytes) -> tuple[str, Fields]:
    """A signature by a key, with its ingredients."""
    return why, {
        "public": key.public.hex(),
        "text": text.hex(),
        "signature": key.sign(slot, text).hex(),
        "secret": (key.name + key.seed).hex(),
        "slot": slot,
    }


def bare(why: str, public: bytes, text: bytes, signature: bytes) -> tuple[str, Fields]:
    return why, {"public": public.hex(), "text": text.hex(), "signature": signature.hex()}


def great_signature(slot: int, text: bytes) -> tuple[bytes, bytes]:
    """A public key of the greater height and a signature under it: the path is random, and the root is computed from it.

    No secret for all of its slots is known. It spares making a whole tree of 1,024 one-time keys.
    """
    key, height = owner(), HEIGHTS[KINDS["h10"]]
    path = [sha256(u32(level)) for level in range(height)]
    ends = [
        walked(key.name, slot, number, 0, LAST_STEP, secret_value(key.name, key.seed, slot, number))
        for number in range(CHAINS)
    ]
    randomiser = secret_value(key.name, key.seed, slot, RANDOMISER)
    shown = [
        walked(key.name, slot, number, 0, digit, secret_value(key.name, key.seed, slot, number))
        for number, digit in enumerate(digits_of(key.name, slot, randomiser, text))
    ]
    signature = u32(slot) + u32(ONE_TIME_TYPE) + randomiser + b"".join(shown) + u32(KINDS["h10"]) + b"".join(path)
    leaf = leaf_value(key.name, 2**height + slot, ends_hash(key.name, slot, ends))
    root = claimed_root(key.name, Signature(KINDS["h10"], signature), leaf)
    return u32(KINDS["h10"]) + u32(ONE_TIME_TYPE) + key.name + root, signature


def make_signatures() -> Iterator[Case]:
    key = owner()
    yield from answered(
        run_signature,
        [
            bare(
                "RFC 8554, Appendix F, test case 1: the first level's signature of the second level's key",
                FIRST_PUBLIC,
                SECOND_PUBLIC,
                FIRST_SIGNATURE,
            ),
            bare(
                "RFC 8554, Appendix F, test case 1: the second level's signature of the message",
                SECOND_PUBLIC,
                MESSAGE,
                SECOND_SIGNATURE,
            ),
            bare(
                "the same signature, and an octet more in the message", SECOND_PUBLIC, MESSAGE + b"\n", SECOND_SIGNATURE
            ),
            bare("the same signature under the first level's key", FIRST_PUBLIC, MESSAGE, SECOND_SIGNATURE),
        ],
    )
    rows = [
        signed(f"slot {slot} on {name}", key, slot, text)
        for slot in (0, 1, 17, 31)
        for name, text in (("no octets", b""), ("abc", b"abc"))
    ]
    for slot in (0, 512, 1023):
        public, signature = great_signature(slot, b"abc")
        rows.append(bare(f"slot {slot} of the greater height on abc", public, b"abc", signature))
    rows += [
        signed("a long text", key, 3, bytes(range(256)) * 8),
        signed("another secret", key_of(5, RISING), 7, b"version 3"),
        signed("the secret of the standard's second level", key_of(5, STANDARD), 4, MESSAGE),
    ]
    yield from answered(run_signature, rows)
    yield from answered(run_signature, list(bad_signatures(key)))


def bad_signatures(key: Key) -> Iterator[tuple[str, Fields]]:
    good, public, text = key.sign(31, b"abc"), key.public, b"abc"
    great_public, great = great_signature(31, text)
    for why, other in (("another text", b"abd"), ("a text with an octet more", b"abc\x00"), ("no text", b"")):
        yield bare(why, public, other, good)
    for why, other in (
        ("a key of 55 octets", public[:-1]),
        ("a key of 57 octets", public + b"\x00"),
        ("no key", b""),
        ("a key of type 4", put(public, 0, u32(4))),
        ("a key whose type is 5 but for its first octet", put(public, 0, u32(0x01000005))),
        ("a key whose type is 5 but for its third octet", put(public, 0, u32(0x00000105))),
        ("a key whose one-time type is 4 but for its first octet", put(public, 4, u32(0x80000004))),
        ("a key of type 7", put(public, 0, u32(7))),
        ("a key of one-time type 3", put(public, 4, u32(3))),
        ("a key of one-time type 0", put(public, 4, u32(0))),
        ("a key of the other height", put(public, 0, u32(6))),
        ("a key with another name", turned(public, 23)),
        ("a key with another root", turned(public, 24)),
        ("another key", keys()[1].public),
    ):
        yield bare(why, other, text, good)
    for why, other in (
        ("no signature", b""),
        ("an octet less", good[:-1]),
        ("an octet more", good + b"\x00"),
        ("the number is 32", put(good, 0, u32(32))),
        ("the number is the greatest", put(good, 0, u32(2**32 - 1))),
        ("another number", put(good, 0, u32(30))),
        ("one-time type 3", put(good, 4, u32(3))),
        ("type 6", put(good, 1128, u32(6))),
        ("a signature of the greater height", great),
        ("two values swapped", good[:40] + good[72:104] + good[40:72] + good[104:]),
    ):
        yield bare(why, public, text, other)
    yield bare("a signature of the lesser height", great_public, text, good)
    yield bare("the greater height, and the number is 1024", great_public, text, put(great, 0, u32(1024)))
    yield bare("the greater height, and type 5 in the signature", great_public, text, put(great, 1128, u32(5)))
    yield bare(
        "the lesser height's types in a signature of the greater height's length",
        public,
        text,
        put(great, 1128, u32(5)),
    )


SIGNATURE = {"public": HEX, "text": HEX, "signature": HEX}
VERDICT = one_of("valid", "BadKey", "BadForm", "NoMatch")
SIGNATURES = Family(
    "signatures",
    "Whether a signature of LMS is good under a public key on a text, or why not. Where secret and slot stand, "
    "they make the key and the signature.",
    record(SIGNATURE, {"secret": HEX, "slot": NUMBER}),
    record({"verdict": VERDICT}),
    run_signature,
    make_signatures,
)

# the fields of a signature of height 5: where each begins, in octets, and what a turned bit of it comes to; of the number
# the last five bits name another slot
FIELDS = [
    ("the high bits of the number", 0, 27, "BadForm"),
    ("the low bits of the number", 27, 32, "NoMatch"),
    ("the one-time type", 32, 64, "BadForm"),
    ("the randomiser", 64, 320, "NoMatch"),
    ("the values of the chains", 320, 9024, "NoMatch"),
    ("the type", 9024, 9056, "BadForm"),
    ("the path", 9056, 10336, "NoMatch"),
]


def run_turned(given: Fields, stride: int = 1) -> Fields:
    verdicts = []
    for begin, end in given["bits"]:
        seen = {with_bit(given, bit) for bit in range(begin, end, stride)}
        verdicts.append(seen.pop() if len(seen) == 1 else f"several: {sorted(seen)}")
    return {"verdicts": verdicts}


def with_bit(given: Fields, bit: int) -> str:
    signature = turned(octets(given["signature"]), bit // 8, 128 >> bit % 8)
    return str(run_signature({**given, "signature": signature.hex()})["verdict"])


def make_turned() -> Iterator[Case]:
    key = owner()
    rows = [
        bare("RFC 8554, Appendix F, test case 1: the first level", FIRST_PUBLIC, SECOND_PUBLIC, FIRST_SIGNATURE),
        bare("RFC 8554, Appendix F, test case 1: the second level", SECOND_PUBLIC, MESSAGE, SECOND_SIGNATURE),
        signed("a key of its own, slot 0", key, 0, b"abc"),
    ]
    for why, given in rows:
        bits = [[begin, end] for _, begin, end, _ in FIELDS]
        yield Case(
            f"each bit of a signature turned: {why}",
            {**given, "bits": bits},
            {"verdicts": [verdict for *_, verdict in FIELDS]},
        )


TURNED = Family(
    "turned_signatures",
    "What a signature comes to where one bit of it is turned: number, types, randomiser, values of the "
    "chains and path. For each bit of each range the same verdict.",
    record({**SIGNATURE, "bits": listed(SPAN)}, {"secret": HEX, "slot": NUMBER}),
    record({"verdicts": listed(TEXT)}),
    run_turned,
    make_turned,
)


def run_tree(given: Fields) -> Fields:
    texts, fan = [octets(text) for text in given["leaves"]], given["fan"]
    levels = levels_of(texts, fan)
    return {
        "levels": [[digest.hex() for digest in level] for level in levels],
        "cover": [digest.hex() for digest in cover_of(levels, fan, given["places"])],
    }


def leaf_texts(count: int) -> list[bytes]:
    """The leaves of this many nodes in a row."""
    return [
        NodeLeaf(node, node, 0, tuple((there, 5) for there in (node - 1, node + 1) if 1 <= there <= count)).text()
        for node in range(1, count + 1)
    ]


def make_trees() -> Iterator[Case]:
    rows: list[tuple[int, int, Sequence[int]]] = [
        (1, 2, [0]),
        (1, 32, [0]),
        (1, 2, []),
        (2, 2, [0]),
        (2, 2, [1]),
        (2, 2, [0, 1]),
        (3, 2, [2]),
        (3, 2, [0]),
        (5, 2, [0, 1, 2, 3]),
        (5, 2, [4]),
        (5, 2, []),
        (5, 2, [0, 4]),
        (5, 3, [1]),
        (5, 3, [4]),
        (5, 4, [4]),
        (5, 5, [2]),
        (5, 32, [0, 2, 4]),
        (9, 3, [4]),
        (9, 3, [0, 8]),
        (10, 3, [9]),
        (10, 3, [0]),
        (17, 4, [16]),
        (17, 4, [0, 5, 16]),
        (16, 2, [3, 4]),
        (33, 32, [32]),
        (33, 32, [0]),
    ]
    return answered(
        run_tree,
        [
            (
                f"{leaves} leaves, fan-out {fan}, the places {', '.join(map(str, places)) or 'none'}",
                {"leaves": [text.hex() for text in leaf_texts(leaves)], "fan": fan, "places": list(places)},
            )
            for leaves, fan, places in rows
        ],
    )


TREES = Family(
    "trees",
    "The digests of all places of a tree, level by level from the leaves up, and the cover of some chosen leaves.",
    record({"leaves": listed(HEX), "fan": NUMBER, "places": listed(NUMBER)}),
    record({"levels": listed(listed(DIGEST)), "cover": listed(DIGEST)}),
    run_tree,
    make_trees,
)


def run_fold(given: Fields) -> Fields:
    try:
        folded = fold(
            given["count"],
            given["fan"],
            given["places"],
            [octets(text) for text in given["texts"]],
            [octets(digest) for digest in given["cover"]],
        )
    except Fault as fault:
        return {"fault": str(fault)}
    return {"root": folded.hex()}


def folding(
    why: str,
    count: int,
    fan: int,
    places: Sequence[int],
    change: Sequence[bytes] | None = None,
    given_count: int | None = None,
) -> tuple[str, Fields]:
    texts = leaf_texts(count)
    good = [place for place in places if place < count]
    cover = cover_of(levels_of(texts, fan), fan, sorted(set(good))) if change is None else change
    return why, {
        "count": given_count or count,
        "fan": fan,
        "places": list(places),
        "texts": [texts[min(place, count - 1)].hex() for place in places],
        "cover": [digest.hex() for digest in cover],
    }


def make_folds() -> Iterator[Case]:
    whole = cover_of(levels_of(leaf_texts(5), 2), 2, [0, 3])
    rows = [
        folding("one leaf", 1, 2, [0]),
        folding("the first leaf of five", 5, 2, [0]),
        folding("the last leaf of five", 5, 2, [4]),
        folding("all leaves", 5, 2, range(5)),
        folding("two leaves of seventeen", 17, 4, [0, 16]),
        folding("fan-out 32", 33, 32, [32]),
        folding("no digest where two are needed", 5, 2, [0, 1], []),
        folding("a digest less", 5, 2, [0, 3], whole[:-1]),
        folding("a digest more", 5, 2, [0, 3], [*whole, bytes(32)]),
        folding("a digest where none is needed", 1, 2, [0], [bytes(32)]),
        folding("other digests", 5, 2, [0, 3], [bytes(32)] * len(whole)),
        folding("the digests in another order", 5, 2, [0, 3], whole[::-1]),
        folding("a place that is no leaf", 5, 2, [0, 5]),
        folding("the first place is no leaf", 5, 2, [5]),
        folding("one place twice", 5, 2, [1, 1]),
        folding("the places fall", 5, 2, [0, 3, 2]),
        folding("another count of leaves", 5, 2, [0], given_count=4),
        folding("a greater count of leaves, with too few digests", 5, 2, [0], given_count=9),
        folding("another fan-out", 9, 3, [4]),
    ]
    return answered(run_fold, rows)


FOLDS = Family(
    "folds",
    "The digest that some leaves and a cover fold to, or why they don't: a place that is no leaf, too few digests or too many.",
    record({"count": NUMBER, "fan": NUMBER, "places": listed(NUMBER), "texts": listed(HEX), "cover": listed(DIGEST)}),
    record({}, {"root": DIGEST, "fault": TEXT}),
    run_fold,
    make_folds,
)

FAMILIES = [KEYS, GREAT_KEYS, SIGNATURES, TURNED, TREES, FOLDS]
