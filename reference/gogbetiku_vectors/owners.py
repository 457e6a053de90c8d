"""Vectors of the owner's disk, audits and reductions.

Tested, not proved; no client trusts it.
"""
import re
from collections.abc import Iterator
from dataclasses import replace

from gogbetiku_reference import commands, desks, layout
from gogbetiku_reference.chains import Link, link_text, write_chain
from gogbetiku_reference.commands import World
from gogbetiku_reference.faults import Fault
from gogbetiku_reference.lms import KINDS, Key, digits_of, key_of
from gogbetiku_reference.octets import u8, u32
from gogbetiku_reference.road_files import print_roads
from gogbetiku_reference.servers import Held, answer, answer_near, near_reply

from .asking import link, put, turned
from .families import HEX, NUMBER, TEXT, WIDE, Case, Family, Fields, answered, listed, octets, one_of, record
from .scenes import STREETS, ZEROS, brings, owner, published, settings_of
from .signing import RISING

IMAGE = record(
    {"length": NUMBER, "pieces": listed({"type": "array", "items": [NUMBER, HEX], "minItems": 2, "maxItems": 2})}
)
FAULT = {"fault": TEXT}
ONES, TWOS, NINES = b"\x01" * 48, b"\x02" * 48, b"\x09" * 48


def image_fields(image: bytes) -> Fields:
    """An image as its length and its pieces that are not zeros."""
    pieces = [[found.start(), found[0].hex()] for found in re.finditer(rb"[^\x00](?:\x00{0,7}[^\x00])*", image, re.S)]
    return {"length": len(image), "pieces": pieces}


def image_in(fields: Fields) -> bytes:
    image = bytes(fields["length"])
    for at, piece in fields["pieces"]:
        image = put(image, at, octets(piece))
    return image


def run_desk(given: Fields) -> Fields:
    try:
        desk = desks.open_desk(image_in(given["image"]))
    except Fault as fault:
        return {"fault": str(fault)}
    area = desk.current()
    return {
        "keys": [public.hex() for public in desks.keys_of(desk)],
        "left": len(area.free()),
        "total": area.key.slots - 1,
        "links": write_chain(desk.links()).hex(),
    }


def fresh() -> bytes:
    """The disk of the key of zeros, which has signed nothing."""
    return desks.create(b"", KINDS["h5"], ZEROS)


def used(image: bytes, *texts: bytes) -> bytes:
    """The disk after it signed some texts."""
    for text in texts:
        image, _ = desks.sign(image, text)
    return image


def with_slot(image: bytes, slot: int, text: bytes, at: int = 0, gate: int = 1) -> bytes:
    return put(image, at + layout.BLOCK + layout.SLOT * slot, u8(gate) + u8(len(text)) + text)


def second_area() -> bytes:
    return desks.succeed(fresh(), KINDS["h5"], ONES)


def eight_areas() -> bytes:
    image = fresh()
    for number in range(1, 8):
        image = desks.succeed(image, KINDS["h5"], bytes([number]) * 48)
    return image


def images() -> Iterator[tuple[str, bytes]]:
    good, two, eight = fresh(), second_area(), eight_areas()
    at = len(good)
    strange = link_text(key_of(5, TWOS).public)
    yield from [
        ("no octets", b""),
        ("63 octets", good[:63]),
        ("64 zero octets", bytes(64)),
        ("a closed gate over a whole key", put(good, 0, u8(0))),
        ("a key that has signed nothing", good),
        ("a gate of another octet", put(good, 0, u8(255))),
        ("a disk that is longer", good + b"\x07" * 100),
        ("an octet less than its slots", good[:-1]),
        ("the block alone", good[: layout.BLOCK]),
        ("type 4", put(good, layout.KIND, u32(4))),
        ("type 7", put(good, layout.KIND, u32(7))),
        ("type 6 with the slots of type 5", put(good, layout.KIND, u32(6))),
        ("octets 53 to 63 are not read", put(good, layout.SPARE, b"\x01" * 11)),
        ("one slot is spent", with_slot(good, 0, b"a text")),
        ("a slot is spent behind a free one", with_slot(good, 9, b"a text")),
        ("a gate of 255", with_slot(good, 3, b"a text", gate=255)),
        ("a text behind a closed gate", with_slot(good, 3, b"a text", gate=0)),
        ("a slot of no octets", with_slot(good, 3, b"")),
        (
            "a length of 255",
            put(with_slot(good, 3, b"x" * layout.MOST_TEXT), layout.BLOCK + 3 * layout.SLOT + layout.LENGTH, u8(255)),
        ),
        ("all but the last are spent", used(good, *(b"text %d" % number for number in range(31)))),
        ("the last slot is spent with a header", with_slot(good, 31, b"RPF1" + bytes(100))),
        ("two areas", two),
        ("two areas, of which the second has signed", used(two, b"a text")),
        ("the second area's own gate is not read", put(two, at, u8(9))),
        ("the second area is cut", two[:-1]),
        ("the second area is another key's", put(two, at + 5, b"\x03")),
        ("the second area's seed is another", put(two, at + 21, b"\x03")),
        ("the second area's type is unknown", put(two, at + 1, u32(9))),
        (
            "the second area has the first one's name",
            with_slot(good + put(good, 0, u8(0)), 31, link_text(owner().public)),
        ),
        ("a link text in a slot that is not the last", with_slot(good, 4, strange)),
        ("a link text in a later area's slot that is not the last", with_slot(two, 4, strange, at)),
        ("a link text of 59 octets", with_slot(good, 31, strange[:59])),
        ("a link text of 61 octets", with_slot(good, 31, strange + b"\x00")),
        ("a link text behind a closed gate", with_slot(good, 31, strange, gate=0)),
        ("a link text, and nothing behind the area", with_slot(good, 31, strange)),
        ("eight areas", eight),
        ("eight areas, of which the last has a link text", with_slot(eight, 31, strange, 7 * at)),
        (
            "a ninth area, which the eighth has linked",
            with_slot(eight, 31, link_text(key_of(5, NINES).public), 7 * at) + desks.blank_area(5, NINES, 0),
        ),
        ("the second area has the first one's name, and another seed", same_name(good)),
        ("the third area has the first one's name", third_of_the_first(two)),
        ("a text of 60 octets that is no link's", with_slot(good, 4, b"RPK2" + strange[4:])),
        ("a disk whose last octet is its area's", good[: desks.area_octets(5)]),
    ]


def same_name(good: bytes) -> bytes:
    secret = ZEROS[:16] + ONES[:32]
    return with_slot(good, 31, link_text(key_of(5, secret).public)) + desks.blank_area(5, secret, 0)


def third_of_the_first(two: bytes) -> bytes:
    secret = ZEROS[:16] + TWOS[:32]
    return with_slot(two, 31, link_text(key_of(5, secret).public), len(two) // 2) + desks.blank_area(5, secret, 0)


def make_desks() -> Iterator[Case]:
    return answered(run_desk, [(why, {"image": image_fields(image)}) for why, image in images()])


DESKS = Family(
    "desks",
    "What an image of the owner's disk opens as: the keys of its areas, how many one-time keys of the current one are left for headers and how many there are, and the chain of its links; or why it cannot be used. An image is zeros but for the pieces at their places.",
    record({"image": IMAGE}),
    record({}, {"keys": listed(HEX), "left": NUMBER, "total": NUMBER, "links": HEX, **FAULT}),
    run_desk,
    make_desks,
)


def run_change(given: Fields) -> Fields:
    image, kind, secret = image_in(given["image"]), KINDS[given["kind"]], octets(given["secret"])
    try:
        changed = (desks.create if given["do"] == "key" else desks.succeed)(image, kind, secret)
    except Fault as fault:
        return {"fault": str(fault)}
    return {"public": key_of(kind, secret).public.hex(), "image": image_fields(changed)}


def make_changes() -> Iterator[Case]:
    good, two = fresh(), second_area()
    rows = [
        ("key", "on an empty disk", b"", RISING),
        ("key", "where a key stands", good, RISING),
        ("key", "over 63 octets", b"\x09" * 63, RISING),
        ("key", "over a closed gate and what is left of another key", put(used(good, b"a text"), 0, u8(0)), RISING),
        ("key", "where a disk is open that cannot be used", put(good, layout.KIND, u32(9)), RISING),
        ("key", "over a longer disk", bytes(5000), RISING),
        ("succeed", "behind a key that has signed nothing", good, ONES),
        ("succeed", "behind a key that has signed", used(good, b"a text", b"another"), ONES),
        ("succeed", "behind two keys", two, TWOS),
        ("succeed", "on an empty disk", b"", ONES),
        ("succeed", "the same secret", good, ZEROS),
        ("succeed", "the same name, and another seed", good, ZEROS[:16] + ONES[:32]),
        ("succeed", "the secret of an earlier key", two, ZEROS),
        ("succeed", "where the last slot has signed a header", with_slot(good, 31, b"RPF1" + bytes(100)), ONES),
        ("succeed", "behind eight keys", eight_areas(), bytes([9]) * 48),
        ("succeed", "behind eight keys, with the secret of one", eight_areas(), ZEROS),
        ("succeed", "on a disk that cannot be used", put(good, layout.KIND, u32(9)), ONES),
        ("succeed", "over a longer disk", good + b"\x05" * 6000, ONES),
        ("succeed", "the last slot is spent, and the secret is the same", with_slot(good, 31, b"RPF1"), ZEROS),
        ("key", "over 64 octets", b"\x09" * 64, RISING),
    ]
    return answered(
        run_change,
        [
            (f"{do} {why}", {"do": do, "image": image_fields(image), "kind": "h5", "secret": secret.hex()})
            for do, why, image, secret in rows
        ],
    )


CHANGES = Family(
    "desk_changes",
    "The image that is left where `key` makes a key or `succeed` the next one, and its public key; or why it does not.",
    record({"do": one_of("key", "succeed"), "image": IMAGE, "kind": one_of("h5"), "secret": HEX}),
    record({}, {"public": HEX, "image": IMAGE, **FAULT}),
    run_change,
    make_changes,
)


def run_signing(given: Fields) -> Fields:
    words = ["publish", "roads", "dij", given["version"], "id", "0", "2", "0", "0", "0"]
    ended = commands.run(words, World({"roads": octets(given["roads"])}.__getitem__, image_in(given["image"])))
    if ended.fault is not None:
        return {"status": ended.status, "fault": str(ended.fault)}
    return {"status": 0, "publication": ended.output.hex(), "image": image_fields(ended.disk)}


def make_signings() -> Iterator[Case]:
    roads = print_roads(STREETS).hex()
    good, two = fresh(), second_area()
    full = used(good, *(b"text %d" % number for number in range(31)))
    second_full = used(two, *(b"text %d" % number for number in range(31)))
    rows = [
        ("the first slot", good),
        ("the second slot", used(good, b"a text")),
        ("the last slot that signs headers", used(good, *(b"text %d" % number for number in range(30)))),
        ("all slots are spent but that of the next key", full),
        ("all slots are spent", with_slot(full, 31, b"RPF1")),
        ("the current key of two", two),
        ("the second slot of the current key of two", used(two, b"a text")),
        ("all slots of the current key of two are spent", second_full),
        ("no key", b""),
        ("a disk that cannot be used", put(good, layout.KIND, u32(9))),
        ("a longer disk, which stays as long", good + b"\x07" * 100),
    ]
    return answered(
        run_signing, [(why, {"image": image_fields(image), "roads": roads, "version": "7"}) for why, image in rows]
    )


SIGNINGS = Family(
    "signings",
    "What `publish` writes and the image of the owner's disk that it leaves, under DIJ by id with fan-out 2, or why it does not; with the status of the command.",
    record({"image": IMAGE, "roads": HEX, "version": WIDE}),
    record({"status": NUMBER}, {"publication": HEX, "image": IMAGE, **FAULT}),
    run_signing,
    make_signings,
)

AUDIT = {"image": IMAGE, "public": HEX, "chain": HEX, "publication": HEX, "reply": HEX, "from": NUMBER}
ENDED = record({"status": NUMBER}, {"line": TEXT, **FAULT})


def ended_fields(ended: commands.Ended) -> Fields:
    if ended.fault is not None:
        return {"status": ended.status, "fault": str(ended.fault)}
    return {"status": ended.status, "line": ended.output.decode()}


def run_audit(given: Fields) -> Fields:
    files = {
        "key": given["public"].encode(),
        "pub": octets(given["publication"]),
        "reply": octets(given["reply"]),
        "chain": octets(given["chain"]),
    }
    end = ["audit-reach", given["radius"]] if "radius" in given else ["audit", str(given["to"])]
    words = [end[0], "key", "pub", "reply", str(given["from"]), end[1], "chain"]
    return ended_fields(commands.run(words, World(files.__getitem__, image_in(given["image"]))))


def audited(
    image: bytes,
    held: Held,
    reply: bytes,
    start: int = 1,
    end: int = 3,
    public: bytes | None = None,
    chain: tuple[Link, ...] = (),
) -> Fields:
    return {
        "image": image_fields(image),
        "public": (public or owner().public).hex(),
        "chain": write_chain(chain).hex(),
        "publication": held.publication.octets().hex(),
        "reply": reply.hex(),
        "from": start,
        "to": end,
    }


def near_audited(
    image: bytes,
    held: Held,
    reply: bytes,
    start: int = 1,
    radius: int = 4,
    public: bytes | None = None,
    chain: tuple[Link, ...] = (),
) -> Fields:
    given = audited(image, held, reply, start, 0, public, chain)
    del given["to"]
    return {**given, "radius": str(radius)}


def forger(version: int, slot: int, key: Key | None = None) -> Held:
    """A publication of the five nodes, signed without the desk."""
    return published(STREETS, settings_of("dij", version=version), slot, key or owner())


def make_audits() -> Iterator[Case]:
    held = {
        method: published(STREETS, settings_of(method), slot)
        for slot, method in enumerate(("dij", "full", "ldm", "hyp"))
    }
    disk = used(fresh(), *(one.publication.header.octets() for one in held.values()))
    dij = held["dij"]
    good = answer(dij, 1, 3)
    rows = [(f"an honest reply, {method}", audited(disk, one, answer(one, 1, 3))) for method, one in held.items()]
    rows += [
        (f"an honest reply that no route exists, {method}", audited(disk, one, answer(one, 1, 5), 1, 5))
        for method, one in held.items()
    ]
    rows += [
        (f"an honest reply on a radius, {method}", near_audited(disk, one, answer_near(one, 1, 4)))
        for method, one in held.items()
    ]
    forged, other = forger(9, 31), forger(4, 4)
    strange = key_of(5, RISING)
    later = used(disk, other.publication.header.octets())
    rows += [
        ("a spare leaf", audited(disk, dij, brings(dij, [1, 2, 3], [1, 2, 3, 4, 5]).octets())),
        ("a reply that the client refuses", audited(disk, dij, brings(dij, [1, 2, 3], [1, 2, 3]).octets())),
        ("a reply that cannot be read", audited(disk, dij, good[:-1])),
        ("a version is never too old", audited(disk, dij, good)),
        ("a server's bare word", audited(disk, dij, b"\x01")),
        ("a reply on a radius that is refused", near_audited(disk, dij, near_reply(dij, [1, 2]).octets())),
        ("a header that was signed past the desk", audited(disk, forged, answer(forged, 1, 3))),
        ("the same, with the publication of another", audited(disk, dij, answer(forged, 1, 3))),
        ("the same on a radius", near_audited(disk, forged, answer_near(forged, 1, 4))),
        ("another publication of the owner's", audited(later, other, good)),
        ("another publication of the owner's, on a radius", near_audited(later, other, answer_near(dij, 1, 4))),
        ("a key that is none of the owner's", audited(disk, dij, good, public=strange.public)),
        ("a key of an unknown type", audited(disk, dij, good, public=u32(9) + strange.public[4:])),
        (
            "a publication whose header is another's",
            audited(
                disk,
                replace(dij, publication=replace(dij.publication, parts=replace(STREETS, roads=STREETS.roads[1:]))),
                good,
            ),
        ),
        (
            "a publication whose parts make no map",
            audited(
                disk,
                replace(dij, publication=replace(dij.publication, parts=replace(STREETS, roads=((1, 1, 1),)))),
                good,
            ),
        ),
        (
            "a refused reply is told before a publication that cannot be installed",
            audited(disk, replace(dij, publication=replace(dij.publication, p1=1)), good[:-1]),
        ),
        ("a disk without a key", audited(b"", dij, good)),
        ("a disk that cannot be used", audited(put(disk, layout.KIND, u32(9)), dij, good)),
        ("an empty disk that has signed nothing", audited(fresh(), dij, good)),
    ]
    broken = audited(disk, dij, good)
    rows += [
        ("a publication that cannot be read", {**broken, "publication": broken["publication"][:-2]}),
        ("a chain that cannot be read", {**broken, "chain": "00"}),
    ]
    yield from answered(run_audit, rows)
    yield from answered(run_audit, list(along_chains()))


def along_chains() -> Iterator[tuple[str, Fields]]:
    """A desk of two keys, and links signed without it."""
    second, strange = key_of(5, ONES), key_of(5, TWOS)
    one, two = forger(3, 0), published(STREETS, settings_of("full", version=5), 0, second)
    disk = used(desks.succeed(used(fresh(), one.publication.header.octets()), 5, ONES), two.publication.header.octets())
    chain = (link(owner(), second.public),)
    yield "under the first key, with the chain", audited(disk, one, answer(one, 1, 3), chain=chain)
    yield "under the second key, along the chain", audited(disk, two, answer(two, 1, 3), chain=chain)
    yield "under the second key alone", audited(disk, two, answer(two, 1, 3), public=second.public)
    yield "under the second key, on a radius", near_audited(disk, two, answer_near(two, 1, 4), chain=chain)
    yield "under the second key, with no chain", audited(disk, two, answer(two, 1, 3))
    false_link = (link(owner(), strange.public),)
    by_strange = published(STREETS, settings_of("dij", version=8), 0, strange)
    yield "a link that was signed past the desk", audited(disk, by_strange, answer(by_strange, 1, 3), chain=false_link)
    yield "a link that was signed past the desk, on a radius", near_audited(
        disk, by_strange, answer_near(by_strange, 1, 4), chain=false_link
    )
    yield "a false link is told before a header that was never signed", audited(
        disk, one, answer(forger(7, 3), 1, 3), chain=false_link
    )
    longer = (*chain, link(second, strange.public))
    yield "the second link was signed past the desk", audited(disk, by_strange, answer(by_strange, 1, 3), chain=longer)
    yield "a broken link", audited(
        disk, two, answer(two, 1, 3), chain=(replace(chain[0], signature=turned(chain[0].signature, 700)),)
    )
    last = key_of(5, NINES)
    by_last = published(STREETS, settings_of("dij", version=8), 0, last)
    past = (link(owner(), strange.public), link(strange, last.public))
    yield "two links that were signed past the desk: the first is told", audited(
        disk, by_last, answer(by_last, 1, 3), chain=past
    )


AUDITS = Family(
    "audits",
    "What the audit finds of a reply, by an image of the owner's disk and a publication, with the status of the command; or the fault before it.",
    record(AUDIT, {"to": NUMBER, "radius": WIDE}),
    ENDED,
    run_audit,
    make_audits,
)


def run_reduction(given: Fields) -> Fields:
    files = {name: given[name].encode() for name in ("public", "text", "signature")}
    return ended_fields(
        commands.run(["reduce", "public", "text", "signature"], World(files.__getitem__, image_in(given["image"])))
    )


def reduced(image: bytes, public: bytes, text: bytes, signature: bytes) -> Fields:
    return {"image": image_fields(image), "public": public.hex(), "text": text.hex(), "signature": signature.hex()}


def make_reductions() -> Iterator[Case]:
    key, second = owner(), key_of(5, ONES)
    texts = [b"version 3", b"version 8", forger(3, 0).publication.header.octets()]
    disk = used(fresh(), *texts)
    two = used(desks.succeed(disk, 5, ONES), b"of the second key")
    rows = [
        (f"slot {slot}, which has signed nothing, on {name}", reduced(disk, key.public, text, key.sign(slot, text)))
        for slot, name, text in (
            (31, "version 9", b"version 9"),
            (3, "no octets", b""),
            (30, "a text that another slot has signed", texts[0]),
        )
    ]
    rows += [
        (
            f"slot {slot}, which has signed another text, on {name}",
            reduced(disk, key.public, text, key.sign(slot, text)),
        )
        for slot, name, text in (
            (0, "version 9", b"version 9"),
            (1, "version 9", b"version 9"),
            (0, "version 13", b"version 13"),
            (0, "no octets", b""),
            (2, "another header", b"RPF1" + bytes(100)),
        )
    ]
    rows += [
        (f"slot {slot} on the text that it has signed", reduced(disk, key.public, text, key.sign(slot, text)))
        for slot, text in enumerate(texts)
    ]
    good = key.sign(0, texts[0])
    rows += [
        ("its last octet is another", reduced(disk, key.public, texts[0], turned(good, 1291))),
        ("no octets", reduced(disk, key.public, texts[0], b"")),
        ("three octets", reduced(disk, key.public, texts[0], b"\x00" * 3)),
        ("a number that is no slot", reduced(disk, key.public, texts[0], put(good, 0, u32(32)))),
        (
            "another randomiser, which the key would not make",
            reduced(disk, key.public, b"version 9", with_randomiser(key, 5, b"version 9")),
        ),
        (
            "another randomiser on the text that the slot has signed",
            reduced(disk, key.public, texts[0], with_randomiser(key, 0, texts[0])),
        ),
        ("a key that is none of the desk's", reduced(disk, second.public, b"x", second.sign(0, b"x"))),
        ("the second key's slot", reduced(two, second.public, b"x", second.sign(0, b"x"))),
        ("the first key's slot, on a desk of two", reduced(two, key.public, b"x", key.sign(0, b"x"))),
        (
            "the second key's own text",
            reduced(two, second.public, b"of the second key", second.sign(0, b"of the second key")),
        ),
        (
            "the link that the desk has signed",
            reduced(two, key.public, link_text(second.public), key.sign(31, link_text(second.public))),
        ),
        (
            "a link past the desk",
            reduced(two, key.public, link_text(TWOS + bytes(8)), key.sign(31, link_text(TWOS + bytes(8)))),
        ),
        ("a disk without a key", reduced(b"", key.public, b"x", key.sign(0, b"x"))),
    ]
    rows += [
        (
            f"another randomiser, on {text.decode()}, which slot {slot} has not signed",
            reduced(disk, key.public, text, with_randomiser(key, slot, text)),
        )
        for slot, text in ((0, b"version 9"), (1, b"version 9"), (0, b"version 11"), (1, b"version 12"))
    ]
    longest = b"x" * layout.MOST_TEXT
    image = put(with_slot(fresh(), 3, longest), layout.BLOCK + 3 * layout.SLOT + layout.LENGTH, u8(255))
    rows.append(
        ("a text of 126 octets, whose length is told as 255", reduced(image, key.public, longest, key.sign(3, longest)))
    )
    rows += [
        (
            f"a digit that equals the signed text's stands before the first that is below it: slot {slot}, on {text.decode()}",
            reduced(disk, key.public, text, key.sign(slot, text)),
        )
        for slot, text in ((0, b"version 31"), (1, b"version 427"))
    ]
    yield from answered(run_reduction, rows)


def with_randomiser(key: Key, slot: int, text: bytes) -> bytes:
    """A signature with a randomiser of zeros, which anybody with the secret can make."""
    shown = [key.value(slot, number, digit) for number, digit in enumerate(digits_of(key.name, slot, bytes(32), text))]
    return u32(slot) + u32(4) + bytes(32) + b"".join(shown) + u32(key.kind) + b"".join(key.path(slot))


REDUCTIONS = Family(
    "reductions",
    "What a signature on a text comes down to, by an image of the owner's disk, with the status of the command. Two texts of equal SHA-256 cannot be shown.",
    record({"image": IMAGE, "public": HEX, "text": HEX, "signature": HEX}),
    ENDED,
    run_reduction,
    make_reductions,
)

FAMILIES = [DESKS, CHANGES, SIGNINGS, AUDITS, REDUCTIONS]
