#!/usr/bin/env python3
"""Compares octets in the tests of the crates with the reference: checks/sources.py [NAME]

The tests contain signed answers and range replies, digests of replies, keys, the results of forgeries, and the line of
a survey. In the tests these are results of another program. That program is reference/gogbetiku_reference. With NAME it
prints that array in hex. Nothing here is proved, and no client trusts it. Ends with status 1 if anything differs.
"""
import hashlib
import pathlib
import re
import sys
from dataclasses import replace

TOP = pathlib.Path(__file__).resolve().parent.parent
sys.path.insert(0, str(TOP / "reference"))

from gogbetiku_reference.layout import IN_ANSWER, IN_RANGE_REPLY, SIGNATURE  # noqa: E402
from gogbetiku_reference.lms import key_of  # noqa: E402
from gogbetiku_reference.reductions import Chain, reduce  # noqa: E402
from gogbetiku_reference.replies import NearReply, cover_text, node_items_text  # noqa: E402
from gogbetiku_reference.servers import Held, answer_near, near_reply  # noqa: E402
from gogbetiku_reference.surveys import survey  # noqa: E402
from gogbetiku_vectors import rfc8554  # noqa: E402
from gogbetiku_vectors.scenes import (
    LEVEL,
    LINE,
    LINE_LDM,
    PARAMETERS,
    SEED,
    SIX,
    STREETS,
    brings,
    brings_apart,
    owner,  # noqa: E402
    published,
    settings_of,
)

GREATEST = 2**64 - 1
ORDERS = ("id", "breadth", "depth", "hilbert", "kd", "shuffled")
# the octets before the route of an answer, and before the items of a range reply
ROUTE, FRONT = IN_ANSWER + SIGNATURE + 1292, IN_RANGE_REPLY + SIGNATURE + 1292

faults: list[str] = []


def same(what: str, seen: object, wanted: object) -> None:
    if seen != wanted:
        faults.append(what)


def answers() -> dict[str, bytes]:
    """The arrays of audit_tests. Each header is signed with its own slot."""
    dij = published(STREETS, settings_of("dij"), 0)
    hyp = published(STREETS, settings_of("hyp"), 1)
    full = published(STREETS, settings_of("full"), 2)
    ldm = published(LINE, settings_of("ldm", parameters=LINE_LDM), 3)
    arrays = {
        "PUBLIC": owner().public,
        "REPLY": brings(dij, [1, 2, 3], [1, 2, 3, 4]).octets(),
        "FOURTH_DIGEST": dij.book.node_levels[0][3],
        "BORDER_REPLY": brings(hyp, [1, 2, 3], [1, 2, 3, 4], [(2, 3), (3, 4)]).octets(),
        "ONE_PAIR_COVER": cover_text(brings(hyp, [1], [1], [(2, 3)]).pair_cover),
        "FULL_REPLY": brings(full, [1, 2, 3], [1, 2, 3], [(1, 3)]).octets(),
        "FULL_DETOUR": brings(full, [1, 4, 3], [1, 3, 4], [(1, 3)]).octets()[ROUTE:],
        "FULL_WITHOUT_PAIR": brings(full, [1, 2, 3], [1, 2, 3]).octets()[ROUTE:],
        "LDM_REPLY": brings(ldm, [3, 4, 5], [2, 3, 4, 5]).octets(),
        "LDM_WITHOUT_2": brings(ldm, [3, 4, 5], [3, 4, 5]).octets()[ROUTE:],
        "APART": brings_apart(dij, [1, 2, 3, 4, 5]).octets()[ROUTE:],
        "APART_BACK": brings_apart(dij, [1, 5]).octets()[ROUTE:],
        "APART_WITHOUT_4": brings_apart(dij, [1, 2, 3, 5]).octets()[ROUTE:],
        "FULL_APART": brings_apart(full, [1, 5], [(1, 5)]).octets()[ROUTE:],
        "FULL_APART_JOINED": brings_apart(full, [1, 3], [(1, 3)]).octets()[ROUTE:],
        "BORDER_APART": brings_apart(hyp, [1, 2, 4, 5]).octets()[ROUTE:],
    }
    six = published(SIX, settings_of("hyp"), 8)
    arrays["SIX_APART"] = brings_apart(six, [1, 2, 4, 5], [(2, 5), (4, 5)]).octets()
    arrays["SIX_APART_WITHOUT_PAIR"] = brings_apart(six, [1, 2, 4, 5], [(2, 5)]).octets()[ROUTE:]
    parameters = {**PARAMETERS, "hyp": (2, 1, 0)}
    for slot, (method, numbers) in enumerate(parameters.items(), 4):
        held = published(LEVEL, settings_of(method, version=1, parameters=numbers), slot)
        pairs = [(1, 3)] if method == "full" else []
        arrays[f"ZERO_{method.upper()}_REPLY"] = brings(held, [1, 2, 3], [1, 2, 3], pairs).octets()
    return arrays


def near_answers() -> dict[str, bytes]:
    """The arrays of line_tests: the front of a range reply, and the octets after it."""
    held = published(STREETS, settings_of("dij"), 0)
    nothing = near_reply(held, [])
    arrays = {
        "PUBLIC": owner().public,
        "FRONT": nothing.octets()[:FRONT],
        "WITHIN_4": answer_near(held, 1, 4)[FRONT:],
        "WITHIN_0": answer_near(held, 1, 0)[FRONT:],
        "WITHIN_ANY": answer_near(held, 1, GREATEST)[FRONT:],
        "WITHOUT_4": near_reply(held, [1, 2]).octets()[FRONT:],
        "WITH_5": near_reply(held, [1, 2, 4, 5]).octets()[FRONT:],
        "TWO_WITH_ONE_ID": twice(held).octets()[FRONT:],
        "NOTHING": nothing.octets()[FRONT:],
        "NOTHING_COVERED": node_items_text([]) + cover_text([held.book.node_levels[-1][0]]),
    }
    return arrays


def standard() -> dict[str, bytes]:
    """The arrays of seal_tests: RFC 8554, Appendix F, test case 1."""
    names = ("FIRST_PUBLIC", "SECOND_PUBLIC", "MESSAGE", "FIRST_SIGNATURE", "SECOND_SIGNATURE")
    return {name: getattr(rfc8554, name) for name in names}


def twice(held: Held) -> NearReply:
    """Node 1 at its place and at that of node 2."""
    reply = near_reply(held, [1, 2])
    first = reply.nodes[0]
    return replace(reply, nodes=(first, replace(first, place=1)))


def octets_in(path: pathlib.Path) -> dict[str, bytes]:
    """The octets in a test's source: arrays, and hex text."""
    text, found = path.read_text(encoding="utf-8"), {}
    for name, numbers in re.findall(r"pub const (\w+): \[u8; \d+\] = \[([^\]]*)\]", text):
        found[name] = bytes(int(word, 0) for word in numbers.replace(",", " ").split())
    for name, digits in re.findall(r'pub const (\w+): &str =\s+"([^"]*)"', text):
        found[name] = bytes.fromhex(digits.replace("\\", ""))
    return found


def compare_arrays(path: str, made: dict[str, bytes]) -> None:
    tested = octets_in(TOP / path)
    for name in sorted(tested):
        same(f"{path}: {name}", tested[name], made.get(name))


def unsigned(held: Held) -> Held:
    """A publication whose signature is zeros."""
    publication = held.publication
    return replace(held, publication=replace(publication, signature=bytes(len(publication.signature))))


def in_order(method: str, order: str) -> Held:
    return unsigned(published(STREETS, settings_of(method, order, seed=SEED if order == "shuffled" else 0)))


def compare_digests() -> None:
    """The digests of unsigned replies in the tests of both servers."""
    routes = (TOP / "crates/road_tests/src/server.rt").read_text(encoding="utf-8")
    radii = (TOP / "crates/road_tests/src/reach.rt").read_text(encoding="utf-8")
    pairs: dict[str, list[tuple[int, int]]] = {"dij": [], "full": [(1, 3)], "ldm": [], "hyp": [(2, 3), (3, 4)]}
    for method, order in (("dij", "id"), ("full", "id"), ("full", "hilbert"), ("ldm", "id"), ("hyp", "id")):
        nodes = [1, 2, 3] if method == "full" else [1, 2, 3, 4]
        reply = brings(in_order(method, order), [1, 2, 3], nodes, pairs[method]).octets()
        same(f"server.rt: {method} {order}", hashlib.sha256(reply).hexdigest() in routes, True)
    for method in PARAMETERS:
        for order in ORDERS:
            reply = answer_near(in_order(method, order), 1, 4)
            same(f"reach.rt: {method} {order}", hashlib.sha256(reply).hexdigest() in radii, True)


def compare_reductions() -> None:
    """The results of forgeries: the rows of the tests of reductions, under the key of the octets 0 to 47."""
    tests = (TOP / "crates/seal_tests/src/reducing.rt").read_text(encoding="utf-8")
    key = key_of(5, bytes(range(48)))
    rows = [
        (31, b"version 9", None),
        (0, b"version 9", b"version 8"),
        (7, b"version 13", b"version 3"),
        (7, b"", b"version 3"),
    ]
    for slot, text, spent in rows:
        found = reduce(key, spent, text, key.sign(slot, text))
        assert isinstance(found, Chain)
        row = (
            rf'{slot},\s+b"{text.decode()}",[^"]*(?:"[^"]*"\),)?\s+{found.at},\s+{found.step},\s+"{found.value.hex()}"'
        )
        same(f"reducing.rt: {slot} {text!r}", re.search(row, tests) is not None, True)


def compare_keys() -> None:
    """Public keys and whole signatures of the keys of height 5."""
    tests = (TOP / "crates/seal_tests/src/signatures.rt").read_text(encoding="utf-8")
    same("signatures.rt: the key", owner().public.hex() in tests, True)
    for slot in (0, 1, 17, 31):
        for text in (b"", b"abc"):
            digest = hashlib.sha256(owner().sign(slot, text)).hexdigest()
            same(f"signatures.rt: {slot} {text!r}", digest in tests, True)


def main() -> int:
    if len(sys.argv) > 1:
        print({**near_answers(), **answers(), **standard()}[sys.argv[1]].hex())
        return 0
    compare_arrays("crates/audit_tests/src/signed_answers.rt", answers())
    compare_arrays("crates/line_tests/src/signed_near.rt", near_answers())
    compare_arrays("crates/seal_tests/src/standard.rt", standard())
    compare_digests()
    compare_reductions()
    compare_keys()
    surveys = (TOP / "crates/desk_tests/src/survey.rt").read_text(encoding="utf-8")
    same("survey.rt: the line", survey(2, 0, 1, 2).strip() in surveys, True)
    for fault in faults:
        print(f"differs: {fault}")
    print(f"sources: {len(faults)} differ" if faults else "sources: the tests' octets are those of the reference")
    return 1 if faults else 0


if __name__ == "__main__":
    sys.exit(main())
