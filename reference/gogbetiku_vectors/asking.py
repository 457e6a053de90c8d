"""The form of a client's vectors: replies and queries as input, and verdicts as results.

Tested, not proved; no client trusts it.
"""
from collections.abc import Callable, Iterator
from dataclasses import replace
from functools import lru_cache

from gogbetiku_reference import layout
from gogbetiku_reference.chains import Link, link_text, read_chain, write_chain
from gogbetiku_reference.clients import Accepted, Within, check, check_near
from gogbetiku_reference.codes import ACCEPTED, code_of
from gogbetiku_reference.codes import APART as APART_CODE
from gogbetiku_reference.faults import Refused
from gogbetiku_reference.leaves import Added, InCell, NodeLeaf, Own
from gogbetiku_reference.lines import accepted_line, within_line
from gogbetiku_reference.lms import Key, key_of
from gogbetiku_reference.octets import u8, u32
from gogbetiku_reference.replies import Answer, NearReply
from gogbetiku_reference.servers import Held

from .families import HEX, NUMBER, TEXT, WIDE, Case, Fields, octets
from .scenes import LINE, LINE_LDM, STREETS, brings, owner, published, settings_of


GREATEST = 2**64 - 1
# the places of the fields of an answer, and of a range reply, which has three more octets before them
HEADER = layout.IN_ANSWER
METHOD, ORDER, FANNED, ZERO = (HEADER + at for at in (layout.METHOD, layout.ORDER, layout.FAN, layout.ZERO))
VERSIONED, NODES, NODE_ROOT = (HEADER + at for at in (layout.VERSION, layout.NODES, layout.NODE_ROOT))
PAIRS, PAIR_ROOT = HEADER + layout.PAIRS, HEADER + layout.PAIR_ROOT
FIRST, SECOND = HEADER + layout.FIRST, HEADER + layout.SECOND
SEALED, SEAL = HEADER + layout.HEADER, HEADER + layout.SIGNATURE
ROUTED = SEAL + 1292
NEAR_FRONT = layout.IN_RANGE_REPLY + layout.SIGNATURE + 1292
QUERY = {"public": HEX, "chain": HEX, "reply": HEX, "from": NUMBER}
ROUTE_GIVEN = {**QUERY, "to": NUMBER, "least": WIDE}
NEAR_GIVEN = {**QUERY, "radius": WIDE, "least": WIDE}
VERDICT = {"line": TEXT, "code": NUMBER, "first": WIDE, "second": WIDE, "version": WIDE}


def verdict_of(checked: Callable[[], Accepted | Within]) -> Fields:
    """A verdict as its line, and in the numbers of the library."""
    try:
        accepted = checked()
    except Refused as refused:
        code, first, second = code_of(refused)
        return {"line": refused.line(), "code": code, "first": str(first), "second": str(second), "version": "0"}
    line = within_line(accepted) if isinstance(accepted, Within) else accepted_line(accepted)
    code = APART_CODE if isinstance(accepted, Accepted) and accepted.route is None else ACCEPTED
    return {"line": line, "code": code, "first": "0", "second": "0", "version": str(accepted.header.version)}


def run_route(given: Fields) -> Fields:
    chain = read_chain(octets(given["chain"]))
    return verdict_of(
        lambda: check(
            octets(given["public"]), chain, octets(given["reply"]), given["from"], given["to"], int(given["least"])
        )
    )


def run_near(given: Fields) -> Fields:
    chain = read_chain(octets(given["chain"]))
    return verdict_of(
        lambda: check_near(
            octets(given["public"]),
            chain,
            octets(given["reply"]),
            given["from"],
            int(given["radius"]),
            int(given["least"]),
        )
    )


def asked(
    reply: bytes | Answer,
    start: int,
    end: int,
    least: int = 3,
    public: bytes | None = None,
    chain: tuple[Link, ...] = (),
) -> Fields:
    """A reply to a query for a route, as a client's input."""
    text = reply if isinstance(reply, bytes) else reply.octets()
    return {
        "public": (public or owner().public).hex(),
        "chain": write_chain(chain).hex(),
        "reply": text.hex(),
        "from": start,
        "to": end,
        "least": str(least),
    }


def near_asked(
    reply: bytes | NearReply,
    start: int,
    radius: int,
    least: int = 3,
    public: bytes | None = None,
    chain: tuple[Link, ...] = (),
) -> Fields:
    given = asked(reply if isinstance(reply, bytes) else reply.octets(), start, 0, least, public, chain)
    del given["to"]
    return {**given, "radius": str(radius), "least": str(least)}


def expected(given: Fields, line: str, run: Callable[[Fields], Fields]) -> Fields:
    """The verdict. Its line must be this one."""
    result = run(given)
    if result["line"] != line + "\n":
        raise AssertionError(f"{result['line'].strip()}, and not {line}")
    return result


def routed(
    why: str,
    line: str,
    reply: bytes | Answer,
    start: int = 1,
    end: int = 3,
    least: int = 3,
    public: bytes | None = None,
    chain: tuple[Link, ...] = (),
) -> Case:
    given = asked(reply, start, end, least, public, chain)
    return Case(why, given, expected(given, line, run_route))


def neared(
    why: str,
    line: str,
    reply: bytes | NearReply,
    radius: int = 4,
    start: int = 1,
    least: int = 3,
    public: bytes | None = None,
    chain: tuple[Link, ...] = (),
) -> Case:
    given = near_asked(reply, start, radius, least, public, chain)
    return Case(why, given, expected(given, line, run_near))


def put(text: bytes, at: int, piece: bytes) -> bytes:
    """Octets with a piece replaced."""
    return text[:at] + piece + text[at + len(piece) :]


def turned(text: bytes, at: int, bits: int = 1) -> bytes:
    """Octets with some bits of one flipped."""
    return put(text, at, u8(text[at] ^ bits))


@lru_cache(maxsize=1)
def books() -> dict[str, Held]:
    """The five nodes under each method, and the line under LDM."""
    held = {method: published(STREETS, settings_of(method)) for method in ("dij", "full", "ldm", "hyp")}
    held["line"] = published(LINE, settings_of("ldm", parameters=LINE_LDM))
    return held


def honest(method: str) -> Answer:
    held = books()[method]
    pairs = {"full": [(1, 3)], "hyp": [(2, 3), (3, 4)]}.get(method, [])
    return brings(held, [1, 2, 3], [1, 2, 3] if method == "full" else [1, 2, 3, 4], pairs)


@lru_cache(maxsize=1)
def keys() -> list[Key]:
    """The first key and the two next ones."""
    return [owner(), *(key_of(5, bytes([number]) * 48) for number in (1, 2))]


def link(before: Key, after: bytes) -> Link:
    """A link signed by the last slot of a key."""
    return Link(after, before.sign(before.slots - 1, link_text(after)))


def good_chain() -> tuple[Link, ...]:
    first, second, third = keys()
    return link(first, second.public), link(second, third.public)


def by_key(number: int) -> Held:
    """The five nodes under DIJ, signed by one of the three keys."""
    return published(STREETS, settings_of("dij"), 0, keys()[number])


def bad_chains() -> Iterator[tuple[str, str, tuple[Link, ...]]]:
    """Chains with a link that is not signed under the previous key."""
    first, second, third = keys()
    one, two = good_chain()
    strange = u32(7) + second.public[4:]
    yield "a bit of the first link's key", "refused BadChain 0 NoMatch", (replace(one, key=turned(one.key, 8)), two)
    yield "a bit of the first link's signature", "refused BadChain 0 NoMatch", (
        replace(one, signature=turned(one.signature, 9)),
        two,
    )
    yield "the first link without a signature", "refused BadChain 0 BadForm", (replace(one, signature=b""), two)
    yield "the first link's signature by a number that is no slot", "refused BadChain 0 BadForm", (
        replace(one, signature=put(one.signature, 0, u32(32))),
    )
    yield "the links in the wrong order", "refused BadChain 0 NoMatch", (two, one)
    yield "the second link signed by the first key", "refused BadChain 1 NoMatch", (one, link(first, third.public))
    yield "the second link without a signature", "refused BadChain 1 BadForm", (one, replace(two, signature=b""))
    yield "a link behind a key of an unknown type", "refused BadChain 1 BadKey", (link(first, strange), two)
    yield "a link that is signed as a header is", "refused BadChain 0 NoMatch", (
        Link(second.public, first.sign(31, second.public)),
    )


def leaf(node: int, arcs: dict[int, int], added: Added = None) -> NodeLeaf:
    return NodeLeaf(node, 0, 0, tuple(sorted(arcs.items())), added)


def added_of(method: str, border: bool = False) -> Added:
    """The extra fields of a leaf under a method, with one landmark and one cell."""
    known: dict[str, Added] = {"ldm": Own((0,)), "hyp": InCell(0, border)}
    return known.get(method)
