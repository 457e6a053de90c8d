"""The audit: finds the evidence in an accepted reply.

docs/SPEC.md, 9.1 The audit. Part of the reference: tested, not proved, and trusted by no client.
"""
from collections.abc import Callable, Sequence
from dataclasses import dataclass
from typing import TypeVar

from .chains import Link, link_text
from .clients import check, check_near
from .desks import Desk
from .faults import Fault
from .headers import Header
from .octets import Reader
from .publications import Publication
from .replies import Answer, NearReply, NodeItem, PairItem, read_near_reply, read_reply
from .servers import Held, install
from .trees import clash

Clash = tuple[bytes, bytes]


@dataclass(frozen=True)
class Right:
    pass


@dataclass(frozen=True)
class Forged:
    text: bytes
    signature: bytes


@dataclass(frozen=True)
class Collision:
    left: bytes
    right: bytes


Finding = Right | Forged | Collision
Reply = TypeVar("Reply", Answer, NearReply)


def forged(desk: Desk, chain: Sequence[Link], header: Header, signature: bytes) -> Forged | None:
    """The first text on which an accepted reply depends and that no slot has, links before the header."""
    texts = [(link_text(link.key), link.signature) for link in chain] + [(header.octets(), signature)]
    return next((Forged(*signed) for signed in texts if not desk.has_signed(signed[0])), None)


def clash_under(
    texts: Sequence[bytes], fan: int, items: Sequence[NodeItem | PairItem], cover: Sequence[bytes]
) -> Clash | None:
    return clash(texts, fan, [item.place for item in items], [item.text for item in items], cover) if items else None


def route_clash(held: Held, reply: Answer) -> Clash | None:
    book, fan = held.book, held.book.settings.fan
    return clash_under(book.node_texts, fan, reply.nodes, reply.node_cover) or clash_under(
        book.pair_texts, fan, reply.pairs, reply.pair_cover
    )


def near_clash(held: Held, reply: NearReply) -> Clash | None:
    return clash_under(held.book.node_texts, held.book.settings.fan, reply.nodes, reply.node_cover)


def audit_reply(
    public: bytes,
    chain: Sequence[Link],
    publication: Publication,
    desk: Desk,
    checked: Callable[[], object],
    reply_of: Callable[[], Reply],
    clash_of: Callable[[Held, Reply], Clash | None],
) -> Finding:
    """The first finding that holds. Raises a refusal of the client, and each other reason to find nothing."""
    desk.area_of(public)
    checked()
    held = install(publication)
    reply = reply_of()
    evidence = forged(desk, chain, reply.header, reply.signature)
    if evidence is not None:
        return evidence
    if reply.header != publication.header:
        raise Fault("OtherPublication")
    found = clash_of(held, reply)
    return Right() if found is None else Collision(*found)


def read_answer(octets: bytes) -> Answer:
    """The answer in an accepted reply."""
    answer = read_reply(Reader(octets))
    assert isinstance(answer, Answer)
    return answer


def audit(
    public: bytes, chain: Sequence[Link], publication: Publication, octets: bytes, start: int, end: int, desk: Desk
) -> Finding:
    return audit_reply(
        public,
        chain,
        publication,
        desk,
        lambda: check(public, chain, octets, start, end, 0),
        lambda: read_answer(octets),
        route_clash,
    )


def audit_near(
    public: bytes, chain: Sequence[Link], publication: Publication, octets: bytes, start: int, radius: int, desk: Desk
) -> Finding:
    return audit_reply(
        public,
        chain,
        publication,
        desk,
        lambda: check_near(public, chain, octets, start, radius, 0),
        lambda: read_near_reply(Reader(octets)),
        near_clash,
    )
