"""The lines that commands write.

docs/SPEC.md, 10 Lines. Part of the reference: tested, not proved, and trusted by no client.
"""
from collections.abc import Iterable

from .audits import Collision, Finding, Forged
from .clients import Accepted, Within
from .reductions import Chain, Signed


def ids_line(number: int, ids: Iterable[int]) -> str:
    return f"{number}:{''.join(f' {node}' for node in ids)}\n"


def route_line(length: int, route: Iterable[int]) -> str:
    return ids_line(length, route)


def accepted_line(accepted: Accepted) -> str:
    if accepted.route is None:
        return "accepted none\n"
    return "accepted " + route_line(accepted.length, accepted.route)


def within_line(within: Within) -> str:
    return "within " + ids_line(len(within.distances), within.distances)


def root_line(nodes: int, root: bytes) -> str:
    return f"{nodes} {root.hex()}\n"


def finding_line(finding: Finding) -> str:
    match finding:
        case Forged(text, signature):
            return f"forged {text.hex()} {signature.hex()}\n"
        case Collision(left, right):
            return f"collision {left.hex()} {right.hex()}\n"
    return "right\n"


def reduction_line(reduced: Signed | Chain | Collision) -> str:
    match reduced:
        case Signed(slot):
            return f"signed {slot}\n"
        case Chain(slot, at, step, value):
            return f"chain {slot} {at} {step} {value.hex()}\n"
    return finding_line(reduced)
