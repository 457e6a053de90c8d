"""The survey of a method over a grid.

docs/SPEC.md, 10.1 The survey. Where routes are equally short, another line than this one may be right too. Part of the
reference: tested, not proved, and trusted by no client.
"""
import hashlib

from .books import book_of
from .clients import check
from .draws import Draw, grid
from .headers import DIJ, FULL, HYP, LDM
from .lms import KINDS, key_of
from .publications import Publication, Settings
from .servers import Held, answer

PARAMETERS = {DIJ: (0, 0, 0), FULL: (0, 0, 0), LDM: (4, 12, 2), HYP: (2, 2, 0)}
VERSION, ORDER, FAN = 1, 3, 4


def surveyed(width: int, seed: int, method: int) -> Held:
    """The grid's publication, signed by the key of 48 zero octets."""
    parts = grid(width, seed)
    book = book_of(parts, Settings(method, VERSION, ORDER, seed, FAN, *PARAMETERS[method]))
    signature = key_of(KINDS["h5"], bytes(48)).sign(0, book.header.octets())
    return Held(Publication(book.header, signature, seed, *PARAMETERS[method], parts), book)


def queries(width: int, seed: int, count: int) -> list[tuple[int, int]]:
    draw, nodes = Draw((seed + 1) % 2**64), width * width
    drawn = [1 + (draw.next() * 32_768 + draw.next()) % nodes for _ in range(2 * count)]
    return list(zip(drawn[::2], drawn[1::2]))


def survey(width: int, seed: int, method: int, count: int) -> str:
    """The line of a survey."""
    held, total = surveyed(width, seed, method), 0
    digest = hashlib.sha256(held.publication.octets())
    public = key_of(KINDS["h5"], bytes(48)).public
    for start, end in queries(width, seed, count):
        reply = answer(held, start, end)
        digest.update(reply)
        total += check(public, (), reply, start, end, VERSION).length
    return f"queries {count} accepted {count} total {total} digest {digest.hexdigest()}\n"
