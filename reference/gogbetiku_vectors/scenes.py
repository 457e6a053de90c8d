"""Maps, publications, and true and false replies, which vectors and checks use.

Tested, not proved; no client trusts it.
"""
from collections.abc import Iterable
from functools import lru_cache

from gogbetiku_reference.books import Book, book_of
from gogbetiku_reference.headers import METHODS
from gogbetiku_reference.leaves import NodeLeaf, PairLeaf
from gogbetiku_reference.lms import KINDS, Key, key_of
from gogbetiku_reference.maps import Map, Parts
from gogbetiku_reference.orders import ORDERS
from gogbetiku_reference.publications import Publication, Settings
from gogbetiku_reference.replies import APART, ROUTE, Answer, NodeItem, PairItem
from gogbetiku_reference.servers import Held, node_cover, pair_cover, shows

# five nodes, of which 5 has no road; a line of five; three nodes with roads of length 0; and the first with a sixth node
# beside 5, whose road makes both ends borders under HYP with three columns
STREETS = Parts(
    ((1, 0, 0), (2, 10, 0), (3, 20, 0), (4, 10, 10), (5, 50, 50)), ((1, 2, 4), (2, 3, 5), (1, 4, 3), (4, 3, 7))
)
LINE = Parts(
    ((1, 0, 0), (2, 10, 0), (3, 20, 0), (4, 30, 0), (5, 40, 0)), ((1, 2, 10), (2, 3, 10), (3, 4, 10), (4, 5, 10))
)
LEVEL = Parts(((1, 0, 0), (2, 1, 0), (3, 2, 0)), ((1, 2, 0), (2, 3, 0)))
SIX = Parts((*STREETS.nodes, (6, 20, 50)), (*STREETS.roads, (5, 6, 1)))

ZEROS = bytes(48)
VERSION, FAN, SEED = 3, 2, 7
# the parameters of each method over the five nodes
PARAMETERS = {"dij": (0, 0, 0), "full": (0, 0, 0), "ldm": (1, 2, 0), "hyp": (3, 1, 0)}
LINE_LDM = (1, 16, 0)


def owner() -> Key:
    """The key of 48 zero octets."""
    return key_of(KINDS["h5"], ZEROS)


def settings_of(
    method: str,
    order: str = "id",
    version: int = VERSION,
    seed: int = 0,
    fan: int = FAN,
    parameters: tuple[int, int, int] | None = None,
) -> Settings:
    return Settings(METHODS[method], version, ORDERS[order], seed, fan, *(parameters or PARAMETERS[method]))


@lru_cache(maxsize=512)
def published(parts: Parts, settings: Settings, slot: int = 0, key: Key | None = None) -> Held:
    """A publication signed by this slot."""
    book = book_of(parts, settings)
    signature = (key or owner()).sign(slot, book.header.octets())
    publication = Publication(book.header, signature, settings.seed, settings.p1, settings.p2, settings.p3, parts)
    return Held(publication, book)


def brings(held: Held, route: Iterable[int], nodes: Iterable[int], pairs: Iterable[tuple[int, int]] = ()) -> Answer:
    """An answer with a route and the leaves of these nodes and pairs, and the covers that fit them."""
    return shows(held, ROUTE, tuple(route), (set(nodes), set(pairs)))


def brings_apart(held: Held, nodes: Iterable[int], pairs: Iterable[tuple[int, int]] = ()) -> Answer:
    """The same without a route."""
    return shows(held, APART, (), (set(nodes), set(pairs)))


def by_hand(
    method: str,
    nodes: Iterable[NodeLeaf],
    pairs: Iterable[PairLeaf] = (),
    first: int = 0,
    second: int = 0,
    fan: int = FAN,
) -> Held:
    """A signed header over any leaves, even if no map has them."""
    settings = settings_of(method, fan=fan)
    book = Book(NO_MAP, settings, tuple(nodes), tuple(pairs), first, second)
    publication = Publication(book.header, owner().sign(0, book.header.octets()), 0, *PARAMETERS[method], NO_MAP.parts)
    return Held(publication, book)


NO_MAP = Map(Parts((), ()))


def at_places(held: Held, kind: int, route: Iterable[int], nodes: Iterable[int], pairs: Iterable[int] = ()) -> Answer:
    """An answer with the leaves at these places, and the covers that fit them."""
    book = held.book
    brought = tuple(NodeItem(place, book.nodes[place], book.node_texts[place]) for place in sorted(nodes))
    said = tuple(PairItem(place, book.pairs[place], book.pair_texts[place]) for place in sorted(pairs))
    return Answer(
        kind,
        held.publication.header,
        held.publication.signature,
        tuple(route),
        brought,
        said,
        node_cover(book, brought),
        pair_cover(book, said),
    )
