"""Vectors of orders, publications, honest replies, routes, the service and surveys.

Tested, not proved; no client trusts it.
"""
import hashlib
from collections.abc import Iterator
from dataclasses import replace

from gogbetiku_reference import clients, layout, servers
from gogbetiku_reference.books import book_of
from gogbetiku_reference.chains import Link, link_text, read_chain, write_chain
from gogbetiku_reference.draws import grid
from gogbetiku_reference.faults import Fault, Refused
from gogbetiku_reference.frames import Guard, Service, bodies_of, framed
from gogbetiku_reference.headers import METHODS
from gogbetiku_reference.lines import accepted_line, route_line, within_line
from gogbetiku_reference.lms import KINDS, key_of
from gogbetiku_reference.maps import Map, Parts, map_of
from gogbetiku_reference.octets import Malformed, Reader, u8, u32, u64
from gogbetiku_reference.orders import ORDERS, order_of
from gogbetiku_reference.publications import Publication, Settings, read_publication
from gogbetiku_reference.road_files import print_roads, read_roads
from gogbetiku_reference.servers import Held, install
from gogbetiku_reference.surveys import survey

from .asking import GREATEST, books, put, turned
from .families import (
    AGAIN,
    DIGEST,
    HEX,
    NUMBER,
    TEXT,
    WIDE,
    Case,
    Family,
    Fields,
    answered,
    listed,
    octets,
    octets_again,
    one_of,
    record,
)
from .formats import PARTS, parts_fields
from .scenes import LINE, LINE_LDM, PARAMETERS, SEED, SIX, STREETS, ZEROS, owner, published, settings_of

FAULT = {"fault": TEXT}
METHOD_NAMES = {number: name for name, number in METHODS.items()}
ORDER_NAMES = {number: name for name, number in ORDERS.items()}
# routes over it are unique: each road has another power of two as its length
PLAIN = Parts(
    ((7, -5, 3), (12, 0, 0), (3, 9, -8), (40, 9, 3), (5, -5, -8), (21, 4, 4), (8, 30, 30), (9, 31, 30), (100, 4, 4)),
    tuple(
        (a, b, 2**at)
        for at, (a, b) in enumerate(
            ((7, 12), (12, 3), (3, 40), (40, 21), (21, 5), (5, 7), (12, 21), (8, 9), (3, 5), (100, 40))
        )
    ),
)
# with two shortest routes from 1 to 3
TIE = Parts(((1, 0, 0), (2, 1, 1), (3, 2, 0), (4, 1, -1)), ((1, 2, 4), (2, 3, 5), (1, 4, 4), (4, 3, 5)))
# nodes 2, 3 and 4 are as far from 1, 5 is one farther, and 6 two farther than 2
EQUAL = Parts(
    ((1, 0, 0), (2, 9, 0), (3, 0, 9), (4, 9, 9), (5, 18, 0), (6, 20, 0)),
    ((1, 2, 5), (1, 3, 5), (1, 4, 5), (1, 5, 6), (2, 6, 2), (3, 4, 9)),
)
# many nodes for each code of a landmark, and two components
WIDE_MAP = Parts(
    tuple((node, node % 7 * 10 - 30, node // 7 * 10) for node in range(1, 29)),
    tuple(
        (node, node + step, 2 * node + step)
        for node in range(1, 29)
        for step in (1, 7)
        if node + step < 29 and (step == 7 or node % 7 != 6) and not 14 <= node < 21 <= node + step
    ),
)


def zigzag(borders: int, more: int = 0) -> Parts:
    """Nodes in a row that alternates between two cells, and some without roads."""
    nodes = tuple((node, node % 2, 0) for node in range(borders + more))
    return Parts(nodes, tuple((node, node + 1, 1) for node in range(borders - 1)))


# a row of 70 nodes, and two neighbours of the 7th and the 6th
CANDIDATES = Parts(
    tuple((node, node, 0) for node in range(1, 73)),
    (*((node, node + 1, 1) for node in range(1, 70)), (7, 71, 0), (6, 72, 0)),
)
BETWEEN = Parts((*CANDIDATES.nodes, (73, 0, 0)), (*CANDIDATES.roads, (5, 73, 0)))
# two borders at distance 0
LEVEL_BORDERS = Parts(((1, 0, 0), (2, 1, 0), (3, 10, 0), (4, 11, 0)), ((1, 2, 4), (2, 3, 0), (3, 4, 3)))


def run_order(given: Fields) -> Fields:
    parts = Parts(*(tuple((one, two, three) for one, two, three in given[what]) for what in ("nodes", "roads")))
    return {"ids": order_of(map_of(parts), ORDERS[given["order"]], int(given["seed"]))}


def make_orders() -> Iterator[Case]:
    maps = [
        ("five nodes", STREETS),
        ("nine nodes of three components", PLAIN),
        ("28 nodes of two components", WIDE_MAP),
        ("three nodes at one place", Parts(((3, 1, 1), (1, 1, 1), (2, 1, 1)), ((1, 3, 1),))),
        (
            "the greatest frame",
            Parts(
                (
                    (1, -(2**31), -(2**31)),
                    (2, 2**31 - 1, 2**31 - 1),
                    (3, -(2**31), 2**31 - 1),
                    (4, 0, 0),
                    (5, 2**31 - 1, -(2**31)),
                ),
                (),
            ),
        ),
        (
            "places that the finest grid alone tells apart",
            Parts(((9, 0, 0), (1, 1, 0), (4, 1, 1), (5, 65_535, 65_535)), ()),
        ),
    ]
    rows = [
        (f"{name}, {order}", parts, order, seed)
        for name, parts in maps
        for order in ORDERS
        for seed in ((0, GREATEST) if order == "shuffled" else (0,))
    ]
    return answered(
        run_order,
        [(why, {**parts_fields(parts), "order": order, "seed": str(seed)}) for why, parts, order, seed in rows],
    )


ORDERS_FAMILY = Family(
    "orders",
    "The ids of a map in each of the six leaf orders.",
    record({**PARTS, "order": one_of(*ORDERS), "seed": WIDE}),
    record({"ids": listed(NUMBER)}),
    run_order,
    make_orders,
)

SETTINGS = {
    "method": one_of(*METHODS),
    "version": WIDE,
    "order": one_of(*ORDERS),
    "seed": WIDE,
    "fan": NUMBER,
    "p1": WIDE,
    "p2": WIDE,
    "p3": WIDE,
}


def settings_fields(settings: Settings) -> Fields:
    return {
        "method": METHOD_NAMES[settings.method],
        "version": str(settings.version),
        "order": ORDER_NAMES[settings.order],
        "seed": str(settings.seed),
        "fan": settings.fan,
        "p1": str(settings.p1),
        "p2": str(settings.p2),
        "p3": str(settings.p3),
    }


def settings_in(fields: Fields) -> Settings:
    return Settings(
        METHODS[fields["method"]],
        int(fields["version"]),
        ORDERS[fields["order"]],
        int(fields["seed"]),
        fields["fan"],
        int(fields["p1"]),
        int(fields["p2"]),
        int(fields["p3"]),
    )


def run_publication(given: Fields) -> Fields:
    settings, parts = settings_in(given["settings"]), read_roads(octets(given["roads"]))
    try:
        book = book_of(parts, settings)
    except Fault as fault:
        return {"fault": str(fault)}
    signature = key_of(5, octets(given["secret"])).sign(given["slot"], book.header.octets())
    return {
        "publication": Publication(book.header, signature, settings.seed, settings.p1, settings.p2, settings.p3, parts)
        .octets()
        .hex()
    }


def make_publications() -> Iterator[Case]:
    rows = [
        (f"five nodes, {method}, {order}", STREETS, settings_of(method, order, seed=SEED if order == "shuffled" else 0))
        for method in PARAMETERS
        for order in ORDERS
    ]
    rows += [
        (f"nine nodes of three components, {method}", PLAIN, settings_of(method, "kd", fan=3, parameters=parameters))
        for method, parameters in (("dij", None), ("full", None), ("ldm", (3, 6, 2)), ("hyp", (2, 2, 0)))
    ]
    rows += [
        (
            f"28 nodes, ldm, {threshold} as the threshold, {order}",
            WIDE_MAP,
            settings_of("ldm", order, fan=4, parameters=(4, 5, threshold)),
        )
        for threshold, order in ((0, "id"), (1, "hilbert"), (4, "depth"), (65_534, "breadth"))
    ]
    rows += [
        (
            f"28 nodes, hyp, {columns} columns and {rows_} rows",
            WIDE_MAP,
            settings_of("hyp", "hilbert", fan=32, parameters=(columns, rows_, 0)),
        )
        for columns, rows_ in ((1, 1), (3, 2), (1024, 1024))
    ]
    rows += [
        ("six nodes, hyp", SIX, settings_of("hyp")),
        ("a line, ldm, 16 bits", LINE, settings_of("ldm", parameters=LINE_LDM)),
        ("one node, dij", Parts(((7, -1, 2),), ()), settings_of("dij")),
        ("one node, full", Parts(((7, -1, 2),), ()), settings_of("full")),
        ("one node, ldm", Parts(((7, -1, 2),), ()), settings_of("ldm", parameters=(1, 1, 0))),
        ("one node, hyp", Parts(((7, -1, 2),), ()), settings_of("hyp", parameters=(1024, 1024, 0))),
        ("the greatest version and seed", STREETS, settings_of("dij", "shuffled", GREATEST, GREATEST)),
        (
            "a landmark that reaches itself alone",
            Parts(((1, 0, 0), (2, 0, 0), (3, 0, 0)), ((2, 3, 5),)),
            settings_of("ldm", parameters=(2, 3, 0)),
        ),
    ]
    faults = [
        ("dij", (1, 0, 0)),
        ("full", (0, 1, 0)),
        ("full", (0, 0, GREATEST)),
        ("ldm", (0, 2, 0)),
        ("ldm", (6, 2, 0)),
        ("ldm", (65, 2, 0)),
        ("ldm", (1, 0, 0)),
        ("ldm", (1, 17, 0)),
        ("ldm", (1, 2, 65_535)),
        ("ldm", (0, 0, 0)),
        ("hyp", (0, 1, 0)),
        ("hyp", (1025, 1, 0)),
        ("hyp", (1, 0, 0)),
        ("hyp", (1, 1025, 0)),
        ("hyp", (1, 1, 1)),
        ("hyp", (0, 0, 1)),
    ]
    rows += [
        (
            f"{method} with the parameters {' '.join(map(str, parameters))}",
            STREETS,
            settings_of(method, parameters=parameters),
        )
        for method, parameters in faults
    ]
    rows += [
        ("no node", Parts((), ()), settings_of("dij")),
        (
            "a faulty road is told before the settings",
            Parts(STREETS.nodes, ((1, 1, 1),)),
            settings_of("dij", parameters=(1, 0, 0)),
        ),
        ("1,025 nodes under FULL", Parts(tuple((node, 0, 0) for node in range(1025)), ()), settings_of("full")),
        (
            "72 nodes under LDM, of which two have the codes of the 64th and of the 65th before them",
            CANDIDATES,
            settings_of("ldm", parameters=(1, 16, 0)),
        ),
        (
            "73 nodes under LDM, of which the last fits two and less well the later one",
            BETWEEN,
            settings_of("ldm", parameters=(1, 16, 2)),
        ),
        ("65 landmarks of 72 nodes", CANDIDATES, settings_of("ldm", parameters=(65, 2, 0))),
        ("64 landmarks of 72 nodes", CANDIDATES, settings_of("ldm", parameters=(64, 2, 0))),
        (
            "a node that no landmark reaches, behind one that it reaches, under the greatest threshold",
            Parts(((1, 9, 9), (2, 0, 0), (3, 1, 1)), ((1, 2, 5),)),
            settings_of("ldm", "hilbert", parameters=(1, 16, 65_534)),
        ),
        ("2,049 borders under HYP", zigzag(2049), settings_of("hyp", parameters=(2, 1, 0))),
        ("2,051 borders under HYP, and 3 nodes more", zigzag(2051, 3), settings_of("hyp", parameters=(2, 1, 0))),
        ("1,024 nodes under FULL", Parts(tuple((node, 0, 0) for node in range(1024)), ()), settings_of("full")),
    ]
    return answered(
        run_publication,
        [
            (
                why,
                {
                    "roads": print_roads(parts).hex(),
                    "settings": settings_fields(settings),
                    "secret": ZEROS.hex(),
                    "slot": slot % 31,
                },
            )
            for slot, (why, parts, settings) in enumerate(rows)
        ],
    )


PUBLICATIONS = Family(
    "publications",
    "The publication of a road file's map under settings, signed by a slot of the key of type 5 that the secret makes, or why there is none.",
    record({"roads": HEX, "settings": record(SETTINGS), "secret": HEX, "slot": NUMBER}),
    record({}, {"publication": HEX, **FAULT}),
    run_publication,
    make_publications,
)


def run_install(given: Fields) -> Fields:
    try:
        install(read_publication(Reader(octets(given["publication"]))))
    except Malformed as fault:
        return {"fault": f"Malformed {fault.at}"}
    except Fault as fault:
        return {"fault": str(fault)}
    return {"installed": True}


def make_installs() -> Iterator[Case]:
    held = books()
    publication, text = held["dij"].publication, held["dij"].publication.octets()
    header_at = layout.IN_PUBLICATION
    settings_at = header_at + layout.SIGNATURE + 1292
    nodes_at = settings_at + layout.SETTINGS
    roads_at = nodes_at + 4 + 5 * 12
    yield from answered(
        run_install,
        [
            (f"an honest publication, {name}", {"publication": one.publication.octets().hex()})
            for name, one in held.items()
        ],
    )
    rows = [
        ("no octets", b""),
        ("the first octets", put(text, 3, b"2")),
        ("a header's first octets", put(text, header_at + 3, b"2")),
        ("method 0", put(text, header_at + layout.METHOD, u8(0))),
        ("a length of the signature above the greatest", put(text, header_at + layout.HEADER, b"\x05\xad")),
        ("65,537 nodes counted", put(text, nodes_at, u32(65_537))),
        ("262,145 roads counted", put(text, roads_at, u32(262_145))),
        ("a node more counted than there is", put(text, nodes_at, u32(6))),
        ("a road more counted than there is", put(text, roads_at, u32(5))),
        ("a road less counted than there is", put(text, roads_at, u32(3))),
        ("an octet more", text + b"\x00"),
        ("an octet less", text[:-1]),
        ("no signature, which no server tests", replace(publication, signature=b"").octets()),
        ("another signature, which no server tests", replace(publication, signature=bytes(7)).octets()),
        ("another version, which is the header's alone", turned(text, header_at + layout.NODES - 1)),
        ("another seed, under an order that draws none", put(text, settings_at, u64(9))),
        ("another root", turned(text, header_at + layout.NODE_ROOT)),
        ("another order", put(text, header_at + layout.ORDER, u8(1))),
        ("another fan-out", put(text, header_at + layout.FAN, u8(3))),
        ("another count of nodes", put(text, header_at + layout.NODES, u32(6))),
        ("another length of a road", put(text, len(text) - 4, u32(8))),
        ("another place of a node", put(text, nodes_at + 8, u32(1))),
        ("a first parameter under DIJ", put(text, settings_at + 8, u64(1))),
        ("a second parameter under DIJ", put(text, settings_at + 16, u64(1))),
        ("a third parameter under DIJ", put(text, settings_at + 24, u64(1))),
        ("a node twice", put(text, nodes_at + 16, u32(1))),
        ("a road to no node", put(text, roads_at + 4, u32(9))),
        ("a road from a node to itself", put(text, roads_at + 4, u32(2))),
        ("no node", replace(publication, parts=Parts((), ())).octets()),
        (
            "a fault of the map is told before that of the settings",
            put(put(text, settings_at + 8, u64(1)), nodes_at + 16, u32(1)),
        ),
        (
            "the roads in another order, over the same map",
            replace(publication, parts=replace(STREETS, roads=STREETS.roads[::-1])).octets(),
        ),
        (
            "the nodes in another order, over the same map",
            replace(publication, parts=replace(STREETS, nodes=STREETS.nodes[::-1])).octets(),
        ),
        (
            "a road the other way round, over the same map",
            replace(publication, parts=replace(STREETS, roads=((2, 1, 4), *STREETS.roads[1:]))).octets(),
        ),
        (
            "a longer parallel road, over the same arcs",
            replace(publication, parts=replace(STREETS, roads=(*STREETS.roads, (1, 2, 9)))).octets(),
        ),
    ]
    for method, place, value in (
        ("ldm", 0, 2),
        ("ldm", 1, 3),
        ("ldm", 2, 1),
        ("ldm", 0, 0),
        ("ldm", 1, 17),
        ("hyp", 0, 2),
        ("hyp", 1, 2),
        ("hyp", 2, 1),
        ("hyp", 0, 1025),
    ):
        rows.append(
            (
                f"parameter {place + 1} is {value}, {method}",
                put(held[method].publication.octets(), settings_at + 8 + 8 * place, u64(value)),
            )
        )
    drawn = published(STREETS, settings_of("dij", "shuffled", seed=GREATEST)).publication.octets()
    rows += [
        ("the greatest seed, under an order that is drawn", drawn),
        (
            "another seed, whose last 32 bits are the same, under an order that is drawn",
            put(drawn, settings_at, u64(2**32 - 1)),
        ),
    ]
    yield from answered(run_install, [(why, {"publication": one.hex()}) for why, one in rows])


INSTALLS = Family(
    "installs",
    "Whether a server takes a publication, or why not: the first field that cannot be read, a fault of its map or of its settings, or a header that is not that of its book.",
    record({"publication": HEX}),
    record({}, {"installed": {"const": True}, **FAULT}),
    run_install,
    make_installs,
)


def all_routes(chart: Map, start: int, end: int) -> list[tuple[int, ...]]:
    """All shortest routes without a repeated node."""
    found: list[tuple[int, ...]] = []
    waiting: list[tuple[int, ...]] = [(start,)]
    while waiting:
        way = waiting.pop()
        length = chart.length_of(way)
        if way[-1] == end:
            found.append(way)
        elif length is not None and length <= chart.distances(start)[end]:
            waiting += [(*way, there) for there, _ in chart.arcs[way[-1]] if there not in way]
    return sorted(way for way in found if chart.is_shortest(start, end, way))


def held_in(given: Fields) -> Held:
    return install(read_publication(Reader(octets(given["publication"]))))


def run_reply(given: Fields) -> Fields:
    held, start, end = held_in(given), given["from"], given["to"]
    version = held.publication.header.version
    joined = servers.is_known(held, start) and end in held.book.chart.distances(start)
    ways: list[tuple[int, ...] | None] = [*all_routes(held.book.chart, start, end)] if joined else [None]
    replies = [servers.answer(held, start, end, way) for way in ways]
    return {
        "replies": [reply.hex() for reply in replies],
        "lines": [line_of(octets(given["public"]), reply, start, end, version) for reply in replies],
    }


def line_of(public: bytes, reply: bytes, start: int, end: int, least: int) -> str:
    try:
        return accepted_line(clients.check(public, (), reply, start, end, least))
    except Refused as refused:
        return refused.line()


def query(held: Held, start: int, end: int) -> Fields:
    return {"public": owner().public.hex(), "publication": held.publication.octets().hex(), "from": start, "to": end}


def scenes() -> Iterator[tuple[str, Held, list[tuple[int, int]]]]:
    """Publications, each with pairs of ends."""
    for method in PARAMETERS:
        for order in ORDERS:
            yield f"five nodes, {method}, {order}", published(
                STREETS, settings_of(method, order, seed=SEED if order == "shuffled" else 0)
            ), [(1, 3), (1, 5)] if order == "id" else [(1, 3)]
    for method, parameters in (("dij", None), ("full", None), ("ldm", (3, 6, 2)), ("hyp", (2, 2, 0))):
        yield f"nine nodes, {method}", published(PLAIN, settings_of(method, "kd", fan=3, parameters=parameters)), [
            (7, 40),
            (100, 5),
            (8, 9),
            (8, 100),
            (12, 12),
            (12, 13),
        ]
        yield f"two shortest routes, {method}", published(
            TIE, settings_of(method, parameters=(2, 3, 0) if method == "ldm" else None)
        ), [(1, 3)]
    yield "a line, ldm", published(LINE, settings_of("ldm", parameters=LINE_LDM)), [(3, 5), (1, 5), (5, 1)]
    yield "six nodes, hyp", published(SIX, settings_of("hyp")), [(1, 5), (5, 6), (6, 1)]
    yield "28 nodes, ldm", published(WIDE_MAP, settings_of("ldm", "hilbert", fan=4, parameters=(4, 5, 1))), [
        (1, 20),
        (20, 1),
        (3, 9),
        (1, 28),
        (22, 28),
    ]
    yield "28 nodes, hyp", published(WIDE_MAP, settings_of("hyp", "hilbert", fan=32, parameters=(3, 2, 0))), [
        (1, 20),
        (3, 9),
        (1, 28),
        (22, 28),
    ]


def make_replies() -> Iterator[Case]:
    for why, held, ends in scenes():
        yield from answered(
            run_reply, [(f"{why}, from {start} to {end}", query(held, start, end)) for start, end in ends]
        )
    held = books()["dij"]
    yield from answered(
        run_reply,
        [
            (f"an end that is no node, from {start} to {end}", query(held, start, end))
            for start, end in ((9, 1), (1, 9), (9, 9), (0, 2**32 - 1))
        ],
    )
    level = published(LEVEL_BORDERS, settings_of("hyp", parameters=(2, 1, 0)))
    yield from answered(run_reply, [("two borders that are 0 apart, hyp, from 1 to 4", query(level, 1, 4))])
    for method, parameters in (*PARAMETERS.items(), ("hyp", (1, 1, 0))):
        held = published(EQUAL, settings_of(method, parameters=parameters))
        yield from answered(
            run_reply,
            [
                (
                    f"nodes as far as the end, and one farther, {method} {parameters[0]}, from {start} to {end}",
                    query(held, start, end),
                )
                for start, end in ((1, 2), (2, 1), (1, 6), (6, 1), (4, 6))
            ],
        )


REPLIES = Family(
    "replies",
    "The honest replies to a query for a route: one for each shortest route that meets no node twice, in the order of their ids; a server gives any of them. The line is what a client says of it with the publication's version as the least.",
    record({"public": HEX, "publication": HEX, "from": NUMBER, "to": NUMBER}),
    record({"replies": listed(HEX), "lines": listed(TEXT)}),
    run_reply,
    make_replies,
)


def run_radius(given: Fields) -> Fields:
    held, start, radius = held_in(given), given["from"], int(given["radius"])
    try:
        reply = servers.answer_near(held, start, radius)
    except Fault as fault:
        return {"fault": str(fault)}
    within = clients.check_near(octets(given["public"]), (), reply, start, radius, held.publication.header.version)
    return {
        "reply": reply.hex(),
        "line": within_line(within),
        "distances": [[node, str(distance)] for node, distance in within.distances.items()],
    }


def make_radii() -> Iterator[Case]:
    rows = [
        (
            f"five nodes, {method}, {order}, within 4 of 1",
            published(STREETS, settings_of(method, order, seed=SEED if order == "shuffled" else 0)),
            1,
            4,
        )
        for method in PARAMETERS
        for order in ("id", "hilbert", "shuffled")
    ]
    rows += [
        (f"five nodes, within {radius} of {start}", books()["dij"], start, radius)
        for start, radius in (
            (1, 0),
            (1, 3),
            (1, 9),
            (1, GREATEST),
            (5, GREATEST),
            (9, 4),
            (1, 2**32 + 3),
            (1, 2**63),
        )
    ]
    plain = published(PLAIN, settings_of("ldm", "kd", fan=3, parameters=(3, 6, 2)))
    rows += [
        (f"nine nodes, within {radius} of {start}", plain, start, radius)
        for start, radius in ((12, 2), (12, 15), (8, 10**6), (100, 511), (100, 512))
    ]
    return answered(
        run_radius,
        [
            (
                why,
                {
                    "public": owner().public.hex(),
                    "publication": held.publication.octets().hex(),
                    "from": start,
                    "radius": str(radius),
                },
            )
            for why, held, start, radius in rows
        ],
    )


RADII = Family(
    "radii",
    "The honest reply to a query for the nodes within a radius, and what a client says of it; or that the start is no node.",
    record({"public": HEX, "publication": HEX, "from": NUMBER, "radius": WIDE}),
    record(
        {},
        {
            "reply": HEX,
            "line": TEXT,
            "distances": listed({"type": "array", "items": [NUMBER, WIDE], "minItems": 2, "maxItems": 2}),
            **FAULT,
        },
    ),
    run_radius,
    make_radii,
)


def run_route(given: Fields) -> Fields:
    chart, start, end = map_of(read_roads(octets(given["roads"]))), given["from"], given["to"]
    for node in (start, end):
        if node not in chart.places:
            return {"fault": f"UnknownNode {node}"}
    if end not in chart.distances(start):
        return {"fault": "NoRoute"}
    return {"lines": [route_line(chart.distances(start)[end], way) for way in all_routes(chart, start, end)]}


def make_routes() -> Iterator[Case]:
    rows = [
        ("five nodes", STREETS, 1, 3),
        ("a node with itself", STREETS, 1, 1),
        ("no walk", STREETS, 1, 5),
        ("an unknown end", STREETS, 1, 9),
        ("two unknown ends: the start is told", STREETS, 9, 8),
        ("a parallel road", Parts(STREETS.nodes, (*STREETS.roads, (2, 1, 2))), 1, 3),
        ("two shortest routes", TIE, 1, 3),
        ("nine nodes", PLAIN, 100, 7),
        ("roads of length 0", Parts(TIE.nodes, tuple((a, b, 0) for a, b, _ in TIE.roads)), 1, 3),
        ("the greatest lengths", Parts(LINE.nodes, tuple((a, b, 2**32 - 1) for a, b, _ in LINE.roads)), 1, 5),
        ("a drawn grid", grid(2, 0), 1, 4),
        ("a drawn grid of 16 nodes", grid(4, 7), 1, 16),
    ]
    return answered(
        run_route,
        [(why, {"roads": print_roads(parts).hex(), "from": start, "to": end}) for why, parts, start, end in rows],
    )


ROUTES = Family(
    "routes",
    "The lines of all shortest routes of a road file's map that meet no node twice, of which a program writes one; or why there is none.",
    record({"roads": HEX, "from": NUMBER, "to": NUMBER}),
    record({}, {"lines": listed(TEXT), **FAULT}),
    run_route,
    make_routes,
)


def run_service(given: Fields) -> Fields:
    service = Service(held_in(given))
    bodies, fault = bodies_of(octets_again(given, "input"))
    output, end = b"".join(framed(service.step(body)) for body in bodies), "End" if fault is None else fault.name
    if "again" in given:
        return {"digest": hashlib.sha256(output).hexdigest(), "end": end}
    return {"output": output.hex(), "end": end}


def make_services() -> Iterator[Case]:
    first, second = published(STREETS, settings_of("dij", version=1)), published(
        SIX, settings_of("hyp", "kd", version=2)
    )

    def begin(session: int) -> bytes:
        return bytes([1, session])

    def ask(session: int, start: int, end: int) -> bytes:
        return bytes([2, session]) + u32(start) + u32(end)

    def finish(session: int) -> bytes:
        return bytes([3, session])

    def put_in(octets_: bytes) -> bytes:
        return b"\x04" + octets_

    newer = put_in(second.publication.octets())
    wrong_header = put(second.publication.octets(), 30, u8(second.publication.octets()[30] ^ 1))
    bad_map = replace(second.publication, parts=Parts(SIX.nodes, ((1, 1, 1),))).octets()
    bad_plan = replace(second.publication, p1=1025).octets()
    runs: list[tuple[str, list[bytes]]] = [
        ("no frame", []),
        ("begin, ask, finish", [begin(0), ask(0, 1, 3), finish(0)]),
        (
            "a session keeps its publication",
            [begin(0), newer, begin(1), ask(0, 1, 5), ask(1, 1, 5), finish(0), begin(0), ask(0, 5, 6)],
        ),
        ("an ask without a begin", [ask(2, 1, 3)]),
        ("a finish without a begin", [finish(15)]),
        ("a session that is begun", [begin(3), begin(3)]),
        ("session 16", [begin(16), ask(16, 1, 3), finish(255)]),
        ("a finished session leaves others", [begin(0), begin(1), finish(0), ask(1, 1, 3), ask(0, 1, 3)]),
        (
            "a query on a radius, which an open service has no form for",
            [begin(0), bytes([5, 0]) + u32(1) + u64(4), ask(0, 1, 3)],
        ),
        ("finished, and begun anew", [begin(3), finish(3), finish(3), begin(3)]),
        (
            "bodies of no form",
            [
                b"",
                b"\x00",
                b"\x05",
                b"\x01",
                b"\x01\x00\x00",
                b"\x02\x00",
                ask(0, 1, 3) + b"\x00",
                b"\x03",
                b"\x03\x00\x00",
                b"\xff\x00",
            ],
        ),
        ("ends that are no nodes", [begin(0), ask(0, 9, 1), ask(0, 1, 9), ask(0, 1, 1)]),
        ("an install of no publication", [b"\x04", put_in(b"RPP1"), put_in(second.publication.octets()[:-1])]),
        ("an install of an older version", [newer, newer, put_in(first.publication.octets())]),
        ("an install whose parts make no map", [put_in(bad_map), begin(0)]),
        ("an install whose map has no book", [put_in(bad_plan), begin(0)]),
        ("an install whose header is another's", [put_in(wrong_header), begin(0)]),
        ("an older version is told before a wrong header", [newer, put_in(put(wrong_header, 12, u64(1)))]),
        ("all sixteen sessions", [body for session in range(16) for body in (begin(session), ask(session, 3, 1))]),
    ]
    rows = [(why, b"".join(framed(body) for body in bodies)) for why, bodies in runs]
    good = framed(begin(0)) + framed(ask(0, 1, 3))
    rows += [
        ("the input ends within a length", good + b"\x00\x00\x00"),
        ("the input ends within a body", good + b"\x00\x00\x00\x02\x03"),
        ("a length above the most", good + u32(4_194_305) + b"\x01"),
        ("the greatest length", u32(2**32 - 1)),
        ("the most octets announced, and none there", u32(4_194_304)),
        ("the input ends within a length that would be too great", good + b"\xff\xff\xff"),
        ("a length above the most, with all of its octets cut", good + u32(4_194_305)),
    ]
    publication = first.publication.octets().hex()
    yield from answered(run_service, [(why, {"publication": publication, "input": text.hex()}) for why, text in rows])
    long = [
        ("a body of the most octets, of no form", u32(4_194_304) + b"\x09", "00", 4_194_303, begin(0)),
        ("a body of one octet more", u32(4_194_305) + b"\x09", "00", 4_194_304, begin(0)),
        ("1,000,000 frames, the last one begins", b"", "00000000", 999_999, begin(0)),
        ("a frame more than 1,000,000", b"", "00000000", 1_000_000, begin(0)),
    ]
    yield from answered(
        run_service,
        [
            (
                why,
                {"publication": publication, "input": front.hex(), "again": [piece, times], "then": framed(then).hex()},
            )
            for why, front, piece, times, then in long
        ],
    )


SERVICES = Family(
    "services",
    "What the service writes over frames of an input, from a first publication, and how the input ends; where octets come again, the SHA-256 of what it writes.",
    record({"publication": HEX, "input": HEX}, {"again": AGAIN, "then": HEX}),
    record(
        {"end": one_of("End", "TruncatedFrame", "FrameTooLong", "TooManyFrames")}, {"output": HEX, "digest": DIGEST}
    ),
    run_service,
    make_services,
)


def run_guarded(given: Fields) -> Fields:
    guard = Guard(octets(given["public"]), read_chain(octets(given["chain"])))
    held = held_in(given)
    try:
        clients.test_header(guard.public, guard.chain, held.publication.header, held.publication.signature, 0)
    except Refused as refused:
        return {"line": refused.line()}
    service = Service(held, guard)
    bodies, _ = bodies_of(octets(given["input"]))
    return {"output": b"".join(framed(service.step(body)) for body in bodies).hex()}


def make_guarded() -> Iterator[Case]:
    later = key_of(KINDS["h5"], bytes([1]) * 48)
    chain = (Link(later.public, owner().sign(31, link_text(later.public))),)
    turned_chain = (replace(chain[0], signature=turned(chain[0].signature, 800)),)
    first = published(STREETS, settings_of("dij", version=1)).publication
    signed = [
        published(parts, settings_of("ldm", version=version), slot, key).publication
        for parts, version, slot, key in ((SIX, 2, 0, owner()), (LINE, 3, 4, later))
    ]
    newer, newest = (b"\x04" + publication.octets() for publication in signed)

    def near(session: int, start: int, radius: int) -> bytes:
        return bytes([5, session]) + u32(start) + u64(radius)

    def put_in(publication: Publication) -> bytes:
        return b"\x04" + publication.octets()

    turned_one = replace(signed[0], signature=turned(signed[0].signature, 900))
    wrong_header = put(signed[0].octets(), 30, u8(signed[0].octets()[30] ^ 1))
    runs = [
        (
            "queries on a radius",
            [
                b"\x01\x00",
                near(0, 1, 0),
                near(0, 1, 7),
                near(0, 5, GREATEST),
                near(0, 1, 2**32 + 1),
                b"\x02\x00" + u32(1) + u32(3),
            ],
        ),
        ("a start that is no node", [b"\x01\x00", near(0, 9, 7)]),
        ("a query on a radius without a begin, and of session 16", [near(0, 1, 7), near(16, 1, 7)]),
        (
            "queries on a radius of a wrong length",
            [b"\x01\x00", b"\x05", b"\x05\x00", near(0, 1, 7)[:-1], near(0, 1, 7) + b"\x00"],
        ),
        ("signed installs", [newer, b"\x01\x00", newest, b"\x01\x01", near(0, 5, 5), near(1, 1, 20)]),
        ("an install with another signature", [put_in(turned_one), b"\x01\x00"]),
        (
            "an install whose signature is none",
            [put_in(replace(signed[0], signature=b"")), put_in(replace(signed[0], signature=bytes(1292)))],
        ),
        ("an older version is told before its signature", [newer, put_in(replace(first, signature=b""))]),
        ("a signature is told before a wrong header", [b"\x04" + wrong_header]),
        ("and before a map that is none", [put_in(replace(turned_one, parts=Parts(SIX.nodes, ((1, 1, 1),))))]),
        ("a map that is none, under its signature", [put_in(replace(signed[0], parts=Parts(SIX.nodes, ((1, 1, 1),))))]),
    ]
    rows: list[tuple[str, Publication, tuple[Link, ...], list[bytes]]] = [
        (why, first, chain, bodies) for why, bodies in runs
    ]
    rows += [
        ("without the chain the later key's map is not taken", first, (), [newest, newer]),
        ("from the later key's map on", signed[1], chain, [b"\x01\x00", near(0, 1, 20), newer]),
        ("a first publication with another signature", turned_one, chain, [b"\x01\x00"]),
        ("a chain whose link is not signed", first, turned_chain, [b"\x01\x00"]),
    ]
    return answered(
        run_guarded,
        [
            (
                why,
                {
                    "publication": publication.octets().hex(),
                    "public": owner().public.hex(),
                    "chain": write_chain(links).hex(),
                    "input": b"".join(framed(body) for body in bodies).hex(),
                },
            )
            for why, publication, links, bodies in rows
        ],
    )


GUARDED = Family(
    "guarded_services",
    "What a guarded service writes over frames of an input, or the line with which it takes none.",
    record({"publication": HEX, "public": HEX, "chain": HEX, "input": HEX}),
    record({}, {"output": HEX, "line": TEXT}),
    run_guarded,
    make_guarded,
)


def run_survey(given: Fields) -> Fields:
    try:
        return {"line": survey(given["width"], int(given["seed"]), METHODS[given["method"]], given["queries"])}
    except Fault as fault:
        return {"fault": str(fault)}


def make_surveys() -> Iterator[Case]:
    rows = [
        (2, 0, "dij", 2),
        (4, 7, "dij", 5),
        (4, 7, "full", 5),
        (4, 7, "ldm", 5),
        (4, 7, "hyp", 5),
        (3, GREATEST, "ldm", 4),
        (33, 7, "full", 1),
    ]
    return answered(
        run_survey,
        [
            (
                f"a grid of {width} by {width}, {method}",
                {"width": width, "seed": str(seed), "method": method, "queries": queries},
            )
            for width, seed, method, queries in rows
        ],
    )


SURVEYS = Family(
    "surveys",
    "The line of a survey, over grids in which each drawn query has one shortest route.",
    record({"width": NUMBER, "seed": WIDE, "method": one_of(*METHODS), "queries": NUMBER}),
    record({}, {"line": TEXT, **FAULT}),
    run_survey,
    make_surveys,
)

FAMILIES = [ORDERS_FAMILY, PUBLICATIONS, INSTALLS, REPLIES, RADII, ROUTES, SERVICES, GUARDED, SURVEYS]
