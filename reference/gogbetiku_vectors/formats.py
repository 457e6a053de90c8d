"""Vectors of readers and writers: road files, files of the DIMACS challenge, leaves, headers, chain files, and octets that
are cut.

Tested, not proved; no client trusts it.
"""
from collections.abc import Iterator

from gogbetiku_reference import layout
from gogbetiku_reference.chains import Link, read_chain, write_chain
from gogbetiku_reference.dimacs import read_dimacs
from gogbetiku_reference.faults import Fault
from gogbetiku_reference.headers import Header, read_header
from gogbetiku_reference.leaves import (
    CELL,
    NO_WALK,
    PLAIN,
    VECTOR,
    Added,
    InCell,
    Kind,
    Near,
    NodeLeaf,
    Own,
    PairLeaf,
    read_node_leaf,
    read_pair_leaf,
)
from gogbetiku_reference.maps import Map, Parts, map_of
from gogbetiku_reference.octets import Malformed, Reader, u8, u16, u32, u64
from gogbetiku_reference.publications import read_publication
from gogbetiku_reference.replies import read_near_reply, read_reply
from gogbetiku_reference.road_files import print_roads, read_roads
from gogbetiku_reference.servers import answer, answer_near
from gogbetiku_reference.trees import root_of

from .asking import GREATEST, books, good_chain, honest, put
from .families import (
    AGAIN,
    DIGEST,
    HEX,
    NUMBER,
    SPAN,
    TEXT,
    WHOLE,
    WIDE,
    Case,
    Family,
    Fields,
    answered,
    listed,
    octets,
    octets_again,
    one_of,
    record,
    row,
)
from .scenes import STREETS, brings_apart, settings_of, published

FAULT = {"fault": TEXT}


def parts_fields(parts: Parts) -> Fields:
    return {"nodes": [list(node) for node in parts.nodes], "roads": [list(road) for road in parts.roads]}


PARTS = {"nodes": listed(row(NUMBER, WHOLE, WHOLE)), "roads": listed(row(NUMBER, NUMBER, NUMBER))}


def root_by_id(chart: Map) -> str:
    """The root of fan-out 2 over the plain leaves by id."""
    return root_of([NodeLeaf(node, *place, chart.arcs[node]).text() for node, place in chart.places.items()], 2).hex()


def run_roads(given: Fields) -> Fields:
    try:
        parts = read_roads(octets_again(given, "text"))
    except Fault as fault:
        return {"fault": str(fault)}
    result = {**parts_fields(parts), "printed": print_roads(parts).hex()}
    try:
        return {**result, "root": root_by_id(map_of(parts))}
    except Fault as fault:
        return {**result, "map_fault": str(fault)}


MAP = b"roads 1\nnode 1 0 0\nnode 2 10 0\nnode 3 20 0\nnode 4 10 10\nnode 5 50 50\nroad 1 2 4\nroad 2 3 5\nroad 1 4 3\nroad 4 3 7\n"


def changed(old: bytes, new: bytes) -> bytes:
    if MAP.count(old) != 1:
        raise AssertionError(old)
    return MAP.replace(old, new)


def two_crowds() -> bytes:
    nodes = b"".join(b"node %d 0 0\n" % node for node in range(258))
    return (
        b"roads 1\n" + nodes + b"".join(b"road %d %d 1\n" % (end, node) for end in (257, 0) for node in range(1, 257))
    )


def make_roads() -> Iterator[Case]:
    crowd = b"".join(b"node %d 0 0\n" % node for node in range(1, 258))
    star = b"".join(b"road 1 %d 1\n" % node for node in range(2, 258))
    texts = [
        ("five nodes and four roads", MAP),
        ("no octets", b""),
        ("a line end alone", b"\n"),
        ("the title alone", b"roads 1\n"),
        ("the title without a line end", b"roads 1"),
        ("another number in the title", changed(b"roads 1", b"roads 2")),
        ("a title with leading zeros", changed(b"roads 1", b"roads 01")),
        ("a third word in the title", changed(b"roads 1", b"roads 1 x")),
        ("another first word", changed(b"roads 1", b"road 1")),
        ("capitals in the title", changed(b"roads 1", b"Roads 1")),
        ("no title before the first node", MAP[8:]),
        ("comments and empty lines alone", b"# x\n\n \t\n#\n"),
        (
            "comments and empty lines before the title and among the lines",
            b"# a map\n\n" + changed(b"node 3", b"# 3\n\n  \t \nnode 3"),
        ),
        ("a comment behind spaces", changed(b"node 3 20 0\n", b"node 3 20 0\n  \t# node 9 9 9\n")),
        ("`#` within a word", changed(b"node 3 20 0", b"node 3 20 0#")),
        ("a word that begins with `#` behind a whole line", changed(b"node 3 20 0", b"node 3 20 0 #x")),
        ("`#` in place of a number", changed(b"node 3 20 0", b"node 3 20 #0")),
        ("a title that is a comment", b"#roads 1\n" + MAP),
        ("CR LF at each line's end", MAP.replace(b"\n", b"\r\n")),
        ("no line end behind the last line", MAP[:-1]),
        ("a CR behind the last line, which has no LF", MAP[:-1] + b"\r"),
        ("two CR at a line's end", changed(b"road 1 2 4\n", b"road 1 2 4\r\r\n")),
        ("a CR within a line", changed(b"road 1 2 4", b"road 1\r2 4")),
        ("tabs and spaces between words", changed(b"node 3 20 0", b"\tnode  3\t 20 \t0  ")),
        ("a form feed between words", changed(b"node 3 20 0", b"node 3\x0c20 0")),
        ("a NUL octet in a word", changed(b"node 3", b"node 3\x00")),
        ("octets above 127", changed(b"node 3", b"node \xc2\xb3")),
        ("leading zeros", changed(b"node 3 20 0", b"node 0003 00000000000000000000020 0")),
        ("nodes behind roads", b"roads 1\nroad 1 2 4\nnode 2 0 0\nnode 1 1 0\n"),
        ("a word that is no kind of line", changed(b"node 3", b"nodes 3")),
        ("a node with two words", changed(b"node 3 20 0", b"node 3 20")),
        ("a node with four words", changed(b"node 3 20 0", b"node 3 20 0 0")),
        ("a road with two words", changed(b"road 1 2 4", b"road 1 2")),
        ("a road with four words", changed(b"road 1 2 4", b"road 1 2 4 4")),
        ("cut within the last road", MAP[:-4]),
        ("a number with a plus", changed(b"road 1 2 4", b"road 1 2 +4")),
        ("a negative length", changed(b"road 1 2 4", b"road 1 2 -4")),
        ("a length with a point", changed(b"road 1 2 4", b"road 1 2 4.0")),
        ("a length in hex", changed(b"road 1 2 4", b"road 1 2 0x4")),
        ("the greatest length", changed(b"road 1 2 4", b"road 1 2 4294967295")),
        ("a length above the greatest", changed(b"road 1 2 4", b"road 1 2 4294967296")),
        ("a number of thirty digits", changed(b"road 1 2 4", b"road 1 2 " + b"9" * 30)),
        ("the greatest id", changed(b"node 5 ", b"node 4294967295 ")),
        ("an id above the greatest", changed(b"node 5 ", b"node 4294967296 ")),
        ("a negative id", changed(b"node 5 ", b"node -5 ")),
        ("the least and the greatest coordinate", changed(b"5 50 50", b"5 -2147483648 2147483647")),
        ("a coordinate below the least", changed(b"5 50 50", b"5 -2147483649 50")),
        ("a coordinate above the greatest", changed(b"5 50 50", b"5 50 2147483648")),
        ("minus zero", changed(b"5 50 50", b"5 -0 -00")),
        ("a lone minus", changed(b"5 50 50", b"5 - 50")),
        ("two minuses", changed(b"5 50 50", b"5 --5 50")),
        ("a coordinate with a plus", changed(b"5 50 50", b"5 +5 50")),
        ("two faults in one line: the form is told", changed(b"node 3 20 0", b"node x")),
        (
            "two faulty lines: the first is told",
            changed(b"node 3 20 0", b"node 3 20 x").replace(b"road 1 2 4", b"road"),
        ),
        ("a node twice", MAP + b"node 4 0 0\n"),
        ("two nodes twice: the lesser id is told", MAP + b"node 4 0 0\nnode 2 0 0\n"),
        ("a road to no node", MAP + b"road 1 9 2\n"),
        ("a road from no node", MAP + b"road 9 1 2\n"),
        ("a road from a node to itself", MAP + b"road 3 3 1\n"),
        ("a road from no node to itself", MAP + b"road 9 9 1\n"),
        ("two faulty roads: the first is told", MAP + b"road 3 3 1\nroad 1 9 2\n"),
        ("a repeated node is told before a faulty road", MAP + b"road 3 3 1\nnode 1 0 0\n"),
        ("roads without a node", b"roads 1\nroad 1 2 3\n"),
        ("parallel roads, of which the least counts", MAP + b"road 2 1 2\nroad 1 2 3\n"),
        ("a road of length 0", MAP + b"road 1 5 0\n"),
        ("255 neighbours", b"roads 1\n" + crowd + star[: -len(b"road 1 257 1\n")]),
        ("256 neighbours", b"roads 1\n" + crowd + star),
        ("two nodes with 256 neighbours: the lesser id is told", two_crowds()),
        ("one node", b"roads 1\nnode 7 -1 2\n"),
        ("all nodes at one place", b"roads 1\nnode 1 3 3\nnode 0 3 3\nroad 0 1 1\n"),
    ]
    yield from answered(run_roads, [(why, {"text": text.hex()}) for why, text in texts])
    node, road = b"node 1 0 0\n", b"road 1 2 3\n"
    most = [
        ("65,537 nodes: the last line is one too many", node, 65_537, b""),
        ("65,536 nodes are read, and the line behind them", node, 65_536, b"node x\n"),
        ("262,145 roads: the last line is one too many", road, 262_145, b""),
        ("262,144 roads are read, and the line behind them", road, 262_144, b"road x\n"),
        ("a node too many that is no number: the number is told", node, 65_536, b"node 1 0 x\n"),
    ]
    yield from answered(
        run_roads,
        [
            (why, {"text": b"roads 1\n".hex(), "again": [piece.hex(), times], "then": then.hex()})
            for why, piece, times, then in most
        ],
    )


ROADS = Family(
    "road_files",
    "What a road file says: the parts in their order, their printed file, and the root of fan-out 2 over the "
    "plain leaves by id, or the first fault of the file or of its map.",
    record({"text": HEX}, {"again": AGAIN, "then": HEX}),
    record({}, {**PARTS, **FAULT, "printed": HEX, "root": DIGEST, "map_fault": TEXT}),
    run_roads,
    make_roads,
)


def run_dimacs(given: Fields) -> Fields:
    try:
        return {"printed": print_roads(read_dimacs(octets(given["graph"]), octets(given["places"]))).hex()}
    except Fault as fault:
        return {"fault": str(fault)}


GRAPH = b"c x\np sp 3 5\na 1 2 4\na 2 1 4\na 2 3 5\na 3 2 5\na 3 3 1\n"
PLACES = b"p aux sp co 3\nv 1 0 0\nv 2 10 0\nv 3 20 -5\n"


def make_dimacs() -> Iterator[Case]:
    def graph(old: bytes, new: bytes) -> tuple[bytes, bytes]:
        return GRAPH.replace(old, new), PLACES

    def places(old: bytes, new: bytes) -> tuple[bytes, bytes]:
        return GRAPH, PLACES.replace(old, new)

    files = [
        ("three nodes, two roads, and an arc from a node to itself", (GRAPH, PLACES)),
        ("an arc back of another length", graph(b"a 3 2 5", b"a 3 2 6")),
        ("an arc less than the problem line says", graph(b"p sp 3 5", b"p sp 3 6")),
        ("an arc more than it says", graph(b"p sp 3 5", b"p sp 3 4")),
        ("an arc from no node", graph(b"a 3 2 5", b"a 4 2 5")),
        ("an arc to node 0", graph(b"a 3 2 5", b"a 3 0 5")),
        ("a node placed twice", places(b"v 3 20 -5", b"v 2 1 1")),
        ("two nodes placed twice", (GRAPH, b"p aux sp co 3\nv 3 0 0\nv 2 0 0\nv 2 0 0\n")),
        ("no octets in the graph", (b"", PLACES)),
        ("no octets in the coordinates", (GRAPH, b"")),
        ("comments alone", (b"c\nc p sp 1 0\n", PLACES)),
        ("an arc before the problem line", graph(b"c x", b"a 1 2 4")),
        ("a problem line of another kind", graph(b"p sp", b"p max")),
        ("a problem line with a word more", graph(b"p sp 3 5", b"p sp 3 5 1")),
        ("a problem line with a word less", graph(b"p sp 3 5", b"p sp 3")),
        ("a count that is no number", graph(b"p sp 3 5", b"p sp x 5")),
        ("a count that is out of its range", graph(b"p sp 3 5", b"p sp 3 4294967296")),
        ("65,537 nodes", graph(b"p sp 3 5", b"p sp 65537 5")),
        ("524,289 arcs", graph(b"p sp 3 5", b"p sp 3 524289")),
        ("a bad number is told before too many", graph(b"p sp 3 5", b"p sp 65537 x")),
        ("a second problem line", graph(b"a 3 3 1", b"p sp 3 5")),
        ("a line of a coordinate file in the graph", graph(b"a 3 3 1", b"v 3 3 1")),
        ("an arc with a word more", graph(b"a 3 3 1", b"a 3 3 1 1")),
        ("an arc whose length is no number", graph(b"a 3 3 1", b"a 3 3 -1")),
        ("an arc with two faults: the number is told", graph(b"a 3 3 1", b"a 9 3 x")),
        ("a word that begins with c", graph(b"a 3 3 1", b"a 3 3 1\ncx 1 2")),
        ("`#` is no comment", graph(b"c x", b"# x")),
        ("a problem line of the graph in the coordinates", places(b"p aux sp co 3", b"p sp co 3")),
        ("another count of nodes", places(b"co 3", b"co 4")),
        ("a place less than the problem line says", (GRAPH, PLACES[:-11])),
        ("a place of no node", places(b"v 3", b"v 4")),
        ("a coordinate that is out of its range", places(b"-5", b"-2147483649")),
        ("65,537 nodes in the coordinates", places(b"co 3", b"co 65537")),
        ("the graph's fault is told before that of the coordinates", (GRAPH.replace(b"a 3 3 1", b"a"), b"")),
        (
            "a fault of the coordinates is told before an arc without an arc back",
            (GRAPH.replace(b"a 3 2 5", b"a 3 2 6"), b""),
        ),
        (
            "of three equal arcs two have an arc back",
            (b"p sp 2 5\na 1 2 4\na 2 1 4\na 1 2 4\na 2 1 4\na 1 2 4\n", b"p aux sp co 2\nv 1 0 0\nv 2 0 0\n"),
        ),
        ("two equal roads", (b"p sp 2 4\na 2 1 4\na 1 2 4\na 1 2 4\na 2 1 4\n", b"p aux sp co 2\nv 2 0 0\nv 1 0 0\n")),
        ("CR LF, tabs and no last line end", (GRAPH.replace(b"\n", b"\r\n").replace(b" ", b"\t"), PLACES[:-1])),
        ("no node", (b"p sp 0 0\n", b"p aux sp co 0\n")),
        (
            "an arc without one back behind one that is dropped, which counts",
            (b"p sp 2 2\na 1 1 3\na 1 2 4\n", b"p aux sp co 2\nv 1 0 0\nv 2 0 0\n"),
        ),
        (
            "two nodes placed twice: the lesser id is told",
            (b"p sp 4 0\n", b"p aux sp co 4\nv 3 0 0\nv 3 0 0\nv 2 0 0\nv 2 0 0\n"),
        ),
        ("65,536 nodes are not too many: the coordinates count others", graph(b"p sp 3 5", b"p sp 65536 5")),
        ("524,288 arcs are not too many: fewer stand there", graph(b"p sp 3 5", b"p sp 3 524288")),
    ]
    return answered(run_dimacs, [(why, {"graph": two[0].hex(), "places": two[1].hex()}) for why, two in files])


DIMACS = Family(
    "dimacs_files",
    "What a graph and its coordinates say, as the printed road file of the parts, or the first fault.",
    record({"graph": HEX, "places": HEX}),
    record({}, {"printed": HEX, **FAULT}),
    run_dimacs,
    make_dimacs,
)


def added_fields(added: Added) -> Fields:
    match added:
        case Own(codes):
            return {"codes": list(codes)}
        case Near(reference, error):
            return {"reference": reference, "error": error}
        case InCell(cell, border):
            return {"cell": cell, "border": border}
    return {}


def leaf_fields(leaf: NodeLeaf | PairLeaf) -> Fields:
    if isinstance(leaf, PairLeaf):
        return {"a": leaf.a, "b": leaf.b, "distance": str(leaf.distance)}
    return {
        "id": leaf.id,
        "x": leaf.x,
        "y": leaf.y,
        "arcs": [list(arc) for arc in leaf.arcs],
        **added_fields(leaf.added),
    }


LEAF = record(
    {},
    {
        "id": NUMBER,
        "x": WHOLE,
        "y": WHOLE,
        "arcs": listed(row(NUMBER, NUMBER)),
        "codes": listed(NUMBER),
        "reference": NUMBER,
        "error": NUMBER,
        "cell": NUMBER,
        "border": {"type": "boolean"},
        "a": NUMBER,
        "b": NUMBER,
        "distance": WIDE,
    },
)


def run_leaf(given: Fields) -> Fields:
    text = octets(given["text"])
    try:
        if given["kind"] == "pair":
            return {"leaf": leaf_fields(read_pair_leaf(text))}
        return {"leaf": leaf_fields(read_node_leaf(text, Kind(given["kind"], given["landmarks"])))}
    except Malformed:
        return {"fault": "Bad"}


def make_leaves() -> Iterator[Case]:
    plain = NodeLeaf(1, 0, 0, ((2, 4), (4, 3))).text()
    own, near = NodeLeaf(2, 10, -1, ((1, 4),), Own((0, 65_535))).text(), NodeLeaf(2, 10, -1, (), Near(1, 7)).text()
    cell = NodeLeaf(3, 0, 0, ((1, 2),), InCell(5, True)).text()
    most = NodeLeaf(0, -(2**31), 2**31 - 1, tuple((node, 2**32 - 1) for node in range(1, 256))).text()
    pair = PairLeaf(1, 3, 9).text()
    rows: list[tuple[str, str, int, bytes]] = [
        ("a node with two arcs", PLAIN, 0, plain),
        ("a node without an arc", PLAIN, 0, NodeLeaf(2**32 - 1, -1, 1, ()).text()),
        ("255 arcs, and the least and greatest coordinates", PLAIN, 0, most),
        ("no octets", PLAIN, 0, b""),
        ("the first octet alone", PLAIN, 0, b"N"),
        ("another first octet", PLAIN, 0, b"P" + plain[1:]),
        ("cut within an arc", PLAIN, 0, plain[:-1]),
        ("an octet more", PLAIN, 0, plain + b"\x00"),
        ("256 arcs", PLAIN, 0, put(plain, 13, u16(256)) + bytes(8 * 254)),
        ("two arcs to one node", PLAIN, 0, put(plain, 23, u32(2))),
        ("arcs that fall", PLAIN, 0, put(plain, 15, u32(5))),
        ("an arc to the node itself", PLAIN, 0, put(plain, 15, u32(1))),
        ("a last arc to the node itself", PLAIN, 0, put(put(plain, 1, u32(4)), 23, u32(4))),
        ("an arc to node 0", PLAIN, 0, put(plain, 15, u32(0))),
        ("codes of its own", VECTOR, 2, own),
        ("a node near by", VECTOR, 2, near),
        ("codes of no landmark", VECTOR, 0, own[:-4]),
        ("a code less", VECTOR, 2, own[:-2]),
        ("a code more", VECTOR, 2, own + u16(0)),
        ("a tag of 2", VECTOR, 2, put(own, 23, u8(2))),
        ("a tag of 2 before a node near by", VECTOR, 2, put(near, 15, u8(2))),
        ("no tag", VECTOR, 2, own[:23]),
        ("a plain leaf in place of one with codes", VECTOR, 2, plain),
        ("a node near by, and an octet more", VECTOR, 2, near + b"\x00"),
        ("a node near by, cut", VECTOR, 2, near[:-1]),
        ("a node near by that is the node itself", VECTOR, 2, put(near, 16, u32(2))),
        ("the greatest error", VECTOR, 1, put(near, 20, u16(65_535))),
        ("64 landmarks", VECTOR, 64, own[:24] + bytes(128)),
        ("a border", CELL, 0, cell),
        ("no border", CELL, 0, put(cell, len(cell) - 1, u8(0))),
        ("a border of 2", CELL, 0, put(cell, len(cell) - 1, u8(2))),
        ("the greatest cell", CELL, 0, put(cell, len(cell) - 5, u32(2**32 - 1))),
        ("a leaf with codes in place of one with a cell", CELL, 0, own),
        ("a leaf with a cell in place of a plain one", PLAIN, 0, cell),
        ("a cell, cut", CELL, 0, cell[:-1]),
        ("a cell, and an octet more", CELL, 0, cell + b"\x00"),
        ("a pair", "pair", 0, pair),
        ("a pair that no walk joins", "pair", 0, PairLeaf(0, 2**32 - 1, NO_WALK).text()),
        ("a pair of distance 0", "pair", 0, PairLeaf(1, 3, 0).text()),
        ("a pair's first octet", "pair", 0, b"N" + pair[1:]),
        ("a pair whose ids are equal", "pair", 0, put(pair, 1, u32(3))),
        ("a pair whose ids fall", "pair", 0, put(pair, 1, u32(4))),
        ("a pair, cut", "pair", 0, pair[:-1]),
        ("a pair, and an octet more", "pair", 0, pair + b"\x00"),
    ]
    return answered(
        run_leaf,
        [(why, {"kind": kind, "landmarks": landmarks, "text": text.hex()}) for why, kind, landmarks, text in rows],
    )


LEAVES = Family(
    "leaves",
    "Which leaf a whole text spells under a kind, or that it spells none.",
    record({"kind": one_of(PLAIN, VECTOR, CELL, "pair"), "landmarks": NUMBER, "text": HEX}),
    record({}, {"leaf": LEAF, **FAULT}),
    run_leaf,
    make_leaves,
)

HEADER_FIELDS = {
    "method": NUMBER,
    "order": NUMBER,
    "fan": NUMBER,
    "version": WIDE,
    "nodes": NUMBER,
    "node_root": DIGEST,
    "pairs": NUMBER,
    "pair_root": DIGEST,
    "first": WIDE,
    "second": WIDE,
}
WIDE_FIELDS = ("version", "first", "second")


def header_fields(header: Header) -> Fields:
    fields = {name: getattr(header, name) for name in HEADER_FIELDS}
    return {
        name: value.hex() if isinstance(value, bytes) else str(value) if name in WIDE_FIELDS else value
        for name, value in fields.items()
    }


def run_header(given: Fields) -> Fields:
    reader = Reader(octets(given["octets"]))
    try:
        header = read_header(reader)
        reader.end()
        return {"header": header_fields(header)}
    except Malformed as fault:
        return {"malformed": fault.at}


def make_headers() -> Iterator[Case]:
    dij, full, ldm, hyp = (books()[method].publication.header.octets() for method in ("dij", "full", "ldm", "hyp"))
    rows = [
        ("DIJ", dij),
        ("FULL", full),
        ("LDM", ldm),
        ("HYP", hyp),
        ("no octets", b""),
        ("the first octets alone", dij[:4]),
        ("the last octet cut off", dij[:-1]),
        ("an octet more", dij + b"\x00"),
    ]
    changes = [
        ("the first octets", dij, 0, b"rPF1"),
        ("the last of the first octets", dij, 3, b"2"),
        ("method 0", dij, layout.METHOD, u8(0)),
        ("method 5", dij, layout.METHOD, u8(5)),
        ("order 5", dij, layout.ORDER, u8(5)),
        ("order 6", dij, layout.ORDER, u8(6)),
        ("fan-out 1", dij, layout.FAN, u8(1)),
        ("fan-out 32", dij, layout.FAN, u8(32)),
        ("fan-out 33", dij, layout.FAN, u8(33)),
        ("an octet that is not 0", dij, layout.ZERO, u8(128)),
        ("the greatest version", dij, layout.VERSION, u64(GREATEST)),
        ("no node", dij, layout.NODES, u32(0)),
        ("65,536 nodes", dij, layout.NODES, u32(65_536)),
        ("65,537 nodes", dij, layout.NODES, u32(65_537)),
        ("a node root of zeros", dij, layout.NODE_ROOT, bytes(32)),
        ("a pair under DIJ", dij, layout.PAIRS, u32(1)),
        ("a pair under LDM", ldm, layout.PAIRS, u32(1)),
        ("no pair under FULL, and a root", full, layout.PAIRS, u32(0)),
        ("523,776 pairs under FULL", full, layout.PAIRS, u32(523_776)),
        ("523,777 pairs under FULL", full, layout.PAIRS, u32(523_777)),
        ("2,096,128 pairs under HYP", hyp, layout.PAIRS, u32(2_096_128)),
        ("2,096,129 pairs under HYP", hyp, layout.PAIRS, u32(2_096_129)),
        ("a pair root of zeros where there are pairs", full, layout.PAIR_ROOT, bytes(32)),
        ("a pair root that is not zeros where there are none", dij, layout.FIRST - 1, u8(1)),
        ("a step of 0", ldm, layout.FIRST, u64(0)),
        ("the greatest step", ldm, layout.FIRST, u64(GREATEST)),
        ("no landmark", ldm, layout.SECOND, u64(0)),
        ("64 landmarks", ldm, layout.SECOND, u64(64)),
        ("65 landmarks", ldm, layout.SECOND, u64(65)),
        ("no column", hyp, layout.FIRST, u64(0)),
        ("1,024 columns", hyp, layout.FIRST, u64(1024)),
        ("1,025 columns", hyp, layout.FIRST, u64(1025)),
        ("no row", hyp, layout.SECOND, u64(0)),
        ("1,024 rows", hyp, layout.SECOND, u64(1024)),
        ("1,025 rows", hyp, layout.SECOND, u64(1025)),
        ("a first number under FULL", full, layout.FIRST, u64(1)),
        ("a second number under DIJ", dij, layout.SECOND, u64(GREATEST)),
        ("FULL's header as LDM's", full, layout.METHOD, u8(3)),
    ]
    rows += [(why, put(text, at, piece)) for why, text, at, piece in changes]
    return answered(run_header, [(why, {"octets": text.hex()}) for why, text in rows])


HEADERS = Family(
    "headers",
    "The fields of a header of 104 octets, or the place of the first that cannot be read.",
    record({"octets": HEX}),
    record({}, {"header": record(HEADER_FIELDS), "malformed": NUMBER}),
    run_header,
    make_headers,
)


def run_chain(given: Fields) -> Fields:
    try:
        return {
            "links": [
                {"key": link.key.hex(), "signature": link.signature.hex()}
                for link in read_chain(octets(given["octets"]))
            ]
        }
    except Malformed as fault:
        return {"malformed": fault.at}


def make_chains() -> Iterator[Case]:
    text, empty = write_chain(good_chain()), Link(bytes(56), b"").octets()
    rows = [
        ("no link", b""),
        ("two links", text),
        ("a link without a signature", empty),
        ("the longest signature", Link(bytes(56), bytes(1452)).octets()),
        ("seven links", empty * 7),
        ("an eighth link", empty * 8),
        ("an eighth link that is cut", empty * 7 + b"R"),
        ("another first octet", b"r" + text[1:]),
        ("a link text for a link", b"RPK1" + text[4:]),
        ("the first octets cut", text[:3]),
        ("the key cut", text[:59]),
        ("the length cut", text[:61]),
        ("the signature cut", text[:1353]),
        ("the second link cut", text[:-1]),
        ("a length above the greatest", put(text, 60, u16(1453))),
        ("a length one too small", put(text, 60, u16(1291))),
        ("an octet more", text + b"\x00"),
        ("a line end more", text + b"\n"),
    ]
    return answered(run_chain, [(why, {"octets": octets_.hex()}) for why, octets_ in rows])


CHAINS = Family(
    "chain_files",
    "The links that a chain file lists, or the place of the first field that cannot be read.",
    record({"octets": HEX}),
    record({}, {"links": listed(record({"key": HEX, "signature": HEX})), "malformed": NUMBER}),
    run_chain,
    make_chains,
)

READERS = {"reply": read_reply, "radius reply": read_near_reply, "publication": read_publication}


def place_of_cut(sort: str, text: bytes) -> int | None:
    """The place of the first field that cannot be read; None if all can."""
    try:
        read_chain(text) if sort == "chain" else READERS[sort](Reader(text))
    except Malformed as fault:
        return fault.at
    return None


def run_cut(given: Fields, stride: int = 1) -> Fields:
    """The place of each range of lengths, which must be that of each of its lengths."""
    text, places = octets(given["octets"]), []
    for begin, end in given["lengths"]:
        seen = {place_of_cut(given["sort"], text[:length]) for length in range(begin, end, stride)}
        places.append(seen.pop() if len(seen) == 1 else -1)
    return {"places": places}


def cut(why: str, sort: str, text: bytes) -> Case:
    """All truncations of octets, in ranges of lengths with the same first unreadable field."""
    lengths: list[list[int]] = []
    places: list[int | None] = []
    for length in range(len(text)):
        place = place_of_cut(sort, text[:length])
        if places and places[-1] == place:
            lengths[-1][1] = length + 1
        else:
            lengths.append([length, length + 1])
            places.append(place)
    return Case(why, {"sort": sort, "octets": text.hex(), "lengths": lengths}, {"places": places})


def make_cuts() -> Iterator[Case]:
    held = books()
    for method in ("dij", "full", "ldm", "hyp"):
        yield cut(f"a reply under {method.upper()}", "reply", honest(method).octets())
    yield cut("a reply that shows that no route exists", "reply", brings_apart(held["hyp"], [1, 2, 4, 5]).octets())
    yield cut("a reply on a radius", "radius reply", answer_near(held["ldm"], 1, 4))
    yield cut("a publication", "publication", held["hyp"].publication.octets())
    yield cut("a chain of two links", "chain", write_chain(good_chain()))
    shuffled = published(STREETS, settings_of("ldm", "shuffled", seed=7))
    yield cut("a reply whose leaves are shuffled", "reply", answer(shuffled, 1, 3))


CUTS = Family(
    "cuts",
    "Octets that are cut behind their first ones: for each length of a range, the first field that cannot be read "
    "begins at the same place. Null says that what is left spells a whole value, a chain of fewer links.",
    record({"sort": one_of("reply", "radius reply", "publication", "chain"), "octets": HEX, "lengths": listed(SPAN)}),
    record({"places": listed({"type": ["integer", "null"]})}),
    run_cut,
    make_cuts,
)

FAMILIES = [ROADS, DIMACS, LEAVES, HEADERS, CHAINS, CUTS]
