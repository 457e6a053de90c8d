"""Reads OpenStreetMap extracts, element by element. It reads XML, plain or compressed by gzip or bzip2, with Python
alone, and .osm.pbf with Debian's python3-pyosmium. No client trusts it.

A document with a DOCTYPE is refused, so no entity is ever expanded.
"""
import bz2
import gzip
import zlib
from typing import IO, Any, Callable
from xml.parsers import expat

from roads import DEGREE, Place, Trouble

Tags = dict[str, str]
TakeWay = Callable[[int, Tags, list[int]], None]
TakeNode = Callable[[int, Place, Tags], None]
PIECE = 1 << 16
# the limits of attributes in an element and of characters in a number; OpenStreetMap has at most 9 and 20
MOST_ATTRIBUTES, MOST_DIGITS = 32, 40


def read_ways(path: str, take: TakeWay) -> None:
    """Yields each way with a `highway` tag, and each ferry: its id, its tags and the ids of its nodes."""
    if path.endswith(".pbf"):
        _read_pbf(path, take, None)
    else:
        _Ways(path, take).read()


def read_nodes(path: str, take: TakeNode) -> None:
    """Yields each node: its id, its place, and its tags."""
    if path.endswith(".pbf"):
        _read_pbf(path, None, take)
    else:
        _Nodes(path, take).read()


def place_of(longitude: float, latitude: float, where: str) -> Place:
    """A place in 1e-7 degrees."""
    if not (-180 <= longitude <= 180 and -90 <= latitude <= 90):
        raise Trouble(f"{where}: longitude {longitude}, latitude {latitude} is not a place on earth")
    return round(longitude * DEGREE), round(latitude * DEGREE)


def is_way(tags: Tags) -> bool:
    return "highway" in tags or tags.get("route") == "ferry"


def _whole(word: str) -> int:
    return int(_short(word))


def _decimal(word: str) -> float:
    return float(_short(word))


def _short(word: str) -> str:
    if len(word) > MOST_DIGITS:
        raise ValueError
    return word


def _opened(path: str) -> IO[bytes]:
    if path.endswith(".gz"):
        return gzip.open(path)  # type: ignore[return-value]
    return bz2.open(path) if path.endswith(".bz2") else open(path, "rb")


class _Document:
    """One reading of an XML extract. A node, a way or a relation ends where the next one begins, so no call is needed
    for each end. `last` is the element that began last."""

    kind = ""

    def __init__(self, path: str):
        self.path = path
        self.last: tuple[str, Tags] | None = None
        self.parser = expat.ParserCreate()
        self.parser.StartElementHandler = self.root
        self.parser.StartDoctypeDeclHandler = self.doctype

    def trouble(self, what: str) -> Trouble:
        within = ", {} {}".format(self.last[0], self.last[1].get("id", "without id")) if self.last else ""
        return Trouble(f"{self.path}: line {self.parser.CurrentLineNumber}{within}: {what}")

    def doctype(self, *_: object) -> None:
        raise self.trouble("a DOCTYPE, which no extract has")

    def root(self, name: str, _: Tags) -> None:
        if name != "osm":
            raise self.trouble(f"not an OSM extract: its root is <{name}> instead of <osm>")
        self.parser.StartElementHandler = self.begin

    def feed(self, file: IO[bytes]) -> None:
        """Reads the file piece by piece. A mark that stays open for more than a piece is longer than any element, and
        the parser would scan it again with each piece."""
        given = 0
        while piece := file.read(PIECE):
            self.parser.Parse(piece, False)
            given += len(piece)
            if given - self.parser.CurrentByteIndex > 2 * PIECE:
                raise self.trouble(f"a mark of more than {PIECE:,} octets")
        self.parser.Parse(b"", True)

    def read(self) -> None:
        try:
            with _opened(self.path) as file:
                self.feed(file)
            self.end()
        except expat.ExpatError as error:
            raise self.trouble(f"not complete XML: {expat.ErrorString(error.code)}") from None
        except (EOFError, zlib.error, gzip.BadGzipFile) as error:
            raise Trouble(f"{self.path}: cannot be decompressed: {error}") from None
        except OSError as error:
            raise Trouble(f"{self.path}: {error.strerror or error}") from None
        except KeyError as lacking:
            raise self.trouble(f"it lacks the attribute {lacking}") from None
        except ValueError:
            raise self.trouble("a number cannot be read") from None

    def few(self, attributes: Tags) -> None:
        if len(attributes) > MOST_ATTRIBUTES:
            raise self.trouble(f"an element with {len(attributes):,} attributes; at most {MOST_ATTRIBUTES} are allowed")

    def outer(self, name: str, attributes: Tags) -> bool:
        """Ends the open element. Returns whether an element of this kind begins that is not deleted."""
        if name not in ("node", "way", "relation"):
            return False
        self.end()
        self.last = name, attributes
        return name == self.kind and attributes.get("visible") != "false" and attributes.get("action") != "delete"

    def begin(self, name: str, attributes: Tags) -> None:
        raise NotImplementedError

    def end(self) -> None:
        raise NotImplementedError


class _Ways(_Document):
    kind = "way"

    def __init__(self, path: str, take: TakeWay):
        super().__init__(path)
        self.take = take
        self.way: tuple[int, Tags, list[int]] | None = None

    def begin(self, name: str, attributes: Tags) -> None:
        self.few(attributes)
        if name == "nd":
            if self.way:
                self.way[2].append(_whole(attributes["ref"]))
        elif name == "tag":
            if self.way:
                self.way[1][attributes["k"]] = attributes["v"]
        elif self.outer(name, attributes):
            self.way = _whole(attributes["id"]), {}, []

    def end(self) -> None:
        if self.way and is_way(self.way[1]):
            self.take(*self.way)
        self.way = None


class _Nodes(_Document):
    kind = "node"

    def __init__(self, path: str, take: TakeNode):
        super().__init__(path)
        self.take = take
        self.node: tuple[int, Place, Tags] | None = None

    def begin(self, name: str, attributes: Tags) -> None:
        self.few(attributes)
        if name == "tag":
            if self.node:
                self.node[2][attributes["k"]] = attributes["v"]
        elif name != "nd" and self.outer(name, attributes):
            longitude, latitude = _decimal(attributes["lon"]), _decimal(attributes["lat"])
            self.node = (
                _whole(attributes["id"]),
                place_of(longitude, latitude, f"{self.path}: node {attributes['id']}"),
                {},
            )

    def end(self) -> None:
        if self.node:
            self.take(*self.node)
        self.node = None


def _read_pbf(path: str, take_way: TakeWay | None, take_node: TakeNode | None) -> None:
    try:
        import osmium
    except ImportError:
        raise Trouble(
            f"{path}: a .pbf needs osmium's module, which this python3 lacks (Debian: python3-pyosmium, for /usr/bin/python3)"
        ) from None

    class Ways(osmium.SimpleHandler):
        def way(self, way: Any) -> None:
            if take_way and ("highway" in way.tags or way.tags.get("route") == "ferry"):
                take_way(way.id, {tag.k: tag.v for tag in way.tags}, [node.ref for node in way.nodes])

    class Nodes(osmium.SimpleHandler):
        def node(self, node: Any) -> None:
            assert take_node
            at = node.location
            place = place_of(at.x / DEGREE, at.y / DEGREE, f"{path}: node {node.id}")
            take_node(node.id, place, {tag.k: tag.v for tag in node.tags} if len(node.tags) else {})

    open(path, "rb").close()
    try:
        (Ways if take_way else Nodes)().apply_file(path)
    except RuntimeError as error:
        raise Trouble(f"{path}: not an OSM extract: {error}") from None
