"""Shared by the tools that ask a gateway: lists of nodes, the options, and the error if a request gets no answer.

These tools write only what the proved client accepted from the gateway's replies. No client trusts them. Whoever runs a
tool trusts that it asks the client.
"""
import argparse
import contextlib
import json
import pathlib
import re
import sys
from collections.abc import Iterator

from geojson import in_words
from proved import LIBRARY, add_age, key_of, octets_of
from roads import OSM_LICENCE, UNITS, Place, Trouble, degrees, plain

try:
    from gogbetiku import Refused
except ImportError:
    sys.exit(
        "the Python module of the proved client is not there: install its wheel, or python3-gogbetiku (docs/LIBRARY.md)"
    )
from gogbetiku.gateway import Gateway, Gone, NoAnswer, Publication
from gogbetiku.table import ROADS

Feature = dict[str, object]

OCTETS = re.compile(r"([1-9][0-9]{0,14})([KMG]?)")
SCALES = {"": 1, "K": 1 << 10, "M": 1 << 20, "G": 1 << 30}


def octets(word: str) -> int:
    found = OCTETS.fullmatch(word)
    if not found:
        raise argparse.ArgumentTypeError(f"{word} is not a count of octets, such as 64M")
    return int(found[1]) * SCALES[found[2]]


def node(word: str) -> int:
    """A node's id."""
    if not word.isascii() or not word.isdecimal() or int(word) >= 2**32:
        raise argparse.ArgumentTypeError(f"{plain(word)!r} is not the id of a node; an id is a number below 2^32")
    return int(word)


def count(word: str) -> int:
    if not word.isascii() or not word.isdecimal() or not 0 < int(word) < 2**64:
        raise argparse.ArgumentTypeError(f"{plain(word)!r} is not a whole number of at least 1")
    return int(word)


def read_ids(path: str) -> dict[int, str]:
    """Reads the nodes of a file. Each line has an id and, if the node has a name, the name after it. `#` begins a
    remark."""
    found: dict[int, str] = {}
    with open(path, encoding="utf-8", errors="replace") as file:
        for number, line in enumerate(file, 1):
            text = line.partition("#")[0].strip()
            if not text:
                continue
            word, name = (re.split(r"[\s,]+", text, maxsplit=1) + [""])[:2]
            try:
                one = node(word)
            except argparse.ArgumentTypeError as error:
                raise Trouble(f"{path}: line {number}: {error}") from None
            if one in found:
                raise Trouble(f"{path}: line {number}: node {one} occurs twice")
            found[one] = plain(name.strip())
    if not found:
        raise Trouble(f"{path}: it lists no node")
    return found


def parser_of(about: str) -> argparse.ArgumentParser:
    parser = argparse.ArgumentParser(description=about, epilog=f"Roads lead {ROADS}.")
    parser.add_argument("gateway", metavar="GATEWAY", help="its address, such as https://routes.example")
    parser.add_argument("key", metavar="KEY", help="the owner's public key")
    return parser


def add_arguments(parser: argparse.ArgumentParser, *, has_places: bool) -> None:
    parser.add_argument("--least", type=int, default=0, metavar="VERSION", help="the minimum version of the map (0)")
    add_age(parser)
    parser.add_argument("--chain", metavar="FILE", help="the owner's chain; the gateway's is also tried if needed")
    parser.add_argument("--publication", metavar="ID", help="this publication instead of the newest")
    parser.add_argument(
        "--most", type=octets, default=75_000_000, metavar="OCTETS", help="the greatest size of a reply (75000000)"
    )
    parser.add_argument(
        "--patience",
        type=float,
        default=120,
        metavar="S",
        help="the longest time for which a server may ask the client to wait, for each request, in seconds (120)",
    )
    parser.add_argument(
        "--library",
        default=str(LIBRARY),
        metavar="FILE",
        help="the proved client as bindings/build makes it (in crates/route_check_c/out)",
    )
    parser.add_argument(
        "--unit", choices=UNITS, default="1e-7", help="the unit of a coordinate of the map, in degrees (1e-7)"
    )
    if has_places:
        parser.add_argument(
            "--lengths",
            default="decimetres",
            metavar="WORD",
            help="the unit of lengths, which the owner gives with the key (decimetres)",
        )
        parser.add_argument("--shapes", metavar="FILE", help="the lines of roads, which are not signed")
        parser.add_argument(
            "--licence", default="", metavar="TEXT", help=f"the licence of the map's data, such as {OSM_LICENCE!r}"
        )


def publication_of(asked: argparse.Namespace, *, held: int = 256 << 20) -> Publication:
    """Returns the publication to ask. Raises a Trouble if the gateway does not answer."""
    if not pathlib.Path(asked.library).exists():
        raise Trouble(
            f"{asked.library}: the proved client is not there: bindings/archive and bindings/build make it (docs/LIBRARY.md)"
        )
    if asked.publication is not None and not re.fullmatch("[0-9a-f]{16}", asked.publication):
        raise Trouble(f"{plain(asked.publication)!r} is not the id of a publication; an id has 16 hex digits")
    chain = octets_of(asked.chain) if asked.chain else b""
    with in_one_sentence():
        gateway = Gateway(asked.gateway, most_octets=asked.most, held=held, patience=asked.patience)
        return Publication(
            gateway,
            key_of(asked.key),
            chain=chain,
            least=asked.least,
            id=asked.publication,
            library=asked.library,
            max_age=asked.max_age,
        )


@contextlib.contextmanager
def in_one_sentence() -> Iterator[None]:
    """Turns each error of a request into a Trouble of one sentence."""
    try:
        yield
    except Gone as error:
        raise Trouble(
            f"the publication is no longer served; start again with the newest one ({plain(str(error))})"
        ) from None
    except Refused as refused:
        raise Trouble(": ".join(filter(None, (refused.line.strip(), refused.sentence)))) from None
    except (NoAnswer, ValueError) as error:
        raise Trouble(str(error)) from None


# ---- GeoJSON


def said_of(over: Publication, asked: argparse.Namespace, start: int | None = None) -> Feature:
    """What each feature states about its origin."""
    version = over.header.version if over.header else None
    return {
        **({} if start is None else {"from": start}),
        "version": version,
        "publication": over.id,
        "key": over.key,
        "unit": asked.lengths,
        "roads": ROADS,
    }


def cost_of(what: str, length: int, lengths: str) -> Feature:
    """A length in the map's unit, and the same length in kilometres or minutes."""
    return {what: length, **in_words("", length, lengths)}


def feature(kind: str, coordinates: object, properties: Feature) -> Feature:
    return {"type": "Feature", "properties": properties, "geometry": {"type": kind, "coordinates": coordinates}}


def nowhere(properties: Feature) -> Feature:
    """A feature without a place (RFC 7946, 3.2)."""
    return {"type": "Feature", "properties": properties, "geometry": None}


def spot(place: Place, asked: argparse.Namespace, what: str) -> list[float]:
    longitude, latitude = degrees(place, asked.unit, what)
    return [longitude, latitude]


def write(features: list[Feature], asked: argparse.Namespace, **head: object) -> None:
    """Writes a feature collection (RFC 7946), one line for each feature."""
    whole: Feature = {
        "type": "FeatureCollection",
        **({"attribution": asked.licence} if asked.licence else {}),
        "roads": ROADS,
        **head,
    }
    lines = ",\n".join(json.dumps(one, ensure_ascii=False) for one in features)
    text = json.dumps(whole, ensure_ascii=False)[:-1] + f', "features": [\n{lines}\n]}}\n'
    sys.stdout.flush()
    sys.stdout.buffer.write(text.encode())


def tell(tool: str, over: Publication, more: str) -> None:
    """Writes to standard error what the requests cost."""
    version = f"version {over.header.version}" if over.header else "nothing accepted"
    sys.stderr.write(
        f"{tool}: {more}; {version} of {over.id}; {over.gateway.asks:,} asks, {over.gateway.octets:,} octets; {ROADS}\n"
    )
