"""The commands, over files, an image of the owner's disk and an input that are given as octets.

docs/COMMANDS.md, and 4.2 Key files of docs/SPEC.md. Each command loads its files in the order of its words, each read
before the next is loaded, then opens the desk, then does the rest. Mirrors are left out. Part of the reference: tested,
not proved, and trusted by no client.
"""
import re
from collections.abc import Callable
from dataclasses import dataclass
from typing import TypeVar

from . import audits, clients, desks, dimacs, reductions, servers, surveys
from .books import book_of
from .chains import Link, read_chain, write_chain
from .faults import Fault, Refused
from .frames import Guard, Service, bodies_of, framed
from .headers import METHODS
from .leaves import NodeLeaf
from .lines import accepted_line, finding_line, reduction_line, root_line, route_line, within_line
from .lms import KINDS, key_of
from .maps import Map, map_of
from .octets import Malformed, Reader
from .orders import ORDERS
from .publications import Publication, Settings, read_publication
from .road_files import print_roads, read_roads
from .trees import root_of

STATUSES = {
    "Words": 2,
    "KeysUsedUp": 8,
    "UnknownNode": 11,
    "NoRoute": 11,
    "Held": 12,
    "NoKey": 12,
    "BadBlock": 12,
    "TooManyKeys": 12,
    "NoSuccession": 12,
    "SameSecret": 12,
    "TooManyFrames": 13,
    "OtherPublication": 14,
}
DONE, REFUSED, FAULTY, EVIDENCE = 0, 1, 3, 10
MOST_FILE = 268_435_456
SECRET_DIGITS, PUBLIC_DIGITS = 96, 112


@dataclass(frozen=True)
class Ended:
    """A status, the output, the new image of the disk, and the fault, if any."""

    status: int
    output: bytes
    disk: bytes
    fault: Fault | None = None


@dataclass(frozen=True)
class World:
    """The inputs of a command: files by name, the image of the owner's disk, and the standard input."""

    file: Callable[[str], bytes]
    disk: bytes = b""
    source: bytes = b""

    def load(self, name: str) -> bytes:
        octets = self.file(name)
        if len(octets) > MOST_FILE:
            raise Fault("TooLong")
        return octets

    def hex_file(self, name: str, digits: int | None = None) -> bytes:
        """The octets of a file with this many hex digits, or with any even number of them."""
        found = re.fullmatch(rb"((?:[0-9a-fA-F]{2})*)(?:\r?\n)?", self.load(name))
        if found is None or digits not in (None, len(found[1])):
            raise Fault("BadHex")
        return bytes.fromhex(found[1].decode())

    def publication(self, name: str) -> Publication:
        return read_or_fault(lambda: read_publication(Reader(self.load(name))))

    def chain(self, names: tuple[str, ...]) -> tuple[Link, ...]:
        """The links of a chain file; none if no file is named."""
        return read_or_fault(lambda: read_chain(self.load(names[0]))) if names else ()

    def chart(self, name: str) -> Map:
        return map_of(read_roads(self.load(name)))

    def ended(self, status: int, output: bytes | str, disk: bytes | None = None, fault: Fault | None = None) -> Ended:
        octets = output if isinstance(output, bytes) else output.encode()
        return Ended(status, octets, self.disk if disk is None else disk, fault)


Found = TypeVar("Found")


def read_or_fault(read: Callable[[], Found]) -> Found:
    try:
        return read()
    except Malformed as fault:
        raise Fault("Malformed", fault.at) from None


def told(world: World, check: Callable[[], str]) -> Ended:
    """The line of an accepted answer or of a refusal."""
    try:
        return world.ended(DONE, check())
    except Refused as refused:
        return world.ended(REFUSED, refused.line())


def known(chart: Map, *nodes: int) -> None:
    for node in nodes:
        if node not in chart.places:
            raise Fault("UnknownNode", node)


def route(world: World, roads: str, start: int, end: int) -> Ended:
    chart = world.chart(roads)
    known(chart, start, end)
    found = chart.route(start, end)
    if found is None:
        raise Fault("NoRoute")
    return world.ended(DONE, route_line(chart.distances(start)[end], found))


def root(world: World, roads: str, fan: int) -> Ended:
    chart = world.chart(roads)
    texts = [NodeLeaf(node, *place, chart.arcs[node]).text() for node, place in chart.places.items()]
    return world.ended(DONE, root_line(len(texts), root_of(texts, fan)))


def dimacs_files(world: World, graph: str, places: str) -> Ended:
    octets = world.load(graph), world.load(places)
    return world.ended(DONE, print_roads(dimacs.read_dimacs(*octets)))


def public_line(public: bytes) -> str:
    return f"{public.hex()}\n"


def key(world: World, secret: str, kind: int) -> Ended:
    octets = world.hex_file(secret, SECRET_DIGITS)
    disk = desks.create(world.disk, kind, octets)
    return world.ended(DONE, public_line(key_of(kind, octets).public), disk)


def desk(world: World) -> Ended:
    area = desks.open_desk(world.disk).current()
    return world.ended(DONE, f"{area.key.public.hex()} {len(area.free())} {area.key.slots - 1}\n")


def succeed(world: World, secret: str, kind: int) -> Ended:
    octets = world.hex_file(secret, SECRET_DIGITS)
    disk = desks.succeed(world.disk, kind, octets)
    return world.ended(DONE, public_line(key_of(kind, octets).public), disk)


def links(world: World) -> Ended:
    return world.ended(DONE, write_chain(desks.open_desk(world.disk).links()))


def publish(
    world: World, roads: str, method: int, version: int, order: int, seed: int, fan: int, *parameters: int
) -> Ended:
    parts = read_roads(world.load(roads))
    desks.open_desk(world.disk)
    book = book_of(parts, Settings(method, version, order, seed, fan, *parameters))
    disk, signature = desks.sign(world.disk, book.header.octets())
    first, second, third = parameters
    return world.ended(DONE, Publication(book.header, signature, seed, first, second, third, parts).octets(), disk)


def prove(world: World, publication: str, start: int, end: int) -> Ended:
    held = servers.install(world.publication(publication))
    reply = servers.answer(held, start, end)
    unknown = next((node for node in (start, end) if not servers.is_known(held, node)), None)
    if unknown is not None:
        return world.ended(STATUSES["UnknownNode"], reply, fault=Fault("UnknownNode", unknown))
    return world.ended(DONE, reply)


def reach(world: World, publication: str, start: int, radius: int) -> Ended:
    return world.ended(DONE, servers.answer_near(servers.install(world.publication(publication)), start, radius))


def serve(world: World, publication: str, *guard: str) -> Ended:
    first, guarding = world.publication(publication), None
    if guard:
        guarding = Guard(world.hex_file(guard[0], PUBLIC_DIGITS), world.chain(guard[1:]))
        try:
            clients.test_header(guarding.public, guarding.chain, first.header, first.signature, 0)
        except Refused as refused:
            return world.ended(REFUSED, refused.line())
    service = Service(servers.install(first), guarding)
    bodies, fault = bodies_of(world.source)
    written = b"".join(framed(service.step(body)) for body in bodies)
    return world.ended(DONE if fault is None else status_of(fault), written, fault=fault)


def check(world: World, public: str, reply: str, start: int, end: int, least: int, *chain: str) -> Ended:
    owner, octets, followed = world.hex_file(public, PUBLIC_DIGITS), world.load(reply), world.chain(chain)
    return told(world, lambda: accepted_line(clients.check(owner, followed, octets, start, end, least)))


def check_reach(world: World, public: str, reply: str, start: int, radius: int, least: int, *chain: str) -> Ended:
    owner, octets, followed = world.hex_file(public, PUBLIC_DIGITS), world.load(reply), world.chain(chain)
    return told(world, lambda: within_line(clients.check_near(owner, followed, octets, start, radius, least)))


def audited(
    world: World,
    audit: Callable[..., audits.Finding],
    public: str,
    publication: str,
    reply: str,
    start: int,
    end: int,
    chain: tuple[str, ...],
) -> Ended:
    owner, published = world.hex_file(public, PUBLIC_DIGITS), world.publication(publication)
    octets, followed = world.load(reply), world.chain(chain)
    opened = desks.open_desk(world.disk)
    try:
        finding = audit(owner, followed, published, octets, start, end, opened)
    except Refused as refused:
        return world.ended(REFUSED, refused.line())
    return world.ended(DONE if finding == audits.Right() else EVIDENCE, finding_line(finding))


def audit(world: World, public: str, publication: str, reply: str, start: int, end: int, *chain: str) -> Ended:
    return audited(world, audits.audit, public, publication, reply, start, end, chain)


def audit_reach(world: World, public: str, publication: str, reply: str, start: int, radius: int, *chain: str) -> Ended:
    return audited(world, audits.audit_near, public, publication, reply, start, radius, chain)


def reduce(world: World, public: str, text: str, signature: str) -> Ended:
    owner = world.hex_file(public, PUBLIC_DIGITS)
    signed, octets = world.hex_file(text), world.hex_file(signature)
    area = desks.open_desk(world.disk).area_of(owner)
    try:
        reduced = reductions.reduce(area.key, desks.spent_by(area, octets), signed, octets)
    except Refused as refused:
        return world.ended(REFUSED, refused.line())
    return world.ended(DONE if isinstance(reduced, reductions.Signed) else EVIDENCE, reduction_line(reduced))


def survey(world: World, width: int, seed: int, method: int, count: int) -> Ended:
    return world.ended(DONE, surveys.survey(width, seed, method, count))


def file_name(word: str) -> str:
    return word


def number(values: range) -> Callable[[str], int | None]:
    """A word that is a number in this range."""

    def read(word: str) -> int | None:
        significant = word.lstrip("0") or "0"
        is_number = re.fullmatch("[0-9]+", word) and len(significant) <= 20
        return int(significant) if is_number and int(significant) in values else None

    return read


def one_of(names: dict[str, int]) -> Callable[[str], int | None]:
    return names.get


# the meaning of a word, or None if it has none of that kind
WordReader = Callable[[str], str | int | None]
FILE, ID, WIDE, FAN = file_name, number(range(2**32)), number(range(2**64)), number(range(2, 33))
METHOD, ORDER, KIND = one_of(METHODS), one_of(ORDERS), one_of(KINDS)
FORMS: dict[str, tuple[Callable[..., Ended], list[WordReader], int]] = {
    "route": (route, [FILE, ID, ID], 0),
    "root": (root, [FILE, FAN], 0),
    "dimacs": (dimacs_files, [FILE, FILE], 0),
    "key": (key, [FILE, KIND], 0),
    "desk": (desk, [], 0),
    "succeed": (succeed, [FILE, KIND], 0),
    "links": (links, [], 0),
    "publish": (publish, [FILE, METHOD, WIDE, ORDER, WIDE, FAN, WIDE, WIDE, WIDE], 0),
    "prove": (prove, [FILE, ID, ID], 0),
    "reach": (reach, [FILE, ID, WIDE], 0),
    "serve": (serve, [FILE], 2),
    "check": (check, [FILE, FILE, ID, ID, WIDE], 1),
    "check-reach": (check_reach, [FILE, FILE, ID, WIDE, WIDE], 1),
    "audit": (audit, [FILE, FILE, FILE, ID, ID], 1),
    "audit-reach": (audit_reach, [FILE, FILE, FILE, ID, WIDE], 1),
    "reduce": (reduce, [FILE, FILE, FILE], 0),
    "survey": (survey, [number(range(2, 257)), WIDE, METHOD, number(range(1, 1001))], 0),
}


def command_of(words: list[str]) -> tuple[Callable[..., Ended], list[str | int | None]]:
    """The command of these words, and its arguments."""
    if not words or words[0] not in FORMS:
        raise Fault("Words")
    command, readers, further = FORMS[words[0]]
    given = words[1:]
    readers = [*readers, *[FILE] * min(further, max(0, len(given) - len(readers)))]
    values = [read(word) for read, word in zip(readers, given)]
    if len(given) != len(readers) or None in values:
        raise Fault("Words")
    return command, values


def status_of(fault: Fault) -> int:
    return STATUSES.get(fault.name, FAULTY)


def run(words: list[str], world: World) -> Ended:
    """Runs the command of these words. No file, disk or stream fails."""
    try:
        command, values = command_of(words)
        return command(world, *values)
    except Fault as fault:
        return world.ended(status_of(fault), b"", fault=fault)
