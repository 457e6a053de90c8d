#!/usr/bin/env python3
"""Plays the vectors in the reference, the program and the library: checks/vectors.py [PROGRAM [LIBRARY]] [--all]

The reference in reference/gogbetiku_reference plays each case of vectors/; with PROGRAM it does so only with --all,
since it made the vectors. PROGRAM plays a case by the command that can use it, in a new folder. LIBRARY
(libgogbetiku.so.0, from bindings/build) plays the cases of clients through bindings/python. Items that no command takes
alone are wrapped: a leaf or a header in a reply, a fold in a signed reply. Ranges of bits and of lengths are played at
some of their places; with --all they are played at each place, and so is the case whose key takes a minute. Nothing
here is proved, and no client trusts it. Ends with status 1 if a result differs.
"""
import hashlib
import multiprocessing
import pathlib
import re
import subprocess
import sys
import tempfile
from collections import Counter
from collections.abc import Callable

TOP = pathlib.Path(__file__).resolve().parent.parent
sys.path[:0] = [str(TOP / "reference"), str(TOP / "bindings/python")]

from gogbetiku_reference import desks, layout  # noqa: E402
from gogbetiku_reference.headers import HYP, LDM, Header  # noqa: E402
from gogbetiku_reference.leaves import NodeLeaf  # noqa: E402
from gogbetiku_reference.maps import Parts, map_of  # noqa: E402
from gogbetiku_reference.octets import u8, u16, u32  # noqa: E402
from gogbetiku_reference.road_files import print_roads  # noqa: E402
from gogbetiku_reference.trees import root_of  # noqa: E402
from gogbetiku_vectors import files, formats, owners, signing  # noqa: E402
from gogbetiku_vectors import asking, client as clients  # noqa: E402
from gogbetiku_vectors.asking import turned  # noqa: E402
from gogbetiku_vectors.families import Family, Fields, octets, octets_again  # noqa: E402
from gogbetiku_vectors.scenes import ZEROS, owner  # noqa: E402

# ranges are played at this many places
BITS, LENGTHS, SIGNED_BITS = 97, 89, 997
PROCESSES = 4
# in this folder, the program's syncs of its disk take no time
IN_MEMORY = "/dev/shm" if pathlib.Path("/dev/shm").is_dir() else None
FAULTY, REFUSED, NO_NODE, USED_WRONG, TOO_MANY_FRAMES = 3, 1, 11, 12, 13
# the messages of the program about faults with numbers: the numbers, in order
NUMBERLESS = {"Settings", "RepeatedNode", "UnknownEnd", "SelfRoad", "Crowded", "Count", "TooMany", "NoProblem"}


class Differs(Exception):
    """A case has a different result."""


def same(what: str, seen: object, wanted: object) -> None:
    if seen != wanted:
        raise Differs(f"{what}: {str(seen)[:200]}, and not {str(wanted)[:200]}")


class Program:
    """The program in a folder with the files of a command."""

    def __init__(self, path: str, folder: pathlib.Path):
        self.path, self.folder, self.runs = str(pathlib.Path(path).resolve()), folder, 0

    def run(
        self, *words: object, source: bytes = b"", disk: bytes | None = None, **given: bytes
    ) -> tuple[int, bytes, str]:
        """Returns a command's status, output and message, over these files and this disk."""
        for name, text in given.items():
            (self.folder / name).write_bytes(text)
        desk = self.folder / "owner.desk"
        desk.unlink(missing_ok=True)
        if disk is not None:
            desk.touch(mode=0o600)
            desk.write_bytes(disk)
        self.runs += 1
        done = subprocess.run(
            [self.path, *map(str, words)], cwd=self.folder, input=source, capture_output=True, check=False
        )
        return done.returncode, done.stdout, done.stderr.decode()

    def disk(self) -> bytes:
        desk = self.folder / "owner.desk"
        return desk.read_bytes() if desk.exists() else b""


def is_guarded(program: Program, ended: tuple[int, bytes, str], image: bytes) -> bool:
    """Whether a command that signs refused a desk that no run and no crash leaves, without changing it."""
    if "No run and no crash leaves that" not in ended[2]:
        return False
    same("a desk that no run leaves", (ended[:2], program.disk()), ((USED_WRONG, b""), image))
    return True


def faulty(what: str, ended: tuple[int, bytes, str], fault: str, status: int = FAULTY) -> None:
    """Tests that a command ended with a fault, and that its message has the fault's numbers."""
    same(f"{what}: status", ended[:2], (status, b""))
    name, *numbers = fault.split()
    if name not in NUMBERLESS:
        said = re.findall(r"\d+", ended[2])
        numbers = numbers[1:] if len(numbers) == 2 else numbers
        same(f"{what}: the message names {fault}", [number for number in numbers if number not in said], [])


def key_file(public: str) -> bytes:
    return public.encode()


def blank_disk(secret: bytes = ZEROS) -> bytes:
    return desks.create(b"", 5, secret)


def spent_below(slot: int, secret: bytes) -> bytes:
    """A disk whose next free slot is this one."""
    image = blank_disk(secret)
    for number in range(slot):
        image = desks.spend(image, desks.open_desk(image).current(), number, b"spent")
    return image


def road_file(program: Program, given: Fields, result: Fields) -> None:
    ended = program.run("root", "map.roads", 2, **{"map.roads": octets_again(given, "text")})
    if "fault" in result or "map_fault" in result:
        return faulty("root", ended, result.get("fault", result.get("map_fault")))
    same("root", ended[:2], (0, f"{len(result['nodes'])} {result['root']}\n".encode()))


def dimacs_file(program: Program, given: Fields, result: Fields) -> None:
    ended = program.run("dimacs", "a.gr", "a.co", **{"a.gr": octets(given["graph"]), "a.co": octets(given["places"])})
    if "fault" in result:
        return faulty("dimacs", ended, result["fault"])
    same("dimacs", ended[:2], (0, octets(result["printed"])))


def bare_reply(header: Header, rest: bytes) -> bytes:
    """A reply without a signature. Its first fault after its form is the signature."""
    return u8(0) + header.octets() + u16(0) + u32(1) + u32(1) + rest


PLAIN_HEADER = Header(1, 0, 2, 3, 5, bytes(32), 0, bytes(32), 0, 0)
# the places where these begin in a publication
HEADER_AT, ROOT_AT = layout.IN_PUBLICATION, layout.IN_PUBLICATION + layout.NODE_ROOT
UNSIGNED = "refused BadSignature BadForm\n"
LEAF_AT = layout.IN_ANSWER + layout.SIGNATURE + 8 + 4 + 6


def said_of(
    program: Program, reply: bytes, start: int = 1, end: int = 3, least: str = "0", public: bytes | None = None
) -> str:
    _, output, _ = program.run(
        "check", "key", "reply", start, end, least, key=(public or owner().public).hex().encode(), reply=reply
    )
    return output.decode()


def leaf(program: Program, given: Fields, result: Fields) -> None:
    text, kind = octets(given["text"]), given["kind"]
    method = {"vector": LDM, "cell": HYP}.get(kind, 2)
    first, second = {LDM: (1, given["landmarks"]), HYP: (1, 1)}.get(method, (0, 0))
    if method == LDM and second == 0 or kind == "pair" and len(text) != 17:
        return
    header = Header(method, 0, 2, 3, 5, bytes(32), 1 if kind == "pair" else 0, bytes(32), first, second)
    items = u32(0) + u32(1) + u32(0) + text if kind == "pair" else u32(1) + u32(0) + u16(len(text)) + text + u32(0)
    at = LEAF_AT + 2 if kind == "pair" else LEAF_AT
    wanted = f"refused Malformed {at}\n" if "fault" in result else UNSIGNED
    same("check", said_of(program, bare_reply(header, items + u32(0) + u32(0))), wanted)


def header(program: Program, given: Fields, result: Fields) -> None:
    text = octets(given["octets"])
    if len(text) != layout.HEADER:
        return
    rest = u16(0) + u32(1) + u32(1) + u32(0) + u32(0) + u32(0) + u32(0)
    wanted = f"refused Malformed {1 + result['malformed']}\n" if "malformed" in result else UNSIGNED
    same("check", said_of(program, u8(0) + text + rest), wanted)


def chain_file(program: Program, given: Fields, result: Fields) -> None:
    ended = program.run(
        "check",
        "key",
        "reply",
        1,
        3,
        0,
        "chain",
        key=owner().public.hex().encode(),
        reply=b"\x01",
        chain=octets(given["octets"]),
    )
    if "malformed" in result:
        return faulty("check", ended, f"Malformed {result['malformed']}")
    same("check", ended[:2], (REFUSED, b"refused NotAnswer 1\n"))


def key(program: Program, given: Fields, result: Fields) -> None:
    same(
        "key",
        program.run("key", "secret", given["kind"], secret=given["secret"].encode())[:2],
        (0, f"{result['public']}\n".encode()),
    )


def reduced_verdict(program: Program, given: Fields) -> str:
    """The result of `reduce` for a signature, over a disk of the key that has signed nothing."""
    _, output, _ = program.run(
        "reduce",
        "key",
        "text",
        "signature",
        disk=blank_disk(octets(given["secret"])),
        key=key_file(given["public"]),
        text=given["text"].encode(),
        signature=given["signature"].encode(),
    )
    return "valid" if output.startswith(b"chain ") else output.decode().removeprefix("refused BadSignature ").strip()


def signature(program: Program, given: Fields, result: Fields) -> None:
    of_owner = given["public"] == owner().public.hex()
    if "secret" in given or of_owner:
        same("reduce", reduced_verdict(program, {"secret": ZEROS.hex(), **given}), result["verdict"])


def turned_signature(program: Program, given: Fields, result: Fields) -> None:
    if "secret" not in given:
        return
    for (begin, end), wanted in zip(given["bits"], result["verdicts"]):
        for bit in range(begin, end, SIGNED_BITS):
            changed = turned(octets(given["signature"]), bit // 8, 128 >> bit % 8).hex()
            same(f"reduce, bit {bit}", reduced_verdict(program, {**given, "signature": changed}), wanted)


def tree(program: Program, given: Fields, result: Fields) -> None:
    """Plays by `root`: the leaves are those of the nodes of a line."""
    count = len(given["leaves"])
    parts = Parts(
        tuple((node, node, 0) for node in range(1, count + 1)), tuple((node, node + 1, 5) for node in range(1, count))
    )
    ended = program.run("root", "map.roads", given["fan"], **{"map.roads": print_roads(parts)})
    same("root", ended[:2], (0, f"{count} {result['levels'][-1][0]}\n".encode()))


def fold(program: Program, given: Fields, result: Fields) -> None:
    """Plays by `check`: the items and the cover of a signed reply with the expected root."""
    if any(place <= before for before, place in zip(given["places"], given["places"][1:])):
        return
    signed = Header(1, 0, given["fan"], 3, given["count"], octets(result.get("root", "00" * 32)), 0, bytes(32), 0, 0)
    text = b"".join(
        u32(place) + u16(len(octets(one))) + octets(one) for place, one in zip(given["places"], given["texts"])
    )
    items = u32(len(given["places"])) + text + u32(0)
    cover = u32(len(given["cover"])) + octets("".join(given["cover"])) + u32(0)
    seal = owner().sign(0, signed.octets())
    said = said_of(program, u8(0) + signed.octets() + u16(len(seal)) + seal + u32(1) + u32(10**9) + items + cover)
    wanted = f"refused BadCover 1 {result['fault'].split()[0]}\n" if "fault" in result else "refused BadRoute 0\n"
    same("check", said, wanted)


def order(program: Program, given: Fields, result: Fields) -> None:
    """Plays by `publish`, whose header has the root of the ordered leaves."""
    parts = Parts(tuple((a, x, y) for a, x, y in given["nodes"]), tuple((a, b, c) for a, b, c in given["roads"]))
    chart = map_of(parts)
    root = root_of([NodeLeaf(node, *chart.places[node], chart.arcs[node]).text() for node in result["ids"]], 2)
    ended = program.run(
        "publish",
        "map.roads",
        "dij",
        1,
        given["order"],
        given["seed"],
        2,
        0,
        0,
        0,
        disk=blank_disk(),
        **{"map.roads": print_roads(parts)},
    )
    same("publish", (ended[0], ended[1][ROOT_AT : ROOT_AT + 32]), (0, root))


def publication(program: Program, given: Fields, result: Fields) -> None:
    settings = given["settings"]
    words = [settings[name] for name in ("method", "version", "order", "seed", "fan", "p1", "p2", "p3")]
    disk = spent_below(given["slot"], octets(given["secret"]))
    ended = program.run("publish", "map.roads", *words, disk=disk, **{"map.roads": octets(given["roads"])})
    if "fault" in result:
        return faulty("publish", ended, result["fault"])
    same("publish", ended[:2], (0, octets(result["publication"])))
    image = desks.spend(
        disk, desks.open_desk(disk).current(), given["slot"], ended[1][HEADER_AT : HEADER_AT + layout.HEADER]
    )
    same("owner.desk", program.disk(), image)


def installing(program: Program, given: Fields, result: Fields) -> None:
    ended = program.run("reach", "pub", 1, 0, pub=octets(given["publication"]))
    if "fault" in result:
        return faulty("reach", ended, result["fault"])
    same("reach", ended[0] in (0, NO_NODE), True)


def reply(program: Program, given: Fields, result: Fields) -> None:
    status, output, _ = program.run("prove", "pub", given["from"], given["to"], pub=octets(given["publication"]))
    same("prove", output.hex() in result["replies"], True)
    same("prove", status, NO_NODE if output == b"\x01" else 0)
    version = str(layout.version_of(octets(given["publication"]), HEADER_AT))
    for one, line in zip(result["replies"], result["lines"]):
        same("check", said_of(program, octets(one), given["from"], given["to"], version, octets(given["public"])), line)


def radius(program: Program, given: Fields, result: Fields) -> None:
    ended = program.run("reach", "pub", given["from"], given["radius"], pub=octets(given["publication"]))
    if "fault" in result:
        return faulty("reach", ended, result["fault"], NO_NODE)
    same("reach", ended[:2], (0, octets(result["reply"])))


def route(program: Program, given: Fields, result: Fields) -> None:
    ended = program.run("route", "map.roads", given["from"], given["to"], **{"map.roads": octets(given["roads"])})
    if "fault" in result:
        return faulty("route", ended, result["fault"], NO_NODE)
    same("route", (ended[0], ended[1].decode() in result["lines"]), (0, True))


def service(program: Program, given: Fields, result: Fields) -> None:
    ended = program.run("serve", "pub", pub=octets(given["publication"]), source=octets_again(given, "input"))
    status = {"End": 0, "TooManyFrames": TOO_MANY_FRAMES}.get(result["end"], FAULTY)
    if "digest" in result:
        return same("serve", (ended[0], hashlib.sha256(ended[1]).hexdigest()), (status, result["digest"]))
    same("serve", ended[:2], (status, octets(result["output"])))


def guarded(program: Program, given: Fields, result: Fields) -> None:
    files = {"pub": octets(given["publication"]), "key": key_file(given["public"]), "chain": octets(given["chain"])}
    ended = program.run("serve", "pub", "key", "chain", **files, source=octets(given["input"]))
    wanted = (1, result["line"].encode()) if "line" in result else (0, octets(result["output"]))
    same("serve", ended[:2], wanted)


def survey(program: Program, given: Fields, result: Fields) -> None:
    ended = program.run("survey", given["width"], given["seed"], given["method"], given["queries"])
    if "fault" in result:
        return faulty("survey", ended, result["fault"])
    same("survey", ended[:2], (0, result["line"].encode()))


def checked(program: Program, given: Fields) -> tuple[int, str]:
    words = (
        ["check-reach", "key", "reply", given["from"], given["radius"]]
        if "radius" in given
        else ["check", "key", "reply", given["from"], given["to"]]
    )
    status, output, _ = program.run(
        *words,
        given["least"],
        "chain",
        key=key_file(given["public"]),
        reply=octets(given["reply"]),
        chain=octets(given["chain"]),
    )
    return status, output.decode()


def client(program: Program, given: Fields, result: Fields) -> None:
    same("check", checked(program, given), (0 if result["code"] in (1, 2) else REFUSED, result["line"]))


def turned_reply(program: Program, given: Fields, result: Fields) -> None:
    for (begin, end), line in zip(given["bits"], result["lines"]):
        for bit in range(begin, end, BITS * 8):
            changed = turned(octets(given["reply"]), bit // 8, 128 >> bit % 8).hex()
            same(f"check, bit {bit}", checked(program, {**given, "reply": changed}), (REFUSED, line))


def cut(program: Program, given: Fields, result: Fields) -> None:
    for (begin, end), place in zip(given["lengths"], result["places"]):
        for length in range(begin, end, LENGTHS):
            same(f"cut at {length}", place_by(program, given["sort"], octets(given["octets"])[:length]), place)


def place_by(program: Program, sort: str, text: bytes) -> int | None:
    """The offset at which the program says that octets cannot be read."""
    public = owner().public.hex().encode()
    if sort == "publication":
        return placed(program.run("prove", "pub", 1, 3, pub=text))
    if sort == "chain":
        return placed(program.run("check", "key", "reply", 1, 3, 0, "chain", key=public, reply=b"\x01", chain=text))
    _, output, _ = program.run(
        "check-reach" if sort == "radius reply" else "check", "key", "reply", 1, 3, 0, key=public, reply=text
    )
    found = re.fullmatch(rb"refused Malformed (\d+)\n", output)
    return int(found[1]) if found else None


def placed(ended: tuple[int, bytes, str]) -> int | None:
    found = re.search(r"the field at offset (\d+) cannot be read", ended[2])
    return int(found[1]) if found else None


def desk(program: Program, given: Fields, result: Fields) -> None:
    image = owners.image_in(given["image"])
    ended = program.run("desk", disk=image)
    links = program.run("links", disk=image)
    guarded = is_guarded(program, links, image)
    if "fault" in result:
        if not guarded:
            faulty("links", links, result["fault"], USED_WRONG)
        return faulty("desk", ended, result["fault"], USED_WRONG)
    same("desk", ended[:2], (0, f"{result['keys'][-1]} {result['left']} {result['total']}\n".encode()))
    if not guarded:
        same("links", links[:2], (0, octets(result["links"])))


def desk_change(program: Program, given: Fields, result: Fields) -> None:
    image = owners.image_in(given["image"])
    ended = program.run(given["do"], "secret", given["kind"], secret=given["secret"].encode(), disk=image)
    if is_guarded(program, ended, image):
        return
    if "fault" in result:
        same("owner.desk", program.disk(), image)
        return faulty(given["do"], ended, result["fault"], USED_WRONG)
    same(given["do"], ended[:2], (0, f"{result['public']}\n".encode()))
    same("owner.desk", owners.image_fields(program.disk()), result["image"])


def signing_by(program: Program, given: Fields, result: Fields) -> None:
    image = owners.image_in(given["image"])
    words = ["publish", "map.roads", "dij", given["version"], "id", 0, 2, 0, 0, 0]
    ended = program.run(*words, disk=image, **{"map.roads": octets(given["roads"])})
    if is_guarded(program, ended, image):
        return
    if "fault" in result:
        same("owner.desk", program.disk(), image)
        return same("publish", ended[:2], (result["status"], b""))
    same("publish", ended[:2], (0, octets(result["publication"])))
    same("owner.desk", owners.image_fields(program.disk()), result["image"])


def ended_as(what: str, ended: tuple[int, bytes, str], result: Fields) -> None:
    if "fault" in result:
        return faulty(what, ended, result["fault"], result["status"])
    same(what, ended[:2], (result["status"], result["line"].encode()))


def audit(program: Program, given: Fields, result: Fields) -> None:
    words = (
        ["audit-reach", "key", "pub", "reply", given["from"], given["radius"]]
        if "radius" in given
        else ["audit", "key", "pub", "reply", given["from"], given["to"]]
    )
    ended_as(
        "audit",
        program.run(
            *words,
            "chain",
            disk=owners.image_in(given["image"]),
            key=key_file(given["public"]),
            pub=octets(given["publication"]),
            reply=octets(given["reply"]),
            chain=octets(given["chain"]),
        ),
        result,
    )


def reduction(program: Program, given: Fields, result: Fields) -> None:
    ended_as(
        "reduce",
        program.run(
            "reduce",
            "key",
            "text",
            "signature",
            disk=owners.image_in(given["image"]),
            key=key_file(given["public"]),
            text=given["text"].encode(),
            signature=given["signature"].encode(),
        ),
        result,
    )


PLAYS: dict[str, Callable[[Program, Fields, Fields], None]] = {
    "road_files": road_file,
    "dimacs_files": dimacs_file,
    "leaves": leaf,
    "headers": header,
    "chain_files": chain_file,
    "cuts": cut,
    "keys": key,
    "great_keys": key,
    "signatures": signature,
    "turned_signatures": turned_signature,
    "trees": tree,
    "folds": fold,
    "orders": order,
    "publications": publication,
    "installs": installing,
    "replies": reply,
    "radii": radius,
    "routes": route,
    "services": service,
    "guarded_services": guarded,
    "surveys": survey,
    "client": client,
    "client_radius": client,
    "turned": turned_reply,
    "desks": desk,
    "desk_changes": desk_change,
    "signings": signing_by,
    "audits": audit,
    "reductions": reduction,
}


def by_library(library: str) -> Callable[[Fields], Fields]:
    """The library's verdict on a client's case."""
    import gogbetiku

    def run(given: Fields) -> Fields:
        client_of = gogbetiku.Client(octets(given["public"]), octets(given["chain"]), library=library)
        start, least = given["from"], int(given["least"])
        try:
            if "radius" in given:
                within = client_of.check_reach(octets(given["reply"]), start, int(given["radius"]), least)
                listed = [node.id for node in reversed(within.nodes)]
                nearest = client_of.nearest(octets(given["reply"]), start, int(given["radius"]), listed, least)
                same("nearest", nearest.nodes, sorted(within.nodes, key=lambda node: (node.distance, node.id)))
                ids = "".join(f" {node.id}" for node in within.nodes)
                return told(f"within {len(within.nodes)}:{ids}\n", 1, 0, 0, within.version)
            found = client_of.check_route(octets(given["reply"]), start, given["to"], least)
        except gogbetiku.Refused as refused:
            return told(refused.line + "\n", refused.code, refused.first, refused.second, 0)
        if isinstance(found, gogbetiku.NoRoute):
            return told("accepted none\n", 2, 0, 0, found.version)
        return told(f"accepted {found.length}:{''.join(f' {id}' for id in found.ids)}\n", 1, 0, 0, found.version)

    return run


def told(line: str, code: int, first: int, second: int, version: int) -> Fields:
    return {"line": line, "code": code, "first": str(first), "second": str(second), "version": str(version)}


def library_plays(
    run: Callable[[Fields], Fields], name: str, given: Fields, result: Fields, strides: tuple[int, int]
) -> int:
    """Plays a case in the library, if it is a client's. Returns the number of checks."""
    if name in ("client", "client_radius"):
        same("library", run(given), result)
        return 1
    if name == "turned":
        bits = [
            (bit, line)
            for (begin, end), line in zip(given["bits"], result["lines"])
            for bit in range(begin, end, strides[0])
        ]
        for bit, line in bits:
            changed = turned(octets(given["reply"]), bit // 8, 128 >> bit % 8).hex()
            same(f"library, bit {bit}", run({**given, "reply": changed})["line"], line)
        return len(bits)
    if name == "cuts" and given["sort"].endswith("reply"):
        return library_cuts(run, given, result, strides[1])
    if name == "chain_files" and "malformed" in result:
        query = asking.asked(b"\x01", 1, 3, 0)
        seen = run({**query, "chain": given["octets"]})
        same("library", (seen["code"], seen["first"]), (18, str(result["malformed"])))
        return 1
    return 0


def library_cuts(run: Callable[[Fields], Fields], given: Fields, result: Fields, stride: int) -> int:
    count, query = 0, asking.asked(b"", 1, 3, 0)
    if given["sort"] == "radius reply":
        query = asking.near_asked(b"", 1, 3, 0)
    for (begin, end), place in zip(given["lengths"], result["places"]):
        for length in range(begin, end, stride):
            line = run({**query, "reply": given["octets"][: 2 * length]})["line"]
            same(f"library, cut at {length}", line, f"refused Malformed {place}\n")
            count += 1
    return count


def reference_plays(family: Family, case: Fields, everything: bool) -> None:
    runs = {
        "turned": (clients.run_turned, BITS),
        "turned_signatures": (signing.run_turned, SIGNED_BITS),
        "cuts": (formats.run_cut, 1),
    }
    if family.name in runs:
        run, stride = runs[family.name]
        same("reference", run(case["given"], 1 if everything else stride), case["result"])
    else:
        same("reference", family.run(case["given"]), case["result"])


class Player:
    """Plays cases in a folder of its own."""

    def __init__(self, words: list[str], everything: bool):
        self.folder = tempfile.TemporaryDirectory(dir=IN_MEMORY)
        self.program = Program(words[0], pathlib.Path(self.folder.name)) if words else None
        self.library = by_library(words[1]) if len(words) > 1 else None
        self.everything = everything

    def play(self, family: Family, case: Fields) -> tuple[Counter[str], str | None]:
        """The number of runs and checks of a case, and the differences."""
        counts, before = Counter[str](cases=1), self.program.runs if self.program else 0
        try:
            if self.program is None or self.everything:
                reference_plays(family, case, self.everything)
            if self.program is not None:
                PLAYS[family.name](self.program, case["given"], case["result"])
            if self.library is not None:
                strides = (1, 1) if self.everything else (BITS, LENGTHS)
                counts["library"] = library_plays(self.library, family.name, case["given"], case["result"], strides)
        except Differs as fault:
            return counts, f"{case['id']} ({case['why']}): {fault}"
        finally:
            counts["program"] = self.program.runs - before if self.program else 0
        return counts, None


# the state of a process: its players, and all cases
PLAYERS: list[Player] = []
CASES: list[tuple[Family, Fields]] = []


def begin(words: list[str], everything: bool) -> None:
    PLAYERS.append(Player(words, everything))


def play_one(number: int) -> tuple[Counter[str], str | None]:
    return PLAYERS[0].play(*CASES[number])


def play(words: list[str], everything: bool) -> tuple[Counter[str], list[str]]:
    """Plays all cases, by four processes."""
    counts, faults = Counter[str](), list[str]()
    for family in files.FAMILIES:
        if everything or not family.slow:
            CASES.extend((family, case) for case in files.read_family(TOP / "vectors", family))
    with multiprocessing.get_context("fork").Pool(PROCESSES, begin, (words, everything)) as pool:
        for one, fault in pool.imap(play_one, range(len(CASES)), chunksize=8):
            counts.update(one)
            faults += [fault] if fault else []
        pool.close()
        pool.join()
    return counts, faults


def main() -> int:
    words = [word for word in sys.argv[1:] if not word.startswith("--")]
    counts, faults = play(words, "--all" in sys.argv)
    for fault in faults:
        print(fault)
    print(
        f"vectors: {counts['cases']} cases, {counts['program']} runs of the program and {counts['library']} checks of the library beside the reference, {len(faults)} differ"
    )
    return 1 if faults else 0


if __name__ == "__main__":
    sys.exit(main())
