#!/usr/bin/env python3
"""Compares each offset and width of headers and desks with docs/SPEC.md: checks/layout.py

The rules are SPEC's table of a header (6.1), its text on publications and replies (6.2 to 6.4), and its text on areas
and slots (4.3). These must agree with one another. The following must agree with them:

- the constants, by name: those of reference/gogbetiku_reference/layout.py, which the Python of reference/, checks/,
  bindings/ and of the page's plays imports; and one file each of tools/, the gateway, the modules for Python and
  JavaScript, and the Rust in checks/speed;
- the readers and writers of single fields: those of the crates with their definition, the reference, the page, and
  tools/show.py;
- the numbers in the crates: IN_CRATES gives the meaning of each.

All other Python, JavaScript, C, Go, Rust and Java must not have such a number without a name, and no slice in Python
may be exactly one field. Comments and texts may have these numbers. Shell scripts are not examined. OTHERS lists the
numbers that are not offsets of a header. checks/layout_tests.py plants the faults. Nobody trusts this script. Ends with
status 1 if anything differs.
"""
import ast
import re
import subprocess
import sys
from collections import Counter
from collections.abc import Iterable, Iterator, Mapping
from pathlib import Path
from typing import NamedTuple

TOP = Path(__file__).resolve().parent.parent
# its numbers are planted
TESTS = "checks/layout_tests.py"
# the fields of SPEC's table, and the names of their constants
NAMES = {
    "`RPF1`": "MARK",
    "method": "METHOD",
    "order": "ORDER",
    "fan-out": "FAN",
    "zero": "ZERO",
    "version": "VERSION",
    "count of nodes": "NODES",
    "root of the node tree": "NODE_ROOT",
    "count of pairs": "PAIRS",
    "root of the pair tree": "PAIR_ROOT",
    "first number": "FIRST",
    "second number": "SECOND",
}
# the texts of SPEC outside that table: the section, and the names of the numbers in the text
SAID = [
    ("6.1", r"A header has (\d+) octets", ["HEADER"]),
    ("6.2", r"\| header, at offset (\d+) \|", ["IN_PUBLICATION"]),
    ("6.2", r"length u16 and signature, at (\d+) and (\d+) \|", ["LENGTH_AT", "SIGNATURE_AT"]),
    ("6.3", r"- header, at offset (\d+), length u16 and signature", ["IN_ANSWER"]),
    ("6.4", r"header, at offset (\d+), length and signature", ["IN_RANGE_REPLY"]),
    ("4.3", r"- (\d+): LMS type u32", ["KIND"]),
    ("4.3", r"- (\d+), (\d+): `I`, `SEED`", ["NAME", "SEED"]),
    ("4.3", r"- (\d+) to (\d+): zero", ["SPARE", "LAST_SPARE"]),
    (
        "4.3",
        r"- (\d+) \+ (\d+) q: slot q: gate u8, length u8, text of up to (\d+) octets",
        ["BLOCK", "SLOT", "MOST_TEXT"],
    ),
    ("4.3", r"the first min\(length, (\d+)\) octets", ["MOST_TEXT"]),
    ("4.3", r"has octets (\d+) to (\d+) that are not zero", ["BEHIND_HEADER", "LAST_OF_SLOT"]),
    ("4.3", r"An area has 32 or 1,024 slots, so ([\d,]+) or ([\d,]+) octets", ["AREA_32", "AREA_1024"]),
]
# the files with constants, and whether each must have all of them
HOMES = {
    "reference/gogbetiku_reference/layout.py": True,
    "tools/offsets.py": False,
    "web/gateway_parts/publications.py": False,
    "bindings/python/gogbetiku/gateway.py": False,
    "web/table.mjs": False,
    "checks/speed/hashes.rs": False,
}
CONSTANTS = [
    *("METHOD", "ORDER", "FAN", "ZERO", "VERSION", "NODES", "NODE_ROOT", "PAIRS", "PAIR_ROOT", "FIRST", "SECOND"),
    *("HEADER", "SIGNATURE", "IN_PUBLICATION", "IN_RANGE_REPLY", "IN_ANSWER", "SETTINGS"),
    *("KIND", "NAME", "SEED", "SPARE", "BLOCK", "SLOT", "LENGTH", "TEXT", "MOST_TEXT"),
]
# the sums to search for: these numbers are rare enough to identify an offset
TELLING = [
    ("HEADER",),
    ("SIGNATURE",),
    ("IN_ANSWER", "HEADER"),
    ("IN_ANSWER", "SIGNATURE"),
    ("IN_PUBLICATION", "HEADER"),
    ("IN_PUBLICATION", "SIGNATURE"),
    ("MOST_TEXT",),
]
# the meanings of such numbers in src/ and specs/ of each crate
IN_CRATES: dict[str, list[tuple[str, ...]]] = {
    "audit_commands": [("MOST_TEXT",)],
    "audit_tests": [("HEADER",), ("IN_ANSWER", "HEADER")],
    "desk_areas": [("MOST_TEXT",)],
    "desk_fit": [("MOST_TEXT",)],
    "desk_guard": [("IN_PUBLICATION", "HEADER"), ("IN_PUBLICATION", "SIGNATURE")],
    "desk_sight": [("HEADER",), ("TEXT", "HEADER"), ("MOST_TEXT",)],
    "desk_tests": [("IN_PUBLICATION", "HEADER"), ("IN_PUBLICATION", "SIGNATURE")],
    "format_tests": [("HEADER",)],
    "key_desk": [("MOST_TEXT",)],
    "line_tests": [("HEADER",)],
    "proof_octets": [("HEADER",), ("IN_PUBLICATION", "SIGNATURE")],
    "publication_out": [("IN_PUBLICATION", "HEADER"), ("IN_PUBLICATION", "SIGNATURE")],
    "route_owner": [("HEADER",)],
    "seal_tests": [("HEADER",)],
    "signed_out": [("HEADER",), ("IN_PUBLICATION", "HEADER"), ("IN_PUBLICATION", "SIGNATURE")],
}
# the same numbers with another meaning: the file or the crate, the number or the slice, and the meaning
OTHERS = {
    ("bindings/play.py", "105"): "one of some octets of a reply that are turned",
    ("checks/common/tests.py", "104"): "a publication, written down as a test of what reads it",
    ("checks/web/parts.py", "[4:108]"): "an id, computed as a test of what reads a publication",
    ("checks/web/parts.py", "108"): "the same",
    ("checks/web/parts.py", "110"): "the same",
    ("checks/owner/files.py", "110"): "digits of a public key",
    ("checks/tools/planners_bars.py", "110"): "a count of nodes",
    ("reference/gogbetiku_vectors/signing.py", "104"): "values of a signature",
    ("tools/mountain.py", "110"): "a length of a road",
    ("audit_tests", "108"): "an octet of the signature that is turned",
    ("format_tests", "105"): "an octet of a digest",
    ("format_tests", "106"): "octets of a reply that are turned, and of a publication that is cut",
    ("format_tests", "110"): "octets of a reply that are turned, and of one that is spliced",
    ("line_tests", "105"): "octets that are no header",
}
# comments and texts, which may have such numbers
COMMENTS = re.compile(r"//[^\n]*|/\*.*?\*/|'(?:\\.|[^'\\\n])'|\"(?:\\.|[^\"\\])*\"", re.S)
REMARKS = re.compile(r"--[^\n]*")
Layout = dict[str, int]


class Field(NamedTuple):
    """A field of the header: the name of its constant, its offset, and its width in octets."""

    name: str
    at: int
    octets: int


class Sequence(NamedTuple):
    """A reader or writer of single fields: its file, its first and last words there, and the width of each word in octets."""

    file: str
    begins: str
    ends: str
    widths: Mapping[str, int]


SEQUENCES = [
    Sequence(
        "crates/proof_octets/src/header.rt",
        "pub fn read_header(",
        "Ok(Header {",
        {
            r'name\(b"RPF1"\)': 4,
            r"name\(&\[0\]\)": 1,
            "u8_in": 1,
            "u32_in": 4,
            "u64_in|take_u64": 8,
            "take_digest|read_pair_root": 32,
        },
    ),
    Sequence(
        "crates/proof_octets/specs/Headers.antt",
        "header = behind header_name",
        "header_text",
        {"header_name": 4, r"\(u8 \(": 1, r"behind \(0 ∷": 1, r"u32 \(": 4, r"\bu64 (?:any|\()": 8, r"octets 32\b": 32},
    ),
    Sequence(
        "web/page/formats.mjs",
        "function header(it) {",
        "const text",
        {r"skip\(4\)": 4, r"skip\(1\)|u8\(\)": 1, r"u32\(\)": 4, r"u64\(\)": 8, r"skip\(32\)": 32},
    ),
    Sequence("tools/show.py", "it.skip(METHOD)", '")', {r"skip\(METHOD\)": 4, "B": 1, "I": 4, "Q": 8, "32s": 32}),
]
# the functions in crates that write to offsets: the file, the first and last words there, and the names of the offsets
WRITTEN: list[tuple[str, str, str, list[tuple[str, ...]]]] = [
    (
        "crates/proof_octets/src/header.rt",
        "pub fn write(&self)",
        "\n    }\n",
        [("MARK",), *((name,) for name in CONSTANTS[:11])],
    ),
    (
        "crates/publication_out/src/fields.rt",
        "pub fn front(",
        "\n}\n",
        [("MARK",), ("IN_PUBLICATION",), ("IN_PUBLICATION", "HEADER")],
    ),
]


def sections(spec: str) -> dict[str, str]:
    """The text of each numbered section."""
    parts = re.split(r"^#+ (\d+(?:\.\d+)?)[. ]", spec, flags=re.M)
    return dict(zip(parts[1::2], parts[2::2]))


def fields_of(spec: str) -> list[Field]:
    """The fields of SPEC's table of a header. A row may have several fields of the same width, one after another."""
    found: list[Field] = []
    for row in re.findall(r"^\| (\d+(?:, \d+)*) \| (\d+) \| ([^|]*) \|", sections(spec).get("6.1", ""), re.M):
        places, names = row[0].split(", "), row[2].split(", ")
        for place, name in zip(places, names, strict=True):
            found.append(Field(NAMES.get(name, name), int(place), int(row[1])))
    return found


def layout_of(spec: str) -> tuple[Layout, list[str]]:
    """Each number by its name, and the texts that SPEC lacks."""
    found, faults = {it.name: it.at for it in fields_of(spec)}, []
    for section, words, names in SAID:
        said = re.search(words, sections(spec).get(section, ""))
        if said is None:
            faults.append(f"docs/SPEC.md, {section}: nothing there is {words!r}")
        for name, number in zip(names, said.groups() if said else ()):
            if found.setdefault(name, int(number.replace(",", ""))) != int(number.replace(",", "")):
                faults.append(f"docs/SPEC.md, {section}: {name} is {found[name]}, and also {number}")
    if "| seed u64, three parameters u64 |" not in sections(spec).get("6.2", ""):
        faults.append("docs/SPEC.md, 6.2: no seed and three parameters follow the signature")
    # four numbers of eight octets; a gate followed by a length; a length of two octets after the header
    found |= {"SETTINGS": 4 * 8, "LENGTH": 1, "TEXT": 2, "SIGNATURE": found.get("HEADER", 0) + 2}
    return found, faults + [f"docs/SPEC.md: it does not say {name}" for name in CONSTANTS if name not in found]


def disagreements(spec: str, it: Layout) -> Iterator[str]:
    """The numbers that SPEC states in two places with different values."""
    fields = fields_of(spec)
    ends = [0, *(one.at + one.octets for one in fields)]
    for one, begins in zip(fields, ends):
        if one.at != begins:
            yield f"docs/SPEC.md, 6.1: {one.name} is at {one.at}, and the field before it ends at {begins}"
    if [one.name for one in fields] != list(NAMES.values()):
        yield f"docs/SPEC.md, 6.1: the fields are {[one.name for one in fields]}"
    marks = re.findall(
        r"`((?:[0-9a-f]{2} ){3}[0-9a-f]{2})` \(`RP[PN]1`\)", sections(spec)["6.2"] + sections(spec)["6.4"]
    )
    for what, seen, wanted in (
        ("the octets of a header", it["HEADER"], ends[-1]),
        (
            "the octets before the header of a publication or a range reply",
            [len(bytes.fromhex(one)) for one in marks],
            [it["IN_PUBLICATION"], it["IN_RANGE_REPLY"]],
        ),
        ("the length of the signature", it["LENGTH_AT"], it["IN_PUBLICATION"] + it["HEADER"]),
        ("the signature", it["SIGNATURE_AT"], it["IN_PUBLICATION"] + it["SIGNATURE"]),
        ("the octets before the header of an answer", it["IN_ANSWER"], 1),
        ("an area's type behind its gate", it["KIND"], 1),
        ("I behind the type", it["NAME"], it["KIND"] + 4),
        ("SEED behind I", it["SEED"], it["NAME"] + 16),
        ("zeros behind SEED", it["SPARE"], it["SEED"] + 32),
        ("zeros as far as the slots", it["LAST_SPARE"] + 1, it["BLOCK"]),
        ("gate, length and text in a slot", it["TEXT"] + it["MOST_TEXT"], it["SLOT"]),
        ("the octets behind a header in a slot", it["BEHIND_HEADER"], it["TEXT"] + it["HEADER"]),
        ("as far as a slot's end", it["LAST_OF_SLOT"] + 1, it["SLOT"]),
        ("an area of 32 slots", it["AREA_32"], it["BLOCK"] + 32 * it["SLOT"]),
        ("an area of 1,024 slots", it["AREA_1024"], it["BLOCK"] + 1024 * it["SLOT"]),
    ):
        if seen != wanted:
            yield f"docs/SPEC.md: {what}: {seen}, and not {wanted}"


def assigned(node: ast.stmt) -> dict[str, int]:
    """The numbers to which a Python statement gives names."""
    if not isinstance(node, ast.Assign) or len(node.targets) != 1:
        return {}
    targets, values = (it.elts if isinstance(it, ast.Tuple) else [it] for it in (node.targets[0], node.value))
    return {
        target.id: value.value
        for target, value in zip(targets, values)
        if isinstance(target, ast.Name) and isinstance(value, ast.Constant) and type(value.value) is int
    }


def constants_in(name: str, text: str) -> dict[str, int]:
    """The constants of a file whose names belong to the layout."""
    found: dict[str, int] = {}
    if name.endswith(".py"):
        for node in ast.parse(text).body:
            found |= assigned(node)
    for names, numbers in re.findall(r"^const \[([A-Z_, ]+)\] = \[([\d, ]+)\];", text, re.M):
        found |= dict(zip(names.split(", "), map(int, numbers.split(", ")), strict=True))
    found |= {it: int(number) for it, number in re.findall(r"^const ([A-Z_]+)(?:: usize)? = (\d+);", text, re.M)}
    return {it: number for it, number in found.items() if it in CONSTANTS}


def faults_of_home(name: str, text: str, it: Layout, has_all: bool) -> Iterator[str]:
    found = constants_in(name, text)
    yield from (f"{name}: {one} is {found[one]}, and SPEC says {it[one]}" for one in found if found[one] != it[one])
    yield from (f"{name}: it has no {one}" for one in CONSTANTS if has_all and one not in found)
    if not found:
        yield f"{name}: it has no constant of the layout"


def piece_of(text: str, begins: str, ends: str) -> str:
    """The part of a text from the first of these words to the last."""
    at = text.find(begins)
    end = text.find(ends, at + len(begins))
    return text[at : end + len(ends)] if at >= 0 and end >= 0 else ""


def faults_of_sequence(it: Sequence, text: str, fields: Iterable[Field]) -> Iterator[str]:
    """Compares the widths of a reader or writer with SPEC's."""
    words = re.compile("|".join(f"({word})" for word in it.widths))
    widths = list(it.widths.values())
    found = [widths[(one.lastindex or 1) - 1] for one in words.finditer(piece_of(text, it.begins, it.ends))]
    if found != [one.octets for one in fields]:
        yield f"{it.file}: from {it.begins!r} on the widths are {found}"


def faults_of_written(name: str, text: str, wanted: Iterable[int]) -> Iterator[str]:
    found = [int(at) for at in re.findall(r"write_(?:u8|array)\(&mut text, (\d+),", text)]
    if found != list(wanted):
        yield f"{name}: it writes to the offsets {found}"


def faults_of_reference(fields: Iterable[Field]) -> Iterator[str]:
    """Compares the offsets of a header that the reference writes with SPEC's, and reads the header back."""
    sys.path.insert(0, str(TOP / "reference"))
    from gogbetiku_reference.headers import FULL, Header, read_header
    from gogbetiku_reference.octets import Reader

    header = Header(FULL, 3, 4, 0x0506070809101112, 0x1314, b"n" * 32, 0x1516, b"p" * 32, 0, 0)
    text = header.octets()
    wanted: list[int | bytes] = [
        b"RPF1",
        FULL,
        3,
        4,
        0,
        header.version,
        header.nodes,
        b"n" * 32,
        header.pairs,
        b"p" * 32,
        0,
        0,
    ]
    for field, value in zip(fields, wanted):
        octets = value if isinstance(value, bytes) else value.to_bytes(field.octets, "big")
        if text[field.at : field.at + field.octets] != octets:
            yield f"reference/gogbetiku_reference/headers.py: {field.name} is not at {field.at}"
    if read_header(Reader(text)) != header:
        yield "reference/gogbetiku_reference/headers.py: it does not read what it writes"


def telling(it: Layout) -> set[int]:
    return {sum(it[name] for name in names) for names in TELLING}


def slices_of(fields: Iterable[Field], it: Layout) -> set[tuple[int, int]]:
    """The spans of the header, its version, roots and numbers, after each possible front, and of an area's secret."""
    spans = [(0, it["HEADER"]), *((one.at, one.at + one.octets) for one in fields if one.octets >= 8)]
    starts = (0, it["IN_ANSWER"], it["IN_PUBLICATION"])
    return {(base + begin, base + end) for base in starts for begin, end in spans} | {
        (it["NAME"], it["SPARE"]),
        (it["KIND"], it["SPARE"]),
    }


def bare_in_python(text: str, numbers: set[int], slices: set[tuple[int, int]]) -> Iterator[str]:
    """The numbers, and the slices with them, that Python has outside the constants of the layout."""
    tree = ast.parse(text)
    named = {id(node) for one in tree.body if set(assigned(one)) & set(CONSTANTS) for node in ast.walk(one)}
    for node in ast.walk(tree):
        if isinstance(node, ast.Constant) and type(node.value) is int and node.value in numbers:
            if id(node) not in named:
                yield str(node.value)
        if (
            isinstance(node, ast.Slice)
            and isinstance(node.lower, ast.Constant)
            and isinstance(node.upper, ast.Constant)
        ):
            if (node.lower.value, node.upper.value) in slices:
                yield f"[{node.lower.value}:{node.upper.value}]"


def bare_in_code(name: str, text: str, numbers: set[int]) -> Iterator[str]:
    """The same numbers in other languages, outside comments and texts."""
    plain = (REMARKS if name.endswith(".antt") else COMMENTS).sub("", text)
    plain = re.sub(r"^const (?:\[[A-Z_, ]+\]|[A-Z_]+(?:: usize)?) = [^;]*;", "", plain, flags=re.M)
    for found in re.findall(r"(?<!\w)(?<!\d\.)\d[\d_]*(?!\w)", plain):
        if int(found.replace("_", "")) in numbers:
            yield found.replace("_", "")


def bare_in(name: str, text: str, it: Layout, fields: list[Field]) -> Iterator[str]:
    if name.endswith((".mjs", ".js", ".c", ".h", ".go", ".rs", ".java", ".rt", ".antt")):
        yield from bare_in_code(name, text, telling(it))
    elif name.endswith(".py") or ("." not in Path(name).name and re.match(r"#!.*python", text)):
        yield from bare_in_python(text, telling(it), slices_of(fields, it))


def owner_of(name: str) -> str:
    """A crate, or the file itself outside the crates."""
    return name.split("/")[1] if name.startswith("crates/") else name


def faults_of_numbers(texts: Mapping[str, str], it: Layout, fields: list[Field]) -> Iterator[str]:
    """Compares such numbers in the sources with their meanings here, in both directions."""
    seen: Counter[tuple[str, str]] = Counter()
    for name, text in texts.items():
        seen.update((owner_of(name), one) for one in bare_in(name, text, it, fields))
    meant = {
        (crate, str(sum(it[name] for name in names))): " + ".join(names)
        for crate, sums in IN_CRATES.items()
        for names in sums
    }
    for owner, number in sorted(seen.keys() - meant.keys() - OTHERS.keys()):
        yield f"{owner}: {number} stands bare, {seen[owner, number]} times"
    for owner, number in sorted((meant.keys() | OTHERS.keys()) - seen.keys()):
        what = meant.get((owner, number)) or OTHERS[owner, number]
        yield f"{owner}: no {number} stands there ({what})"


def faults_of_bases(texts: Mapping[str, str], it: Layout) -> Iterator[str]:
    """The numbers that crates add to the offset of an area."""
    known = {it["NAME"], it["SPARE"], it["BLOCK"], *range(it["KIND"], it["NAME"])}
    for name, text in texts.items():
        if name.startswith("crates/"):
            plain = (REMARKS if name.endswith(".antt") else COMMENTS).sub("", text)
            wrong = [at for at in map(int, re.findall(r"\bbase \+ (\d+)\b", plain)) if at not in known]
            yield from (f"{name}: base + {at} is no field of an area" for at in wrong)
            for size in re.findall(r"\bbase \+ \d+ \+ (\d+) \*", plain):
                if int(size) != it["SLOT"]:
                    yield f"{name}: slots of {size} octets"


def sources() -> dict[str, str]:
    """The examined sources, as Git has them and as they will be."""
    listed = subprocess.run(
        ["git", "ls-files", "-co", "--exclude-standard"], cwd=TOP, stdout=subprocess.PIPE, text=True, check=True
    )
    found: dict[str, str] = {}
    for name in sorted(listed.stdout.splitlines()):
        path = TOP / name
        if name == TESTS or name.startswith("crates/") and not re.match(r"crates/\w+/(src|specs)/", name):
            continue
        if path.is_file() and path.suffix in (
            "",
            ".py",
            ".mjs",
            ".js",
            ".c",
            ".h",
            ".go",
            ".rs",
            ".java",
            ".rt",
            ".antt",
        ):
            found[name] = path.read_text(encoding="utf-8")
    return found


def main() -> int:
    texts, spec = sources(), (TOP / "docs/SPEC.md").read_text(encoding="utf-8")
    it, faults = layout_of(spec)
    if not faults:
        fields = fields_of(spec)
        faults += disagreements(spec, it)
        for name, has_all in HOMES.items():
            faults += faults_of_home(name, texts[name], it, has_all)
        for sequence in SEQUENCES:
            faults += faults_of_sequence(sequence, texts[sequence.file], fields)
        for name, begins, ends, names in WRITTEN:
            wanted = [sum(it[one] for one in sums) for sums in names]
            faults += faults_of_written(name, piece_of(texts[name], begins, ends), wanted)
        faults += [*faults_of_reference(fields), *faults_of_numbers(texts, it, fields), *faults_of_bases(texts, it)]
    print("\n".join([*faults, f"layout: {len(it)} numbers, {len(texts)} sources, {len(faults)} faults"]))
    return 1 if faults else 0


if __name__ == "__main__":
    sys.exit(main())
