#!/usr/bin/env python3
"""Tests that no code can pretend to be out of memory: checks/memory/made_up.py [--quick]

`octet_text::NoMemory` means that the system refused memory. Its field is private and it has no conversion. Only
src/growing.rt, src/hex_text.rt and src/printing.rt of octet_text make one, where a growth was refused. This script
tests in all crates of the program that only octet_text makes one, and that each `Memory` variant of an enum carries
one. Without --quick it also gives twelve calls, on a copy, bodies that only claim to be out of memory. The compiler
must refuse each of five ways to make the claim up; two of these print a value whose `Display` fails. Ends with status 1
if anything is accepted.
"""
import glob
import os
import re
import shutil
import subprocess
import sys
import tempfile
from collections.abc import Iterator, Sequence

TOP = os.path.dirname(os.path.dirname(os.path.dirname(os.path.abspath(__file__))))
MAKERS = tuple(f"crates/octet_text/src/{name}.rt" for name in ("errors", "growing", "hex_text", "printing"))
# exceptions: disks, libraries and sinks in memory, for tests, which pass on the answer of the system's allocator
MADE = ("mem_io", "mirror_out")

# a call: the file, the head of the function, and the result of the wrong body
Call = tuple[str, str, str]
CALLS: tuple[Call, ...] = (
    ("route_client/src/checking.rt", "pub fn check<", "CheckError::Memory"),
    ("route_client/src/near_checking.rt", "pub fn check_near<", "NearError::Memory"),
    ("route_server/src/answer.rt", "pub fn answer(", ""),
    ("route_server/src/near_answering.rt", "pub fn answer_near<", "NearRefusal::Memory"),
    ("route_audit/src/auditing.rt", "pub fn audit_reply", "AuditError::Memory"),
    ("route_owner/src/publishing.rt", "pub fn publish<", "PublishError::Memory"),
    ("key_desk/src/start.rt", "pub fn reopen<", "StartError::Memory"),
    ("key_desk/src/succeed.rt", "pub fn succeed<", "SucceedError::Memory"),
    ("lms_tree/src/keys.rt", "pub fn build(", "KeyError::Memory"),
    ("merkle_cover/src/trees.rt", "pub fn build(", "TreeError::Memory"),
    ("road_map/src/map.rt", "pub fn build(", "MapError::Memory"),
    ("road_search/src/path.rt", "pub fn shortest(", ""),
)

# a value whose `Display` prints nothing and fails
NEVER = (
    "struct Never; impl std::fmt::Display for Never { "
    "fn fmt<W: std::fmt::Write>(&self, _: &mut std::fmt::Formatter<W>) -> std::fmt::Result { Err(std::fmt::Error) } }"
)

# the ways to make up the claim, each as the value in an `Err`: by its name, or by a value that fails to print
WAYS = (
    (
        "octet_text::NoMemory { refused: () }",
        "octet_text::NoMemory::refused()",
        "std::convert::From::from(std::alloc::AllocError)",
    ),
    (
        f'{{ {NEVER} octet_text::print(&mut String::new(alloc), format_args!("{{}}", Never)).unwrap_err() }}',
        f"{{ {NEVER} octet_text::Printed::print(&Never, &mut String::new(alloc)).unwrap_err() }}",
    ),
)


def code_of(path: str) -> str:
    """A source without comments and texts."""
    with open(path, encoding="utf-8") as file:
        text = file.read()
    text = re.sub(r"//[^\n]*", "", text)
    return re.sub(r'"(?:\\.|[^"\\])*"', '""', text)


def is_of_the_program(crate: str) -> bool:
    return not crate.endswith("_tests") and crate != "test_maps"


def faults_of(path: str) -> Iterator[str]:
    """The parts of a source that would make up a lack of memory."""
    crate = path.split(os.sep)[1]
    code = code_of(os.path.join(TOP, path))
    if path not in MAKERS:
        if re.search(r"\bNoMemory\s*(\{|::)", re.sub(r"ghost use[^;]*;|use[^;]*;", "", code)):
            yield "makes a NoMemory"
    if crate != "octet_text" and crate not in MADE and re.search(r"\bAlloc(Error|Failed)\b", code):
        yield "names what an allocation of std's own answers, where octet_text's stand"
    for enum in re.finditer(r"\benum \w+(?:<[^>]*>)? \{(.*?)\n\}", code, re.S):
        if re.search(r"^\s*(Memory|NoMemory|OutOfMemory),", enum[1], re.M):
            yield "has a variant for want of memory that carries none"
    if crate != "octet_text" and re.search(r"\bimpl\b[^;{]*\bPrinted for\b", code):
        yield "prints a value that octet_text does not list"


def lines_of(text: str, made: Sequence[str]) -> list[tuple[int, str]]:
    """The lines of a text with one of these bodies, each with its number."""
    return [(number, line) for number, line in enumerate(text.split("\n"), 1) if any(it in line for it in made)]


def with_bodies(text: str, calls: Sequence[Call], ways: Sequence[str]) -> str:
    """A source whose calls begin with such bodies, one line for each of these ways."""
    for _, head, answer in calls:
        at = text.index(head)
        opening = re.compile(r"^( *)\{$", re.M).search(text, at)
        assert opening
        bodies = [f"{opening[1]}    if true {{ return Err({answer}({way})); }}" for way in ways]
        text = text[: opening.end()] + "\n" + "\n".join(bodies) + text[opening.end() :]
    return text


def let_through(
    copy: str, crate: str, calls: Sequence[Call], ways: Sequence[str]
) -> tuple[list[tuple[str, int, str]], str]:
    """The bodies of a crate's calls that the compiler does not refuse, and its output."""
    wanted: list[tuple[str, int, str]] = []
    for file in dict.fromkeys(file for file, _, _ in calls):
        with open(os.path.join(TOP, "crates", file), encoding="utf-8") as it:
            before = it.read()
        path = os.path.join(copy, "crates", file)
        text = with_bodies(before, [call for call in calls if call[0] == file], ways)
        # (the copy shares its files with the checkout)
        os.unlink(path)
        with open(path, "w", encoding="utf-8") as it:
            it.write(text)
        wanted += [(file.split("/", 1)[1], number, line) for number, line in lines_of(text, ways)]
    ran = subprocess.run(
        ["rt", "check", "--allow-holes", "--only", crate],
        cwd=os.path.join(copy, "crates", crate),
        capture_output=True,
        text=True,
    )
    said = ran.stdout + ran.stderr
    assert len(wanted) == len(calls) * len(ways)
    return [it for it in wanted if re.search(rf"{re.escape(it[0])}:{it[1]}:\d+: error", said) is None], said


def main() -> None:
    failed = False
    for path in sorted(glob.glob("crates/*/src/**/*.rt", root_dir=TOP, recursive=True)):
        if is_of_the_program(path.split(os.sep)[1]):
            for fault in faults_of(path):
                print(f"{path}: {fault}")
                failed = True
    if "--quick" in sys.argv[1:]:
        sys.exit(failed)
    with tempfile.TemporaryDirectory() as folder:
        copy = os.path.join(folder, "repository")
        shutil.copytree(TOP, copy, copy_function=os.link, ignore=shutil.ignore_patterns(".git", "incremental"))
        for crate in dict.fromkeys(file.split("/")[0] for file, _, _ in CALLS):
            calls = [call for call in CALLS if call[0].split("/")[0] == crate]
            for ways in WAYS:
                through, said = let_through(copy, crate, calls, ways)
                for file, number, line in through:
                    print(f"{crate}/{file}:{number}: passes: {line.strip()}\n{said[-2000:]}")
                    failed = True
    print(f"{len(CALLS)} calls: {'something is let through' if failed else 'none can make want of memory up'}")
    sys.exit(failed)


if __name__ == "__main__":
    main()
