#!/usr/bin/env python3
"""Lists the trusted bodies: checks/trusted.py [--list]

The crate `outside` calls the system and records the answers. Its bodies are trusted, since the standard library promises
little about the system. This script tests that

- they have at most 120 statements, and a function that calls the system at most five. A statement is one that ends with a
  semicolon, a value at the end of a block, a condition, or a case; signatures and clauses do not count;
- no other crate names a part of the standard library that reaches the system: by `use` or a path, by a method of a file
  or of the runtime, or by a macro that prints; and none defines its own object for a file, a stream or the runtime. Crates
  of tests may do so. So may the program's main crate, which reads the arguments and the clock and writes messages;
- each object that reaches the system is made where the table MADE says, the main crate included, so that no call goes
  past the objects of which the contracts speak.

docs/CLAIMS.md has both numbers. With --list it prints each function, its number of statements, and the parts of the
standard library that it names. Nobody trusts this script.
"""
import glob
import os
import re
import sys
from collections.abc import Iterator

TOP = os.path.dirname(os.path.dirname(os.path.abspath(__file__)))
TRUSTED, MAIN, MOST, LONGEST = "outside", "road_proof", 120, 5
# names that a crate may use from the parts of std that reach the system: types, and the bound of the runtime
ALLOWED = {"std::io", "std::io::Error", "std::io::ErrorKind", "std::io::Result", "std::fs::File", "std::rt::Files"}
REACHING = ("env", "fs", "io", "net", "os", "process", "rt", "thread", "time")
# methods of files and of the runtime
METHODS = (
    "canonicalize chown create_dir hard_link lchown lock lock_shared metadata open_dir open_file println read_exact "
    "read_line read_link read_to_end reader remove_dir remove_file rename seek set_len set_permissions set_times stderr stdin "
    "stdout symlink symlink_metadata sync_all sync_data try_lock try_lock_shared unlock write_all write_some write_vectored"
).split()
CALL = re.compile(rf"\.(?:{'|'.join(METHODS)}|open|read)\(|\bfs::\w+")
METHOD = re.compile(
    rf"\.(?:{'|'.join(METHODS)})\(|\b(?:e?print(?:ln)?|dbg)!|\bFile::\w+|\bio::(?!Error\b|ErrorKind\b|Result\b)\w+"
)
OWN = re.compile(r"\bimpl\b[^{;]*\b(?:Read|BufRead|Write|Seek|OpenFile|Files|Print|Input)(?:<[^{}]*>)? for\b")
TEXTS = re.compile(r'//[^\n]*|b?"(?:\\.|[^"\\])*"|b?\'(?:\\.|[^\'\\])\'')
# which source makes which objects, once for each time that it stands here; `shipped` makes those of the program
MADE = {
    "desk_disk/src/desk_disk.rt": "NotedDisk",
    "desk_guard/src/folder.rt": "NotedNames",
    "desk_guard/src/owner_mirror.rt": "FileMirror FileMirror NotedNames open_to_append",
    "desk_guard/src/secret_file.rt": "NotedNames",
    "desk_guard/src/streams.rt": "NotedNames",
    "guarded_run/src/guarding.rt": "NotedNames SignedSink SignedSink",
    "guarded_run/src/shipping.rt": "DeskDisk FileLibrary FileLibrary KeptLibrary KeptSink StdSink StdSource",
    "guarded_run/src/telling.rt": "sync_folder",
    "mirror_out/src/file_mirror.rt": "NotedTail NotedTail",
    "road_io/src/file_disk.rt": "NotedDisk",
    "road_io/src/file_library.rt": "NotedFiles",
    "road_io/src/std_sink.rt": "NotedOutput",
    "road_io/src/std_source.rt": "standard_input",
}
KINDS = (
    "DeskDisk|FileDisk|FileLibrary|FileMirror|KeptLibrary|KeptSink|NotedDisk|NotedFiles|NotedInput|NotedNames|"
    "NotedOutput|NotedTail|SignedSink|StdSink|StdSource"
)
MAKES = re.compile(
    rf"\b({KINDS})(?:::<[^;{{}}]*?>)?::(?:new|lost)\b|\b(open_to_append|standard_input|sync_folder)(?=\()"
)
RENAMES = re.compile(rf"\b(?:{KINDS}|open_to_append|standard_input|sync_folder) as \w+")
IMPORT = re.compile(r"^\s*(?:pub )?use [^;]*;", re.M)
CLAUSE = re.compile(r"(?:requires|ensures|ghost)\b[^{]*$")
GROUP, FIELDS = re.compile(r"\([^()]*\)|\[[^\[\]]*\]"), re.compile(
    r"(^ *|let |(?<![=!<>])= )([A-Z]\w*) \{[^{}]*\}", re.M
)
USE = re.compile(r"^\s*(?:pub )?use (std\b[^;]*);", re.M)


def bare(text: str) -> str:
    """A source without comments and texts, line for line."""
    return TEXTS.sub(lambda found: '""' if found[0][0] != "/" else "", text)


def paths(use: str) -> Iterator[str]:
    """The paths that a `use` of std names."""
    found = re.fullmatch(r"\s*([\w:]+?)(?:::\{(.*)\})?(?: as \w+)?\s*", use, re.S)
    if found is None:
        yield use
        return
    if found[2] is None:
        yield found[1]
        return
    depth, last = 0, ""
    for sign in found[2] + ",":
        depth += {"{": 1, "}": -1}.get(sign, 0)
        if sign != "," or depth:
            last += sign
        else:
            if last.strip():
                yield from (re.sub(r"::self$", "", path) for path in paths(f"{found[1]}::{last.strip()}"))
            last = ""


def bodies(text: str) -> Iterator[tuple[str, int, str]]:
    """The functions of a source: the name, the line and the body."""
    for found in re.finditer(r"\bfn (\w+)", text):
        at, depth, since = found.end(), 0, found.end()
        while at < len(text):
            depth += {"(": 1, "[": 1, ")": -1, "]": -1}.get(text[at], 0)
            if text[at] == ";" and not depth:
                break
            if text[at] == "{" and not depth:
                end = closing(text, at)
                if CLAUSE.search(text[since:at]) is None:
                    yield found[1], text.count("\n", 0, found.start()) + 1, text[at + 1 : end]
                    break
                at = since = end
            at += 1


def statements(body: str) -> int:
    """The number of statements in a body, in the layout of `rt fmt`: its lines, but arguments and fields count together with
    the line that they belong to."""
    for _ in range(body.count("\n") + 1):
        body = GROUP.sub("\0", body)
    body = re.sub(r"\n\s*\.", ".", FIELDS.sub(r"\1\2", body))
    return sum(1 for line in body.splitlines() if re.search(r"\w|\0", line) and line.strip() != "} else {")


def closing(text: str, at: int) -> int:
    """The place of the bracket that matches the one at this place."""
    depth = 0
    for place in range(at, len(text)):
        depth += {"{": 1, "}": -1}.get(text[place], 0)
        if not depth:
            return place
    return len(text) - 1


def crates() -> list[str]:
    """The crates of crates.txt, except those of tests."""
    with open(f"{TOP}/crates.txt", encoding="utf-8") as file:
        names = [re.split(r"[ :]", line)[0] for line in file if line.strip() and not line.startswith("#")]
    return [name for name in names if not name.endswith("_tests") and name != "test_maps"]


def sources(crate: str) -> Iterator[tuple[str, str]]:
    """The sources of a crate, without comments and texts."""
    for name in sorted(glob.glob(f"{TOP}/crates/{crate}/src/**/*.rt", recursive=True)):
        with open(name, encoding="utf-8") as file:
            yield os.path.relpath(name, f"{TOP}/crates"), bare(file.read())


def reaches(text: str) -> Iterator[str]:
    """The names in a source that reach the system."""
    for use in USE.findall(text):
        for path in paths(use):
            part = path.split("::")
            if len(part) > 1 and part[1] in REACHING and path not in ALLOWED:
                yield path
    code = USE.sub("", text)
    yield from (
        found for found in re.findall(r"\bstd::(?:" + "|".join(REACHING) + r")\b[\w:]*", code) if found not in ALLOWED
    )
    yield from (found.strip() for found in METHOD.findall(code))
    yield from (found.strip() for found in OWN.findall(code))


def made(name: str, text: str) -> Iterator[str]:
    """The objects that a source makes against the table, and its second names for them."""
    code = IMPORT.sub("", text)
    found = sorted(it[0] or it[1] for it in MAKES.findall(code))
    wanted = sorted(MADE.get(name, "").split())
    if found != wanted:
        yield f"makes {' '.join(found) or 'nothing'}, and not {' '.join(wanted) or 'nothing'}"
    for use in IMPORT.findall(text):
        yield from RENAMES.findall(use)


def main() -> None:
    faults, rows = [], []
    for name, text in sources(TRUSTED):
        for function, line, body in bodies(text):
            called, number = sorted({found.strip(" .(") for found in CALL.findall(body)}), statements(body)
            rows.append((name, line, function, number, called))
            if called and number > LONGEST:
                faults.append(f"{name}:{line}: {function} calls the system and has {number} statements, not {LONGEST}")
    for crate in crates():
        for name, text in sources(crate) if crate != TRUSTED else ():
            faults += [f"{name}: {found}" for found in made(name, text)]
            faults += [f"{name}: {found}" for found in reaches(text) if crate != MAIN]
    count = sum(row[3] for row in rows)
    if sys.argv[1:] == ["--list"]:
        for name, line, function, number, called in rows:
            print(f"{name}:{line}: {function}: {number}{': ' + ', '.join(called) if called else ''}")
    calling = sum(1 for row in rows if row[4])
    print(f"{count} statements in {len(rows)} trusted bodies, of at most {MOST}; {calling} of them call the system")
    if count > MOST:
        faults.append(f"there are {count} statements in trusted bodies, more than {MOST}")
    with open(f"{TOP}/docs/CLAIMS.md", encoding="utf-8") as file:
        if f"the {len(rows)} bodies of the crate `{TRUSTED}`, {count} statements" not in file.read():
            faults.append("docs/CLAIMS.md has other numbers")
    print("\n".join(faults) if faults else "0 faults")
    sys.exit(1 if faults else 0)


if __name__ == "__main__":
    main()
