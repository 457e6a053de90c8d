#!/usr/bin/env python3
"""Compares the documents with their limits: checks/docs/sizes.py

It counts the words outside code blocks of README.md and docs/*.md, and prints the six longest documents. In these and
in the documents of APART, it finds sentences of more than 40 words, links to missing files or headings, and names of
missing files. It compares the version in the file VERSION with the version in the program, the changelog, README's
release file, the C header, the modules for Python and JavaScript and the crate for Rust. It compares the toolchain that
the program names with those in SUMS and README. Git must track
nothing under an out folder or a cache. Ends with status 1 if something exceeds its limit, differs or is missing.
checks/docs/planted.py plants each fault.
"""
import glob
import os
import re
import subprocess
import sys
from collections.abc import Iterator

TOP = os.path.dirname(os.path.dirname(os.path.dirname(os.path.abspath(__file__))))
README_WORDS, ALL_WORDS, SENTENCE_WORDS, TOLD = 1_200, 22_000, 40, 6
VERSIONS = {
    "crates/road_tell/src/usage.rt": r'VERSION: &str = "([^"]*)"',
    "CHANGELOG.md": r"^## (\S+)",
    "bindings/gogbetiku.h": r'GOG_VERSION "([^"]*)"',
    "bindings/python/gogbetiku/__init__.py": r'__version__ = "([^"]*)"',
    "README.md": r"gogbetiku-(\d\S*?)-x86_64",
    "web/route_check.mjs": r'VERSION = "([^"]*)"',
    "web/package.json": r'"version": "([^"]*)"',
    "bindings/rust/Cargo.toml": r'^version = "([^"]*)"',
}
KIT = r'KIT: &str = "([^"]*)"'
APART = [
    "SECURITY.md",
    "CONTRIBUTING.md",
    "CHANGELOG.md",
    "checks/README.md",
    "vectors/README.md",
    "web/page/README.md",
]
SECTION = re.compile(r'`((?:docs/)?[A-Z_]+\.md)`(?:\]\([^)]*\))?,? (?:"([^"]+)"|(\d+(?:\.\d+)?)\b)')
# names of files; a document may name a file under an out folder before it exists
NAMED = re.compile(r"`((?:bindings|checks|crates|docs|reference|tools|vectors|web)/[\w./@-]*\w|[A-Z]+\.md)`")


def read(document: str) -> str:
    with open(f"{TOP}/{document}", encoding="utf-8") as file:
        return file.read()


def prose_of(text: str) -> list[str]:
    """The lines of a text outside its code blocks."""
    lines: list[str] = []
    is_fenced = False
    for line in text.split("\n"):
        if line.startswith("```"):
            is_fenced = not is_fenced
        elif not is_fenced and not line.startswith("    "):
            lines.append(line)
    return lines


def paragraphs_of(lines: list[str]) -> Iterator[str]:
    """The paragraphs of prose: the lines of a paragraph are joined."""
    paragraph = ""
    for line in lines + [""]:
        plain = line.lstrip("> ").rstrip()
        begins = not plain or re.match(r"[|#]|[-*] |\d+\. ", plain)
        if paragraph and (begins or paragraph[0] in "|#"):
            yield paragraph
            paragraph = ""
        paragraph = f"{paragraph} {plain}".strip()


def sentences_of(lines: list[str]) -> Iterator[str]:
    """The sentences of each paragraph, list item and table cell."""
    for line in paragraphs_of(lines):
        cells = line.strip().strip("|").split(" | ") if line.lstrip().startswith("|") else [line]
        for cell in cells:
            plain = re.sub(r"\]\([^)]*\)", "]", cell)
            yield from re.split(r"(?<=[.?!:;])[\"')*]*\s+(?=[A-Z`*\"(])", plain)


def headings_of(text: str) -> set[str]:
    """The anchors of a document's headings, in the form of repository hosts."""
    found: set[str] = set()
    for line in prose_of(text):
        if line.startswith("#"):
            plain = re.sub(r"[^\w\- ]", "", line.lstrip("# ").lower())
            found.add(plain.replace(" ", "-"))
    return found


def dead_links(document: str, text: str) -> Iterator[str]:
    folder = os.path.dirname(f"{TOP}/{document}")
    for target in re.findall(r"\]\(([^)\s]+)\)", "\n".join(prose_of(text))):
        if target.startswith("http"):
            continue
        name, _, anchor = target.partition("#")
        path = os.path.normpath(os.path.join(folder, name)) if name else f"{TOP}/{document}"
        if not os.path.exists(path):
            yield target
        elif anchor and anchor not in headings_of(read(os.path.relpath(path, TOP))):
            yield target


def sections_not_there(document: str, text: str) -> Iterator[str]:
    """The missing sections that a document names, by number, such as `docs/SPEC.md`, 4.3, or by a heading or a bold
    lead in quotes."""
    for name, heading, number in SECTION.findall("\n".join(prose_of(text))):
        path = name if name.startswith("docs/") or os.path.exists(f"{TOP}/{name}") else f"docs/{name}"
        wanted = (
            rf"^(#+ {re.escape(heading)}$|\*\*{re.escape(heading)}\.?\*\*)"
            if heading
            else f"^#+ {re.escape(number)}[. ]"
        )
        if os.path.exists(f"{TOP}/{path}") and not re.search(wanted, read(path), re.M):
            yield f"{path}, {heading or number}"


def files_not_there(document: str, text: str) -> Iterator[str]:
    """The missing files that a document names in its prose, from the top or from its own folder."""
    folder = os.path.dirname(f"{TOP}/{document}")
    for name in NAMED.findall("\n".join(prose_of(text))):
        if (
            "/out/" not in name
            and "/NAME/" not in name
            and not any(os.path.exists(f"{at}/{name}") for at in (TOP, f"{TOP}/docs", folder))
        ):
            yield name


def not_there(document: str, text: str) -> list[str]:
    return [*dead_links(document, text), *files_not_there(document, text), *sections_not_there(document, text)]


def versions_that_differ() -> Iterator[str]:
    version = read("VERSION").strip()
    for name, pattern in VERSIONS.items():
        found = re.search(pattern, read(name), re.M)
        if not found or found[1] != version:
            yield f"{name}: it says version {found[1] if found else 'nothing'}, but VERSION says {version}"
    found = re.search(KIT, read("crates/road_tell/src/usage.rt"))
    if not found or f"# {found[1]}" != read("SUMS").split("\n", 1)[0]:
        yield "crates/road_tell/src/usage.rt: it names another toolchain than SUMS"
    if found and f"**Proved** with `{found[1]}`" not in read("README.md"):
        yield "README.md: it does not say that it is proved with the toolchain that the program names"


def tracked_in_out() -> list[str]:
    listed = subprocess.run(["git", "ls-files"], cwd=TOP, capture_output=True, text=True, check=True).stdout.split("\n")
    found = [(re.search(r"(?:^|/)(out|\.mypy_cache|__pycache__)/", name), name) for name in listed]
    return [f"{name}: Git tracks a file under {it[1]}/" for it, name in found if it]


def main() -> None:
    documents = ["README.md"] + sorted(os.path.relpath(name, TOP) for name in glob.glob(f"{TOP}/docs/*.md"))
    faults = [*versions_that_differ(), *tracked_in_out()]
    counts: dict[str, int] = {}
    for document in documents + APART:
        text = read(document)
        lines = prose_of(text)
        words = sum(len(line.split()) for line in lines)
        if document not in APART:
            counts[document] = words
        for sentence in sentences_of(lines):
            count = len(re.findall(r"[A-Za-z0-9`'’\-]*[A-Za-z0-9][^\s]*", sentence))
            if count > SENTENCE_WORDS and document not in ["checks/README.md"]:
                faults.append(f"{document}: a sentence of {count} words: {sentence.strip()[:90]} ..")
        faults += [f"{document}: {target} is not there" for target in not_there(document, text)]
        if document == "README.md" and words > README_WORDS:
            faults.append(f"README.md has {words} words, but at most {README_WORDS} are allowed")
    total = sum(counts.values())
    for document in sorted(counts, key=counts.__getitem__, reverse=True)[:TOLD]:
        print(f"{counts[document]:6} {document}")
    print(f"{total:6} together")
    if total > ALL_WORDS:
        faults.append(f"README.md and docs/*.md have {total} words, but at most {ALL_WORDS} are allowed")
    print("\n".join(faults) if faults else "0 faults")
    sys.exit(1 if faults else 0)


if __name__ == "__main__":
    main()
