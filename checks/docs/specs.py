"""Reads the definitions of the crates: the text of each, its place, and the definitions that it names.

A definition is one in specs/*.antt with its comment and equations, or a type, trait or constant of src/ that a
specification cites (`declared`). For a trait only its ghost items count. Names of the kit (`Rattle.std`, `Rattle.sha2`
..) are not unfolded. checks/docs/booklet.py and checks/docs/promises.py use it. No client trusts it.
"""
from __future__ import annotations

import functools
import glob
import os
import re
from collections.abc import Iterable, Iterator
from typing import Protocol

TOP = os.path.dirname(os.path.dirname(os.path.dirname(os.path.abspath(__file__))))
HEAD = re.compile(r"(?:(?:abbrev|unfoldable|opaque|pub|record|data) )+([^\s:({]+)|([^\s:({]+) :(?: |$)")
EQUAL = re.compile(r"(?<!\S)=(?!\S)")
ITEM = re.compile(r"^(?:pub )?(struct|enum|trait|const|type) (\w+)", re.M)
# characters that end a name, besides spaces
BREAKS = r"[\s(){};,\"@\[\]]+"
# imports of `use` items: for each local name its module and its name there, or None if the whole module is renamed
Imports = dict[str, tuple[str, str | None]]


class Definition:
    """A definition: its name, file and line, its text, and the context needed to read it."""

    def __init__(
        self, crate: str, path: str, line: int, name: str, text: str, frame: str = "", is_type: bool = False
    ) -> None:
        self.crate, self.path, self.line, self.name, self.text = crate, path, line, name, text
        self.frame, self.is_type = frame, is_type
        self.made: list[str] = []

    @property
    def key(self) -> tuple[str, str]:
        return (self.path, self.name)

    def code(self) -> list[str]:
        """The lines of the text without comments and empty lines."""
        return [it for it in self.text.splitlines() if it.strip() and not re.match(r"\s*(--|//|#\[)", it)]


class Scope(Protocol):
    """The scope for names in a text."""

    names: dict[str, Definition]
    imports: Imports


def read(path: str) -> str:
    with open(path, encoding="utf-8") as file:
        return file.read()


def crates() -> list[str]:
    """The crates in an order in which each follows those that it depends on."""
    rows = [
        line.partition(":")
        for line in read(f"{TOP}/crates.txt").splitlines()
        if ":" in line and not line.startswith("#")
    ]
    uses = {head.split()[0]: rest.split() for head, _, rest in rows}
    order: list[str] = []

    def visit(crate: str) -> None:
        if crate in uses and crate not in order:
            for it in uses[crate]:
                visit(it)
            order.append(crate)

    for crate in uses:
        visit(crate)
    return order


def chunks(text: str, first: int = 1) -> Iterator[tuple[int, list[str]]]:
    """The parts of a specification: a line without indent and its continuation lines, with the number of the first."""
    part: list[str] = []
    begins = first
    for number, line in enumerate(text.split("\n"), first):
        if line and not line[0].isspace() and line[0] not in "})" and part:
            yield begins, part
            part = []
        if not part:
            begins = number
        part.append(line)
    if part:
        yield begins, part


def imports(text: str, opening: str = "use") -> Imports:
    """The names that `use` items import, each with its module and its name there, or only the module if the whole
    module is renamed."""
    found: Imports = {}
    for item in re.findall(rf"^(?:pub )?{opening}\s+([^;\n]*(?:\n[ \t}}][^;\n]*)*)", text, re.M):
        item = " ".join(item.split())
        path, _, names = item.partition(".{")
        if not names:
            path, _, alias = item.partition(" as ")
            found[alias.strip() or path.split(".")[-1]] = (path.strip(), None)
            continue
        for name in names.rstrip("} ").split(","):
            own, _, alias = name.strip().partition(" as ")
            if own:
                found[alias.strip() or own] = (path, own)
    return found


class Specification:
    """One file of specs/: its imports, its first comment, and its definitions."""

    def __init__(self, crate: str, path: str) -> None:
        self.crate, self.path = crate, path
        text = read(f"{TOP}/{path}")
        self.imports = imports(text)
        self.definitions: list[Definition] = []
        self.names: dict[str, Definition] = {}
        comments = re.match(r"(?:-- [^\n]*\n)*", text)
        assert comments
        self.source = " ".join(comments[0].replace("\n-- ", " ")[3:].split())
        self.part(text, 1, "")

    def part(self, text: str, first: int, frame: str) -> None:
        comment: list[str] = []
        fixity: list[str] = []
        current: Definition | None = None
        for number, lines in chunks(text, first):
            line = lines[0]
            if line.startswith("--"):
                # (an empty line after a comment separates it from the next item)
                comment = [] if line.startswith("-- ----") or len(lines) > 1 else [*comment, line]
                current = None
            elif re.match(r"(pub )?(use|mod) ", line) or not line.strip():
                comment, current = [], None
            elif line.startswith("infix"):
                fixity, current = [line], None
            elif line.startswith("module "):
                body = next(at for at, it in enumerate(lines) if re.search(r"(?<!\S)where$", it)) + 1
                inner = "\n".join(it[2:] if it.startswith("  ") else it for it in lines[body:])
                self.part(inner, number + body, "\n".join(lines[:body]))
                comment, current = [], None
            elif head := HEAD.match(line):
                name = next(it for it in head.groups() if it)
                current = Definition(
                    self.crate, self.path, number, name, "\n".join([*comment, *fixity, *lines]).rstrip(), frame
                )
                self.definitions.append(current)
                self.names[name] = current
                if re.match(r"(pub )?data ", line):
                    current.made = re.findall(r"^  (?:pub )?([^\s:]+) :", "\n".join(lines), re.M)
                    self.names.update((it, current) for it in current.made)
                comment, fixity = [], []
            elif current:
                current.text += "\n" + "\n".join(lines).rstrip()


class Source:
    """One file of src/: its ghost imports, its imports from other crates, and its types, traits and constants."""

    def __init__(self, crate: str, path: str) -> None:
        self.crate, self.path = crate, path
        self.text = read(f"{TOP}/{path}")
        self.imports = imports(self.text, "ghost use")
        self.names: dict[str, Definition] = {}
        for found in ITEM.finditer(self.text):
            text = self.item_at(found.start())
            line = self.text.count("\n", 0, found.start()) + 1
            self.names[found[2]] = Definition(
                crate, path, line, found[2], self.ghosts(text) if found[1] == "trait" else text, is_type=True
            )

    def item_at(self, place: int) -> str:
        """An item with the comment above it."""
        depth, at = 0, place
        while at < len(self.text):
            depth += {"{": 1, "(": 1, "[": 1, "}": -1, ")": -1, "]": -1}.get(self.text[at], 0)
            at += 1
            if depth == 0 and self.text[at - 1] in ";}":
                break
        lines: list[str] = []
        for line in reversed(self.text[:place].splitlines()):
            if line.startswith("///"):
                lines.insert(0, line)
            elif not line.startswith(("#[", ")]", "    ")):
                break
        return "\n".join([*lines, self.text[place:at]])

    @staticmethod
    def ghosts(text: str) -> str:
        """The head and the ghost items of a trait."""
        head, _, body = text.partition("{\n")
        kept = re.findall(r"(?:^    ///.*\n)*^    ghost \w+: .*(?:\n        .*)*", body, re.M)
        return "\n\n".join([head + "{", *kept]) + "\n}"


@functools.cache
def specification(crate: str, path: str) -> Specification | None:
    name = f"crates/{crate}/specs/{path.replace('.', '/')}.antt"
    return Specification(crate, name) if os.path.exists(f"{TOP}/{name}") else None


@functools.cache
def source(crate: str, path: str) -> Source | None:
    for name in (
        f"crates/{crate}/src/{path.replace('.', '/')}.rt",
        f"crates/{crate}/src/{path.replace('.', '/')}/mod.rt",
    ):
        if os.path.exists(f"{TOP}/{name}"):
            return Source(crate, name)
    return None


@functools.cache
def types_of(crate: str) -> dict[str, Definition]:
    """Every type, trait and constant of a crate by its name."""
    found: dict[str, Definition] = {}
    for name in sorted(glob.glob(f"{TOP}/crates/{crate}/src/**/*.rt", recursive=True)):
        path = os.path.relpath(name, f"{TOP}/crates/{crate}/src")[:-3].replace("/", ".")
        file = source(crate, path)
        assert file
        for own, it in file.names.items():
            found.setdefault(own, it)
    return found


def find(module: str | None, name: str | None) -> Definition | None:
    """The definition with a name in a module, or None if it is in the kit."""
    if module is None:
        return None
    found = re.match(r"Rattle\.(\w+)\.specs\.(.*)", module)
    if not found or not os.path.isdir(f"{TOP}/crates/{found[1]}"):
        return None
    crate, path = found.groups()
    if path.startswith("declared.") or path == "declared":
        words = [it for it in path.split(".")[1:] if not it.startswith("The")]
        known = types_of(crate)
        return next((known[own] for own in [name, *reversed(words)] if own in known), None)
    spec = specification(crate, path)
    if spec is None and "." in path:
        # (the name of a module may also be the name of a definition with parts)
        return find(module.rpartition(".")[0], path.rpartition(".")[2])
    if spec is None:
        return None
    if name is None:
        return None
    if name in spec.names:
        return spec.names[name]
    if name in spec.imports:
        return find(*spec.imports[name])
    return None


def bound_in(text: str) -> set[str]:
    """The names that a text binds: parameters, arguments of λ, names after `let` and before `←`."""
    names: set[str] = set()
    for group in re.findall(r"[({]\s*([^(){}:;=,]+?)\s*:(?=\s)", text):
        names |= set(group.split())
    for group in re.findall(r"λ\s+([^.]+)\.", text):
        names |= set(re.split(BREAKS, group))
    for group in re.findall(r"^\s*(.+?)\s+←", text, re.M):
        names |= set(re.split(BREAKS, group))
    return names | set(re.findall(r"\blet (\w+)", text))


def statements(definition: Definition) -> Iterator[tuple[str, str]]:
    """The statements of a definition: its head, each field and each equation, with the left side of an equation's
    `=`."""
    code = re.sub(r"(^|\s)--[^\n]*", r"\1", definition.text)
    for _, lines in chunks(code):
        text = "\n".join(lines)
        if HEAD.match(lines[0]):
            head: list[str] = []
            is_record = re.match(r"(pub |abbrev |unfoldable )*(record|data) ", text)
            body = (
                next((at for at, it in enumerate(lines) if re.search(r"(?<!\S)where$", it)), len(lines) - 1) + 1
                if is_record
                else len(lines)
            )
            yield "", "\n".join(lines[:body])
            for line in lines[body:]:
                if re.match(r"  \S", line) and head:
                    yield "", "\n".join(head)
                    head = []
                head.append(line)
            if head:
                yield "", "\n".join(head)
        elif not re.match(r"infix", text) and (at := EQUAL.search(text)):
            yield text[: at.start()], text[at.end() :]


def tokens(text: str) -> list[str]:
    return [it for it in re.split(BREAKS, re.sub(r"([{;]\s*)[\w'-]+ =(?=\s)", r"\1", text)) if it]


def symbols(text: str, scope: Iterable[str]) -> Iterator[str]:
    """The operators of a scope whose parts occur in a text."""
    words = set(re.split(r"[\s(){};,]+", text))
    for name in scope:
        parts = [it for it in name.split("◌") if it]
        if "◌" in name and parts and all(it in words for it in parts) or name == "◌>>=◌" and "do" in words:
            yield name


class Unfolding:
    """The names in definitions, over all crates."""

    def __init__(self) -> None:
        self.kit: set[str] = set()

    def resolved(self, file: Scope, name: str, rest: str | None) -> Definition | None:
        """The definition that a word in a file names, and whether the word belongs to the kit."""
        if name in file.names:
            return file.names[name]
        if name not in file.imports:
            return None
        module, own = file.imports[name]
        if own is None:
            found = find(module, rest) or find(module, None)
        else:
            found = find(module, own)
        if found is None:
            self.kit.add(f"{module}.{own or rest}" if own or rest else module)
        return found

    def named_in(self, file: Scope, text: str, bound: set[str]) -> list[Definition]:
        """The definitions that a text names, in the order of the text."""
        found: list[Definition] = []
        scope = [it for it in [*file.names, *file.imports] if "◌" in it]
        for name in [*symbols(text, scope), *tokens(text)]:
            first, _, rest = name.partition(".")
            if first in bound or not first:
                continue
            it = self.resolved(file, first, rest.split(".")[0] or None)
            if it is not None:
                found.append(it)
        return found

    @functools.cache
    def named(self, definition: Definition) -> list[Definition]:
        """The definitions that a definition names, each once."""
        found = self.of_type(definition) if definition.is_type else self.of_specification(definition)
        return list({it.key: it for it in found if it.key != definition.key}.values())

    def of_specification(self, definition: Definition) -> list[Definition]:
        file = specification(
            definition.crate, re.sub(r"^crates/\w+/specs/|\.antt$", "", definition.path).replace("/", ".")
        )
        assert file
        frame = bound_in(definition.frame)
        found = self.named_in(file, definition.frame.replace("module", ""), frame)
        fields: set[str] = set()
        for left, text in statements(definition):
            bound = bound_in(text) | frame | fields
            if left:
                variables = {
                    it
                    for it in re.split(BREAKS, left)
                    if it and it[0].islower() and "." not in it and it != definition.name
                }
                found += self.named_in(file, left, variables | bound)
                bound |= variables
            else:
                head = HEAD.match(text)
                fields |= bound_in(text) if head else set()
                text = text.replace(definition.name, "", 1) if head else text
                field = re.match(r"\s+(?:pub )?([^\s:]+) :", text)
                text = text[field.end() :] if field else text
                found += self.named_in(file, text, bound)
                fields |= (
                    {field[1]} if field and definition.name not in file.names.get(field[1], definition).made else set()
                )
                continue
            found += self.named_in(file, text, bound)
        return found

    def of_type(self, definition: Definition) -> list[Definition]:
        file = source(definition.crate, re.sub(r"^crates/\w+/src/|\.rt$", "", definition.path).replace("/", "."))
        assert file
        code = re.sub(r"//[^\n]*", "", definition.text)
        found = self.named_in(Ghosts(file), " ".join(re.findall(r"ghost \w+: \{([^}]*)\}", code)), set())
        plain = re.sub(r"ghost \w+: \{[^}]*\};?", "", code)
        users = " ".join(re.findall(r"^use [^;]*;", file.text, re.M))
        for name in re.findall(r"\b[A-Z]\w+\b", plain):
            if name in file.names:
                found.append(file.names[name])
            elif re.search(rf"\b{name}\b", users):
                for crate in [definition.crate, *re.findall(r"^use (\w+)(?:::|;)", file.text, re.M)]:
                    if os.path.isdir(f"{TOP}/crates/{crate}") and name in types_of(crate):
                        found.append(types_of(crate)[name])
                        break
        return found

    def below(self, roots: Iterable[Definition]) -> list[Definition]:
        """The roots and all definitions that they unfold to, each once and after all definitions that it names, by
        crate, file and line."""
        order = {crate: at for at, crate in enumerate(crates())}
        seen: set[tuple[str, str]] = set()
        found: list[Definition] = []

        def visit(it: Definition) -> None:
            if it.key in seen:
                return
            seen.add(it.key)
            for below in sorted(self.named(it), key=lambda it: (order[it.crate], not it.is_type, it.path, it.line)):
                visit(below)
            found.append(it)

        for root in roots:
            visit(root)
        return found


def reading_order(unfolding: Unfolding, found: list[Definition]) -> list[Definition]:
    """The definitions by file, each after all definitions that it names. The order leaves a file only if its next
    definition names one that has not come yet."""
    crate_order = {crate: at for at, crate in enumerate(crates())}
    keys = {it.key for it in found}
    waits = {it.key: {below.key for below in unfolding.named(it)} & keys for it in found}
    files: dict[str, list[Definition]] = {}
    for it in sorted(found, key=lambda it: it.line):
        files.setdefault(it.path, []).append(it)
    told: set[tuple[str, str]] = set()
    order: list[Definition] = []
    path = ""
    while files:
        ready = {name: [it for it in own if waits[it.key] <= told] for name, own in files.items()}
        if not ready.get(path):

            def rank(name: str) -> tuple[bool, bool, int, bool, str]:
                inner = {it.key for it in files[name]}
                is_whole = all(waits[it.key] <= told | inner for it in files[name])
                return (not ready[name], not is_whole, crate_order[files[name][0].crate], "/specs/" in name, name)

            path = min(files, key=rank)
        # (definitions that name each other are in the order of their lines)
        it = (ready[path] or files[path])[0]
        order.append(it)
        told.add(it.key)
        files[path].remove(it)
        if not files[path]:
            del files[path]
    return order


def counts(found: list[Definition]) -> str:
    """The numbers of definitions, types, lines of code, files and crates."""
    plain, types = [it for it in found if not it.is_type], [it for it in found if it.is_type]
    return (
        f"{len(plain)} definitions in {sum(len(it.code()) for it in plain)} lines, {len(types)} types in "
        f"{sum(len(it.code()) for it in types)}, of {len({it.path for it in found})} files of {len({it.crate for it in found})} crates"
    )


class Ghosts:
    """A source file with only its ghost imports."""

    def __init__(self, file: Source) -> None:
        self.names: dict[str, Definition] = {}
        self.imports = file.imports


def called(name: str) -> list[Definition]:
    """The definitions with a name over all crates; `crate::Name` selects a crate, `crate::File.Name` a file."""
    crate, _, own = name.rpartition("::")
    path, _, own = own.rpartition(".")
    found: list[Definition] = []
    for it in [crate] if crate else crates():
        for file in sorted(glob.glob(f"{TOP}/crates/{it}/specs/**/*.antt", recursive=True)):
            spec = specification(it, os.path.relpath(file, f"{TOP}/crates/{it}/specs")[:-5].replace("/", "."))
            if spec and own in spec.names and (not path or file.endswith(f"/{path}.antt")):
                found.append(spec.names[own])
    return found
