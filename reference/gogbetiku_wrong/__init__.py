"""Ways to be wrong: the reference with one changed test, order, width or limit, as a wrong program may have it.

Each is a switch: `python3 -m gogbetiku_wrong`, from the folder reference, lists them, and with a number and a command runs
that command wrongly. checks/switched_off.py finds the vector that catches each; caught.json keeps the results. Tested, not
proved; no client trusts it.
"""
import importlib
import pathlib
import sys
from collections.abc import Iterator
from contextlib import contextmanager
from dataclasses import dataclass
from types import CodeType, ModuleType

from . import auditor, client, owner, server

PACKAGE = pathlib.Path(__file__).resolve().parent.parent / "gogbetiku_reference"


@dataclass(frozen=True)
class Wrong:
    """A way to be wrong: the part, the section of docs/SPEC.md, a text of the reference, and its replacement."""

    part: str
    section: str
    what: str
    module: str
    old: str
    new: str
    # the reason why no octets show it, if none do
    unseen: str = ""

    def name(self) -> str:
        return f"{self.part}, {self.section}: {self.what}"

    def code(self) -> CodeType:
        source = source_of(self.module)
        if source.count(self.old) != 1:
            raise ValueError(f"{self.name()}: {self.module}.py has its text {source.count(self.old)} times")
        code: CodeType = compile(source.replace(self.old, self.new), f"{self.module}.py", "exec")
        return code


def source_of(module: str) -> str:
    return (PACKAGE / f"{module}.py").read_text(encoding="utf-8")


TABLES = {"client": client.WRONG, "server": server.WRONG, "owner": owner.WRONG, "auditor": auditor.WRONG}
WRONG: list[Wrong] = [Wrong(part, *row) for part, rows in TABLES.items() for row in rows]


def loaded() -> list[ModuleType]:
    return [
        module for name, module in sys.modules.items() if name.startswith(("gogbetiku_reference", "gogbetiku_vectors"))
    ]


def replaced(old: dict[str, object], new: dict[str, object]) -> Iterator[tuple[dict[object, object], object, object]]:
    """The uses of a module's old values in other modules and their tables: the place, the name, and the new value."""
    by_old = {id(value): new[name] for name, value in old.items() if callable(value) and new.get(name) is not value}
    for module in loaded():
        space = vars(module)
        if space is new:
            continue
        for name, value in list(space.items()):
            if name in old and old[name] is value and name in new and new[name] is not value:
                yield space, name, new[name]  # type: ignore[misc]
            elif id(value) in by_old:
                yield space, name, by_old[id(value)]  # type: ignore[misc]
            elif isinstance(value, dict) and not name.startswith("__"):
                yield from ((value, key, by_old[id(one)]) for key, one in list(value.items()) if id(one) in by_old)


@contextmanager
def switched(module: str, code: CodeType) -> Iterator[None]:
    """Gives one module of the reference this code during a block."""
    space = vars(importlib.import_module(f"gogbetiku_reference.{module}"))
    old, places = dict(space), []
    try:
        exec(code, space)
        for where, name, value in list(replaced(old, space)):
            places.append((where, name, where[name]))
            where[name] = value
        yield
    finally:
        for where, name, value in places:
            where[name] = value
        space.clear()
        space.update(old)
