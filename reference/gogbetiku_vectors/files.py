"""The files of the folder vectors/: all families, and the form of their cases and schemas.

A signature that stands more than once in a file has a name there, and `{name}` stands in its place.

Tested, not proved; no client trusts it.
"""
import json
import multiprocessing
import pathlib
import re
from collections import Counter
from collections.abc import Iterator

from . import client, formats, owners, parties, signing
from .families import Family, Fields
from .imported import IMPORTED, Imported

FAMILIES: list[Family] = [*formats.FAMILIES, *signing.FAMILIES, *parties.FAMILIES, *client.FAMILIES, *owners.FAMILIES]


# a signature of height 5 after its length
SIGNATURE = re.compile("050c(000000[0-9a-f]{2}00000004[0-9a-f]{2568})")


def named_signatures(cases: str) -> dict[str, str]:
    """The signatures that occur more than once, by their new names."""
    counted = Counter(SIGNATURE.findall(cases))
    return {
        f"s{number}": digits
        for number, digits in enumerate((digits for digits, count in counted.items() if count > 1), 1)
    }


def case_lines(made: Fields) -> str:
    """A file's text, with one case in each line."""
    cases = ",\n".join(json.dumps(case) for case in made["cases"])
    named = named_signatures(cases)
    for name, digits in named.items():
        cases = cases.replace(digits, f"{{{name}}}")
    head = {"shows": made["shows"], "schema": made["schema"], "signatures": named}
    return "".join(f'"{name}": {json.dumps(value)},\n' for name, value in head.items()).join(
        ("{", f'"cases": [\n{cases}\n]}}\n')
    )


FILES: dict[str, Family | Imported] = {file.name: file for file in FAMILIES} | {file.name: file for file in IMPORTED}
# the slowest are made first, and those of the client together by one process
TOGETHER = [["client", "client_radius", "client_verify"], ["turned"], ["services"], ["lms_verify", "signatures"]]


def texts_of(names: list[str]) -> list[tuple[str, str]]:
    """The names and texts of some files, and of their schemas."""
    found = []
    for name in names:
        file = FILES[name]
        found.append((f"{name}.schema.json", json.dumps(file.schema(), indent=1) + "\n"))
        found.append((f"{name}.json", case_lines(file.made()) if isinstance(file, Family) else file.text()))
    return found


def texts(slow: bool) -> Iterator[tuple[str, str]]:
    """The names and texts of all files, made by four processes; with `slow` also those that take a minute."""
    left = [name for name in FILES if name not in sum(TOGETHER, []) and (slow or name not in SLOW)]
    yield from ((f"{name}.schema.json", json.dumps(FILES[name].schema(), indent=1) + "\n") for name in SLOW)
    with multiprocessing.get_context("fork").Pool(4) as pool:
        for found in pool.imap_unordered(texts_of, [*TOGETHER, *([name] for name in left)]):
            yield from found


SLOW = {family.name for family in FAMILIES if family.slow}


def write_all(folder: pathlib.Path) -> None:
    for name, text in texts(slow=True):
        (folder / name).write_text(text, encoding="ascii")


def differences(folder: pathlib.Path) -> list[str]:
    """The files that differ from the reference's."""
    found, named = [], {f"{name}{end}" for name in FILES for end in (".json", ".schema.json")}
    for name, text in texts(slow=False):
        if not (folder / name).exists() or (folder / name).read_text(encoding="ascii") != text:
            found.append(f"{name} is not what the reference makes")
    return found + [f"{path.name} is of no family" for path in sorted(folder.glob("*.json")) if path.name not in named]


def read_family(folder: pathlib.Path, family: Family) -> list[Fields]:
    """The cases of a family's file, with signatures in place of their names."""
    text = (folder / f"{family.name}.json").read_text(encoding="ascii")
    named = json.loads(text)["signatures"]
    cases: list[Fields] = json.loads(re.sub(r"\{(s[0-9]+)\}", lambda found: str(named[found[1]]), text))["cases"]
    return cases
