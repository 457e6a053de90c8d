#!/usr/bin/python3
"""Sends random requests from web/openapi.json and compares each answer with it: checks/web/drawn.py PROGRAM [--count
1500] [--seed N]

Path, method, good and bad parameters, and headers are random. The status must be one that the document lists for the
path and the method. The headers must fit their descriptions, and the octets their type and schema. Debian's
python3-jsonschema checks the schemas; without it they are skipped by name. Ends with status 1 if an answer is not
described. No client trusts this file.
"""

import argparse
import collections
import importlib
import json
import random
import re
import sys
import urllib.parse

from collections.abc import Sequence
from parties import STREETS, TOP, Gateway, Owner, Place, roads
from typing import Any

try:
    jsonschema: Any = importlib.import_module("jsonschema")
except ImportError:
    jsonschema = None
METHODS = ["GET"] * 12 + ["HEAD"] * 2 + ["OPTIONS", "POST", "PUT", "DELETE", "PATCH"]
NOT_ALLOWED = ("POST", "PUT", "DELETE", "PATCH")


Fields = dict[str, Any]


class Tagged(Place):
    """An address, and the last tag in its answers."""

    tag = '"x"'


class Document:
    """web/openapi.json, with its references followed."""

    def __init__(self) -> None:
        self.page: Fields = json.loads((TOP / "web/openapi.json").read_text())
        self.paths = self.page["paths"]

    def found(self, it: Fields) -> Fields:
        """The target of a reference."""
        while "$ref" in it:
            part = self.page
            for word in it["$ref"].removeprefix("#/").split("/"):
                part = part[word]
            it = part
        return it

    def schema_fits(self, schema: Fields, value: object) -> str:
        """The reason why a value does not fit, or an empty text."""
        if jsonschema is None:
            return ""
        whole = {**schema, "components": self.page["components"]}
        why = next(iter(jsonschema.Draft202012Validator(whole).iter_errors(value)), None)
        return str(why.message) if why else ""


def number(draw: random.Random, pattern: str, near: Sequence[int]) -> str:
    """A number that fits a parameter's pattern, or almost fits."""
    turn = draw.randrange(12)
    if turn < 8:
        return str(draw.choice(near))
    good = [
        str(draw.randrange(10 ** draw.randrange(1, 21))),
        "0",
        str(2**32 - 1),
        str(2**32),
        str(2**64 - 1),
        str(2**64),
    ]
    bad = ["01", "", "-1", "+1", "1.0", "0x1", "%31", "1" * 30, " 1", "a", "\u0661"]
    return draw.choice(good if turn < 11 else bad)


def query_of(
    document: Document, operation: Fields, draw: random.Random, near: Sequence[int], versions: Sequence[int]
) -> str:
    """The parameters of a query, mostly in their only valid spelling."""
    words = []
    for reference in operation.get("parameters", []):
        it = document.found(reference)
        if it["in"] != "query" or (not it["required"] and draw.random() < 0.5):
            continue
        value = number(draw, it["schema"]["pattern"], versions if it["name"] == "least" else near)
        words.append(f"{it['name']}={value}")
    turn = draw.randrange(14)
    if turn == 0:
        draw.shuffle(words)
    elif turn == 1:
        words.append(draw.choice(["x=1", "", "least=1", "from=1", "%00", "a" * 300]))
    elif turn == 2 and words:
        words.pop(draw.randrange(len(words)))
    return urllib.parse.quote("&".join(words), safe="=&%+.-")


def ask(
    document: Document, place: Tagged, draw: random.Random, ids: list[str], near: Sequence[int], versions: Sequence[int]
) -> tuple[str, str]:
    """One random request: the faults of its answer, its path and its status."""
    path, item = draw.choice(list(document.paths.items()))
    method = draw.choice(METHODS)
    operation = item.get(method.lower(), item["get"])
    query = query_of(document, operation, draw, near, versions)
    target = path.replace("{id}", draw.choice(ids)) + (f"?{query}" if query or draw.random() < 0.02 else "")
    headers = {"Accept-Encoding": draw.choice(["", "gzip", "gzip;q=0", "br, gzip", "*"])}
    if draw.random() < 0.4:
        headers["If-None-Match"] = draw.choice(["*", "*", "*", '"x"', 'W/"y", *', place.tag])
    status, given, octets = place.ask(
        target, method, **{name.replace("-", "_"): value for name, value in headers.items()}
    )
    place.tag = given.get("ETag", place.tag)
    listed = item["get"]["responses"] if method in NOT_ALLOWED else operation["responses"]
    name = f"{method} {path} {status}"
    if str(status) not in listed or (method in NOT_ALLOWED) != (status == 405):
        return f"{method} {target}: {status} is not described", name
    response = document.found(listed[str(status)])
    for header, said in response.get("headers", {}).items():
        value = given.get(header)
        if header == "Retry-After" and (status not in (429, 503)):
            continue
        if value is None:
            return f"{method} {target}: {status} has no {header}", name
        why = document.schema_fits(said["schema"], int(value) if said["schema"].get("type") == "integer" else value)
        if why:
            return f"{method} {target}: {status}, {header}: {why}", name
    if method == "HEAD" or status in (204, 304):
        return (f"{method} {target}: {status} has octets" if octets else ""), name
    kinds = response.get("content", {})
    kind = given.get("Content-Type", "").split(";")[0]
    if kinds and kind not in kinds:
        return f"{method} {target}: {status} is {kind}", name
    schema = kinds.get(kind, {}).get("schema")
    if schema:
        why = document.schema_fits(schema, json.loads(octets))
        if why:
            return f"{method} {target}: {status}: {why}", name
    return "", name


def main(words: list[str]) -> int:
    parser = argparse.ArgumentParser(description=(__doc__ or "").splitlines()[0])
    parser.add_argument("program")
    parser.add_argument("--count", type=int, default=1500)
    parser.add_argument("--seed", type=int, default=1)
    given = parser.parse_args(words)
    if jsonschema is None:
        print("skipped: the schemas of checks/web/drawn.py, since this machine has no python3-jsonschema")
    document, draw = Document(), random.Random(given.seed)
    owner = Owner(given.program, roads(STREETS, 400))
    for version in (3, 4, 5):
        owner.publish(version)
    faults: list[str] = []
    seen = collections.Counter[str]()
    # one gateway with its defaults, and one with a low limit for each address
    samples: tuple[list[str], ...] = ([], ["--asks-per-second", "3", "--burst", "5"])
    for more in samples:
        gateway = Gateway(owner, "dij-3.pub", "--keep", "1", *more)
        first = gateway.newest()
        (gateway.folder / "map.pub.fresh").write_bytes(owner.path("dij-4.pub").read_bytes())
        (gateway.folder / "map.pub.fresh").rename(gateway.folder / "map.pub")
        while gateway.place.ask("/v1/ready")[0] != 200 or gateway.place.ask(f"/v1/p/{first}/publication")[0] == 200:
            pass
        (gateway.folder / "map.pub.next").write_bytes(owner.path("dij-5.pub").read_bytes())
        ids = [it["id"] for it in gateway.info()] * 9 if not more else [first]
        ids += [first, "0123456789abcdef", "0123456789ABCDEF", "x", "%41", "0" * 17]
        place = Tagged(gateway.address)
        for _ in range(given.count if not more else given.count // 5):
            why, name = ask(document, place, draw, ids, [*owner.ids[:50], 4_000_000_000], [0, 3, 4, 5, 9, 2**64 - 1])
            seen[re.sub(r"^(POST|PUT|DELETE|PATCH)", "other", name)] += 1
            if why:
                faults.append(why)
        gateway.end()
    listed = {
        f"GET {path} {status}"
        for path, item in document.paths.items()
        for status in item["get"]["responses"]
        if status != "405"
    }
    # each listed status must occur, except 503, which depends on the moment when a child is asked
    rare = {name for name in listed if name.endswith(" 503")}
    missing = sorted(listed - rare - set(seen))
    for fault in faults[:20]:
        print("DIFFERS", fault)
    for name in missing:
        print("NOT MET", name)
    print(
        f"drawn: {sum(seen.values())} asks, {len(seen)} of path, method and status, {len(faults)} not as described, {len(missing)} listed and not met"
    )
    return 1 if faults or missing else 0


if __name__ == "__main__":
    sys.exit(main(sys.argv[1:]))
