#!/usr/bin/env python3
"""Plays the vectors in the form that libraries import: checks/imported.py

The reference plays vectors/lms_verify.json, and so does Bouncy Castle if the machine has javac and Debian's
libbcprov-java. Bouncy Castle ignores octets after a signature or a key, so tests with such octets are left out. It also
accepts a signature of another type than the key's, as two tests show. The results in vectors/client_verify.json must be
those of vectors/client.json and client_radius.json. Each test must have its own number, and each flag a note. Nothing
here is proved, and no client trusts it. Ends with status 1 if anything differs.
"""
import json
import pathlib
import shutil
import subprocess
import sys
import tempfile
from collections.abc import Iterator
from typing import Any

TOP = pathlib.Path(__file__).resolve().parent.parent
sys.path.insert(0, str(TOP / "reference"))

from gogbetiku_reference.lms import why_not  # noqa: E402
from gogbetiku_vectors.client import CLIENT, CLIENT_RADIUS  # noqa: E402
from gogbetiku_vectors.files import read_family  # noqa: E402

VECTORS, JAR = TOP / "vectors", pathlib.Path("/usr/share/java/bcprov.jar")
Fields = dict[str, Any]
# Bouncy Castle 1.72 does not compare the types of key and signature, as RFC 8554, Algorithm 6a, step 2, requires
TAKEN_BY_BOUNCY_CASTLE = {"a key of type 7", "a key of the other height"}


def tests_of(name: str) -> list[tuple[Fields, Fields]]:
    """The tests of a file, each with its group, and whether numbers and flags are right."""
    file = json.loads((VECTORS / name).read_text(encoding="ascii"))
    found = [(group, test) for group in file["testGroups"] for test in group["tests"]]
    numbers, flags = [test["tcId"] for _, test in found], {flag for _, test in found for flag in test["flags"]}
    if numbers != list(range(1, file["numberOfTests"] + 1)) or flags != set(file["notes"]):
        raise SystemExit(f"imported: {name}: numbers or flags differ: {sorted(flags ^ set(file['notes']))}")
    return found


def by_reference(tests: list[tuple[Fields, Fields]]) -> Iterator[str]:
    for group, test in tests:
        seen = (
            why_not(bytes.fromhex(group["publicKey"]), bytes.fromhex(test["msg"]), bytes.fromhex(test["sig"]))
            or "valid"
        )
        if (seen, "valid" if seen == "valid" else "invalid") != (test["cause"], test["result"]):
            yield f"lms_verify, test {test['tcId']}: the reference says {seen}"


def goes_on(group: Fields, test: Fields) -> bool:
    """Whether octets follow a key or a signature that can be read."""
    return len(group["publicKey"]) > 2 * 56 or len(test["sig"]) > 2 * (
        1292 if group["publicKey"][:8] == "00000005" else 1452
    )


def by_bouncy_castle(tests: list[tuple[Fields, Fields]]) -> Iterator[str]:
    asked = [(group, test) for group, test in tests if not goes_on(group, test)]
    lines = "".join(f"{group['publicKey']} {test['msg']} {test['sig']}\n" for group, test in asked)
    with tempfile.TemporaryDirectory() as folder:
        subprocess.run(["javac", "-cp", JAR, "-d", folder, TOP / "checks/lms/Verify.java"], check=True)
        done = subprocess.run(
            ["java", "-cp", f"{JAR}:{folder}", "Verify"], input=lines, capture_output=True, check=True, text=True
        )
    said = done.stdout.split()
    if len(said) != len(asked):
        yield f"Bouncy Castle says {len(said)} words of {len(asked)} tests"
    for (_, test), word in zip(asked, said):
        if word != test["result"] and test["comment"] not in TAKEN_BY_BOUNCY_CASTLE:
            yield f"lms_verify, test {test['tcId']} ({test['comment']}): Bouncy Castle says {word}"


def of_the_client(tests: list[tuple[Fields, Fields]]) -> Iterator[str]:
    """Tests that the file has each case of a client, with its line."""
    cases = [case for family in (CLIENT, CLIENT_RADIUS) for case in read_family(VECTORS, family)]
    wanted = sorted(
        (case["given"]["reply"], case["given"]["public"], case["given"]["chain"], case["why"], case["result"]["line"])
        for case in cases
    )
    seen = sorted(
        (test["reply"], group["publicKey"], group["chain"], test["comment"], test["line"]) for group, test in tests
    )
    if seen != wanted:
        yield "client_verify has other cases than client and client_radius"
    for _, test in tests:
        if test["line"].startswith("refused") != (test["result"] == "invalid"):
            yield f"client_verify, test {test['tcId']}: {test['line'].strip()} and {test['result']}"


def main() -> int:
    seals, clients = tests_of("lms_verify.json"), tests_of("client_verify.json")
    faults = [*by_reference(seals), *of_the_client(clients)]
    if shutil.which("javac") and JAR.exists():
        faults += by_bouncy_castle(seals)
    else:
        print("skipped: vectors/lms_verify.json by Bouncy Castle, since this machine has no javac or no libbcprov-java")
    for fault in faults:
        print(fault)
    print(f"imported: {len(seals)} tests of LMS and {len(clients)} of a client, {len(faults)} differ")
    return 1 if faults else 0


if __name__ == "__main__":
    sys.exit(main())
