#!/usr/bin/env python3
"""Tests that each file of lemmas begins with a comment on its content: checks/docs/heads.py

It reads the files of crates/*/proofs, except the files of a single function's proof (Answers, Invariants, Proof) and
the files that only name others. Each must begin with a comment of whole sentences. Ends with status 1 if a file does
not. checks/docs/unfolded.py plants such faults.
"""
import glob
import os
import re
import sys
from collections.abc import Iterable, Iterator

TOP = os.path.dirname(os.path.dirname(os.path.dirname(os.path.abspath(__file__))))
OF_ONE_PROOF = {"Answers.antt", "Invariants.antt", "Proof.antt"}


def head_of(text: str) -> str:
    """The comment at the beginning of a file, in one line."""
    comments = re.match(r"(?:-- [^\n]*\n)*", text)
    assert comments
    return comments[0].replace("\n-- ", " ")[3:].strip()


def is_of_lemmas(path: str, text: str) -> bool:
    """Whether a file states anything besides the names of other files."""
    return (
        os.path.basename(path) not in OF_ONE_PROOF
        and re.search(r"^(?!-- |use |pub use |mod |pub mod |\s|$|})", text, re.M) is not None
    )


def faults_of(files: Iterable[tuple[str, str]]) -> Iterator[str]:
    """The faults of files, each given by path and text, that do not begin with such a comment."""
    for path, text in files:
        if is_of_lemmas(path, text) and not re.match(r"[A-Z`].*[a-z`].*\.$", head_of(text)):
            yield f"{path}: it does not begin with a line that says what it shows"


def main() -> None:
    files: list[tuple[str, str]] = []
    for name in sorted(glob.glob(f"{TOP}/crates/*/proofs/**/*.antt", recursive=True)):
        with open(name, encoding="utf-8") as file:
            files.append((os.path.relpath(name, TOP), file.read()))
    faults = list(faults_of(files))
    print(
        "\n".join(faults)
        if faults
        else f"{sum(is_of_lemmas(*it) for it in files)} files of lemmas begin with what they show"
    )
    sys.exit(1 if faults else 0)


if __name__ == "__main__":
    main()
