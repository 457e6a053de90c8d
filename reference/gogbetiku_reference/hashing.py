"""SHA-256 of FIPS 180-4, from Python's standard library. `H` in docs/SPEC.md.

Python brings two implementations: `hashlib` gives OpenSSL's, which takes several microseconds to begin. Its own one, which
stands under a name that depends on the version, begins at once, and a key is made of hundreds of thousands of short texts.
Both are the same function (`test_reference.py` compares them). Part of the reference: tested, not proved, and trusted by no
client.
"""
import hashlib
import importlib
from collections.abc import Callable
from typing import Protocol

Hash = Callable[[bytes], bytes]


class Hasher(Protocol):
    """A hash of the text so far, which gives its digest."""

    def digest(self) -> bytes:
        ...


def implementation() -> Callable[[bytes], Hasher]:
    """Python's own implementation if it exists, otherwise OpenSSL's."""
    for name in ("_sha2", "_sha256"):
        try:
            found: Callable[[bytes], Hasher] = importlib.import_module(name).sha256
        except ImportError:
            continue
        return found
    return hashlib.sha256


SHA256 = implementation()


def sha256(text: bytes) -> bytes:
    return SHA256(text).digest()
