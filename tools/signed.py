"""Finds the signed headers in publications and replies, and the keys that signed them. The proved client verifies each
signature.

It lets `PROGRAM check` judge a reply that has this header and nothing after it. If the header is signed, the reply
fails one of the tests that follow the test of the signature. No client trusts this file. Whoever runs it trusts that it
asks the client.
"""
import hashlib
import os
import re
import shutil
import subprocess
import tempfile
from typing import NamedTuple

from offsets import HEADER, IN_ANSWER, IN_PUBLICATION, IN_RANGE_REPLY, NODES, SIGNATURE, VERSION
from roads import Trouble

# the offset of the header, by the first octets of a publication, a range reply and two kinds of replies
FORMS = {b"RPP1": IN_PUBLICATION, b"RPN1": IN_RANGE_REPLY, b"\x00RPF": IN_ANSWER, b"\x03RPF": IN_ANSWER}
LINK, KEY_DIGITS = 56, 112
# the verdicts that occur only if a header is signed
BEHIND_SIGNATURES = {"BadCover", "RepeatedNode", "BadRoute", "MissingTuple", "MissingPair", "Shorter", "Disagrees"}
CHAIN_MARK, MOST_LINKS = b"RPL1", 7


class Signed(NamedTuple):
    """A header and its signature."""

    header: bytes
    signature: bytes

    @property
    def slot(self) -> int:
        """The one-time key that the signature names."""
        return int.from_bytes(self.signature[:4], "big")

    @property
    def version(self) -> int:
        return version_of(self.header)

    @property
    def digest(self) -> str:
        return hashlib.sha256(self.header).hexdigest()


def version_of(header: bytes) -> int:
    return int.from_bytes(header[VERSION:NODES], "big")


def signed_in(octets: bytes) -> Signed | None:
    """The header and the signature in a publication or a reply, or None. Nothing is verified."""
    at = FORMS.get(octets[:4])
    if at is None or len(octets) < at + SIGNATURE or octets[at : at + 4] != b"RPF1":
        return None
    size = int.from_bytes(octets[at + HEADER : at + SIGNATURE], "big")
    signature = octets[at + SIGNATURE : at + SIGNATURE + size]
    return Signed(octets[at : at + HEADER], signature) if len(signature) == size >= 4 else None


def bare_reply(signed: Signed) -> bytes:
    """A reply with this header and signature, a route of one node and nothing after it."""
    size = len(signed.signature).to_bytes(2, "big")
    return b"\0" + signed.header + size + signed.signature + (1).to_bytes(4, "big") * 2 + bytes(16)


def program_of(word: str) -> str:
    """The program that an argument names, on the path or as a file."""
    found = shutil.which(word) or shutil.which(os.path.abspath(word))
    if found is None:
        raise Trouble(f"{word}: there is no such program")
    return os.path.abspath(found)


def key_of(path: str) -> str:
    """The public key of a file, as 112 hex digits in lower case."""
    with open(path, "rb") as file:
        octets = file.read(4096)
    if not re.fullmatch(rb"[0-9a-fA-F]{%d}(\r?\n)?" % KEY_DIGITS, octets):
        raise Trouble(f"{path}: it is not a public key of {KEY_DIGITS} hex digits")
    return octets[:KEY_DIGITS].decode("ascii").lower()


def keys_of(path: str) -> list[str]:
    """The keys that the links of a chain file name, in order."""
    with open(path, "rb") as file:
        octets = file.read()
    keys: list[str] = []
    at = 0
    while at < len(octets):
        end = at + 4 + LINK + 2
        size = int.from_bytes(octets[end - 2 : end], "big")
        if octets[at : at + 4] != CHAIN_MARK or end + size > len(octets) or len(keys) == MOST_LINKS:
            raise Trouble(f"{path}: it is not a chain file: it cannot be read from offset {at} on")
        keys.append(octets[at + 4 : end - 2].hex())
        at = end + size
    return keys


class Client:
    """The proved client, under an owner's public key and along a chain if one is given."""

    def __init__(self, program: str, key: str, chain: str | None = None):
        self.program, self.key, self.chain = program_of(program), key, chain
        self.keys = [key_of(key), *(keys_of(chain) if chain else [])]

    def check(
        self, key: str, reply: str, start: int, end: int, least: int, chain: str | None
    ) -> tuple[int, list[str], str]:
        """Runs `check`. Returns its status, the words on standard output, and the message."""
        words = [self.program, "check", key, reply, str(start), str(end), str(least), *([chain] if chain else [])]
        done = subprocess.run(words, capture_output=True, text=True, errors="replace", check=False)
        return done.returncode, done.stdout.split(), done.stderr.strip()

    def _is_signed(self, key: str, chain: str | None, reply: str) -> bool:
        status, told, said = self.check(key, reply, 1, 1, 0, chain)
        if status == 0 or (status == 1 and told[:1] == ["refused"] and told[1:2] and told[1] in BEHIND_SIGNATURES):
            return True
        if status == 1 and told[:1] == ["refused"] and told[1:2] and told[1] in ("BadSignature", "Malformed"):
            return False
        if status == 1 and told[1:2] == ["BadChain"]:
            raise Trouble(f"{chain}: {said}")
        raise Trouble(f"{self.program} check ended with status {status}: {said}")

    def signer(self, signed: Signed) -> str | None:
        """The public key that has signed a header: the owner's, or one that the chain names. None if none of them has
        signed it."""
        with tempfile.TemporaryDirectory() as folder:
            reply, one = os.path.join(folder, "reply"), os.path.join(folder, "key")
            _write(reply, bare_reply(signed))
            if self.chain and not self._is_signed(self.key, self.chain, reply):
                return None
            for key in self.keys:
                _write(one, key.encode("ascii"))
                if self._is_signed(one, None, reply):
                    return key
        return None


def _write(path: str, octets: bytes) -> None:
    with open(path, "wb") as file:
        file.write(octets)
