#!/usr/bin/python3
"""Stands in for `road_proof serve PUB PUBKEY [CHAIN]` in the tests of the gateway's parts. It verifies nothing.

The key selects the behaviour: `slow` answers after 0.2 s, `dies` ends at the first query, `lies` answers for another
session, `stalls` never answers, `late` takes 0.3 s to begin. A publication whose last octet is `!` is refused as not
signed.
"""

import os
import pathlib
import struct
import sys
import time

sys.path.insert(0, str(pathlib.Path(__file__).resolve().parents[1]))

from common.layout import IN_PUBLICATION, version_of  # noqa: E402


def main(program: str, words: list[str]) -> int:
    publication = open(words[0], "rb").read()
    kind = open(words[1], "rb").read().decode().strip()
    version = version_of(publication, IN_PUBLICATION)
    pins: dict[int, int] = {}
    if publication.endswith(b"!"):
        sys.stdout.write("refused BadSignature NoMatch\n" + 300 * "-")
        return 1
    while head := sys.stdin.buffer.read(4):
        body = sys.stdin.buffer.read(struct.unpack(">I", head)[0])
        reply = b""
        if body[0] == 1:
            time.sleep(0.3 if kind == "late" else 0)
            pins[body[1]] = version
            reply = bytes([0x81, body[1]]) + struct.pack(">Q", version)
        elif body[0] == 4 and body.endswith(b"!"):
            reply = b"\xe7\3"
        elif body[0] == 4 and version_of(body[1:], IN_PUBLICATION) <= version:
            reply = b"\xe6" + struct.pack(">Q", version)
        elif body[0] == 4:
            version = version_of(body[1:], IN_PUBLICATION)
            reply = b"\x84" + struct.pack(">Q", version)
        elif kind == "dies":
            os.kill(os.getpid(), 9)
        elif kind == "stalls":
            time.sleep(60)
        else:
            time.sleep(0.2 if kind == "slow" else 0)
            reply = (
                bytes([0x80 + body[0], body[1] ^ (kind == "lies")])
                + struct.pack(">QI", pins.get(body[1], 0), os.getpid())
                + body[2:]
            )
        sys.stdout.buffer.write(struct.pack(">I", len(reply)) + reply)
        sys.stdout.buffer.flush()
    return 0


if __name__ == "__main__":
    sys.exit(main(sys.argv[0], sys.argv[2:]))
