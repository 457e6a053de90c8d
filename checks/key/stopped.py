#!/usr/bin/env python3
"""Kills `key` at random moments, and examines the file that it left: checks/key/stopped.py PROGRAM [TIMES]

Each time a new folder gets a random secret, and `key` is killed after a random delay. Then `owner.desk`, read by the
format in docs/SPEC.md, must have a closed gate, or the block of the secret and no spent slot. Finally `key` runs again.
If the gate was closed, it must make the key. If it was open, it must refuse with status 12 and leave the file
unchanged.
"""
import os
import random
import subprocess
import sys
import tempfile
import time
from pathlib import Path

sys.path.insert(0, str(Path(__file__).resolve().parents[1]))

from common import layout  # noqa: E402
from common.desks import BLOCK, slot_at, texts_of  # noqa: E402

SLOTS = {"h5": 32, "h10": 1024}
TYPES = {"h5": 5, "h10": 6}


def is_open(image: bytes) -> bool:
    return len(image) >= BLOCK and image[0] != 0


def is_whole(image: bytes, secret: bytes, kind: str) -> bool:
    """Tests that the block is the secret's, that the file has all slots, and that none is spent."""
    block = TYPES[kind].to_bytes(4, "big") + secret
    return (
        len(image) == slot_at(SLOTS[kind])
        and image[layout.KIND : layout.SPARE] == block
        and not texts_of(image, SLOTS[kind])
    )


def read_desk(folder: str) -> bytes:
    try:
        with open(f"{folder}/owner.desk", "rb") as file:
            return file.read()
    except FileNotFoundError:
        return b""


def main() -> None:
    program = os.path.abspath(sys.argv[1])
    times = int(sys.argv[2]) if len(sys.argv) > 2 else 100
    opened = 0
    for number in range(times):
        kind = "h5"
        secret = os.urandom(48)
        with tempfile.TemporaryDirectory() as folder:
            with open(f"{folder}/secret", "w", encoding="ascii") as file:
                file.write(secret.hex() + "\n")
            words = [program, "key", "secret", kind]
            first = subprocess.Popen(words, cwd=folder, stdout=subprocess.PIPE, stderr=subprocess.PIPE)
            time.sleep(random.random() * 0.2)
            first.kill()
            first.communicate()
            image = read_desk(folder)
            assert not is_open(image) or is_whole(image, secret, kind), (number, image[:64].hex())
            again = subprocess.run(words, cwd=folder, capture_output=True, text=True, check=False)
            if is_open(image):
                opened += 1
                assert again.returncode == 12 and again.stdout == "", again
                assert read_desk(folder) == image
            else:
                assert again.returncode == 0 and len(again.stdout) == 113, again
                assert is_whole(read_desk(folder), secret, kind)
                assert again.stdout.startswith("0000000500000004" + secret[:16].hex())
    print(f"{times} times stopped: {opened} with the whole key, {times - opened} with none")


if __name__ == "__main__":
    main()
