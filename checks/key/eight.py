#!/usr/bin/env python3
"""Starts eight `publish` at once in one folder: checks/key/eight.py PROGRAM [TIMES]

Each time a new folder gets a random secret, a key and a map of five nodes. Then eight processes publish the map at
once, each with its own version. Each must end with status 0 and a publication, or with status 7 and no output, and say
that another process is using the desk. No two publications may use the same slot. `owner.desk` must have as many spent
slots as there are publications, each with the header of one of them.
"""
import os
import subprocess
import sys
import tempfile
from pathlib import Path

sys.path.insert(0, str(Path(__file__).resolve().parents[1]))

from common.desks import Desk, key_number, texts_of  # noqa: E402
from common.maps import FIVE  # noqa: E402

PROCESSES = 8


def publish_all(program: str, folder: str) -> list[tuple[tuple[bytes, bytes], int]]:
    """Starts all eight `publish` before waiting for the first. Returns the output and the end of each."""
    started = [
        subprocess.Popen(
            [program, "publish", "map.roads", "dij", str(version), "id", "0", "2", "0", "0", "0"],
            cwd=folder,
            stdout=subprocess.PIPE,
            stderr=subprocess.PIPE,
        )
        for version in range(1, PROCESSES + 1)
    ]
    return [(process.communicate(), process.returncode) for process in started]


def main() -> None:
    program = os.path.abspath(sys.argv[1])
    times = int(sys.argv[2]) if len(sys.argv) > 2 else 20
    published = refused = 0
    for number in range(times):
        with tempfile.TemporaryDirectory() as folder:
            Path(folder, "map.roads").write_text(FIVE, encoding="ascii")
            desk = Desk(program, folder)
            desk.make_key(secret=os.urandom(48).hex() + "\n")
            mode = os.stat(f"{folder}/owner.desk").st_mode & 0o777
            assert mode == 0o600, oct(mode)
            slots: list[int] = []
            for (out, err), status in publish_all(program, folder):
                if status == 0:
                    slots.append(key_number(out))
                else:
                    assert status == 7 and out == b"" and b"nother process" in err, (number, status, err)
                    refused += 1
            assert slots and len(set(slots)) == len(slots), (number, slots)
            assert set(texts_of(desk.image())) == set(slots), (number, slots)
            published += len(slots)
    print(f"{times} times eight at once: {published} published, each with a slot of its own, {refused} refused")


if __name__ == "__main__":
    main()
