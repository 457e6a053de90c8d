#!/usr/bin/env python3
"""Flips bits in the memory of a command while it signs: checks/owner/turned.py PROGRAM

`publish`, `succeed` and `links` are stopped under strace at the last call before they sign. One bit of each copy of the
key's seed in their memory is flipped, and they continue. Such a signature would not be valid, and would help a forger.
Each command must end with status 12, say so, and write nothing; each must succeed when it runs again. Nobody trusts
this script.
"""
import os
import pathlib
import re
import shutil
import signal
import subprocess
import sys
import tempfile
import time

sys.path.insert(0, str(pathlib.Path(__file__).resolve().parents[1]))

from common.desks import KEY_NUMBER  # noqa: E402
from common.looks import StrictLooks  # noqa: E402
from common.maps import THREE  # noqa: E402
from common.runs import Ended, outcome  # noqa: E402

SECRET, NEXT = bytes(range(48)), bytes(range(100, 148))
SEED = SECRET[16:]
CALLS = ("read", "lseek", "fsync")
SECONDS = 60
LOOKS = StrictLooks()
same = LOOKS.same


def traced(program: str, words: str, more: list[str]) -> list[str]:
    return ["strace", "-f", "-o", "trace", "-e", "trace=" + ",".join(CALLS), *more, program, *words.split()]


def last_call(program: str, words: str) -> tuple[str, int]:
    """The last of these calls in a run, and the number of calls of its kind. Restores the desk."""
    desk = pathlib.Path("owner.desk").read_bytes()
    subprocess.run(traced(program, words, []), capture_output=True, check=False, timeout=SECONDS)
    pathlib.Path("owner.desk").write_bytes(desk)
    names = re.findall(r"^\d+ +(\w+)\(", pathlib.Path("trace").read_text(encoding="utf-8", errors="replace"), re.M)
    return names[-1], names.count(names[-1])


def stopped(tracer: int) -> int:
    """The traced program, once it has stopped."""
    end = time.monotonic() + SECONDS
    while time.monotonic() < end:
        for pid in pathlib.Path(f"/proc/{tracer}/task/{tracer}/children").read_text(encoding="ascii").split():
            if re.search(
                r"\) [Tt] ", pathlib.Path(f"/proc/{pid}/stat").read_text(encoding="ascii")
            ) and "stopped by SIGSTOP" in pathlib.Path("trace").read_text(errors="replace"):
                return int(pid)
        time.sleep(0.02)
    sys.exit("the program did not stop")


def turn(pid: int) -> int:
    """Flips a bit of each copy of the seed in the memory of a process. Returns the number of copies."""
    count = 0
    with open(f"/proc/{pid}/mem", "r+b", buffering=0) as memory:
        for line in pathlib.Path(f"/proc/{pid}/maps").read_text(encoding="utf-8").splitlines():
            found = re.match(r"([0-9a-f]+)-([0-9a-f]+) rw", line)
            if not found:
                continue
            start, end = int(found[1], 16), int(found[2], 16)
            memory.seek(start)
            octets = memory.read(end - start)
            at = octets.find(SEED)
            while at >= 0:
                memory.seek(start + at)
                memory.write(bytes([SEED[0] ^ 1]))
                count += 1
                at = octets.find(SEED, at + 1)
    return count


def turned(program: str, words: str) -> Ended:
    """The end of a command whose seed was changed in memory before it signs."""
    call, number = last_call(program, words)
    pathlib.Path("trace").write_bytes(b"")
    more = ["-e", f"inject={call}:signal=SIGSTOP:when={number}"]
    with subprocess.Popen(traced(program, words, more), stdout=subprocess.PIPE, stderr=subprocess.PIPE) as tracer:
        pid = stopped(tracer.pid)
        same(f"{words}: the seed is in its memory", turn(pid) > 0, True)
        os.kill(pid, signal.SIGCONT)
        out, err = tracer.communicate(timeout=SECONDS)
    return tracer.returncode, out, err.decode()


def refused(program: str, words: str) -> None:
    status, out, said = turned(program, words)
    same(f"{words}: status and output, where {said!r} is said", (status, out), (12, b""))
    same(f"{words}: what is said", "a new signature was wrong" in said, True)


def run(program: str, words: str) -> bytes:
    status, told, said = outcome([program, *words.split()], seconds=SECONDS)
    same(f"{words}: status, where {said!r} is said", status, 0)
    return told


def play(program: str) -> None:
    pathlib.Path("map.roads").write_text(THREE, encoding="ascii")
    pathlib.Path("secret").write_text(SECRET.hex(), encoding="ascii")
    pathlib.Path("next").write_text(NEXT.hex(), encoding="ascii")
    pathlib.Path("key").write_bytes(run(program, "key secret h5"))
    publish = "publish map.roads dij 1 id 0 2 0 0 0"
    refused(program, publish)
    publication = run(program, publish)
    same("the one-time key of the publication after it", publication[KEY_NUMBER], bytes([0, 0, 0, 1]))
    refused(program, "succeed next h5")
    refused(program, "links")
    pathlib.Path("chain").write_bytes(run(program, "links"))
    pathlib.Path("later").write_bytes(run(program, publish))
    pathlib.Path("reply").write_bytes(run(program, "prove later 1 3"))
    same("along the chain", run(program, "check key reply 1 3 1 chain"), b"accepted 9: 1 2 3\n")


def main() -> None:
    if shutil.which("strace") is None:
        print("skipped: checks/owner/turned.py, since this machine has no strace")
        return
    program = os.path.abspath(sys.argv[1])
    os.umask(0o077)
    with tempfile.TemporaryDirectory() as folder:
        os.chdir(folder)
        play(program)
        os.chdir("/")
    print(f"bits turned in memory: {LOOKS.played} looks, each as wanted")


if __name__ == "__main__":
    main()
