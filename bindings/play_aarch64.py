#!/usr/bin/env python3
"""Compares the library for aarch64 with the program: bindings/play_aarch64.py PROGRAM

It builds the example in C over out/aarch64/libroute_check_c.a, which `bindings/archive aarch64-unknown-linux-gnu`
makes. Under qemu it compares the example's verdicts on right and wrong replies, under the four methods, with PROGRAM's
`check`. Ends with status 1 if anything differs. Nobody trusts this file."""

import pathlib
import shutil
import subprocess
import sys
import tempfile

HERE = pathlib.Path(__file__).resolve().parent
METHODS = {"dij": "3 id 0 2 0 0 0", "full": "4 kd 0 2 0 0 0", "ldm": "5 id 0 2 1 2 0", "hyp": "6 hilbert 0 2 3 1 0"}


def main(program: str) -> int:
    program, differ = str(pathlib.Path(program).resolve()), 0
    with tempfile.TemporaryDirectory() as name:
        folder = pathlib.Path(name)

        def run(*words: object) -> tuple[int, bytes]:
            done = subprocess.run([*map(str, words)], cwd=folder, capture_output=True, check=False)
            return done.returncode, done.stdout

        def keep(file: str, command: str) -> None:
            (folder / file).write_bytes(run(program, *command.split())[1])

        subprocess.run([HERE / "build", folder, "aarch64"], check=True)
        words = [
            "-std=c99",
            "-O2",
            "-static",
            "-I",
            str(HERE),
            str(HERE / "example.c"),
            "libgogbetiku.a",
            "-o",
            "example",
        ]
        subprocess.run(["aarch64-linux-gnu-gcc", *words], cwd=folder, check=True)
        shutil.copy(HERE.parent / "crates/road_proof/data/m1.roads", folder)
        (folder / "secret.hex").write_text("00" * 48)
        keep("owner.key", "key secret.hex h5")
        for method, settings in METHODS.items():
            keep("m1.pub", f"publish m1.roads {method} {settings}")
            for end in (3, 5):
                keep("m1.reply", f"prove m1.pub 1 {end}")
                turned = bytearray((folder / "m1.reply").read_bytes())
                turned[-40] ^= 1
                (folder / "turned.reply").write_bytes(turned)
                for ask in (f"m1.reply 1 {end} 3", "m1.reply 1 2 3", f"m1.reply 1 {end} 9", f"turned.reply 1 {end} 3"):
                    by_library = run("qemu-aarch64", "./example", "owner.key", *ask.split())
                    by_program = run(program, "check", "owner.key", *ask.split())
                    if by_library != by_program:
                        print(f"{method} {ask}: {by_library}, and not {by_program}")
                        differ += 1
    print(f"aarch64: {differ} differ" if differ else "aarch64: the library agrees with the program")
    return 1 if differ else 0


if __name__ == "__main__":
    if len(sys.argv) != 2:
        print("bindings/play_aarch64.py: name the program: bindings/play_aarch64.py PROGRAM", file=sys.stderr)
        sys.exit(2)
    sys.exit(main(sys.argv[1]))
