#!/usr/bin/env python3
"""Runs a tool and kills it at a counted step: checks/owner/stop_at.py NUMBER TOOL WORD..

A step is a line of a function of the tool, or of a file in its folder, that is about to run. With NUMBER 0 the tool
runs to its end. The file `steps` of the working folder then gets the numbers of the steps before which the folder's
files have changed since the previous step. A kill at any other step leaves the same files as a kill at one of these.
checks/owner/tools.py uses it.
"""
import os
import pathlib
import runpy
import signal
import sys
import types
from typing import Any


def state() -> list[tuple[str, bytes]]:
    return sorted((path.name, path.read_bytes()) for path in pathlib.Path(".").iterdir() if path.is_file())


def main() -> None:
    number, tool = int(sys.argv[1]), os.path.abspath(sys.argv[2])
    folder, sys.argv = os.path.dirname(tool), sys.argv[2:]
    sys.path.insert(0, folder)
    count = 0
    seen: list[tuple[str, bytes]] | None = None
    changed: list[int] = []

    def step(frame: types.FrameType, event: str, _: Any) -> Any:
        nonlocal count, seen
        if os.path.dirname(frame.f_code.co_filename) != folder or frame.f_code.co_name == "<module>":
            return None
        if event == "line":
            count += 1
            if count == number:
                os.kill(os.getpid(), signal.SIGKILL)
            if number == 0 and (now := state()) != seen:
                seen = now
                changed.append(count)
        return step

    sys.settrace(step)
    try:
        runpy.run_path(tool, run_name="__main__")
    finally:
        sys.settrace(None)
        if number == 0:
            pathlib.Path("steps").write_text(" ".join(map(str, [*changed, count])), encoding="ascii")


if __name__ == "__main__":
    main()
