"""The commands over real files: `python3 -m gogbetiku_reference COMMAND ..`, as docs/COMMANDS.md says.

The owner's disk is `owner.desk` of the working folder. No lock guards it and no sync, so keep no key there that is to
protect anything. Part of the reference: tested, not proved, and trusted by no client.
"""
import pathlib
import sys

from .commands import FORMS, World, run
from .faults import Fault

DISK = pathlib.Path("owner.desk")


def load(name: str) -> bytes:
    try:
        return pathlib.Path(name).read_bytes()
    except OSError:
        raise Fault("Missing", name) from None


def main() -> int:
    words = sys.argv[1:]
    if words == ["help"]:
        print(__doc__.split("\n")[0], *FORMS, sep="\n    ")
        return 0
    disk = DISK.read_bytes() if DISK.exists() else b""
    source = sys.stdin.buffer.read() if words[:1] == ["serve"] else b""
    ended = run(words, World(load, disk, source))
    if ended.disk != disk:
        DISK.write_bytes(ended.disk)
    sys.stdout.buffer.write(ended.output)
    if ended.fault is not None:
        print(f"{' '.join(words[:1])}: {ended.fault}", file=sys.stderr)
    return ended.status


if __name__ == "__main__":
    sys.exit(main())
