"""Writes the vectors into a folder: `python3 -m gogbetiku_vectors FOLDER`, from the folder reference; with --same it
compares them with what stands there instead, and leaves out the families that take a minute.

Tested, not proved; no client trusts it.
"""
import pathlib
import sys

from .files import differences, write_all


def main(words: list[str]) -> int:
    folder = pathlib.Path(words[0])
    if "--same" not in words:
        write_all(folder)
        return 0
    found = differences(folder)
    for line in found:
        print(line)
    print(f"vectors: {len(found)} differ" if found else "vectors: made again they are the same octets")
    return 1 if found else 0


if __name__ == "__main__":
    sys.exit(main(sys.argv[1:]))
