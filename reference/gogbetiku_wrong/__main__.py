"""Lists the ways to be wrong, or runs a command of the reference with one: `python3 -m gogbetiku_wrong [NUMBER COMMAND ..]`.

Tested, not proved; no client trusts it.
"""
import sys

from gogbetiku_reference import __main__ as commands

from . import WRONG, switched


def main(words: list[str]) -> int:
    if not words:
        for number, way in enumerate(WRONG):
            print(number, way.name() + (f" (no octets show it: {way.unseen})" if way.unseen else ""))
        return 0
    way = WRONG[int(words[0])]
    with switched(way.module, way.code()):
        sys.argv[1:] = words[1:]
        return commands.main()


if __name__ == "__main__":
    sys.exit(main(sys.argv[1:]))
