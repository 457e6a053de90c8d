"""Checks the reply in a file to the query for a shortest route. Prints the route and its places, or that no route
exists, or the refusal.
Usage: example.py KEY REPLY FROM TO LEAST [CHAIN], where KEY has the public key in hex."""

import sys
from pathlib import Path

from gogbetiku import Client, NoRoute, Refused


def main(words: list[str]) -> int:
    if len(words) not in (5, 6):
        print(__doc__, file=sys.stderr)
        return 2
    key, reply, start, end, least, *chain = words
    client = Client.from_file(key, *chain)
    try:
        found = client.check_route(Path(reply).read_bytes(), int(start), int(end), int(least))
    except Refused as refusal:
        print(refusal.line or f"refused {refusal.kind}")
        print(refusal, file=sys.stderr)
        return 1
    if isinstance(found, NoRoute):
        print("accepted none")
        return 0
    print(f"accepted {found.length}:", *found.ids)
    print(*(f"{node.id} {node.x} {node.y}" for node in found.nodes), sep="\n", file=sys.stderr)
    return 0


if __name__ == "__main__":
    sys.exit(main(sys.argv[1:]))
