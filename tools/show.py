#!/usr/bin/env python3
"""Shows the content of a publication or a reply, in lines: tools/show.py FILE [header|signature]

It writes a line for each field of the header, for the signature, for each node, road, route, leaf and pair, and for the
count of digests. With `header` or `signature` it writes only that part, in hex digits, in the form for `road_proof
reduce`. It reads the formats of docs/SPEC.md, 6, and checks nothing: it shows the content of a file, true or not. No
client trusts this file.
"""
import pathlib
import signal
import sys
from typing import Iterator

from offsets import HEADER, IN_ANSWER, IN_PUBLICATION, METHOD, SIGNATURE
from replies import APART, METHODS, ON_A_RADIUS, PUBLICATION, ROUTE, Octets
from roads import Trouble

TOOL = "show.py"
ORDERS = {0: "id", 1: "breadth", 2: "depth", 3: "hilbert", 4: "kd", 5: "shuffled"}
# the names of the header's two numbers and of a publication's three parameters
NUMBERS = {"LDM": ("step", "landmarks"), "HYP": ("columns", "rows")}
PARAMETERS = {"LDM": ("landmarks", "bits", "threshold"), "HYP": ("columns", "rows", "P3")}
UNPROVED = {
    b"\1": "a reply without a proof: an end is no node",
    b"\2": "a reply without a proof: no route joins the two ends",
}
NO_WALK = 2**64 - 1


class Shown:
    """The octets of a file, and the lines that show them."""

    def __init__(self, octets: bytes, path: str):
        self.it, self.octets, self.path = Octets(octets, path), octets, path
        self.method = "no method"

    def kind(self) -> str:
        """Returns the kind of the file by its first octets, and skips them."""
        front = self.octets[:4]
        for begins, kind in ((PUBLICATION, "a publication"), (ON_A_RADIUS, "a reply on a radius")):
            if front == begins:
                self.it.skip(IN_PUBLICATION)
                return kind
        if self.octets in UNPROVED:
            return UNPROVED[self.octets]
        kinds = {b"\0RPF": f"a reply with {ROUTE}", b"\3RPF": f"a reply that shows {APART}"}
        if front not in kinds:
            raise Trouble(f"{self.path}: neither a publication nor a reply")
        self.it.skip(IN_ANSWER)
        return kinds[front]

    def parted(self) -> tuple[bytes, bytes]:
        """The octets of the header and of the signature, from the given offset on."""
        begins = self.it.at
        self.it.skip(HEADER)
        size = self.it.take("H")
        self.it.skip(size)
        if len(self.octets) < self.it.at:
            raise Trouble(f"{self.path}: it ends within the signature")
        return self.octets[begins : begins + HEADER], self.octets[begins + SIGNATURE : self.it.at]

    def digests(self, what: str) -> Iterator[str]:
        count = self.it.take("I")
        self.it.skip(32 * count)
        if len(self.octets) < self.it.at:
            raise Trouble(f"{self.path}: it ends within a cover")
        yield f"{what} digests {count}"

    def header(self, octets: bytes) -> Iterator[str]:
        it = Octets(octets, self.path)
        it.skip(METHOD)
        method, order, fan, _, version, nodes, root, pairs, pair_root, *numbers = it.take("BBBBQI32sI32sQQ")
        self.method = METHODS.get(method, f"unknown ({method})")
        yield f"method {self.method}"
        yield f"order {ORDERS.get(order, f'unknown ({order})')}"
        yield f"fan-out {fan}"
        yield f"version {version}"
        yield f"nodes {nodes}, root {root.hex()}"
        yield f"pairs {pairs}" + (f", root {pair_root.hex()}" if pairs else "")
        yield from (f"{name} {number}" for name, number in zip(NUMBERS.get(self.method, ()), numbers))

    @staticmethod
    def signature(octets: bytes) -> str:
        slot = f", by one-time key {int.from_bytes(octets[:4], 'big')}" if len(octets) >= 4 else ""
        return f"signature of {len(octets)} octets{slot}"

    def publication(self) -> Iterator[str]:
        seed, *parameters = self.it.take("QQQQ")
        yield f"seed {seed}"
        yield from (
            f"{name} {number}" for name, number in zip(PARAMETERS.get(self.method, ("P1", "P2", "P3")), parameters)
        )
        yield from (f"node {node} at {x} {y}" for node, x, y in (self.it.take("Iii") for _ in range(self.it.take("I"))))
        yield from (
            f"road {a} {b} length {length}" for a, b, length in (self.it.take("III") for _ in range(self.it.take("I")))
        )

    def leaf(self) -> str:
        """A node item: its index and its leaf."""
        index, length = self.it.take("IH")
        ends = self.it.at + length
        _, node, x, y, count = self.it.take("BIiiH")
        arcs = [self.it.take("II") for _ in range(count)]
        told = f"leaf {index}: node {node} at {x} {y}, roads " + (
            ", ".join(f"to {to} length {long}" for to, long in arcs) or "none"
        )
        if self.method == "LDM":
            told += self.codes(ends)
        elif self.method == "HYP":
            cell, border = self.it.take("IB")
            told += f", cell {cell}" + (", border" if border else "")
        if self.it.at != ends:
            raise Trouble(f"{self.path}: the leaf that ends at offset {ends} is not of its kind")
        return told

    def codes(self, ends: int) -> str:
        if self.it.take("B") == 1:
            node, error = self.it.take("IH")
            return f", codes of node {node}, error {error}"
        codes = [self.it.take("H") for _ in range((ends - self.it.at) // 2)]
        return f", codes {' '.join('none' if code == 65_535 else str(code) for code in codes)}"

    def pair(self) -> str:
        index, _, a, b, distance = self.it.take("IBIIQ")
        return f"pair {index}: {a} {b} " + ("no walk" if distance == NO_WALK else f"distance {distance}")

    def reply(self, kind: str) -> Iterator[str]:
        if ROUTE in kind:
            route = [self.it.take("I") for _ in range(self.it.take("I"))]
            yield f"route of {len(route)} nodes: {' '.join(map(str, route))}"
        yield from (self.leaf() for _ in range(self.it.take("I")))
        if "radius" not in kind:
            yield from (self.pair() for _ in range(self.it.take("I")))
        yield from self.digests("node tree:")
        if "radius" not in kind:
            yield from self.digests("pair tree:")

    def lines(self) -> Iterator[str]:
        kind = self.kind()
        yield f"{kind}, {len(self.octets)} octets"
        if self.octets in UNPROVED:
            return
        header, signature = self.parted()
        yield from self.header(header)
        yield self.signature(signature)
        yield from self.publication() if kind == "a publication" else self.reply(kind)
        self.it.end()

    def part(self, name: str) -> str:
        self.kind()
        if self.octets in UNPROVED:
            raise Trouble(f"{self.path}: it has no {name}")
        header, signature = self.parted()
        return (header if name == "header" else signature).hex()


def main() -> int:
    words = sys.argv[1:]
    if len(words) not in (1, 2) or words[1:] not in ([], ["header"], ["signature"]) or words[0].startswith("-"):
        print(f"{TOOL}: type {TOOL} FILE, or {TOOL} FILE header, or {TOOL} FILE signature", file=sys.stderr)
        return 2
    signal.signal(signal.SIGPIPE, signal.SIG_DFL)
    try:
        shown = Shown(pathlib.Path(words[0]).read_bytes(), words[0])
        if words[1:]:
            print(shown.part(words[1]))
        else:
            for line in shown.lines():
                print(line)
    except OSError as error:
        print(f"{TOOL}: {words[0]}: {error.strerror}", file=sys.stderr)
        return 2
    except Trouble as fault:
        sys.stdout.flush()
        print(f"{TOOL}: {fault}", file=sys.stderr)
        return 1
    return 0


if __name__ == "__main__":
    sys.exit(main())
