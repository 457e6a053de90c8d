#!/usr/bin/env python3
"""Measures what a client needs to refuse or accept long replies: checks/files/long_replies.py PROGRAM [MEGABYTES]

Seven replies of MEGABYTES MB (75 if not given) begin with the signed front of a true answer. They continue with node
items without arcs, with 255 arcs each, or with a code each; with pair items; with a cover of the node tree or of the
pair tree; or with node items and one octet too many. `check` must refuse each with status 1, within three CPU seconds,
and with at most 0.3 GB of memory for 75 MB. The script prints the cost for each reply.

Then come true answers from one end of a map to the other, under each method, and for the greatest radius. The maps are
lines, nets and hubs; their ids have no gaps, have gaps, or form clusters. `check` and `check-reach` may use at most
three octets of memory for each octet of the reply, in addition to the memory for a reply of two nodes. Each figure is
the least of five runs, or of up to 25 runs while it is too high. Without GNU time this part is skipped.

Ends with status 1 if anything differs. No client trusts it.
"""
import os
import struct
import sys
import tempfile
from collections.abc import Callable, Iterable, Iterator, Sequence
from typing import NamedTuple

CHECKS = os.path.dirname(os.path.dirname(os.path.abspath(__file__)))
sys.path[:0] = [f"{CHECKS}/files", f"{CHECKS}/speed", CHECKS]
from common import layout  # noqa: E402
from common.desks import ZEROS  # noqa: E402
from hostile import MB, ROADS, Play  # noqa: E402
from measure import GNU_TIME, memory_of, run  # noqa: E402

NODES, ACROSS = 65536, 256
# the most nodes that FULL takes, and the number of following nodes to which each has a road
FEW, ROADS_OF_EACH = 1024, 127
# the system places a program's pages differently in each run
RUNS = 5
# two nodes and a length
Road = tuple[int, int, int]


def front_of(reply: bytes) -> bytes:
    """The front of a reply with a route: kind, header, signature and route."""
    behind = layout.behind(reply, layout.IN_ANSWER)
    return reply[: behind + 4 + 4 * struct.unpack_from(">I", reply, behind)[0]]


def counted(rows: Sequence[bytes]) -> bytes:
    return struct.pack(">I", len(rows)) + b"".join(rows)


def node_items(size: int, degree: int = 0, extra: bytes = b"") -> list[bytes]:
    """Node items with this many octets in total, at rising places."""
    arcs = b"".join(struct.pack(">II", 1 + to, 7) for to in range(degree))
    back = struct.pack(">ii", 1, 2) + struct.pack(">H", degree) + arcs + extra
    length = 5 + len(back)
    return [struct.pack(">IHcI", place, length, b"N", 1000 + place) + back for place in range(size // (6 + length))]


def pair_items(size: int) -> list[bytes]:
    return [struct.pack(">IcIIQ", place, b"P", 1, 2 + place, 7) for place in range(size // 21)]


def replies(fronts: dict[str, bytes], size: int) -> Iterator[tuple[str, bytes]]:
    """Each reply with a description, one at a time."""
    plain, none = fronts["dij"], counted([])
    yield "node items without arcs", plain + counted(node_items(size)) + 3 * none
    yield "node items with 255 arcs", plain + counted(node_items(size, 255)) + 3 * none
    yield "node items with a code", fronts["ldm"] + counted(node_items(size, 0, b"\x00\x00\x01")) + 3 * none
    yield "pair items", plain + none + counted(pair_items(size)) + 2 * none
    digests = counted((size // 32) * [bytes(32)])
    yield "a cover of the node tree", plain + 2 * none + digests + none
    yield "a cover of the pair tree", plain + 3 * none + digests
    yield "an octet behind node items", plain + counted(node_items(size)) + 3 * none + b"\0"


class Atlas(NamedTuple):
    """A map with this many nodes in rows of 256: its roads as pairs of nodes with a length, and the id of each node."""

    roads: Callable[[], Iterable[Road]]
    nodes: int = NODES
    id_of: Callable[[int], int] = int

    def lines(self) -> Iterator[str]:
        yield "roads 1\n"
        for node in range(1, self.nodes + 1):
            yield f"node {self.id_of(node)} {node % ACROSS} {node // ACROSS}\n"
        for start, end, length in self.roads():
            yield f"road {self.id_of(start)} {self.id_of(end)} {length}\n"


def with_gaps(node: int) -> int:
    """Ids with gaps of several widths."""
    return 7 * node + node * node % 5


def in_clusters(node: int) -> int:
    """Clustered ids: with as many spans of one width as nodes, every fifth span has five ids and must be divided again."""
    return node // 5 * 5 * 8192 + node % 5 * 1000 + 1


def steps(
    *widths: int, nodes: int = NODES, length: Callable[[int], int] = lambda step: 6 + step
) -> Callable[[], Iterator[Road]]:
    """Roads from each node to the nodes that follow it at these distances."""
    return lambda: ((node, node + step, length(step)) for step in widths for node in range(1, nodes + 1 - step))


def hubs() -> Iterator[Road]:
    """Roads from the first node to 255 others, and from each of these to 254 of its own."""
    for hub in range(2, 257):
        yield 1, hub, 7
        yield from ((hub, 257 + 254 * (hub - 2) + at, 7) for at in range(254))


LINE, NET = Atlas(steps(1)), Atlas(steps(1, ACROSS - 1, ACROSS, ACROSS + 1))
APART = Atlas(steps(1), id_of=with_gaps)
HUBS = Atlas(hubs, 1 + 255 * 255, in_clusters)
# the length of a street, one for each node, and the length of roads that no route takes
DENSE = Atlas(steps(*range(1, ROADS_OF_EACH + 1), nodes=FEW, length=lambda step: 7 if step == 1 else 9_000_000), FEW)
# the most octets of memory for each octet of a reply
MOST = 3
# the query, the map, and the method with its settings
ASKED = (
    ("a route over a line", LINE, "dij 1 id 0 2 0 0 0"),
    ("a route over a line of ids with gaps", APART, "dij 1 id 0 2 0 0 0"),
    ("a route over a net", NET, "dij 1 id 0 2 0 0 0"),
    ("a route of FULL", DENSE, "full 1 id 0 2 0 0 0"),
    ("a route of HYP over a net in four cells", NET, "hyp 1 hilbert 0 2 2 2 0"),
    ("a route of HYP over a net in three cells", NET, "hyp 1 hilbert 0 2 1 3 0"),
    ("a route of LDM over a line, of one landmark", LINE, "ldm 1 id 0 2 1 12 0"),
    ("a route of LDM over a line, of eight landmarks", LINE, "ldm 1 id 0 2 8 12 0"),
    ("a route of LDM over a line, of 16 landmarks", LINE, "ldm 1 id 0 2 16 12 0"),
    ("a route of LDM over a net", NET, "ldm 1 id 0 2 8 12 0"),
    ("a radius over a line", LINE, "dij 1 id 0 2 0 0 0"),
    ("a radius over a line of ids with gaps", APART, "dij 1 id 0 2 0 0 0"),
    ("a radius over a net", NET, "dij 1 id 0 2 0 0 0"),
    ("a radius over hubs with ids in clusters", HUBS, "dij 1 id 0 2 0 0 0"),
    ("a radius of LDM over hubs, of one landmark", HUBS, "ldm 1 id 0 2 1 12 0"),
    ("a radius of HYP over a line of ids with gaps", APART, "hyp 1 hilbert 0 2 2 2 0"),
)


def memory_for(program: str, ask: Sequence[str], reply: str) -> float:
    """The memory, in octets, of one check of the reply to the query in the words after the publication."""
    command = "check-reach" if ask[0] == "reach" else "check"
    return (memory_of([program, command, "owner.key", reply, *ask[1:], "0"], "verdict") or 0) * MB


def octets_for_each(program: str, asks: Sequence[Sequence[str]], size: int) -> float:
    """The memory that the second reply needs beyond the first, for each of its octets. Each figure is the least of RUNS
    runs, or of up to five times as many while it is too high."""
    least = [float("inf")] * 2
    for run_number in range(5 * RUNS):
        if run_number >= RUNS and least[1] - least[0] <= MOST * size:
            break
        least = [min(was, memory_for(program, ask, f"{at}.reply")) for at, (was, ask) in enumerate(zip(least, asks))]
    return (least[1] - least[0]) / size


def true_answers(program: str) -> int:
    """Prints the octets of memory for each octet of each true answer. Returns the number of answers that need too many."""
    wrong = 0
    run([program, "key", "secret", "h5"], "owner.key", silent=True)
    with open("owner.desk", "rb") as file:
        desk = file.read()
    for what, atlas, plan in ASKED:
        with open("owner.desk", "wb") as file:
            file.write(desk)
        with open("a.roads", "w", encoding="ascii") as file:
            file.writelines(atlas.lines())
        run([program, "publish", "a.roads", *plan.split()], "a.pub", silent=True)
        first, second, last = (str(atlas.id_of(node)) for node in (1, 2, atlas.nodes))
        if "radius" in what:
            asks = [("reach", first, "1"), ("reach", first, str(1 << 40))]
        else:
            asks = [("prove", first, second), ("prove", first, last)]
        for at, ask in enumerate(asks):
            run([program, ask[0], "a.pub", *ask[1:]], f"{at}.reply", silent=True)
        size = os.path.getsize("1.reply")
        each = octets_for_each(program, asks, size)
        wrong += each > MOST
        print(
            f"{'ok     ' if each <= MOST else 'DIFFERS'} {what}: {each:.2f} octets for each of {size / MB:.1f} MB",
            flush=True,
        )
    return wrong


def main() -> None:
    program = os.path.abspath(sys.argv[1])
    size = (int(sys.argv[2]) if len(sys.argv) > 2 else 75) * MB
    with tempfile.TemporaryDirectory() as folder:
        play = Play(sys.argv[1], folder)
        play.write("a.roads", ROADS)
        play.write("secret", ZEROS.encode())
        play.must("owner.key", "key", "secret", "h5")
        fronts = {}
        for method, plan in (("dij", "0 0 0"), ("ldm", "1 8 0")):
            play.must("a.pub", *f"publish a.roads {method} 1 id 0 2 {plan}".split())
            fronts[method] = front_of(play.must("a.reply", "prove", "a.pub", "1", "3"))
        wrong = 0
        for what, octets in replies(fronts, size):
            play.write("long", octets)
            ended, seconds, memory = play.run("check owner.key long 1 3 0".split())
            good = ended == 1 and seconds <= 3 and memory <= 4 * len(octets)
            wrong += not good
            print(
                f"{'ok     ' if good else 'DIFFERS'} {what}: status {ended}, {seconds:.2f} s, {memory / MB:.0f} MB for {len(octets) / MB:.0f} MB",
                flush=True,
            )
        if os.path.exists(GNU_TIME):
            os.chdir(folder)
            os.remove("owner.desk")
            wrong += true_answers(program)
        else:
            print("skipped: the memory of true answers, since this machine has no GNU time")
        sys.exit(1 if wrong else 0)


if __name__ == "__main__":
    main()
