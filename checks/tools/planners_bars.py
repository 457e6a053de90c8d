"""Measures tables for checks/tools/planners.py --bars: a street map of 65,536 nodes, one gateway.

Every length must be networkx's. The script prints the time of each table, the CPU time of all processes (the machine
may have other work), and the octets compared with those of the exact radii. All started processes get the priority of
this script's session. No client trusts this file.
"""
from __future__ import annotations

import os
import pathlib
import random
import resource
import subprocess
import sys
import tempfile
import time
from typing import Any

TOP = pathlib.Path(__file__).resolve().parents[2]
# the limits: the seconds of the whole table, and the octets of the near one as a multiple of those of the exact radii
SECONDS, TIMES = 20.0, 4


def spent(pids: list[int]) -> float:
    """The CPU seconds of ended and running children, with their children."""
    ticks = os.sysconf("SC_CLK_TCK")
    ended = resource.getrusage(resource.RUSAGE_CHILDREN)
    total = ended.ru_utime + ended.ru_stime
    for pid in pids:
        for task in [pid, *children_of(pid)]:
            fields = pathlib.Path(f"/proc/{task}/stat").read_text().rpartition(")")[2].split()
            total += (int(fields[11]) + int(fields[12])) / ticks
    return total


def children_of(pid: int) -> list[int]:
    found = pathlib.Path(f"/proc/{pid}/task/{pid}/children").read_text().split()
    return [int(one) for one in found]


def bars(program: str) -> int:
    from parties import Gateway, Owner, pass_priority_on
    from planners import STREETS, Map, Place

    pass_priority_on()
    text = subprocess.run([sys.executable, STREETS, "65536"], capture_output=True, check=True).stdout
    owner, town = Owner(program, text), Map(text.decode())
    owner.keep("map.roads", text)
    gateway = Gateway(owner, owner.publish(1, "ldm"), "--serves", "3", "--asks-by-address", "64")
    print(
        f"bars: {town.graph.number_of_nodes():,} nodes, {town.graph.number_of_edges():,} roads; load {os.getloadavg()[0]:.1f}",
        flush=True,
    )
    draw, nodes = random.Random(7), sorted(town.graph)
    with tempfile.TemporaryDirectory() as folder:
        it = Place(owner, pathlib.Path(folder))
        try:
            whole = draw.sample(nodes, 1100)
            ok = table(it, town, gateway, "100 by 1,000 over the whole map", whole[:100], whole[100:])
            near = near_ones(town, draw, nodes)
            exact = sum(
                len(
                    gateway.place.ask(
                        f"/v1/p/{gateway.newest()}/reach?from={source}&radius={max(town.near(source, 4_000)[target] for target in near[1])}"
                    )[2]
                )
                for source in near[0]
            )
            ok &= table(it, town, gateway, "100 by 10 within 1,000", *near, exact)
        finally:
            gateway.end()
            owner.held.cleanup()
    return 0 if ok else 1


def near_ones(town: Any, draw: random.Random, nodes: list[int]) -> tuple[list[int], list[int]]:
    """A hundred sources within 1,000 of a node, and ten targets within 500 of it."""
    while True:
        middle = draw.choice(nodes)
        targets, sources = (sorted(town.near(middle, radius)) for radius in (500, 1_000))
        if len(targets) >= 10 and len(sources) >= 110:
            chosen = draw.sample(targets, 10)
            return draw.sample([node for node in sources if node not in chosen], 100), chosen


def table(it: Any, town: Any, gateway: Any, what: str, sources: list[int], targets: list[int], exact: int = 0) -> bool:
    it.keep("sources", sources)
    it.keep("targets", targets)
    before, began = spent([gateway.process.pid]), time.monotonic()
    from planners import cells_of

    status, wrote, said = it.run("table.py", gateway.address, "sources", "targets", "--unit", "plane")
    took, used = time.monotonic() - began, spent([gateway.process.pid]) - before
    wrong = [pair for pair, cell in cells_of(wrote).items() if cell != str(town.lengths(pair[0]).get(pair[1], "none"))]
    print(
        f"bars: {what}: {took:.1f} s, {used:.1f} s of processors (a quarter is {used / 4:.1f} s), {len(cells_of(wrote)):,} cells, {len(wrong)} wrong; {said.strip()}",
        flush=True,
    )
    octets = int(said.rpartition(" octets;")[0].rpartition(" ")[2].replace(",", "")) if exact else 0
    if exact:
        print(
            f"bars: {what}: {octets:,} octets, {octets / exact:.2f} times the {exact:,} of the exact radii", flush=True
        )
    is_within = octets <= TIMES * exact if exact else took <= SECONDS
    print(f"bars: {what}: {'held' if is_within else 'NOT HELD'}", flush=True)
    return status == 0 and not wrong and len(cells_of(wrote)) == len(sources) * len(targets) and is_within
