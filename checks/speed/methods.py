#!/usr/bin/env python3
"""Measures the commands of all four parties under one method: checks/speed/methods.py PROGRAM ROADS "METHOD ORDER FAN
P1 P2 P3" S T [S T ..]

Makes a key in a new folder, publishes the road file's map, and proves, checks and audits each query. Prints for each
command the least CPU time of three runs, the peak memory, and the octets that it wrote. Each command must end with
status 0. No client trusts it.
"""
import os
import sys
import tempfile
from typing import Iterator, NamedTuple

from measure import Cost, cost, megabytes, owner, pairs_of, pin, publishing

RUNS = 3


class Asked(NamedTuple):
    """The cost of a query, and the client's line."""

    prove: Cost
    check: Cost
    audit: Cost
    line: str


def published(program: str, roads: str, settings: str, runs: int) -> Cost:
    """The cost of publishing a map as map.pub in the working folder of an owner."""
    return cost(publishing(program, roads, settings), "map.pub", runs)


def asked(program: str, start: int, end: int, runs: int) -> Asked:
    query = [str(start), str(end)]
    prove = cost([program, "prove", "map.pub", *query], "reply", runs)
    check = cost([program, "check", "owner.key", "reply", *query, "1"], "line", runs)
    audit = cost([program, "audit", "owner.key", "map.pub", "reply", *query], "finding", runs)
    with open("line", encoding="ascii") as file:
        return Asked(prove, check, audit, file.read())


def lines(program: str, roads: str, settings: str, ends: list[int]) -> Iterator[tuple[str, Cost]]:
    yield "publish " + settings, published(program, roads, settings, RUNS)
    for start, end in zip(ends[::2], ends[1::2]):
        found = asked(program, start, end, RUNS)
        for what, cost_of in (("prove", found.prove), ("check", found.check), ("audit", found.audit)):
            yield f"{what} {start} {end}", cost_of


def main() -> None:
    program, roads = os.path.abspath(sys.argv[1]), os.path.abspath(sys.argv[2])
    pin()
    with tempfile.TemporaryDirectory() as folder:
        owner(program, folder)
        for what, found in lines(program, roads, sys.argv[3], [int(word) for word in sys.argv[4:]]):
            print(
                f"{what:34} {found.seconds:8.3f} s  {megabytes(found.memory):>8}  {found.octets:10} octets", flush=True
            )
        print(f"{pairs_of('map.pub')} pairs")


if __name__ == "__main__":
    main()
