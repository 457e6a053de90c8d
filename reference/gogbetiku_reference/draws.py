"""Pseudo-random numbers, and grids with pseudo-random lengths.

docs/SPEC.md, 10.1 The survey. Part of the reference: tested, not proved, and trusted by no client.
"""
from .maps import Parts


class Draw:
    """Numbers from 0 to 32,767, which depend only on the seed."""

    def __init__(self, seed: int):
        self.state = seed % 2**31

    def next(self) -> int:
        self.state = (self.state * 1103515245 + 12345) % 2**31
        return self.state // 65536


def grid(width: int, seed: int) -> Parts:
    """The square grid of this width."""
    nodes, roads, draw = [], [], Draw(seed)
    for node in range(1, width * width + 1):
        row, column = divmod(node - 1, width)
        nodes.append((node, column, row))
        if column + 1 < width:
            roads.append((node, node + 1, 1 + draw.next() % 1000))
        if row + 1 < width:
            roads.append((node, node + width, 1 + draw.next() % 1000))
    return Parts(tuple(nodes), tuple(roads))
