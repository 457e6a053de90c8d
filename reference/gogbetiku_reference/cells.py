"""Cells, and the borders between them.

docs/SPEC.md, 5.4 HYP: cells and borders. Part of the reference: tested, not proved, and trusted by no client.
"""
from .maps import Map
from .orders import slots


def cells_of(chart: Map, columns: int, rows: int) -> dict[int, int]:
    """The cell of each node."""
    return {node: row * columns + column for node, (column, row) in slots(chart, columns, rows).items()}


def borders_of(chart: Map, cells: dict[int, int]) -> list[int]:
    """The nodes with a road to a node of another cell, by ascending id."""
    return [node for node in chart.places if any(cells[there] != cells[node] for there, _ in chart.arcs[node])]
