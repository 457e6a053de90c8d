#!/usr/bin/python3
"""The work of `route`, done by networkx: checks/speed/by_networkx.py FILE FROM TO. Nobody trusts it."""
import sys

import networkx


def main() -> None:
    path, start, end = sys.argv[1], int(sys.argv[2]), int(sys.argv[3])
    graph = networkx.MultiGraph()
    with open(path, encoding="ascii") as file:
        for line in file:
            words = line.split()
            if words[0] == "node":
                graph.add_node(int(words[1]))
            elif words[0] == "road":
                graph.add_edge(int(words[1]), int(words[2]), length=int(words[3]))
    length, route = networkx.single_source_dijkstra(graph, start, end, weight="length")
    print(f"{length}: {' '.join(map(str, route))}")


if __name__ == "__main__":
    main()
