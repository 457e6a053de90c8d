#!/usr/bin/env python3
"""Writes the road file of a grid of WIDTH by WIDTH nodes: checks/speed/grid.py WIDTH [halves] > FILE

Node ids start at 1 and go by rows. Each node has a road to its right and to its lower neighbour, with lengths from 1 to
1000 from the linear congruential generator in the C standard's example. With `halves` the roads between the two middle
columns are left out, so that no walk joins the left and the right half.
"""
import sys


def main() -> None:
    width, cut = int(sys.argv[1]), sys.argv[2:] == ["halves"]
    state = 0
    print("roads 1")
    for row in range(width):
        for column in range(width):
            print("node", row * width + column + 1, column, row)
    for row in range(width):
        for column in range(width):
            here = row * width + column + 1
            for there, exists in ((here + 1, column + 1 < width), (here + width, row + 1 < width)):
                if exists:
                    state = (state * 1103515245 + 12345) % 2**31
                    if not (cut and there == here + 1 and column + 1 == width // 2):
                        print("road", here, there, 1 + state // 65536 % 1000)


if __name__ == "__main__":
    main()
