#!/usr/bin/env python3
"""Makes the tile files of this folder, and beside each the text that `flatten` has to print for it.

    samples/make.py [NAME ...]

writes NAME.tile and NAME.txt for each sample, or for those that are named. The texts come from tools/reference_flatten.py, which
takes a few seconds for them all; that of terrain, which has 4096 cells, is for 4096 records.
"""
import os
import sys
import time

HERE = os.path.dirname(os.path.abspath(__file__))
sys.path.insert(0, os.path.join(os.path.dirname(HERE), "tools"))

from reference_flatten import Tile, text_of, write_tile  # noqa: E402


class Random:
    """A small generator, so that the samples come out the same everywhere."""

    def __init__(self, seed):
        self.state = seed

    def below(self, n):
        self.state = (self.state * 6364136223846793005 + 1442695040888963407) % 2 ** 64
        return (self.state >> 33) % n

    def noise(self, most):
        """From -most to most, small more often than large."""
        return self.below(most + 1) - self.below(most + 1)


def tile_of(letter, top, grid, tie, trust):
    """A tile of a grid of readings, which are brought into 0..top; all ties weigh the same, and trust(row, column) is the class
    of a cell."""
    rows, columns = len(grid), len(grid[0])
    places = [(i, j) for i in range(rows) for j in range(columns)]
    cells = [(max(0, min(top, grid[i][j])), trust(i, j)) for i, j in places]
    ties = [(tie if j + 1 < columns else 0, tie if i + 1 < rows else 0) for i, j in places]
    return Tile(letter, rows, columns, top, cells, ties)


def two_cells():
    # Two cells at 0 and 10, tied by 6, with squared prices: the tie pulls them toward each other, to 3 and 7.
    return Tile("Q", 1, 2, 10, [(0, 1), (10, 1)], [(6, 0), (0, 0)])


def low_wall():
    # Ground at 10 with a unit of noise, and a wall from top to bottom, two cells wide and five high. A surveyor sees the wall
    # stand, with straight sides, and the ground beside it level but for a few cells.
    rng = Random(10)
    grid = [[10 + rng.noise(1) + (5 if j in (9, 10) else 0) for j in range(20)] for _ in range(16)]
    return tile_of("A", 31, grid, 4, lambda i, j: 3)


def roof_edge():
    # A roof that rises to its edge at the middle of the tile, and ground far below that falls away: two sloping planes with a
    # step between them. A surveyor sees the step where it was, and the slopes in steps of their own.
    rng = Random(20)
    grid = [[(60 + j // 2 if j < 12 else 30 - (j + i) // 4) + rng.noise(2) for j in range(24)] for i in range(20)]
    return tile_of("Q", 127, grid, 9, lambda i, j: 2)


def lake():
    # Ground that rises to the right, and a lake in the middle, whose readings (0 and the top, from light that the water throws
    # back) are worth nothing: their class is 0. A surveyor sees the lake filled from its shore.
    rng = Random(30)

    def is_lake(i, j):
        return (2 * i - 19) ** 2 + (2 * j - 23) ** 2 < 130

    grid = [[63 * rng.below(2) if is_lake(i, j) else 20 + j // 2 + rng.noise(1) for j in range(24)] for i in range(20)]
    return tile_of("A", 63, grid, 5, lambda i, j: 0 if is_lake(i, j) else 3)


def terrain():
    # Smooth hills with noise, and a tree here and there that sticks up, under prices that are low below the reading and four
    # times as high above it. A surveyor sees the hills without the trees, and level ground smooth.
    rng = Random(40)
    hills = [(rng.below(64), rng.below(64), 8 + rng.below(16), 40 + rng.below(80)) for _ in range(9)]

    def ground(i, j):
        # each hill is a bump h * r^4 / (r^2 + d^2)^2 at the distance d from its middle, in whole numbers
        return 20 + sum(h * r ** 4 // (r * r + (i - a) ** 2 + (j - b) ** 2) ** 2 for a, b, r, h in hills)

    def above():
        return 10 + rng.below(30) if rng.below(25) == 0 else 0

    grid = [[ground(i, j) + rng.noise(3) + above() for j in range(64)] for i in range(64)]
    return tile_of("L", 255, grid, 3, lambda i, j: 2)


SAMPLES = {"two_cells": two_cells, "low_wall": low_wall, "roof_edge": roof_edge, "lake": lake, "terrain": terrain}
RECORDS = {"terrain": 4096}


def write(name, ending, data):
    with open(os.path.join(HERE, name + ending), "wb") as it:
        it.write(data)


def main():
    names = sys.argv[1:] or list(SAMPLES)
    if not set(names) <= set(SAMPLES):
        sys.exit(f"the samples are {', '.join(SAMPLES)}")
    for name in names:
        begun = time.monotonic()
        file = write_tile(SAMPLES[name]())
        text = text_of(file, RECORDS.get(name, 1024))
        write(name, ".tile", file)
        write(name, ".txt", text.encode())
        print(f"{name}: {text.splitlines()[0]} ({time.monotonic() - begun:.1f} s)", flush=True)


if __name__ == "__main__":
    main()
