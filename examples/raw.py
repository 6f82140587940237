"""Makes examples/raw.csv, a raw map of known plumes: a line is a row, in whole ppm m, `nan` where a pixel is lost.

use: raw.py > raw.csv
"""
import math
import random

ROWS, COLS = 60, 90
#: col and row of the middle, size in pixels, height in ppm m; the last one is near the lost pixel
PLUMES = ((20, 18, 2.4, 300), (66, 16, 3.2, 240), (38, 42, 2.1, 420), (70, 44, 3.0, 350))
#: row and col
LOST = (50, 80)
GROUND, NOISE = 60, 12


def made():
    """The map's lines. A size is the standard deviation before a blur of 0.5 pixels. `random()` gives the same numbers everywhere."""
    even = random.Random(3).random
    for row in range(ROWS):
        line = []
        for col in range(COLS):
            value = GROUND + NOISE * (even() - even())
            value += sum(high * math.exp(-((col - x) ** 2 + (row - y) ** 2) / 2 / (size**2 + 0.25)) for x, y, size, high in PLUMES)
            line.append("nan" if (row, col) == LOST else str(round(value)))
        yield ",".join(line)


if __name__ == "__main__":
    print("\n".join(made()))
