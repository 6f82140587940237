"""Scenes: the sized spots of levels with sides to 16,384, tile by tile, and the tiles to be run by themselves. Nothing is decided here, as in detector.py."""
from typing import NamedTuple

import numpy as np

from . import arrays
from ._native import ffi, lib
from .detector import asked_of
from .records import SCENE, SIZED, TILED
from .refusals import SceneRefused

#: how far apart tiles start, and how long one is but for the last
STEP, LENGTH = lib.URAMSHEG_TILE_STEP, lib.URAMSHEG_TILE_LENGTH


class Tile(NamedTuple):
    """A tile of a scene: its numbers from above and from the left, the scene's row and col that it starts at, its rows and cols."""

    row: int
    col: int
    first_row: int
    first_col: int
    rows: int
    cols: int

    def of(self, level):
        """The tile's part of a level, a view."""
        return level[self.first_row : self.first_row + self.rows, self.first_col : self.first_col + self.cols]

    def place(self, sized):
        """The tile's spots, as `join` answers them, with their places in the scene: an array of SCENE."""
        return placed(sized, self.row, self.col, self.cols)


def along(length, side=LENGTH):
    """Where the tiles of a side begin and end. Each shares 8 pixels with the one before; a side of 0 has one tile."""
    start = 0
    while start + side < length:
        yield start, start + side
        start += side - (LENGTH - STEP)
    yield start, length


def tiles(rows, cols):
    """The tiles of a scene, a list of Tile in the order that `scene` goes: row by row of tiles."""
    rows, cols = arrays.count("rows", rows), arrays.count("cols", cols)
    if max(rows, cols) > lib.URAMSHEG_SCENE_LONGEST:
        raise SceneRefused(f"{rows} by {cols}")
    return [Tile(row, col, top, left, bottom - top, right - left)
            for row, (top, bottom) in enumerate(along(rows)) for col, (left, right) in enumerate(along(cols))]


def scene(levels, tables, thresholds, octave=0, *, room=1024):
    """The sized spots of four blurred levels with sides to 16,384, an array of SCENE: one tile's after the other's, tiles row by row.

    Levels are taken, and copied, as in `detect`. Each tile is detected and joined as a map of its own, and each pixel but the four at the scene's sides is
    judged in one tile. `x`, `y`, `key`, `row` and `col` are the tile's own; `scene_x` and `scene_y` are the place in the scene, exact, `scene_row` and
    `scene_col` the pixel that the spot was found at. All else is what the whole scene would list. `room` is the number of spots that the first try has room
    for; another has at least twice as much, until all fit.
    """
    asked = asked_of(levels, tables, thresholds, octave)
    rows, cols = asked.levels[0].shape
    given, value = asked.words(), ffi.new("uint64_t *")
    lent = [part for _ in range(4) for part in arrays.floats_to_write(np.empty(min(rows, LENGTH) * min(cols, LENGTH), np.float32))]
    most = 2 * rows * cols  # a pixel lists two at most
    room = min(arrays.count("room", room), most)
    while True:
        out = np.zeros(room, TILED)
        number = lib.uramsheg_scene(*given, *lent, *arrays.octets_to_write(out), value)
        if not number:
            found = out[: value[0]]
            return placed(found, found["tile_row"], found["tile_col"], np.minimum(cols - STEP * found["tile_col"].astype(int), LENGTH))
        if number != lib.URAMSHEG_REFUSED_ROOM or room == most:
            raise asked.refusal(number)
        room = more(room, value[0], len(tiles(rows, cols)), most)


def more(room, whole, count, most):
    """How many spots to have room for where `room` held those of `whole` tiles of `count`, and no more: twice what all take at this rate."""
    return min(2 * max(room, 1) * count // (whole + 1), most)


def placed(sized, row, col, cols):
    """Sized spots of tiles with their places in the scene; `row` and `col` are their tiles' numbers, `cols` how many cols those have."""
    spots = np.zeros(len(sized), SCENE)
    for name in SIZED.names:
        spots[name] = sized[name]
    spots["tile_row"], spots["tile_col"] = row, col
    top, left = (STEP * spots[name].astype(int) for name in ("tile_row", "tile_col"))
    down, right = np.divmod(sized["key"].astype(int), cols)
    spots["scene_x"], spots["scene_y"] = left + sized["x"].astype(float), top + sized["y"].astype(float)
    spots["scene_row"], spots["scene_col"] = top + down, left + right
    return spots
