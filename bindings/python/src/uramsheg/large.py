"""Maps of any side: their levels, part by part; their spots, scene by scene; a level halved; and which pixels were judged. Proved is what each call answers, a
scene's tiles among it; that the parts make up the whole map is tested.

A part of levels is made of 16 pixels more on each side that is cut: no kernel reaches further, so that its pixels are those of the whole map. Where a side is
longer than a scene's, scenes share 8 pixels, as a scene's own tiles do: the four at a side that are not judged are judged in the neighbour.
"""
import numpy as np

from . import detector
from .detector import downsample
from .scenes import LENGTH, STEP, along, scene

#: how many pixels at a map's side are not judged
MARGIN = 4
#: the largest radius of a kernel
REACH = 16
#: how long a scene is that is cut off a longer side: four whole tiles
SCENE_LENGTH = 3 * STEP + LENGTH


def levels(raw, tables, octave=0, *, side=LENGTH):
    """The four levels of a raw map of any sides."""
    rows, cols = np.shape(raw)
    if max(rows, cols) <= side:
        return detector.levels(raw, tables, octave)
    four = [np.empty((rows, cols), np.float32, order="F") for _ in range(4)]
    step = side - 2 * REACH
    for top in range(0, rows, step):
        for left in range(0, cols, step):
            above, before = max(top - REACH, 0), max(left - REACH, 0)
            parts = detector.levels(raw[above : top + step + REACH, before : left + step + REACH], tables, octave)
            for level, part in zip(four, parts):
                level[top : top + step, left : left + step] = part[top - above : top - above + step, left - before : left - before + step]
    return four


def listed(levels, tables, thresholds, octave=0, *, side=SCENE_LENGTH):
    """The spots of levels of any sides, an array of SCENE whose places are the whole map's; a tile's numbers are those in its scene."""
    rows, cols = np.shape(levels[0])
    parts = []
    for top, bottom in along(rows, side):
        for left, right in along(cols, side):
            parts.append(scene([level[top:bottom, left:right] for level in levels], tables, thresholds, octave))
            for name, start in (("scene_x", left), ("scene_y", top), ("scene_row", top), ("scene_col", left)):
                parts[-1][name] += start
    return np.concatenate(parts)


def halved(level, *, side=LENGTH):
    """Every second pixel of every second column, as `downsample` gives it, of a level of any sides."""
    rows, cols = np.shape(level)
    out = np.zeros((rows // 2, cols // 2) if min(rows, cols) > 1 else (0, 0), np.float32, order="F")
    for top in range(0, 2 * out.shape[0], side):
        for left in range(0, 2 * out.shape[1], side):
            part = downsample(level[top : top + side, left : left + side])
            out[top // 2 : top // 2 + part.shape[0], left // 2 : left // 2 + part.shape[1]] = part
    return out


def judged(levels):
    """Which pixels could have been listed: not at the side, and all of their 21 pixels finite in all four levels."""
    whole = np.logical_and.reduce([np.isfinite(level) for level in levels])
    rows, cols = whole.shape
    out = np.zeros_like(whole)
    if min(rows, cols) <= 2 * MARGIN:
        return out
    inner = out[MARGIN : rows - MARGIN, MARGIN : cols - MARGIN]
    inner[...] = True
    for down in range(-2, 3):
        for right in range(-2, 3):
            if abs(down) + abs(right) < 4:
                inner &= whole[MARGIN + down : rows - MARGIN + down, MARGIN + right : cols - MARGIN + right]
    return out
