"""Maps of known Gaussian spots under noise: rows by cols, 0 at a pixel's centre, a spot's size its standard deviation in the map as it is given."""
from typing import NamedTuple

import numpy as np

#: the standard deviation of every map's noise
NOISE = 10.0
#: the least and the greatest size, in pixels
SIZES = 2.0, 20.0
#: what a spot has on every side, in sizes
MARGIN = 5.0
#: places by chance that a spot is tried at before it is left out
TRIES = 3000


class Scene(NamedTuple):
    """A map's spots, as x, y, size and height in columns, and its values."""

    known: np.ndarray
    values: np.ndarray


def placed(rng, side, count, apart, heights):
    """Spots of sizes even by their logarithm, the largest placed first; no two are nearer than `apart` times the sum of their sizes."""
    sizes = np.sort(np.exp(rng.uniform(*np.log(SIZES), count)))[::-1]
    known = np.zeros((0, 4))
    for size in sizes:
        for _ in range(TRIES):
            x, y = rng.uniform(MARGIN * size, side - 1 - MARGIN * size, 2)
            if (np.hypot(known[:, 0] - x, known[:, 1] - y) >= apart * (known[:, 2] + size)).all():
                known = np.vstack([known, (x, y, size, rng.uniform(*heights))])
                break
    return known


def drawn(rng, side, known, ratio):
    """The map of the spots alone: ellipses of that ratio of axes at angles by chance, their size the geometric mean of the axes."""
    values = np.zeros((side, side))
    for (x, y, size, height), angle in zip(known, rng.uniform(0, np.pi, len(known))):
        reach = int(7 * size * np.sqrt(ratio)) + 1
        top, left = max(int(y) - reach, 0), max(int(x) - reach, 0)
        part = values[top : int(y) + reach, left : int(x) + reach]
        rows, cols = np.indices(part.shape)
        along = (cols + left - x) * np.cos(angle) + (rows + top - y) * np.sin(angle)
        across = (rows + top - y) * np.cos(angle) - (cols + left - x) * np.sin(angle)
        part += height * np.exp(-(along**2 / ratio + across**2 * ratio) / (2 * size**2))
    return values


def noise(rng, side, blur):
    """Noise of the standard deviation NOISE: white, or correlated by a Gaussian blur of that many pixels."""
    from scipy.ndimage import gaussian_filter

    white = rng.normal(size=(side, side))
    rough = gaussian_filter(white, blur, mode="wrap") if blur else white
    return NOISE * rough / rough.std()


def scene(seed, side, count, apart=5.0, heights=(50.0, 400.0), ratio=1.0, blur=0.0):
    """A map of at most that many spots under noise, the same for the same words."""
    rng = np.random.default_rng(seed)
    known = placed(rng, side, count, apart, heights)
    return Scene(known, drawn(rng, side, known, ratio) + noise(rng, side, blur))
