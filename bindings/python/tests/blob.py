"""Maps of known Gaussian spots."""
import numpy as np


def spots(shape, *known):
    """A map of spots (x, y, size, height): a size is a spot's standard deviation before the blur of 0.5 pixels that a map is taken to have."""
    rows, cols = np.mgrid[: shape[0], : shape[1]]
    out = np.zeros(shape)
    for x, y, size, height in known:
        wide = size**2 + 0.25
        out += height * size**2 / wide * np.exp(-((cols - x) ** 2 + (rows - y) ** 2) / 2 / wide)
    return out


def field(seed, count, low, high, apart=70):
    """Spots on a lattice, each at a place and of a size and a height by chance: the map's shape and the spots."""
    rng = np.random.default_rng(seed)
    side = apart * (count + 1)
    known = [(apart * (i + 1) + rng.uniform(-3, 3), apart * (j + 1) + rng.uniform(-3, 3), np.exp(rng.uniform(np.log(low), np.log(high))), rng.uniform(50, 400))
             for i in range(count) for j in range(count)]
    return (side, side), known
