"""Small holes in a map, filled on request. Nothing fills them unasked.

A hole is a group of lost pixels that touch side by side. One of at most so many pixels that does not reach the map's side is filled: each of its pixels is
the mean of its four neighbours. So no filled pixel is above all or below all of those around its hole. A larger hole stays as it is.
"""
import numpy as np

#: the steps to a pixel's four neighbours
STEPS = ((-1, 0), (1, 0), (0, -1), (0, 1))


def fill(values, most):
    """The map with its holes of at most `most` pixels filled, and a mask of the filled pixels, which `find` takes as `lost`."""
    out = np.array(np.ma.MaskedArray(values, dtype=float).filled(np.nan))
    out[~np.isfinite(out)] = np.nan
    holes = np.where(np.isnan(out), np.arange(1, out.size + 1).reshape(out.shape), 0)
    named = names(holes, most)
    mask = np.zeros(out.shape, bool)
    for hole in small(named, most):
        out[hole] = solved(out, hole)
        mask[hole] = True
    return out, mask


def names(holes, most):
    """Each lost pixel's name, 0 where none is lost: in a hole of at most `most` pixels the least number of its pixels, in a larger one some of them."""
    for _ in range(most if holes.any() else 0):
        wide = np.pad(holes, 1)
        for down, right in STEPS:
            near = wide[1 + down : wide.shape[0] - 1 + down, 1 + right : wide.shape[1] - 1 + right]
            holes = np.where((holes > 0) & (near > 0) & (near < holes), near, holes)
    return holes


def small(named, most):
    """The pixels, rows and cols, of each hole of at most `most` pixels that does not reach the side: no neighbour of theirs is lost with another name."""
    wide = np.pad(named, 1, constant_values=-1)
    whole = np.ones(named.shape, bool)
    for down, right in STEPS:
        near = wide[1 + down : wide.shape[0] - 1 + down, 1 + right : wide.shape[1] - 1 + right]
        whole &= (near == 0) | (near == named)
    lost = np.flatnonzero(named)
    lost = lost[np.argsort(named.ravel()[lost], kind="stable")]
    ends = np.flatnonzero(np.diff(named.ravel()[lost])) + 1
    for hole in np.split(lost, ends):
        if 0 < len(hole) <= most and whole.ravel()[hole].all():
            yield np.unravel_index(hole, named.shape)


def solved(values, hole):
    """The numbers of a hole's pixels: each the mean of its four neighbours."""
    place = {pixel: at for at, pixel in enumerate(zip(*hole))}
    means, known = 4 * np.eye(len(place)), np.zeros(len(place))
    for (row, col), at in place.items():
        for down, right in STEPS:
            other = place.get((row + down, col + right))
            if other is None:
                known[at] += values[row + down, col + right]
            else:
                means[at, other] -= 1
    return np.linalg.solve(means, known)
