"""Levels and displacements a second time, in numpy: kernels pixel place by pixel place, passes over whole maps, fits over all spots, every step in float32.
Nothing of the package is used."""
import math

import numpy as np

F = np.float32
ONE = 2**30


def exp_down(x):
    """exp of a float32 from -104 to 0 by the proved function's own steps, over whole numbers."""
    a = math.floor(-float(x) * ONE)
    if not a:
        return F(1)
    n = (a * 96817626 >> 56) + 1
    u, p = n * 744261117 - a, 26630
    for c in (213044, 1491308, 8947848, 44739242, 178956970, 536870912, ONE, ONE):
        p = c + (u * p >> 30)
    bits = (126 - n) * 2**23 + (p >> 7) if n < 127 else p >> (n - 119)
    return np.array(bits, "u4").view(F)[()]


def exp(x):
    """exp of a float32 not above 0 by the proved function's steps."""
    return F(0) if x <= -104 else exp_down(x)


def half_kernel(sigma, exp=exp):
    """The taps 0 to radius of a sampled Gaussian, summed and divided in the order of their places."""
    sigma = F(sigma)
    if sigma < np.finfo(F).eps:
        return np.ones(1, F)
    radius = math.ceil(min(float(F(3) * sigma), 16))
    full, total = [], F(0)
    for place in range(2 * radius + 1):
        distance = (F(place) - F(radius)) / sigma
        full.append(F(exp(F(-0.5) * distance * distance)))
        total = F(total + full[-1])
    return np.array([tap / total for tap in full[radius:]], F)


def kernels(sigmas, octave, exp=exp):
    """The taps of the four levels: from a blur of 0.5 pixels, in later octaves of half the third sigma, to each sigma."""
    with np.errstate(over="ignore", invalid="ignore", under="ignore"):
        base = F(0.5) if octave == 0 else F(sigmas[2]) / F(2)
        squares = [max(F(target) * F(target) - base * base, F(0)) for target in sigmas]
        return [half_kernel(max(np.sqrt(square), F(0.1)), exp) for square in squares]


def blur_rows(a, taps):
    """One pass along the rows' axis, edges repeated: from the centre outward, each pair summed before it is weighed."""
    radius, count = len(taps) - 1, a.shape[0]
    wide = np.pad(a, ((radius, radius), (0, 0)), mode="edge")
    value = wide[radius : radius + count] * taps[0]
    for t in range(1, radius + 1):
        value += (wide[radius - t : radius - t + count] + wide[radius + t : radius + t + count]) * taps[t]
    return value


def blurred(raw, taps):
    """One level: across columns first, then along rows."""
    with np.errstate(over="ignore", invalid="ignore", under="ignore"):
        return blur_rows(blur_rows(raw.T, taps).T, taps)


def levels(raw, sigmas, octave, exp=exp):
    """The four levels of a raw map that has pixels."""
    return [blurred(raw.astype(F), taps) for taps in kernels(sigmas, octave, exp)]


def reach(lost, down, right):
    """Which pixels are at most `down` rows and `right` cols off a lost one."""
    rows, cols = lost.shape
    total = np.pad(np.cumsum(np.cumsum(lost, axis=0), axis=1), ((1, 0), (1, 0)))
    top, bottom = (np.clip(np.arange(rows) + step, 0, rows)[:, None] for step in (-down, down + 1))
    first, end = (np.clip(np.arange(cols) + step, 0, cols)[None, :] for step in (-right, right + 1))
    return total[bottom, end] - total[top, end] - total[bottom, first] + total[top, first] > 0


def struck(lost, radius):
    """Where no spot can be listed: at most `radius` + 2 rows and cols off a lost pixel, but not that far both ways."""
    return reach(lost, radius + 1, radius + 2) | reach(lost, radius + 2, radius + 1)


def samples(level, sigma, row, col):
    """A level's samples at pixels: the square of its sigma times the sum of the four neighbours less four times the centre."""
    return (level[row, col - 1] + level[row, col + 1] + level[row - 1, col] + level[row + 1, col] - 4 * level[row, col]) * (sigma * sigma)


def values(four, tables, row, col, sigma):
    """The cubics of the four samples at pixels, each at its sigma, by powers of it."""
    *rest, last = (samples(level, s, row, col) for level, s in zip(four, tables.sigmas))
    a, b, c, d = (sum((entry * (one - last) for entry, one in zip(line[1:], rest[1:])), line[0] * (rest[0] - last)) for line in tables.scale)
    square = sigma * sigma
    return a * (square * sigma) + b * square + c * sigma + (d + last)


def moves(four, tables, spots):
    """The displacements dx and dy of spots that four levels list: the stationary place of the quadratic that is fitted to the nine values around each. A zero is +0."""
    row, col = np.divmod(spots["key"].astype(int), four[0].shape[1])
    nine = [values(four, tables, row + down, col + right, spots["sigma"]) for down in (-1, 0, 1) for right in (-1, 0, 1)]
    entries = tables.spatial[spots["scale_index"].astype(int) - 1]
    w = [sum((entries[:, line, place] * nine[at] for place, at in enumerate(tables.order)), np.zeros(len(spots), F)) for line in range(5)]
    dy = (w[2] * w[3] - 2 * w[0] * w[4]) / (4 * w[0] * w[1] - w[2] * w[2])
    dx = (-w[3] - w[2] * dy) / (2 * w[0])
    return dx + F(0), dy + F(0)
