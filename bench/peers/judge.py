"""What a detector's answer is worth on a map whose spots are known."""
from typing import NamedTuple

import numpy as np


class Verdict(NamedTuple):
    """Spots found, answers left over, found spots with a size, the rms of places in pixels, mean and rms of the sizes' errors in percent."""

    found: int
    extra: int
    sized: int
    place: float
    bias: float
    rms: float


class Pairs(NamedTuple):
    """Of one map: answers left over, and for each found spot its distance in pixels and its size's error in percent, NaN where it has no size."""

    extra: int
    place: np.ndarray
    wrong: np.ndarray


def judged(known, x, y, size):
    """Known spots and answers paired one to one, the nearest in sizes first, none that is a size or more away."""
    apart = np.hypot(known[:, :1] - x, known[:, 1:2] - y) / known[:, 2:3]
    pairs, used = {}, set()
    near = np.argwhere(apart < 1)
    for spot, answer in near[np.argsort(apart[apart < 1], kind="stable")]:
        if spot not in pairs and answer not in used:
            pairs[spot] = answer
            used.add(answer)
    spots, answers = np.array(list(pairs), int), np.array(list(pairs.values()), int)
    size_of = known[spots, 2]
    return Pairs(len(x) - len(spots), apart[spots, answers] * size_of, 100 * (size[answers] / size_of - 1))


def merged(parts):
    """The verdict on several maps."""
    place, wrong = (np.concatenate(column) for column in list(zip(*parts))[1:])
    wrong = wrong[np.isfinite(wrong)]
    bias = float(np.mean(wrong)) if len(wrong) else np.nan
    return Verdict(len(place), sum(part.extra for part in parts), len(wrong), rms(place), bias, rms(wrong))


def rms(values):
    """The root of the mean square, NaN of none."""
    return float(np.sqrt(np.mean(values**2))) if len(values) else np.nan
