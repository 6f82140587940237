"""A spot that is found in two neighbouring octaves is one spot.

The windows of sigma of neighbouring octaves overlap by an eighth of an octave, so a spot there may be found twice. Two spots of neighbouring octaves are
doubles of each other where both are bright or both dark, their places are nearer to each other than the smaller sigma, and the larger sigma is less than
sqrt(2) times the smaller, all in pixels of the map. From the strongest peak on, a spot stays unless a double of it has stayed; of equal peaks the finer
octave's comes first, then the smaller key's. So the answer does not depend on the order of the list.
"""
import numpy as np

FACTOR = np.sqrt(2)


def kept(spots):
    """Which spots stay, of an array with x, y, sigma, peak, bright, octave and key."""
    stays = np.ones(len(spots), bool)
    order = np.lexsort((spots["key"], spots["octave"], -abs(spots["peak"])))
    rank = np.empty(len(spots), int)
    rank[order] = np.arange(len(spots))
    doubles = {}
    for first, second in pairs(spots):
        weaker, stronger = (first, second) if rank[first] > rank[second] else (second, first)
        doubles.setdefault(weaker, []).append(stronger)
    for weaker in sorted(doubles, key=lambda spot: rank[spot]):
        stays[weaker] = not any(stays[stronger] for stronger in doubles[weaker])
    return stays


def pairs(spots):
    """The places of every two spots that are doubles of each other."""
    for octave in np.unique(spots["octave"]):
        fine, coarse = (np.flatnonzero(spots["octave"] == o) for o in (octave, octave + 1))
        if len(fine) and len(coarse):
            yield from near_pairs(spots, fine, coarse)


def near_pairs(spots, fine, coarse):
    """The same of two octaves: each coarse spot against the fine ones of a strip of rows around it."""
    fine = fine[np.argsort(spots["y"][fine], kind="stable")]
    rows = spots["y"][fine]
    reach = spots["sigma"][coarse]
    first = np.searchsorted(rows, spots["y"][coarse] - reach, side="left")
    last = np.searchsorted(rows, spots["y"][coarse] + reach, side="right")
    for one, start, end in zip(coarse, first, last):
        others = fine[start:end]
        yield from ((other, one) for other in others[same(spots[others], spots[one])])


def same(others, one):
    """Which of several spots are doubles of one."""
    small, large = np.minimum(others["sigma"], one["sigma"]), np.maximum(others["sigma"], one["sigma"])
    apart = np.hypot(others["x"] - one["x"], others["y"] - one["y"])
    return (others["bright"] == one["bright"]) & (apart < small) & (large < FACTOR * small)
