"""Small holes, filled on request: which are, with what, and what is flagged."""
import blob
import numpy as np
import pytest
from hypothesis import given, strategies as st
from hypothesis.extra import numpy as arrays

import uramsheg as u

HOLES = arrays.arrays(bool, st.tuples(st.integers(0, 9), st.integers(0, 9)), elements=st.booleans())


def groups(lost):
    """The groups of lost pixels that touch side by side, pixel by pixel."""
    left = {tuple(pixel) for pixel in np.argwhere(lost).tolist()}
    while left:
        group, border = set(), {left.pop()}
        while border:
            group |= border
            border = {(r + d, c + e) for r, c in border for d, e in ((0, 1), (1, 0), (0, -1), (-1, 0))} & left
            left -= border
        yield group


@given(HOLES, st.integers(0, 8), st.integers(0, 10**6))
def test_small_holes_alone_are_filled(lost, most, seed):
    raw = np.where(lost, np.nan, np.random.default_rng(seed).normal(size=lost.shape))
    filled, mask = u.fill(raw, most)
    rows, cols = lost.shape
    due = np.zeros(lost.shape, bool)
    for group in groups(lost):
        if len(group) <= most and all(0 < r < rows - 1 and 0 < c < cols - 1 for r, c in group):
            due[tuple(zip(*group))] = True
    assert np.array_equal(mask, due) and np.array_equal(np.isnan(filled), lost & ~due) and np.array_equal(filled[~due], raw[~due], equal_nan=True)
    for r, c in np.argwhere(due):
        assert filled[r, c] == pytest.approx((filled[r - 1, c] + filled[r + 1, c] + filled[r, c - 1] + filled[r, c + 1]) / 4, abs=1e-12)
    for group in groups(due):
        around = [raw[r + d, c + e] for r, c in group for d, e in ((0, 1), (1, 0), (0, -1), (-1, 0)) if (r + d, c + e) not in group]
        inside = [filled[pixel] for pixel in group]
        assert min(around) - 1e-12 <= min(inside) and max(inside) <= max(around) + 1e-12


@pytest.mark.parametrize("long", [1, 2, 5, 9])
def test_long_holes(long):
    for lost in (np.s_[3, 1 : 1 + long], np.s_[1 : 1 + long, 3]):
        raw = np.zeros((12, 12))
        raw[lost] = np.nan
        assert u.fill(raw, long)[1].sum() == long and u.fill(raw, long - 1)[1].sum() == 0


def test_masked_maps_and_infinities():
    raw = np.ma.MaskedArray(np.arange(25.0).reshape(5, 5), mask=np.zeros((5, 5), bool))
    raw[2, 2] = np.ma.masked
    raw[1, 1] = np.inf
    filled, mask = u.fill(raw, 1)
    assert filled.tolist() == np.arange(25.0).reshape(5, 5).tolist() and np.argwhere(mask).tolist() == [[1, 1], [2, 2]]


def test_a_filled_map_is_judged_and_its_spots_are_flagged():
    raw = blob.spots((120, 140), (40.3, 33.4, 2.6, 100), (100.2, 80.3, 2.6, 90))
    raw[33, 45] = np.nan
    assert len(u.find(raw, peak=10).spots) == 1
    values, mask = u.fill(raw, 4)
    spots = u.find(values, peak=10, lost=mask).spots
    assert spots["near_lost"].tolist() == [True, False] and spots["size"] == pytest.approx([2.6, 2.6], rel=0.05)
