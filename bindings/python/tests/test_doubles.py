"""The rule for a spot that is found in two neighbouring octaves."""
import blob
import numpy as np
import pytest
from hypothesis import given, strategies as st

import uramsheg as u
from uramsheg import doubles

BASE = dict(x=50.0, y=40.0, sigma=4.0, peak=-9.0, bright=True, octave=0, key=1)


def table(*rows):
    """Spots that differ from one in what is said."""
    spots = np.zeros(len(rows), u.FOUND)
    for place, row in enumerate(rows):
        for name, value in {**BASE, **row}.items():
            spots[place][name] = value
    return spots


@pytest.mark.parametrize("other, one", [
    (dict(octave=1), True), (dict(octave=1, x=53.99), True), (dict(octave=1, x=54.0), False), (dict(octave=1, x=47, y=43), False),
    (dict(octave=1, x=48, y=42), True), (dict(octave=1, sigma=5.65), True), (dict(octave=1, sigma=5.66), False), (dict(octave=1, sigma=2.83), True),
    (dict(octave=1, sigma=2.83, x=52.9), False), (dict(octave=1, bright=False, peak=9), False), (dict(octave=0), False), (dict(octave=2), False),
])
def test_what_doubles_are(other, one):
    assert doubles.kept(table({}, {**other, "peak": other.get("peak", -5.0)})).tolist() == [True, not one]
    assert doubles.kept(table({**other, "peak": other.get("peak", -5.0)}, {})).tolist() == [not one, True]


def test_the_stronger_stays_and_the_finer_where_they_are_equal():
    assert doubles.kept(table({}, dict(octave=1, peak=-9.5))).tolist() == [False, True]
    assert doubles.kept(table(dict(octave=1), {})).tolist() == [False, True]


def test_one_double_that_stays_is_enough():
    between = dict(octave=1, peak=-3), dict(octave=0, peak=-5), dict(octave=2, peak=-4, x=52), dict(octave=3, peak=-9, x=55)
    assert doubles.kept(table(*between)).tolist() == [False, True, False, True]


def test_a_chain_of_three():
    chain = dict(octave=0, peak=-3), dict(octave=1, peak=-4, x=52), dict(octave=2, peak=-5, x=54.5)
    assert doubles.kept(table(*chain)).tolist() == [True, False, True]


@given(st.lists(st.tuples(st.integers(0, 12), st.integers(0, 12), st.sampled_from([1.0, 2.0, 2.5, 3.0]), st.integers(-4, -1), st.integers(0, 3)), max_size=14),
       st.integers(0, 2**32 - 1))
def test_the_list_s_order_does_not_matter(rows, seed):
    spots = table(*(dict(x=x, y=y, sigma=sigma, peak=peak, octave=octave, key=place) for place, (x, y, sigma, peak, octave) in enumerate(rows)))
    stays = doubles.kept(spots)
    other = np.random.default_rng(seed).permutation(len(spots))
    assert np.array_equal(doubles.kept(spots[other]), stays[other])
    left = spots[stays]
    assert list(doubles.pairs(left)) == []
    for gone in np.flatnonzero(~stays):
        assert any(abs(int(one["octave"]) - int(spots[gone]["octave"])) == 1 and doubles.same(spots[gone : gone + 1], one)[0] for one in left)


def test_pairs_are_all_pairs():
    rng = np.random.default_rng(4)
    spots = table(*(dict(x=rng.uniform(0, 30), y=rng.uniform(0, 30), sigma=rng.uniform(2, 5), octave=rng.integers(3)) for _ in range(120)))
    plain = {(i, j) for i in range(120) for j in range(120) if spots["octave"][j] == spots["octave"][i] + 1 and doubles.same(spots[i : i + 1], spots[j])[0]}
    assert set(doubles.pairs(spots)) == plain != set()


@pytest.mark.parametrize("octave", [0, 1])
def test_a_spot_between_two_octaves_is_one_spot(octave):
    twice = 0
    for size in np.geomspace(3.5, 4.5, 13) * 2**octave:
        x, y = 80.3, 78.6
        raw = blob.spots((160, 161), (x, y, size, 100.0))
        alone = [len(u.find(raw, peak=10, octaves=[one]).spots) for one in (octave, octave + 1)]
        (spot,) = u.find(raw, peak=10).spots
        assert max(alone) == 1 and np.hypot(spot["x"] - x, spot["y"] - y) < 0.02 * size and abs(spot["size"] / size - 1) < 0.03
        twice += sum(alone) == 2
    assert twice > 0
