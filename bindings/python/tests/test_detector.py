"""Every function against the C face, byte for byte."""
import math
from fractions import Fraction

import cface
import moves
import numpy as np
import odd
import pytest
from hypothesis import given, strategies as st

import uramsheg as u

T = cface.case("list")[0]
SETS = {"T": T, "standard": u.standard().to_bytes()}
PEAKS = st.sampled_from([0.0, 0.01, 0.1, -1.0, float("inf")])


def same_as_c(four, levels, record, thresholds, octave):
    """Detection and the join of the package and of the C face give the same bytes; answers the number of spots."""
    spots = u.detect(levels, record, thresholds, octave, room=1)
    moves.hold(spots, four[0].shape[1])
    number, value, out = cface.detect(record, thresholds, four, octave, len(spots) + 1)
    assert (number, value) == (0, len(spots))
    assert spots.tobytes() == out[: spots.nbytes] and not any(out[spots.nbytes:])
    sized = u.join(spots, record, four[0].shape)
    assert (0, len(sized), sized.tobytes()) == cface.join(record, four[0].shape, spots.tobytes(), cface.SIZED * len(spots))
    return len(spots)


def test_map_m(m):
    spots = u.detect(m.levels(), m.set, m.thresholds, m.octave)
    assert spots.tobytes() == m.line
    (sized,) = u.join(spots, m.set, m.shape)
    assert (sized["x"], sized["y"], sized["sigma"], sized["peak"], sized["key"]) == (4.5, 4, 2, 4, 44)
    assert (sized["row"], sized["col"], sized["accepted"], sized["cause"], sized["is_max"]) == (4, 5, True, 0, True)
    assert f"{sized['size']:.6f}" == "2.828427"
    assert m.line == m.old + np.array([0.5, 0], "<f4").tobytes() and (sized["dx"], sized["dy"]) == (0.5, 0)
    assert sized.tobytes() == m.line + m.old_sized[40:]


@pytest.mark.parametrize("col, count", [(1, 1), (2, 0), (6, 0), (7, 1)])
def test_a_lost_pixel_strikes_by_the_pixel_that_a_spot_was_found_at(m, col, count):
    """Map M's spot was found at (4, 4), and its home is (4, 5)."""
    levels = m.levels()
    levels[0][4, col] = np.nan
    assert len(u.detect(levels, m.set, m.thresholds, m.octave)) == count


def homes(*places):
    """The home rows and cols of records at these x and y, on the longest sides; the records are handed over as bytes too."""
    spots = np.zeros(len(places), u.SPOT)
    spots["x"], spots["y"] = np.array(places, "f4").T
    spots["scale_index"] = 1
    sized = u.join(spots, T, (4096, 4096))
    assert sized.tobytes() == u.join(spots.tobytes(), T, (4096, 4096)).tobytes()
    assert all(sized[name].tobytes() == spots[name].tobytes() for name in u.SPOT.names)
    return list(zip(sized["row"].tolist(), sized["col"].tolist()))


BELOW_A_HALF = float(np.nextafter(np.float32(0.5), np.float32(0)))


def test_homes_of_halves():
    assert homes((4.5, 4), (4, 4.5), (5.5, 0.5), (1.5, 2.5), (4094.5, 4095)) == [(4, 5), (5, 4), (1, 6), (3, 2), (4095, 4095)]
    assert homes((BELOW_A_HALF, 7), (7, BELOW_A_HALF), (-0.0, -0.0)) == [(7, 0), (0, 7), (0, 0)]


def beside(n, step):
    """n + 0.5, or the float below or above it."""
    half = np.float32(n + 0.5)
    return float(np.nextafter(half, half + np.float32(step)))


PLACES = st.one_of(st.floats(0, 4095, width=32), st.builds(beside, st.integers(0, 4094), st.integers(-1, 1)), st.sampled_from([-0.0, BELOW_A_HALF, 4095.0]))


@given(st.lists(st.tuples(PLACES, PLACES), min_size=1, max_size=9))
def test_the_home_is_the_pixel_nearest_to_the_place(places):
    exact = lambda place: math.floor(Fraction(place) + Fraction(1, 2))
    assert homes(*places) == [(exact(y), exact(x)) for x, y in places]


@pytest.mark.parametrize("name", ["list_p10", "list_p11"])
def test_stored_cases(name):
    record, thresholds, shape, octave, floats = cface.case(name)
    levels = [np.array(level, "f4").reshape(shape, order="F") for level in np.reshape(floats, (4, -1))]
    *lines, _, count = (cface.ROOT / "crates" / name / "stdout").read_text().split()
    assert [spot.tobytes().hex() for spot in u.detect(levels, record, thresholds, octave)] == lines and int(count) == len(lines)


@given(odd.SHAPES, st.integers(0, 2**32 - 1), st.integers(0, 3), st.sampled_from(sorted(odd.DRESSES)), st.sampled_from(sorted(SETS)), PEAKS,
       st.integers(0, 5))
def test_same_bytes_whatever_the_array(shape, seed, lost, dress, name, peak, octave):
    four = odd.maps(name, shape, seed, lost)
    levels = [odd.DRESSES[dress](level) for level in four]
    before = [np.ma.getdata(level).tobytes() for level in levels]
    same_as_c(four, levels, SETS[name], (peak, 0.0, 12.1, 1.0, 5.0), octave)
    assert before == [np.ma.getdata(level).tobytes() for level in levels]


@pytest.mark.parametrize("name", sorted(SETS))
def test_the_maps_of_the_property_hold_spots(name):
    fours = [odd.maps(name, (21, 20), seed, 1) for seed in range(12)]
    assert sum(same_as_c(four, four, SETS[name], (0.01, 0.0, 12.1, 1.0, 5.0), 0) for four in fours) > 11


def test_integers_and_halves_are_numbers_too():
    four = [np.rint(4 * level) for level in odd.maps("standard", (20, 18), 3, 0)]
    for kind in ("i1", "i8", ">i4", "f2"):
        same_as_c(four, [level.astype(kind) for level in four], T, (0.1, 0.0, 12.1, 1.0, 5.0), 0)


def test_a_number_beyond_float32_is_infinite():
    level = np.full((9, 10), 1e300)
    assert len(u.detect([level] * 4, T, (1,))) == 0 and np.isinf(u.downsample(level)).all()


def test_lists_of_rows_are_maps(m):
    assert u.detect([level.tolist() for level in m.levels()], m.set, m.thresholds).tobytes() == m.line


@given(odd.SHAPES, st.integers(0, 2**32 - 1), st.sampled_from(sorted(odd.DRESSES)))
def test_downsample(shape, seed, dress):
    level = odd.maps("standard", shape, seed, 2)[0]
    half = u.downsample(odd.DRESSES[dress](level))
    number, sides, floats = cface.downsample(level)
    assert number == 0 and half.shape == sides and half.dtype == np.float32 and half.flags.f_contiguous
    assert np.array_equal(half.ravel(order="F"), np.array(floats, "f4"), equal_nan=True)
    whole = shape[0] > 1 and shape[1] > 1
    assert np.array_equal(half, level[: 2 * sides[0] : 2, : 2 * sides[1] : 2], equal_nan=True) and whole == (sides != (0, 0))


FLOATS = st.floats(width=32)
SAMPLES = st.one_of(st.floats(-20, 20, width=32), st.sampled_from([-1.0, 0.0, 4.0]))
#: samples and sigma of a spot: any floats, and such as a spot may have
ANY = st.tuples(st.tuples(*[FLOATS] * 4), FLOATS)
USUAL = st.tuples(st.tuples(*[SAMPLES] * 4), st.floats(0.25, 64, width=32))


def corrected(samples, name, sigma, is_max):
    """What the package's correction comes to, as the C face tells it: the number, the corrected sigma or -1, the cause."""
    try:
        return 0, u.correct(samples, SETS[name], sigma, is_max), 0
    except u.NoSizeRefused as error:
        return error.number, -1, error.cause


@given(st.one_of(ANY, USUAL), st.booleans(), st.sampled_from(sorted(SETS)))
def test_correct(spot, is_max, name):
    samples, sigma = spot
    assert corrected(samples, name, sigma, is_max) == cface.correct(SETS[name], samples, sigma, is_max)


@given(st.lists(st.tuples(USUAL, st.booleans()), max_size=9), st.sampled_from(sorted(SETS)))
def test_the_join_gives_each_spot_the_correction_s_size_or_cause(spots, name):
    records = np.zeros(len(spots), u.SPOT)
    for record, ((samples, sigma), is_max) in zip(records, spots):
        record["samples"], record["sigma"], record["is_max"], record["scale_index"] = samples, sigma, is_max, 1
    sized = u.join(records, SETS[name], (1, 1))
    assert sized.tobytes() == cface.join(SETS[name], (1, 1), records.tobytes(), cface.SIZED * len(spots))[2] and not sized["spare_sized"].any()
    for record, ((samples, sigma), is_max) in zip(sized, spots):
        number, size, cause = corrected(samples, name, sigma, is_max)
        assert (record["accepted"], record["size"], record["cause"]) == (number == 0, 0 if number else size, cause)


@pytest.mark.parametrize("name", sorted(SETS))
def test_the_spots_of_the_property_are_of_all_three_kinds(name):
    rng = np.random.default_rng(8)
    causes = [corrected(rng.uniform(-20, 20, 4).astype("f4"), name, rng.uniform(0.25, 64), True)[2] for _ in range(200)]
    assert {causes.count(cause) > 5 for cause in (0, 1, 2)} == {True}


def test_correct_gives_the_join_s_size(m):
    (sized,) = u.join(u.detect(m.levels(), m.set, m.thresholds), m.set, m.shape)
    assert u.correct(sized["samples"], m.set, sized["sigma"], sized["is_max"]) == sized["size"]


@given(st.integers(0, 5000), st.integers(0, 2**64 - 1))
def test_octave_count(rows, cols):
    assert u.octave_count(rows, cols) == cface.library.uramsheg_octave_count(rows, cols)


def test_a_set_by_name_or_by_bytes(m):
    for tables in (m.set, bytearray(m.set), memoryview(m.set), u.Tables.from_bytes(m.set)):
        assert u.detect(m.levels(), tables, u.Thresholds(*m.thresholds)).tobytes() == m.line


def test_size_is_the_join(m):
    spots = u.detect(m.levels(), m.set, m.thresholds)
    assert u.size(spots, m.set, m.shape).tobytes() == u.join(spots, m.set, m.shape).tobytes()
    assert u.join(spots.tobytes(), m.set, m.shape).tobytes() == u.join(spots, m.set, m.shape).tobytes()
