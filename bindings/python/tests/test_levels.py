"""The four levels of a raw map: the C face's own, and the same as in numpy; edges, lost pixels, what is copied, lent and kept."""
import math

import blob
import cface
import numpy as np
import odd
import plain
import pytest
from hypothesis import given, strategies as st

import uramsheg as u
from uramsheg import large, make

TABLES = u.standard()
T = cface.case("list")[0]
RADII = {0: (5, 7, 10, 14), 1: (1, 5, 9, 13)}
SHAPES = st.tuples(st.integers(1, 40), st.integers(1, 40))


def same(four, others):
    """Whether levels are the same bit for bit; any NaN is as good as another."""
    return all(one.shape == other.shape and np.array_equal(*(np.where(np.isnan(level), 0x7FC00000, level.view("u4")) for level in map(np.ascontiguousarray, (one, other))))
               for one, other in zip(four, others, strict=True))


def test_one_pixel_of_minus_zero():
    for octave in range(6):
        assert [level.tobytes() for level in u.levels(np.full((1, 1), -0.0), TABLES, octave)] == [b"\0\0\0\x80"] * 4


def map_of(shape, seed, lost):
    """A map of numbers of many sizes, with a high ground or without, and some pixels lost."""
    rng = np.random.default_rng(seed)
    raw = (rng.normal(size=shape) * 10.0 ** rng.integers(-3, 4, size=shape) + rng.choice([0, 1900])).astype("f4")
    for _ in range(lost):
        raw[rng.integers(shape[0]), rng.integers(shape[1])] = odd.LOST[rng.integers(3)]
    return raw


@given(SHAPES, st.integers(0, 2**32 - 1), st.integers(0, 2), st.sampled_from(sorted(odd.DRESSES)), st.integers(0, 5))
def test_whatever_the_array_it_is_the_c_face_s_own_and_numpy_s(shape, seed, lost, dress, octave):
    raw = map_of(shape, seed, lost)
    dressed = odd.DRESSES[dress](raw)
    before = np.ma.getdata(dressed).tobytes()
    record = (TABLES.to_bytes(), T)[seed % 2]
    four = u.levels(dressed, record, octave)
    number, floats = cface.levels(record, raw, octave, [raw.size] * 4)
    assert number == 0 and same(four, [np.frombuffer(part, "f4").reshape(shape, order="F") for part in floats])
    assert all(level.dtype == np.float32 and level.flags.f_contiguous for level in four)
    assert same(four, plain.levels(raw, u.Tables.from_bytes(record).sigmas, octave)) and before == np.ma.getdata(dressed).tobytes()


@given(st.lists(st.floats(-3, 20), min_size=4, max_size=4, unique=True), SHAPES, st.integers(0, 2**32 - 1), st.integers(0, 5))
def test_any_sigmas(tens, shape, seed, octave):
    """From a thousandth of a pixel to more than float32 can square: radii 1 to 16."""
    tables = TABLES.replace(sigmas=np.sort(10.0 ** np.array(tens)))
    raw = map_of(shape, seed, 0)
    if not tables.faults():
        assert same(u.levels(raw, tables, octave), plain.levels(raw, tables.sigmas, octave))
        assert all(2 <= len(taps) <= 17 for taps in plain.kernels(tables.sigmas, octave))


def test_the_platform_s_exp_gives_nearly_the_same():
    """Taps differ in the last place, if at all: levels by less than a millionth of the largest pixel."""
    raw = np.random.default_rng(8).normal(size=(90, 70)).astype("f4")
    for octave in (0, 1):
        for level, other in zip(u.levels(raw, TABLES, octave), plain.levels(raw, TABLES.sigmas, octave, math.exp)):
            assert abs(level - other).max() < 1e-6 * abs(raw).max()


def test_taps():
    """Set T's tap 1 of level 1 in octave 0, by the proved exp and by the platform's."""
    assert [plain.kernels((1, 2, 3, 4), 0, exp)[1][1].tobytes()[::-1].hex() for exp in (plain.exp, math.exp)] == ["3e38c060", "3e38c061"]


@pytest.mark.parametrize("sigma", [0.1, 0.7, 1.6, 4.5, 9.0])
def test_the_maker_s_kernel_is_nearly_that_of_levels(sigma):
    mine, others = make.half_kernel(sigma), plain.half_kernel(sigma)
    assert mine.dtype == np.float32 and len(mine) == len(others) and abs(mine - others).max() < 1e-7


@pytest.mark.parametrize("octave", [0, 1, 5])
def test_one_pixel_spreads_as_its_kernel(octave):
    raw = np.zeros((41, 43), "f4")
    raw[20, 21] = 1
    for level, taps, radius in zip(u.levels(raw, TABLES, octave), plain.kernels(TABLES.sigmas, octave), RADII[min(octave, 1)]):
        assert len(taps) == radius + 1 and np.isclose(taps[0] + 2 * taps[1:].sum(), 1, atol=1e-6)
        full = np.concatenate([taps[:0:-1], taps])
        assert np.array_equal(level[20 - radius : 21 + radius, 21 - radius : 22 + radius], np.outer(full, full))
        assert np.count_nonzero(level) == len(full) ** 2


@given(st.integers(1, 40), st.integers(1, 40), st.floats(-1e6, 1e6, width=32))
def test_a_flat_map_stays_flat_to_its_edges(rows, cols, value):
    for level in u.levels(np.full((rows, cols), value), TABLES):
        assert level.shape == (rows, cols) and np.allclose(level, value, rtol=1e-5)


@pytest.mark.parametrize("octave", [0, 1])
def test_the_edges_are_repeated(octave):
    raw = np.random.default_rng(2).normal(size=(19, 23)).astype("f4")
    wide = u.levels(np.pad(raw, 20, mode="edge"), TABLES, octave)
    assert same(u.levels(raw, TABLES, octave), [level[20:-20, 20:-20] for level in wide])


@given(st.integers(0, 39), st.integers(0, 36), st.sampled_from([0, 1, 5]), st.sampled_from(odd.LOST))
def test_a_lost_pixel_reaches_its_kernels_square_and_no_further(row, col, octave, value):
    raw = np.random.default_rng(3).normal(size=(40, 37)).astype("f4")
    whole = u.levels(raw, TABLES, octave)
    raw[row, col] = value
    rows, cols = np.mgrid[:40, :37]
    for before, after, radius in zip(whole, u.levels(raw, TABLES, octave), RADII[min(octave, 1)]):
        near = (abs(rows - row) <= radius) & (abs(cols - col) <= radius)
        assert np.array_equal(~np.isfinite(after), near) and np.array_equal(after[~near], before[~near])


def test_finite_pixels_may_overflow():
    """With nothing lost: the sum of two of the largest is infinite, so that all that the kernel reaches from the pair is."""
    raw = np.zeros((40, 40), "f4")
    raw[20, 20] = np.finfo("f4").max
    assert all(np.isfinite(level).all() for level in u.levels(raw, TABLES))
    raw[20, 22] = np.finfo("f4").max
    assert not any(np.isfinite(level[20, 21]) for level in u.levels(raw, TABLES))


@pytest.mark.parametrize("octave", range(6))
def test_a_lost_raw_pixel_strikes_exactly_the_spots_that_it_reaches(octave):
    """Those whose pixel is at most R + 2 rows and cols off it, R the largest radius, but not that far both ways."""
    rng = np.random.default_rng(octave)
    shape, known = blob.field(octave, 14, 2.0, 3.5, apart=16)
    raw = blob.spots(shape, *known).astype("f4")
    lost = np.zeros(shape, bool)
    lost[rng.integers(0, shape[0], 4), rng.integers(0, shape[1], 4)] = True
    full = u.detect(u.levels(raw, TABLES, octave), TABLES, (0.01,), octave)
    four = u.levels(np.where(lost, np.float32(np.inf), raw), TABLES, octave)
    due = plain.struck(lost, max(RADII[min(octave, 1)]))
    gone = due[np.divmod(full["key"], shape[1])]
    assert u.detect(four, TABLES, (0.01,), octave).tobytes() == full[~gone].tobytes() and 5 < gone.sum() < len(full) - 5
    inner = np.zeros_like(due)
    inner[4:-4, 4:-4] = True
    assert np.array_equal(large.judged(four), inner & ~due)


def test_a_gaussian_is_blurred_to_the_sigmas():
    rows, cols = np.mgrid[:60, :60]
    raw = blob.spots((60, 60), (30, 29, 3.0, 100.0))
    for level, sigma in zip(u.levels(raw, TABLES), TABLES.sigmas.astype(float)):
        wide = 9 + sigma**2
        exact = 100 * 9 / wide * np.exp(-((cols - 30) ** 2 + (rows - 29) ** 2) / 2 / wide)
        assert abs(level - exact).max() < 1


@pytest.mark.parametrize("shape", [(0, 5), (5, 0), (0, 0), (0, 4096)])
def test_empty_maps(shape):
    assert [(level.shape, level.dtype) for level in u.levels(np.zeros(shape), TABLES)] == [(shape, np.float32)] * 4


def test_lent_buffers_are_written_at_their_starts_and_kept_past_them():
    raw = np.random.default_rng(4).normal(size=(9, 10)).astype("f4")
    out = [np.full(90 + more, 7, "f4") for more in (0, 1, 5, 900)]
    four = u.levels(raw, TABLES, 1, out=out)
    assert same(four, u.levels(raw, TABLES, 1)) and all(np.shares_memory(level, floats) for level, floats in zip(four, out))
    assert all((floats[90:] == 7).all() for floats in out)


@pytest.mark.parametrize("side", [33, 40, 64])
@pytest.mark.parametrize("shape", [(32, 33), (70, 90), (40, 157), (90, 7), (65, 0)])
def test_tile_by_tile_as_whole(shape, side):
    raw = np.random.default_rng(6).normal(size=shape).astype("f4")
    if raw.size:
        raw[shape[0] // 2, shape[1] // 3] = np.nan
    for octave, tables in ((0, TABLES), (1, TABLES), (0, TABLES.replace(sigmas=(1, 5, 6, 1e20)))):
        four = large.levels(raw, tables, octave, side=side)
        assert same(four, u.levels(raw, tables, octave)) and all(level.flags.f_contiguous for level in four)


def test_a_map_wider_than_a_tile():
    raw = np.random.default_rng(7).normal(size=(20, 4300))
    with pytest.raises(u.SizeRefused):
        u.levels(raw, TABLES)
    assert same(large.levels(raw, TABLES), plain.levels(raw, TABLES.sigmas, 0))
