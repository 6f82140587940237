"""Maps of any side: parts list what the whole map lists; a level halved; which pixels were judged."""
import numpy as np
import pytest
from hypothesis import given, strategies as st

import uramsheg as u
from uramsheg import large, scenes

TABLES = u.standard()
MAPS = [u.levels(np.random.default_rng(seed).normal(size=shape), TABLES) for seed, shape in enumerate([(70, 90), (33, 41), (32, 157), (90, 24)])]


@pytest.mark.parametrize("four", MAPS)
@pytest.mark.parametrize("side", [17, 32, 33, 64])
def test_scenes_of_a_map_list_what_the_whole_map_lists(four, side):
    cols = four[0].shape[1]
    whole = u.join(u.detect(four, TABLES, (0.02,)), TABLES, four[0].shape)
    records = large.listed(four, TABLES, (0.02,), side=side)
    records = records[np.lexsort((records["is_max"], records["scene_col"], records["scene_row"]))]
    assert len(whole) > 0 and np.array_equal(records["scene_row"] * cols + records["scene_col"], whole["key"])
    assert abs(records["scene_x"] - whole["x"]).max() < 1e-4 and abs(records["scene_y"] - whole["y"]).max() < 1e-4
    for name in ("sigma", "peak", "samples", "octave", "scale_index", "is_max", "dx", "dy", "size", "accepted", "cause"):
        assert records[name].tobytes() == whole[name].tobytes()


def test_a_spot_that_moved_over_the_border_has_another_home_than_its_key():
    four = u.levels(np.random.default_rng(4).normal(size=(500, 520)), TABLES)
    sized = u.join(u.detect(four, TABLES, (0.001,)), TABLES, four[0].shape)
    own = np.divmod(sized["key"].astype(int), four[0].shape[1])
    away = [sized[side].astype(int) - pixel for side, pixel in zip(("row", "col"), own)]
    moved = [sized[place].astype(float) - pixel for place, pixel in zip("yx", own)]
    assert all(abs(move - sized[name]).max() < 2**-15 for move, name in zip(moved, ("dy", "dx")))
    assert all(np.array_equal(steps, (move >= 0.5).astype(int) - (move < -0.5)) for steps, move in zip(away, moved))
    assert all(set(steps) == {-1, 0, 1} for steps in away)


@given(st.integers(0, 400), st.integers(9, 90))
def test_every_judged_pixel_is_in_one_part(length, side):
    judged = [place for start, end in scenes.along(length, side) for place in range(start + 4, end - 4)]
    assert judged == list(range(4, length - 4))
    assert all(end - start <= side for start, end in scenes.along(length, side))


def test_a_scene_that_is_cut_off_a_longer_side_begins_with_a_tile():
    (first, second) = scenes.along(16385, large.SCENE_LENGTH)
    assert first == (0, 16360) and second == (4 * 4088, 16385) and len(u.tiles(16360, 9)) == 4


@given(st.integers(0, 40), st.integers(0, 40), st.sampled_from([2, 8, 16]))
def test_halved_tile_by_tile(rows, cols, side):
    level = np.random.default_rng(rows * 41 + cols).normal(size=(rows, cols)).astype("f4")
    assert large.halved(level, side=side).tobytes("F") == u.downsample(level).tobytes("F") and large.halved(level, side=side).shape == u.downsample(level).shape


@given(st.integers(0, 2**32 - 1), st.integers(0, 3))
def test_a_lost_pixel_strikes_its_spots_and_no_others(seed, level):
    rng = np.random.default_rng(seed)
    four = MAPS[seed % len(MAPS)]
    rows, cols = four[0].shape
    full = u.detect(four, TABLES, (0.02,))
    lost = [array.copy(order="F") for array in four]
    place = rng.integers(rows), rng.integers(cols)
    lost[level][place] = np.nan
    down, right = abs(full["key"].astype(int) // cols - place[0]), abs(full["key"].astype(int) % cols - place[1])
    struck = (down <= 2) & (right <= 2) & (down + right < 4)
    assert u.detect(lost, TABLES, (0.02,)).tobytes() == full[~struck].tobytes()
    assert np.array_equal(large.judged(lost)[full["key"] // cols, full["key"] % cols], ~struck)


def test_what_is_judged():
    flat = [np.zeros((20, 15), "f4") for _ in range(4)]
    assert large.judged(flat).sum() == 12 * 7 and large.judged(flat)[4:-4, 4:-4].all()
    flat[2][10, 7] = np.inf
    assert large.judged(flat).sum() == 12 * 7 - 21
    for shape in ((8, 20), (20, 8), (0, 0)):
        assert not large.judged([np.zeros(shape)] * 4).any()
