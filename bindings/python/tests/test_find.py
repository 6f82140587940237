"""From raw maps of known spots to the table."""
import blob
import kinds
import numpy as np
import pytest
import xarray
from hypothesis import given, settings, strategies as st

import uramsheg as u
from uramsheg import finding

SPOT = (40.3, 33.4, 2.6, 100.0)


def test_one_row_says_all():
    raw = blob.spots((70, 81), SPOT) + 1900
    found = u.find(raw, peak=10, grid=u.Grid((5, 0, 600000, 0, -5, 5000000), metres=1))
    (spot,) = found.spots
    assert found.ground == pytest.approx(1900, abs=0.5)
    assert (spot["x"], spot["y"]) == (pytest.approx(40.3, abs=0.01), pytest.approx(33.4, abs=0.01))
    assert (spot["map_x"], spot["map_y"]) == (pytest.approx(600000 + 5 * 40.8, abs=0.05), pytest.approx(5000000 - 5 * 33.9, abs=0.05))
    assert spot["size"] == pytest.approx(2.6, rel=0.01) and spot["size_m"] == pytest.approx(5 * spot["size"])
    assert spot["height"] == pytest.approx(100, rel=0.05) == -2 * spot["peak"]
    assert spot["bright"] and not spot["near_lost"] and spot["cause"] == 0 and spot["octave"] == 0 and (spot["row"], spot["col"]) == (33, 40)
    assert (spot["key"], spot["dx"], spot["dy"]) == (33 * 2**32 + 40, pytest.approx(spot["x"] - 40, abs=1e-5), pytest.approx(spot["y"] - 33, abs=1e-5))


@pytest.mark.parametrize("octave", [0, 1, 2])
def test_row_and_col_are_the_map_s_pixel_nearest_to_the_place(octave):
    side = 150 * 2**octave
    spots = u.find(np.random.default_rng(octave).normal(size=(side, side + 7)), peak=1e-3, kind="both", octaves=[octave]).spots
    for place, side in (("y", "row"), ("x", "col")):
        assert np.all(2 * spots[side] - 1 <= 2 * spots[place]) and np.all(2 * spots[place] < 2 * spots[side] + 1)
    row, col = np.divmod(spots["key"], 2**32)
    assert not (row % 2**octave).any() and not (col % 2**octave).any() and max(abs(spots["y"] - row).max(), abs(spots["x"] - col).max()) < 0.601 * 2**octave
    assert np.any(spots["row"] != row) and np.any(spots["col"] != col)


@settings(max_examples=60)
@given(st.floats(1.95, 3.7), st.floats(-0.45, 0.45), st.floats(-0.45, 0.45), st.floats(1e-12, 1e12), st.booleans(), st.integers(0, 1))
def test_one_gaussian_of_any_height(size, right, down, height, dark, octave):
    x, y, size = (32 + right) * 2**octave, (30 + down) * 2**octave, size * 2**octave
    shape = 61 * 2**octave, 64 * 2**octave
    raw = blob.spots(shape, (x, y, size, -height if dark else height))
    (spot,) = u.find(raw, peak=0.1 * height, kind="both").spots
    assert spot["bright"] != dark and np.hypot(spot["x"] - x, spot["y"] - y) < 0.03 * 2**octave
    assert abs(spot["size"] / size - 1) < 0.05 and abs(abs(spot["height"]) / height - 1) < 0.1


@pytest.mark.parametrize("noise, low_size, place, bias, spread", [(0.0, 1.95, 0.008, 0.002, 0.006), (2.0, 1.95, 0.016, 0.002, 0.008)])
def test_a_field_of_known_spots(noise, low_size, place, bias, spread):
    """64 spots of sizes to 8 pixels and heights 50 to 400: all found, nothing else at their sizes; places in pixels, sizes as a share."""
    shape, known = blob.field(7, 8, low_size, 8.0)
    raw = blob.spots(shape, *known) + noise * np.random.default_rng(1).normal(size=shape)
    spots = u.find(raw, peak=10).spots
    small = spots[spots["sigma"] < 12]
    assert len(small) == len(known) == 64
    errors = []
    for x, y, size, height in known:
        near = small[np.hypot(small["x"] - x, small["y"] - y) < size / 2]
        assert len(near) == 1
        errors.append((np.hypot(near["x"][0] - x, near["y"][0] - y), near["size"][0] / size - 1, near["height"][0] / height - 1))
    errors = np.array(errors)
    assert -0.04 < errors[:, 2].mean() < -0.025
    assert errors[:, 0].mean() < place and abs(errors[:, 1].mean()) < bias and errors[:, 1].std() < spread


def test_the_unit_does_not_matter():
    rng = np.random.default_rng(2)
    raw = blob.spots((90, 80), (40, 41.2, 3, 60), (20.2, 60, 2.2, 50)) + rng.normal(size=(90, 80))
    whole = u.find(raw, ground=0.0)
    assert len(whole.spots) == 2
    for factor in (2.0**-60, 2.0**-20, 2.0**30, 2.0**200):
        other = u.find(raw * factor, ground=0.0)
        for name in u.FOUND.names:
            share = factor if name in ("height", "peak") else 1
            assert np.array_equal(other.spots[name], whole.spots[name] * share if share != 1 else whole.spots[name], equal_nan=True), name
        assert (other.noise, other.unit) == (whole.noise * factor, whole.unit * factor)


def test_a_high_ground_does_not_matter():
    raw = blob.spots((70, 81), SPOT)
    for ground in (0.0, 1e6, -1e9):
        (spot,) = u.find(raw + ground, peak=10).spots
        assert (spot["x"], spot["y"], spot["size"]) == (pytest.approx(40.3, abs=0.01), pytest.approx(33.4, abs=0.01), pytest.approx(2.6, rel=0.01))


def test_noise_of_a_map_and_of_its_response():
    noise = np.random.default_rng(5).normal(size=(400, 400)) * 3
    assert finding.noise_of(noise) == pytest.approx(3, rel=0.02)
    for level, sigma in zip(u.levels(noise, u.standard()), u.standard().sigmas.astype(float)):
        inner = level[20:-20, 20:-20].astype(float)
        response = sigma**2 * (inner[:-2, 1:-1] + inner[2:, 1:-1] + inner[1:-1, :-2] + inner[1:-1, 2:] - 4 * inner[1:-1, 1:-1])
        assert response.std() == pytest.approx(finding.response_noise(3, sigma), rel=0.12)


def test_noise_alone_has_no_spot_of_eight_times_the_noise():
    noise = np.random.default_rng(6).normal(size=(500, 500))
    assert len(u.find(noise, kind="both").spots) == 0
    low = u.find(noise, snr=3, kind="both").spots
    assert len(low) > 10 and low["snr"].min() >= 3 and {True, False} == set(low["bright"].tolist())


def test_a_spot_without_a_size_says_why():
    found = kinds.found(grid=u.Grid((5, 0, 0, 0, -5, 0), metres=1))
    assert found.spots["cause"].tolist() == kinds.CAUSES
    for spot, (x, y, size, height) in zip(found.spots, kinds.SPOTS):
        assert (spot["x"], spot["y"], spot["height"]) == (pytest.approx(x, abs=0.02), pytest.approx(y, abs=0.02), pytest.approx(height, rel=0.05))
        assert np.isnan([spot["size"], spot["size_m"]]).all() if spot["cause"] else spot["size"] == pytest.approx(size, rel=0.01)
    assert found.to_pandas()["cause"].tolist() == found.to_xarray()["cause"].values.tolist() == kinds.CAUSES


def test_strongest_first_and_kinds():
    raw = blob.spots((120, 130), (30, 31, 2.5, 50), (80.3, 40, 2.5, -90), (60, 90, 2.5, 70))
    both = u.find(raw, peak=5, kind="both").spots
    assert [round(h, -1) for h in both["height"]] == [-90, 70, 50]
    assert u.find(raw, peak=5).spots.tobytes() == both[both["bright"]].tobytes()
    assert u.find(raw, peak=5, kind="dark").spots.tobytes() == both[~both["bright"]].tobytes()
    assert len(u.find(raw, peak=40, kind="both").spots) == 1


def test_octaves_that_are_asked_for():
    raw = blob.spots((140, 140), (30.2, 31, 2.5, 50), (90.3, 90, 5.5, 90))
    assert u.find(raw, peak=5).spots["octave"].tolist() == [1, 0]
    assert u.find(raw, peak=5, octaves=[1]).spots["octave"].tolist() == [1] and [one.octave for one in u.find(raw, peak=5, octaves=[0, 7]).judged] == [0]


def test_a_lost_pixel_blinds_and_the_judged_area_says_where():
    """A square of 16, 40, 88 and 184 pixels each way in octaves 0 to 3, at a pixel of all four: the kernels of its octave and those before it, and 2."""
    raw = np.zeros((600, 640))
    raw[304, 320] = np.nan
    for one, reach in zip(u.find(raw, peak=1).judged, (16, 40, 88, 184)):
        blind = np.argwhere(~one.mask[4:-4, 4:-4]) + 4 - np.array((304, 320)) // 2**one.octave
        assert abs(blind).max(axis=0).tolist() == [reach // 2**one.octave] * 2
        assert len(blind) == (2 * reach // 2**one.octave + 1) ** 2 - 4  # but for the corners


@pytest.mark.parametrize("away, listed, near", [(16, 0, None), (17, 1, True), (19, 1, True), (20, 1, False)])
def test_near_a_lost_pixel(away, listed, near):
    raw = blob.spots((200, 200), (100.3, 100.2, 3.6, 100))
    raw[100 - away, 100] = np.nan
    spots = u.find(raw, peak=10, octaves=[0]).spots
    assert len(spots) == listed and spots["near_lost"].tolist() == [near] * listed


@given(st.floats(8, 80), st.floats(8, 80), st.floats(0.5, 9), st.integers(0, 89), st.integers(0, 89))
def test_near_lost_is_five_sigmas_from_the_place(x, y, sigma, row, col):
    """Each way, and at most a pixel and a half more."""
    spots, lost = np.zeros(1, u.FOUND), np.zeros((90, 90), bool)
    spots["x"], spots["y"], spots["sigma"], spots["row"], spots["col"] = x, y, sigma, np.floor(y + 0.5), np.floor(x + 0.5)
    lost[row, col] = True
    away = max(abs(row - y), abs(col - x))
    (near,) = finding.placed(spots, u.Grid(), lost)["near_lost"]
    assert near if away <= 5 * sigma else not near or away < 5 * sigma + 1.5


def test_judged_says_which_sigmas():
    judged = u.find(np.zeros((300, 300)), peak=1).judged
    assert [(one.octave, one.low, one.high) for one in judged] == [(o, 1.9027314 * 2**o, 4.1498866 * 2**o) for o in range(4)]
    assert [one.mask.shape for one in judged] == [(300, 300), (150, 150), (75, 75), (37, 37)]
    assert all(one.mask.sum() == (one.mask.shape[0] - 8) ** 2 for one in judged)


def test_filled_pixels_that_are_marked():
    raw = blob.spots((70, 81), SPOT)
    lost = np.zeros(raw.shape, bool)
    lost[33, 45] = True
    assert u.find(raw, peak=10, lost=lost).spots["near_lost"].tolist() == [True]


@pytest.mark.parametrize("raw", [np.zeros((0, 0)), np.zeros((0, 9)), np.zeros((9, 9)), np.full((20, 20), np.nan), np.ones((30, 30)), np.zeros((1, 50)),
                                 np.ma.masked_all((12, 12)), np.zeros((20, 20), "u1")])
def test_maps_with_nothing(raw):
    found = u.find(raw)
    assert len(found.spots) == 0 and found.spots.dtype == u.FOUND


def test_masked_maps_and_whole_numbers():
    raw = np.rint(blob.spots((70, 81), SPOT)).astype("i4")
    masked = np.ma.MaskedArray(raw, mask=np.zeros(raw.shape, bool))
    masked[5, 60] = np.ma.masked
    lost = raw.astype(float)
    lost[5, 60] = np.nan
    assert u.find(masked, peak=10).spots.tobytes() == u.find(lost, peak=10).spots.tobytes() != b""
    assert u.find(np.asfortranarray(raw), peak=10).spots.tobytes() == u.find(raw.astype(">f4"), peak=10).spots.tobytes()


def test_a_spot_between_two_pixels_ties_and_is_not_listed():
    """Document 01: a peak strictly beats its neighbours."""
    assert len(u.find(blob.spots((64, 64), (30.5, 32, 3, 100)), peak=10, octaves=[0]).spots) == 0


def test_pandas_and_xarray():
    raw = blob.spots((70, 81), SPOT)
    array = xarray.DataArray(raw, dims=("y", "x"), coords={"y": 5000000 - 5 * np.arange(70.0), "x": 600000 + 5 * np.arange(81.0)}, name="ch4")
    array["x"].attrs["units"] = "m"
    found = u.find(array, peak=10)
    same = u.find(raw, peak=10, grid=u.Grid((5, 0, 599997.5, 0, -5, 5000002.5), metres=1))
    assert found.spots.tobytes() == same.spots.tobytes() and found.spots["map_x"][0] == pytest.approx(600000 + 5 * 40.3, abs=0.05)
    frame, data = found.to_pandas(), found.to_xarray()
    assert list(frame.columns) == list(u.FOUND.names) == list(data) and len(frame) == data.sizes["spot"] == 1
    assert all(frame[name][0] == found.spots[name][0] == data[name].values[0] for name in u.FOUND.names)


def test_what_is_no_argument():
    raw = np.zeros((20, 20))
    for wrong in (dict(kind="gas"), dict(ground="mean")):
        pytest.raises(ValueError, u.find, raw, **wrong)
    pytest.raises(TypeError, u.find, np.zeros(20))
    pytest.raises(u.SetRefused, u.find, raw, b"")
    assert len(u.find(raw, u.standard().to_bytes()).spots) == 0


def test_a_map_wider_than_a_tile():
    raw = np.zeros((40, 4300))
    raw[:, 4050:] = blob.spots((40, 250), (42.2, 20.3, 2.5, 100), (200.4, 21.2, 2.5, 80))
    spots = u.find(raw, peak=10).spots
    assert spots["x"].tolist() == [pytest.approx(4092.2, abs=0.02), pytest.approx(4250.4, abs=0.02)] and spots["col"].tolist() == [4092, 4250]


def test_a_map_wider_than_a_scene():
    """Spots where tiles meet, and where scenes of longer maps do: each once."""
    wide = (4092.2, 8180.3, 16355.8, 16356.2, 16480.4)
    raw = np.zeros((40, 16500))
    for x, y in zip(wide, (20.3, 21.2, 10.2, 30.3, 19.7)):
        left = int(x) - 20
        raw[:, left : left + 40] += blob.spots((40, 40), (x - left, y, 2.5, 100))
    spots = u.find(raw, peak=10).spots
    assert np.sort(spots["x"]).tolist() == [pytest.approx(x, abs=0.1) for x in wide]
    assert sorted(spots["col"]) == [4092, 8180, 16356, 16356, 16480] and sorted(spots["key"] % 2**32) == sorted(spots["col"])


def test_a_noise_next_to_none():
    """A signal to noise beyond float64 is infinite, as it is without noise."""
    spots = u.find(blob.spots((70, 81), SPOT), peak=10).spots
    assert [finding.signal_to_noise(spots, noise).tolist() for noise in (1e-320, 0.0)] == [[np.inf], [np.inf]]
