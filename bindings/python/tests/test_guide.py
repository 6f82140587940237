"""What docs/GUIDE.md says that no other test shows, and that the tests and theorems it names are there."""
import re
from itertools import product

import blob
import cface
import numpy as np
import plain
import pytest
from hypothesis import given, strategies as st

import uramsheg as u

GUIDE = (cface.ROOT / "docs" / "GUIDE.md").read_text()
NOISES = [np.random.default_rng(seed).normal(size=(707, 707)) for seed in (100, 101)]


def test_the_tests_and_theorems_it_names_are_there():
    folder = cface.ROOT / "bindings" / "python" / "tests"
    tests = set(re.findall(r"^def (test_\w+)", "\n".join(path.read_text() for path in folder.glob("test_*.py")), re.M))
    named = set(re.findall(r"`(test_\w+)`", GUIDE))
    assert named <= tests and len(named) > 10
    assert all((folder / name).is_file() for name in re.findall(r"`(test_\w+\.py)`", GUIDE))
    theorems = set(re.findall(r"`([a-z]+(?:-[a-z]+)+)`", GUIDE))
    promises = (cface.ROOT / "docs" / "PROMISES.md").read_text()
    assert theorems and all(f"`{name}`" in promises for name in theorems)


def test_the_code_on_two_desks_runs(tmp_path, monkeypatch):
    monkeypatch.chdir(tmp_path)
    levels, tables = u.levels(blob.spots((64, 64), (30.2, 31.3, 2.5, 100)), u.standard()), u.standard()
    due = u.detect(levels, tables, u.Thresholds(peak=10))
    for text in (GUIDE, (cface.ROOT / "bindings" / "python" / "README.md").read_text()):
        (code,) = re.findall(r"^```python\n(.*?)^```", text[text.index("## Two desks"):].split("\n## ")[0], re.M | re.S)
        names = {"levels": levels, "tables": tables, "uramsheg": u}
        exec(code, names)
        assert names["spots"].tobytes() == due.tobytes() and len(due) == 1
    assert names["sized"]["accepted"].all() and names["table"].count(3) == 2
    assert (tmp_path / "desks").read_bytes() == tables.to_bytes() + bytes(7 * 528) + b"\2" + bytes(7) + b"\2" + bytes(31)


def test_the_code_on_a_day_s_spots_runs(tmp_path, monkeypatch, capsys):
    monkeypatch.chdir(tmp_path)
    tables, levels = u.standard(), u.levels(blob.spots((64, 64), (20.2, 31.3, 2.5, 100), (44.1, 30.2, 3, 100)), u.standard())
    spots = u.detect(levels, tables, u.Thresholds(peak=10))
    for text in (GUIDE, (cface.ROOT / "bindings" / "python" / "README.md").read_text()):
        (code,) = re.findall(r"^```python\n(.*?)^```", text[text.index("## A day's spots"):].split("\n## ")[0], re.M | re.S)
        names = {"levels": levels, "tables": tables, "uramsheg": u}
        exec(code, names)
        assert names["sized"].tobytes() == u.join(spots[1:], tables, (64, 64)).tobytes() and names["live"] == 1 and names["slots"] == [0, 1]
    assert [line.split()[0] for line in capsys.readouterr().out.splitlines()] == ["0", "1"]
    free = bytes(38) + b"\xff" + bytes(9)
    assert names["store"].to_bytes() == (tmp_path / "day").read_bytes() == spots[1:].tobytes() + free * 999


def test_the_code_on_a_partner_s_list_runs(tmp_path, monkeypatch, capsys):
    monkeypatch.chdir(tmp_path)
    tables, levels = u.standard(), u.levels(blob.spots((64, 64), (20.2, 31.3, 2.5, 100), (44.1, 30.2, 3, 100)), u.standard())
    spots = u.detect(levels, tables, u.Thresholds(peak=10))
    changed, readme = spots.copy(), (cface.ROOT / "bindings" / "python" / "README.md").read_text()
    changed["peak"][0] *= -1
    lists = [("accepted", None, spots), ("absent", 1, spots[:1]), ("different", 0, changed), ("extra", 1, spots[[0, 0, 1]])]
    for text, (kind, index, sent) in product((GUIDE, readme), lists):
        (code,) = re.findall(r"^```python\n(.*?)^```", text[text.index("## A partner's list"):].split("\n## ")[0], re.M | re.S)
        (tmp_path / "partner.spots").write_bytes(sent.tobytes())
        names = {"levels": levels, "tables": tables, "uramsheg": u}
        exec(code, names)
        assert names["finding"] == u.Finding(kind, index) and len(spots) == 2
        words = str(names["finding"])
        said = [words, *["peak"] * (kind == "different")] if text is GUIDE else [f"{kind} {index}", words] * (kind != "accepted")
        assert capsys.readouterr().out.splitlines() == said
    assert f"\n    {u.Finding('absent', 1)}\n" in readme and f"# say: {u.Finding('different', 0)}\n" in GUIDE


@pytest.mark.parametrize("times, sizes", [(1, (2.4, 2.5)), (2, (2.5, 5.0)), (3.5, (2.5, 8.75)), (4, None), (5, None)])
def test_long_spots(times, sizes):
    rows, cols = np.mgrid[:160, :160]
    raw = 100 * np.exp(-((cols - 80.2) ** 2) / 2 / (2.5 * times) ** 2 - (rows - 80.3) ** 2 / 2 / 2.5**2)
    assert len(u.find(raw, peak=3, thresholds=u.Thresholds(0, ratio=100)).spots) == 1
    spots = u.find(raw, peak=3).spots
    assert len(spots) == (sizes is not None) and all(sizes[0] < spot["size"] < sizes[1] for spot in spots)


@pytest.mark.parametrize("apart, sigmas", [(2.5, [4.4]), (3, [2.9, 2.9, 5.2]), (3.5, [2.8, 2.8]), (6, [3, 3])])
def test_two_spots_near_each_other(apart, sigmas):
    spots = u.find(blob.spots((120, 120), (50.2, 60.3, 3, 100), (50.2 + 3 * apart, 60.3, 3, 100)), peak=10).spots
    assert sorted(spots["size"]) == pytest.approx(sigmas, abs=0.1)


@pytest.mark.parametrize("size, listed", [(0.5, 0), (1.0, 0), (1.4, 0), (1.8, 0), (1.85, 1), (2.0, 1)])
def test_spots_that_are_too_small(size, listed):
    assert len(u.find(blob.spots((64, 64), (30.2, 31.3, size, 100)), peak=5).spots) == listed


def test_an_even_slope_does_not_matter():
    rows, cols = np.mgrid[:90, :100]
    raw = blob.spots((90, 100), (40.3, 33.4, 2.6, 100))
    (flat,), (steep,) = (u.find(raw + slope * (cols - 2 * rows), peak=10).spots for slope in (0, 10))
    for name in ("x", "y", "size", "height"):
        assert steep[name] == pytest.approx(flat[name], rel=1e-4)


def test_a_rough_ground_has_spots_without_a_size():
    """Each pixel the sum of all noise above and before it; under the set standard."""
    spots = np.concatenate([u.find(np.cumsum(np.cumsum(noise, axis=0), axis=1)).spots for noise in NOISES])
    assert len(spots) > 2000 and 0 < (spots["cause"] == 1).mean() < 0.02 and set(spots["cause"]) == {0, 1} and spots["snr"][spots["cause"] == 1].max() > 40


def test_noise_alone_has_sizes():
    spots = np.concatenate([u.find(noise, peak=1e-3).spots for noise in NOISES])
    assert len(spots) > 500 and not spots["cause"].any()


SAMPLES = st.one_of(st.floats(width=32, allow_nan=False, allow_infinity=False), st.floats(-20, 20, width=32))
WINDOW = u.Thresholds(0)[3:]


@given(st.tuples(*[SAMPLES] * 4), st.floats(*np.float32(WINDOW).tolist(), width=32), st.booleans())
def test_the_window_of_standard_lies_inside_its_range(samples, sigma, is_max):
    """It goes on for more than the largest step, so that a spot of these sigmas has a size or no curve of its polarity."""
    tables = u.standard()
    for sigma_end, turn in zip(WINDOW, (-1, 1)):
        end = np.log2(sigma_end / tables.log_sigma_origin) + turn * tables.move_cap
        assert tables.fit_t_min < end < tables.fit_t_max
        assert tables.accepted_sigma_min < tables.log_sigma_origin * 2**end < tables.accepted_sigma_max
    try:
        u.correct(samples, tables, sigma, is_max)
    except u.NoSizeRefused as error:
        assert error.cause == 1


def test_white_noise():
    spots = np.concatenate([u.find(noise, snr=3).spots for noise in NOISES])
    assert [int((spots["snr"] >= least).sum()) for least in (3, 4, 5)] == [77, 2, 0]


@pytest.mark.parametrize("blur, least", [(0, 0), (0.7, 100), (1, 1000), (2, 1000), (4, 1000)])
def test_correlated_noise(blur, least):
    listed = 0
    for noise in NOISES:
        if blur:
            noise = plain.blurred(noise, plain.half_kernel(blur).astype(float))
        listed += len(u.find(noise).spots)
        assert len(u.find(noise, peak=3 * noise.std()).spots) == 0
    assert listed >= least and (blur or not listed)
