"""The maps of known plumes: their sources are listed, or stand where the judged area says that they could not be; the larger one's list and its picture."""
import json
import runpy
import subprocess
import sys

import cface
import numpy as np
import pytest
from matplotlib.image import imread

import uramsheg as u
from uramsheg import large

FOLDER = cface.ROOT / "bindings" / "python" / "examples"
EXAMPLE = runpy.run_path(str(FOLDER / "plumes.py"))


def test_each_source_is_listed_or_was_not_judged():
    found = u.find(EXAMPLE["made"]())
    assert len(found.spots) == 7
    for x, y, width, height, _ in EXAMPLE["PLUMES"]:
        near = found.spots[np.hypot(found.spots["x"] - x, found.spots["y"] - y) < width]
        octaves = [one for one in found.judged if one.low < width < one.high]
        judged = any(one.mask[y >> one.octave, x >> one.octave] for one in octaves)
        assert len(near) == judged and len(octaves) > 0
        if judged:
            assert abs(near["size"][0] / width - 1) < 0.12 and abs(near["height"][0] / height - 1) < 0.2
    assert {width for x, y, width, *_ in EXAMPLE["PLUMES"] if not (np.hypot(found.spots["x"] - x, found.spots["y"] - y) < width).any()} == {14.0}


def listed(path):
    """The rows of a list in GeoJSON, with the place in degrees."""
    return [{**feature["properties"], "place": feature["geometry"]["coordinates"]} for feature in json.loads(path.read_text())["features"]]


@pytest.fixture(scope="module")
def made(tmp_path_factory):
    """What the recipe of the picture makes."""
    folder = tmp_path_factory.mktemp("made")
    said = subprocess.run([FOLDER / "show", folder], capture_output=True, text=True)
    assert (said.returncode, said.stderr) == (0, "") and said.stdout.startswith("plumes.tif: 7 spots")
    assert sorted(path.name for path in folder.iterdir()) == ["plumes.tif", "spots.geojson", "spots.png"]
    return folder


def test_the_recipe_gives_the_list_that_is_stored(made):
    stored, made = listed(FOLDER / "spots.geojson"), listed(made / "spots.geojson")
    assert len(stored) == len(made) == 7
    for old, new in zip(stored, made):
        assert list(old) == list(new)
        near = {name: pytest.approx(value, rel=1e-4, abs=1e-4 if name in ("dx", "dy") else None) for name, value in old.items() if not isinstance(value, (str, bool, int))}
        assert all(new[name] == near.get(name, value) for name, value in old.items())


def test_its_picture_made_small_is_like_the_stored_one(made, tmp_path):
    small = tmp_path / "small.png"
    subprocess.run([sys.executable, FOLDER / "small.py", made / "spots.png", small], check=True)
    for path in (small, cface.ROOT / "docs" / "spots.png"):
        assert path.stat().st_size <= 200_000 and imread(path).shape[:2] == (573, 1000)


RAW = cface.ROOT / "examples"


def test_the_raw_map_is_what_its_maker_makes():
    assert subprocess.run([sys.executable, RAW / "raw.py"], capture_output=True, check=True).stdout == (RAW / "raw.csv").read_bytes()


def printed(raw, four, spots):
    """The lines that the examples in C and Rust print."""
    rows, cols = raw.shape
    lines = [f"{rows} rows by {cols} cols, {(~np.isfinite(raw)).sum()} lost"]
    lines += [f"level {k}: {np.nanmin(level):.2f} to {np.nanmax(level):.2f}, {(~np.isfinite(level)).sum()} lost" for k, level in enumerate(four)]
    lines += [f"{'maximum' if spot['is_max'] else 'minimum'} at x {spot['x']:.2f}, y {spot['y']:.2f}, home pixel ({spot['row']}, {spot['col']}): "
              f"sigma {spot['sigma']:.2f}, peak {spot['peak']:.1f}, " + u.NO_SIZE.get(spot["cause"], f"size {spot['size']:.2f}") for spot in spots]
    return lines


def expected(name):
    """The lines that C's output is compared with."""
    return (cface.ROOT / "tests" / "alp" / name).read_text().splitlines()


def test_the_raw_map_s_levels_spots_and_sizes_are_those_that_c_and_rust_print():
    raw, tables = np.loadtxt(RAW / "raw.csv", delimiter=","), u.standard()
    four = u.levels(raw, tables)
    found = u.detect(four, tables, u.Thresholds(peak=50))
    spots, limited = u.join(found, tables, raw.shape), u.join(found, tables.replace(curvature_epsilon=65, accepted_sigma_max=2.25), raw.shape)
    assert printed(raw, four, spots) == expected("raw.expected") and printed(raw, four, limited) == expected("causes.expected")
    *plumes, (x, y, *_) = runpy.run_path(str(RAW / "raw.py"))["PLUMES"]
    assert len(spots) == len(plumes) and not large.judged(four)[y, x]
    for x, y, size, height in plumes:
        (near,) = spots[np.hypot(spots["x"] - x, spots["y"] - y) < 0.1]
        assert abs(near["size"] / size - 1) < 0.02 and abs(-2 * near["peak"] / height - 1) < 0.05 and large.judged(four)[y, x]
