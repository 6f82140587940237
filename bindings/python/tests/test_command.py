"""The command: what it prints, what it writes, how it ends."""
import json
import os
import subprocess
import sys
from pathlib import Path

import blob
import kinds
import numpy as np
import pytest
import rasterio
import xarray
from rasterio.transform import Affine

import uramsheg as u
from uramsheg import command, tables

RAW = blob.spots((90, 100), (30.2, 40.1, 2.5, 100), (70.3, 50.4, 3.1, 60), (60.2, 20.4, 2.2, -80))


@pytest.fixture
def here(tmp_path, monkeypatch):
    """A folder with a map, as the current one."""
    monkeypatch.chdir(tmp_path)
    np.save("map.npy", RAW)
    return tmp_path


def ran(capsys, *words):
    """The exit code, standard output and standard error of the command."""
    code = command.main(list(words))
    said = capsys.readouterr()
    return code, said.out, said.err


def test_a_list_for_people(here, capsys):
    code, out, err = ran(capsys, "detect", "map.npy", "--peak", "10")
    lines = out.splitlines()
    assert (code, err, len(lines)) == (0, "", 5) and lines[0].startswith("map.npy: 2 spots; ground ")
    assert [float(word) for word in lines[2].split()[:3]] == pytest.approx([1, 30.2, 40.1], abs=0.01) and lines[2].endswith(" px  bright")
    assert lines[-1].startswith("judged: 84 % for sigmas 1.9 to 4.15 px; ")
    assert ran(capsys, "detect", "map.npy", "--peak", "10", "--kind", "dark")[1].startswith("map.npy: 1 spot;")
    assert ran(capsys, "detect", "map.npy", "-q") == (0, "", "")


def test_a_spot_without_a_size_says_why(here, capsys):
    np.save("three.npy", kinds.RAW)
    (here / "three.set").write_bytes(kinds.tables().to_bytes())
    lines = ran(capsys, "detect", "three.npy", "--set", "three.set", "--peak", "5")[1].splitlines()[2:5]
    assert lines[0].endswith("2.19 px  bright") and lines[1].endswith(f"none  bright  {u.NO_SIZE[2]}") and lines[2].endswith(f"none  bright  {u.NO_SIZE[1]}")


def test_files_and_the_numbers_of_the_run(here, capsys):
    np.save("noisy.npy", RAW + np.random.default_rng(3).normal(size=RAW.shape))
    assert ran(capsys, "detect", "noisy.npy", "--snr", "8", "--ground", "1.5", "-o", "{name}.csv", "--picture", "{name}.png")[0] == 0
    assert sorted(os.listdir()) == ["map.npy", "noisy.csv", "noisy.npy", "noisy.png"] and Path("noisy.png").read_bytes().startswith(b"\x89PNG")
    spots = u.find(np.load("noisy.npy"), snr=8, ground=1.5).spots
    assert [float(line.split(",")[1]) for line in Path("noisy.csv").read_text().splitlines()[1:]] == spots["x"].tolist() and len(spots) > 1


def test_geojson_says_how_it_was_found(here, capsys):
    place = {"crs": "EPSG:32632", "transform": Affine(5, 0, 600000, 0, -5, 5000000)}
    with rasterio.open("map.tif", "w", driver="GTiff", height=90, width=100, count=1, dtype="float32", **place) as out:
        out.write(RAW.astype("f4"), 1)
    assert ran(capsys, "detect", "map.tif", "--peak", "10", "-o", "spots.geojson", "-q")[0] == 0
    about = json.loads(Path("spots.geojson").read_text())["uramsheg"]
    assert about["map"] == "map.tif" and about["set"] == "standard" and about["version"] == u.__version__ and [one["octave"] for one in about["judged"]] == [0, 1]
    assert about["thresholds"] == {"peak": 10, "snr": None, "curvature": 0, "ratio": 12.1, "window": [1.9027314, 4.1498866]} and about["kind"] == "bright"
    assert about["causes"] == {"1": u.NO_SIZE[1], "2": u.NO_SIZE[2]}
    words = ("detect", "map.tif", "--window", "1.9", "inf", "--peak", "10", "-o", "spots.geojson", "--report", "spots.html", "-q")
    assert ran(capsys, *words) == (0, "", "") and json.loads(Path("spots.geojson").read_text())["uramsheg"]["thresholds"]["window"] == [1.9, "inf"]
    assert "1.9 to inf" in Path("spots.html").read_text()


def test_small_holes_are_filled_on_request(here, capsys, monkeypatch):
    holes = RAW.copy()
    holes[42, 30], holes[44:48, 80:84] = np.nan, np.nan
    np.save("holes.npy", holes)
    assert ran(capsys, "detect", "holes.npy", "--peak", "10", "-o", "a.csv")[1].startswith("holes.npy: 0 spots; ground ")
    out = ran(capsys, "detect", "holes.npy", "--peak", "10", "--fill", "4", "-o", "b.csv")[1]
    assert out.startswith("holes.npy: 1 spot; ground ") and out.splitlines()[0].endswith("; 1 lost pixels filled")
    assert Path("b.csv").read_text().splitlines()[1].split(",")[12:14] == ["True", "0"]
    drawn = []
    monkeypatch.setattr(command, "draw", lambda to, given, found: drawn.append(given.values))
    assert ran(capsys, "detect", "holes.npy", "--peak", "10", "--fill", "16", "--picture", "a.png")[1].startswith("holes.npy: 2 spots; ground ")
    assert np.array_equal(drawn[0], holes, equal_nan=True)


def test_options_reach_the_detector(here, capsys):
    assert ran(capsys, "detect", "map.npy", "--peak", "10", "--octaves", "1")[1].startswith("map.npy: 0 spots")
    assert ran(capsys, "detect", "map.npy", "--peak", "10", "--window", "1.9", "2.8")[1].startswith("map.npy: 1 spot;")
    assert ran(capsys, "detect", "map.npy", "--peak", "10", "--ratio", "1")[1].startswith("map.npy: 0 spots")
    assert ran(capsys, "detect", "map.npy", "--peak", "10", "--curvature", "1e9")[1].startswith("map.npy: 0 spots")


def test_a_zarr_folder(here, capsys):
    xarray.Dataset({"ch4": (("y", "x"), RAW)}).to_zarr("scene.zarr")
    xarray.Dataset({"ch4": (("lat", "lon"), RAW)}, coords={"lat": 60 - 1e-4 * np.arange(90), "lon": 8 + 1e-4 * np.arange(100)}).to_zarr("degrees.zarr")
    assert ran(capsys, "detect", "scene.zarr/", "--peak", "10", "-o", "{name}.csv")[1].startswith("scene.zarr/: 2 spots") and Path("scene.csv").is_file()
    assert ran(capsys, "detect", "degrees.zarr", "--peak", "10", "-o", "{name}.geojson", "-q") == (0, "", "")
    document = json.loads(Path("degrees.geojson").read_text())
    assert document["uramsheg"]["map"] == "degrees.zarr" and document["features"][0]["geometry"]["coordinates"] == pytest.approx([8.00302, 59.99599], abs=1e-6)
    os.mkdir("none.zarr")
    code, out, err = ran(capsys, "detect", "none.zarr")
    assert (code, out, err.count("\n")) == (3, "", 1)


@pytest.mark.parametrize("jobs", ["1", "2"])
def test_several_maps_in_their_order(here, capfd, jobs):
    np.save("a.npy", RAW)
    np.save("c.npy", RAW[:60])
    code = command.main(["detect", "c.npy", "b.npy", "a.npy", "--peak", "10", "-o", "{name}.csv", "--jobs", jobs])
    said = capfd.readouterr()
    assert code == 5 and [line.split(":")[0] for line in said.out.splitlines() if "spot" in line] == ["c.npy", "a.npy"]
    assert said.err.splitlines() == ["uramsheg: b.npy: No such file or directory", "uramsheg: 1 of 3 maps failed"]
    assert sorted(os.listdir()) == ["a.csv", "a.npy", "c.csv", "c.npy", "map.npy"]


@pytest.mark.parametrize("words, code, said", [
    (("detect", "none.npy"), 3, "none.npy: No such file or directory"),
    (("detect", "text.tif"), 3, "not recognized as a supported file format"),
    (("detect", "map.npy", "--set", "none.set"), 3, "none.set: No such file or directory"),
    (("detect", "map.npy", "--set", "text.tif"), 3, "neither a set record nor a set in TOML"),
    (("detect", "map.npy", "--set", "bad.set"), 14, "refused 4: the set of tables is not good (spare[0] is 1, not 0)"),
    (("detect", "map.npy", "-o", "none/spots.csv"), 4, "none/spots.csv: No such file or directory"),
    (("detect", "map.npy", "--picture", "none/spots.png"), 4, "none/spots.png: No such file or directory"),
    (("detect", "map.npy", "--picture", "spots.txt"), 2, "is not supported"),
    (("detect", "map.npy", "-o", "spots.txt"), 2, "the known endings are"),
    (("detect", "map.npy", "-o", "spots.geojson"), 2, "this map has no reference: write .csv"),
    (("detect", "map.npy", "map.npy", "-o", "spots.csv"), 2, "with several maps an output's name needs {name} in it"),
    (("detect", "steps.npy"), 2, "steps.npy: most neighbouring pixels are equal, so that the map shows no noise to measure by: give a peak"),
    (("info", "none.npy"), 3, "none.npy: No such file or directory"),
    (("set", "check", "bad.set"), 14, "refused 4"),
    (("set", "make", "-o", "none/a.toml"), 4, "none/a.toml: No such file or directory"),
])
def test_failures(here, capsys, words, code, said):
    np.save("steps.npy", np.arange(40 * 30).reshape(40, 30) // 300)
    (here / "text.tif").write_text("no map")
    (here / "bad.set").write_bytes(u.standard().to_bytes()[:525] + b"\1\0\0")
    before = sorted(os.listdir())
    ended, out, err = ran(capsys, *words)
    assert (ended, out, err.count("\n")) == (code, "", 1) and err.startswith("uramsheg: ") and said in err
    assert sorted(os.listdir()) == before


@pytest.mark.parametrize("words", [(), ("detect",), ("detect", "map.npy", "--peak", "1", "--snr", "2"), ("detect", "map.npy", "--ground", "mean"), ("set",),
                                   ("detect", "map.npy", "--fill", "-1")])
def test_wrong_use(here, capsys, words):
    with pytest.raises(SystemExit) as ended:
        command.main(list(words))
    assert ended.value.code == 2 and "usage: uramsheg" in capsys.readouterr().err


def test_version(capsys):
    with pytest.raises(SystemExit) as ended:
        command.main(["--version"])
    assert ended.value.code == 0 and capsys.readouterr().out == f"{u.__version__}\n"


def test_stopped(here, capsys, monkeypatch):
    def stop(*_, **__):
        """As Ctrl-C does."""
        raise KeyboardInterrupt

    monkeypatch.setattr(command, "find", stop)
    assert ran(capsys, "detect", "map.npy")[0] == 130


def test_sets(here, capsys):
    assert ran(capsys, "set", "check", "standard") == (0, "standard: good\n", "")
    code, toml, _ = ran(capsys, "set", "show", "standard")
    assert code == 0 and u.Tables.from_toml(toml) == u.standard()
    for name in ("made.toml", "made.set"):
        assert ran(capsys, "set", "make", "--sigmas", "1.5", "2.1", "3", "4.2", "-o", name) == (0, "", "")
        assert tables.load(name).sigmas.tolist() == np.float32([1.5, 2.1, 3, 4.2]).tolist() and ran(capsys, "set", "check", name)[0] == 0
    assert tables.load("made.toml") == tables.load("made.set")
    assert u.Tables.from_toml(ran(capsys, "set", "make")[1]).sigmas.tolist() == u.standard().sigmas.tolist()
    assert ran(capsys, "detect", "map.npy", "--set", "made.toml", "--peak", "10")[1].startswith("map.npy: 2 spots")


@pytest.mark.parametrize("words, missing, code, said", [
    (("map.tif",), "rasterio", 3, "map.tif: to read it the Python package rasterio is needed"),
    (("map.nc",), "xarray", 3, "map.nc: to read it the Python package xarray is needed"),
    (("map.zarr",), "zarr", 3, "map.zarr: to read it the Python package zarr is needed"),
    (("map.npy", "-o", "spots.gpkg"), "fiona", 4, "spots.gpkg: to write it the Python package fiona is needed"),
    (("map.npy", "--picture", "spots.png"), "matplotlib", 4, "spots.png: to write it the Python package matplotlib is needed"),
    (("map.npy", "--report", "spots.html"), "matplotlib", 4, "spots.html: to write it the Python package matplotlib is needed"),
])
def test_a_package_that_is_missing_is_named(here, words, missing, code, said):
    for name in ("map.tif", "map.nc", "map.zarr"):
        (here / name).touch()
    lines = f"import sys; sys.modules[{missing!r}] = None; from uramsheg.command import main; sys.exit(main({['detect', *words]!r}))"
    run = subprocess.run([sys.executable, "-c", lines], capture_output=True, text=True)
    assert (run.returncode, run.stdout, run.stderr) == (code, "", f"uramsheg: {said}\n")


def test_info(here, capsys):
    code, out, _ = ran(capsys, "info", "map.npy")
    assert code == 0 and out.startswith("map.npy: 90 rows by 100 cols, 0 pixels lost\nvalues -") and "a pixel is of unknown size" in out
    np.save("lost.npy", np.full((3, 4), np.nan))
    assert ran(capsys, "info", "lost.npy")[1].startswith("lost.npy: 3 rows by 4 cols, 12 pixels lost\ntransform")


def test_as_a_program(here):
    run = subprocess.run([sys.executable, "-m", "uramsheg", "detect", "map.npy", "--peak", "10"], capture_output=True, text=True)
    assert run.returncode == 0 and run.stdout.startswith("map.npy: 2 spots")
    gone = subprocess.run(f"{sys.executable} -m uramsheg set show standard | true; exit ${{PIPESTATUS[0]}}", shell=True, executable="/bin/bash", capture_output=True)
    assert (gone.returncode, gone.stderr) == (0, b"")
