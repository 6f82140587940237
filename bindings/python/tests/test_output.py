"""Spots in files, read back by others."""
import csv
import json
import os
from pathlib import Path

import blob
import fiona
import kinds
import numpy as np
import pytest
from rasterio.crs import CRS
from rasterio.warp import transform

import uramsheg as u
from uramsheg import output
from uramsheg.maps import grid_of

RAW = blob.spots((90, 100), (30.2, 40.1, 2.5, 100), (70.3, 50.4, 3.1, 60))
UTM = grid_of((5, 0, 600000, 0, -5, 5000000), CRS.from_epsg(32632))


def found(grid=UTM, raw=RAW):
    """The spots of a small map."""
    return u.find(raw, peak=10, grid=grid)


def test_geojson(tmp_path):
    path = tmp_path / "spots.geojson"
    spots = found()
    output.save(str(path), spots, {"version": "1"})
    document = json.loads(path.read_text())
    assert set(document) == {"type", "uramsheg", "features"} and document["type"] == "FeatureCollection" and len(document["features"]) == 2
    for feature, spot in zip(document["features"], spots.spots):
        assert set(feature) == {"type", "geometry", "properties"} and feature["type"] == "Feature" and feature["geometry"]["type"] == "Point"
        lon, lat = transform("EPSG:32632", "EPSG:4326", [spot["map_x"]], [spot["map_y"]])
        assert feature["geometry"]["coordinates"] == pytest.approx([lon[0], lat[0]], abs=1e-8) and 8 < lon[0] < 13 and 44 < lat[0] < 46
        assert feature["properties"]["size_m"] == spot["size_m"] and feature["properties"]["kind"] == "bright"


def test_geojson_of_degrees_and_of_no_reference(tmp_path):
    degrees = u.Grid((1e-4, 0, 8, 0, -1e-4, 60), geographic=True)
    output.save(str(tmp_path / "a.json"), found(degrees))
    spot = found(degrees).spots[0]
    assert json.loads((tmp_path / "a.json").read_text())["features"][0]["geometry"]["coordinates"] == pytest.approx([spot["map_x"], spot["map_y"]], abs=1e-9)
    with pytest.raises(ValueError, match="no reference"):
        output.save(str(tmp_path / "b.json"), found(u.Grid()))
    assert os.listdir(tmp_path) == ["a.json"]


def test_csv(tmp_path):
    path = tmp_path / "spots.csv"
    spots = found(u.Grid())
    output.save(str(path), spots)
    rows = list(csv.DictReader(path.read_text().splitlines()))
    assert [float(row["x"]) for row in rows] == spots.spots["x"].tolist() and {row["size_m"] for row in rows} == {""}
    assert [row["rank"] for row in rows] == ["1", "2"] and list(rows[0]) == list(output.columns(spots))


def test_geopackage(tmp_path):
    path = str(tmp_path / "spots.gpkg")
    spots = found()
    output.save(path, spots)
    with fiona.open(path) as source:
        assert CRS.from_wkt(source.crs_wkt).to_epsg() == 32632 and len(source) == 2
        for feature, spot in zip(source, spots.spots):
            assert feature["geometry"]["coordinates"] == (spot["map_x"], spot["map_y"]) and feature["properties"]["height"] == spot["height"]


def rows_in(path):
    """The rows of a file of spots, by name."""
    if path.suffix == ".csv":
        return list(csv.DictReader(path.read_text().splitlines()))
    if path.suffix == ".gpkg":
        with fiona.open(path) as source:
            return [dict(feature["properties"]) for feature in source]
    return [feature["properties"] for feature in json.loads(path.read_text())["features"]]


def test_displacements(tmp_path):
    """In every kind of file as in the table, the small ones too."""
    spots = found()
    spots.spots["dx"][1], spots.spots["dy"][1] = 2.0**-149, -0.6
    for ending in ("geojson", "csv", "gpkg"):
        output.save(str(tmp_path / f"spots.{ending}"), spots)
        rows = rows_in(tmp_path / f"spots.{ending}")
        assert len(rows) == 2 and float(rows[0]["dx"]) == pytest.approx(0.2, abs=0.02)
        assert all([float(row[name]) for row in rows] == spots.spots[name].tolist() for name in ("dx", "dy"))


def test_causes(tmp_path):
    """A number beside each spot, 0 where it has a size; where it has none the size is empty."""
    paths = {ending: str(tmp_path / f"spots.{ending}") for ending in ("geojson", "csv", "gpkg")}
    for path in paths.values():
        output.save(path, kinds.found(grid=UTM))
    rows = list(csv.DictReader(Path(paths["csv"]).read_text().splitlines()))
    assert [row["cause"] for row in rows] == ["0", "2", "1"] and [bool(row["size_px"] and row["size_m"]) for row in rows] == [True, False, False]
    features = json.loads(Path(paths["geojson"]).read_text())["features"]
    with fiona.open(paths["gpkg"]) as source:
        assert source.schema["properties"]["cause"].startswith("int")
        for spots in (features, source):
            named = [spot["properties"] for spot in spots]
            assert [row["cause"] for row in named] == kinds.CAUSES and [row["size_px"] is None for row in named] == [False, True, True]


@pytest.mark.parametrize("ending", ["geojson", "csv", "gpkg"])
def test_no_spots_is_a_file_too(tmp_path, ending):
    path = str(tmp_path / f"spots.{ending}")
    for _ in range(2):
        output.save(path, found(raw=np.zeros((30, 30))))
    assert os.listdir(tmp_path) == [f"spots.{ending}"]


def test_a_file_is_whole_or_not_there(tmp_path):
    path = str(tmp_path / "old.csv")
    output.write_text(path, "old")
    with pytest.raises(RuntimeError):
        output.whole(path, lambda aside: (output.write_text(aside, "new"), (_ for _ in ()).throw(RuntimeError())))
    assert Path(path).read_text() == "old" and os.listdir(tmp_path) == ["old.csv"]
    with pytest.raises(ValueError, match="known endings"):
        output.save(str(tmp_path / "spots.txt"), found())
    pytest.raises(FileNotFoundError, output.save, str(tmp_path / "none" / "spots.csv"), found())


