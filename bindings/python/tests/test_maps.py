"""Maps through real files: lost pixels, places, metres."""
import blob
import numpy as np
import pytest
import rasterio
import rioxarray
import xarray
from rasterio.crs import CRS
from rasterio.transform import Affine

import uramsheg as u
from uramsheg import maps

PLACE = Affine(5, 0, 600000, 0, -5, 5000000)
SPOT = (70.25, 40.4, 3.0, 100.0)
GROUND = 600000 + 5 * 70.75, 5000000 - 5 * 40.9


def values():
    """A spot on a high ground, with four lost columns."""
    raw = blob.spots((120, 160), SPOT) + 1900
    raw[:, :4] = np.nan
    return raw


def tif(path, raw, nodata=-9999, crs="EPSG:32632", transform=PLACE, dtype="float32", **more):
    """Writes a GeoTIFF."""
    with rasterio.open(path, "w", driver="GTiff", height=raw.shape[0], width=raw.shape[1], count=1, dtype=dtype, crs=crs, transform=transform, nodata=nodata) as out:
        out.write(np.where(np.isnan(raw), 0 if nodata is None else nodata, raw).astype(dtype), 1)
        out.units = ("ppb",)
        for name, value in more.items():
            setattr(out, name, value)
    return path


def check(given):
    """The spot is where it was put."""
    assert np.isnan(given.values[:, :4]).all() and np.isfinite(given.values[:, 4:]).all()
    (spot,) = u.find(given.values, peak=10, grid=given.grid).spots
    assert (spot["map_x"], spot["map_y"]) == pytest.approx(GROUND, abs=0.05)  # a hundredth of a pixel
    assert spot["size_m"] == pytest.approx(15, rel=0.01)


def test_geotiff(tmp_path):
    given = maps.read(tif(tmp_path / "scene.tif", values()))
    check(given)
    assert (given.unit, given.name, given.grid.crs.to_epsg()) == ("ppb", "scene", 32632)


def test_geotiff_of_whole_numbers_with_a_scale(tmp_path):
    given = maps.read(tif(tmp_path / "scene.tif", np.rint((values() - 1900) * 100), dtype="int16", scales=(0.01,), offsets=(1900,)))
    check(given)
    assert np.nanmax(abs(given.values - values())) <= 0.0051


def test_geotiff_with_nan_as_nodata_and_with_none(tmp_path):
    check(maps.read(tif(tmp_path / "nan.tif", values(), nodata=np.nan)))
    assert np.isfinite(maps.read(tif(tmp_path / "none.tif", values(), nodata=None)).values).all()


def test_a_turned_geotiff(tmp_path):
    turned = PLACE * Affine.rotation(30)
    given = maps.read(tif(tmp_path / "turned.tif", values(), transform=turned))
    (spot,) = u.find(given.values, peak=10, grid=given.grid).spots
    assert (spot["map_x"], spot["map_y"]) == pytest.approx(turned * (70.75, 40.9), abs=0.05) and spot["size_m"] == pytest.approx(15, rel=0.01)


def test_feet_and_degrees(tmp_path):
    feet = maps.read(tif(tmp_path / "feet.tif", values(), crs="EPSG:2263"))
    assert feet.grid.metres == pytest.approx(1200 / 3937)
    degrees = maps.read(tif(tmp_path / "degrees.tif", values(), crs="EPSG:4326", transform=Affine(1e-4, 0, 8, 0, -1e-4, 60)))
    (spot,) = u.find(degrees.values, peak=10, grid=degrees.grid).spots
    assert (spot["map_x"], spot["map_y"]) == pytest.approx((8 + 70.75e-4, 60 - 40.9e-4), abs=2e-6)
    assert spot["size_m"] == pytest.approx(spot["size"] * 1e-4 * np.sqrt(55800 * 111412), rel=1e-3)


def test_no_reference(tmp_path):
    given = maps.read(tif(tmp_path / "plain.tif", values(), crs=None, transform=Affine.identity()))
    assert given.grid == u.Grid()
    np.save(tmp_path / "plain.npy", values().astype("f4"))
    (spot,) = u.find(maps.read(tmp_path / "plain.npy").values, peak=10).spots
    assert (spot["x"], spot["y"], spot["map_x"], spot["map_y"]) == pytest.approx((70.25, 40.4, 70.25, 40.4), abs=0.01)


def dataset(**more):
    """The same map as xarray has it: coordinates are centres, the reference is a grid mapping."""
    coords = {"y": 5000000 - 5 * (np.arange(120) + 0.5), "x": 600000 + 5 * (np.arange(160) + 0.5)}
    ch4 = xarray.DataArray(values(), dims=("y", "x"), coords=coords, attrs={"units": "ppb", "grid_mapping": "where"})
    where = xarray.DataArray(0, attrs={"crs_wkt": CRS.from_epsg(32632).to_wkt()})
    return xarray.Dataset({"ch4": ch4, "where": where, **more})


def test_netcdf(tmp_path):
    dataset().to_netcdf(tmp_path / "scene.nc")
    given = maps.read(tmp_path / "scene.nc")
    check(given)
    assert (given.unit, given.name, given.grid.crs.to_epsg()) == ("ppb", "scene", 32632)
    assert given.grid.transform == pytest.approx(tuple(PLACE)[:6])


def test_netcdf_rows_upward_packed_and_with_a_time(tmp_path):
    up = dataset().isel(y=slice(None, None, -1)).expand_dims(time=[0])
    up["where"] = dataset()["where"]
    up.to_netcdf(tmp_path / "up.nc", encoding={"ch4": {"dtype": "int16", "scale_factor": 0.01, "add_offset": 1900.0, "_FillValue": -32768}})
    check(maps.read(tmp_path / "up.nc"))


@pytest.mark.parametrize("consolidated", [True, False])
def test_zarr(tmp_path, consolidated):
    """With the metadata gathered in one file, and without."""
    encoding = {"ch4": {"chunks": (50, 70), "dtype": "int16", "scale_factor": 0.01, "add_offset": 1900.0, "_FillValue": -32768}}
    dataset().to_zarr(tmp_path / "scene.zarr", encoding=encoding, consolidated=consolidated)
    given = maps.read(tmp_path / "scene.zarr")
    check(given)
    assert (given.unit, given.name, given.grid.crs.to_epsg()) == ("ppb", "scene", 32632)
    assert given.grid.transform == pytest.approx(tuple(PLACE)[:6])


def test_zarr_of_several_variables_and_what_is_none(tmp_path):
    dataset(co2=dataset()["ch4"]).to_zarr(tmp_path / "two.zarr")
    check(maps.read(tmp_path / "two.zarr", variable="co2"))
    with pytest.raises(ValueError, match="ch4, co2"):
        maps.read(tmp_path / "two.zarr")
    (tmp_path / "none.zarr").mkdir()
    pytest.raises((ValueError, OSError), maps.read, tmp_path / "none.zarr")


@pytest.mark.parametrize("how", [{}, {"masked": True}, {"mask_and_scale": True}])
def test_rioxarray(tmp_path, how):
    """A band of whole numbers with a scale, as rioxarray opens it: raw, masked, or masked and scaled."""
    path = tif(tmp_path / "scene.tif", np.rint((values() - 1900) * 100), dtype="int16", scales=(0.01,), offsets=(1900,))
    with rioxarray.open_rasterio(path, **how) as array:
        given = maps.of_xarray(array)
        check(given)
        assert given.grid.crs.to_epsg() == 32632 and np.nanmax(abs(given.values - values())) <= 0.006
        assert u.find(array, peak=10).spots.tobytes() == u.find(given.values, peak=10, grid=given.grid).spots.tobytes() != b""


def test_rioxarray_after_work_on_it(tmp_path):
    """A part of the map, halved in value: names of the reference are lost on the way, the reference is not."""
    with rioxarray.open_rasterio(tif(tmp_path / "scene.tif", values()), masked=True) as array:
        part = array[0, 10:, 20:] / 2
        assert not part.encoding and not part.attrs
        (spot,) = u.find(part, peak=5).spots
    assert (spot["map_x"], spot["map_y"]) == pytest.approx(GROUND, abs=0.05) and spot["size_m"] == pytest.approx(15, rel=0.01)
    assert (spot["x"], spot["y"]) == pytest.approx((50.25, 30.4), abs=0.01)


def test_a_turned_map_of_rioxarray(tmp_path):
    turned = Affine(5, 0, 600000, 0, -4, 5000000) * Affine.rotation(30)
    with rioxarray.open_rasterio(tif(tmp_path / "turned.tif", values(), transform=turned), masked=True) as array:
        (spot,) = u.find(array, peak=10).spots
    assert (spot["map_x"], spot["map_y"]) == pytest.approx(turned * (70.75, 40.9), abs=0.05) and spot["size_m"] == pytest.approx(3 * np.sqrt(20), rel=0.01)


def test_a_reference_written_by_rioxarray(tmp_path):
    """Through NetCDF and Zarr, with the reference that rioxarray gave."""
    array = dataset()["ch4"]
    del array.attrs["grid_mapping"]
    placed = array.rio.write_crs("EPSG:32632").to_dataset(name="ch4")
    placed.to_netcdf(tmp_path / "scene.nc")
    placed.to_zarr(tmp_path / "scene.zarr")
    for name in ("scene.nc", "scene.zarr"):
        given = maps.read(tmp_path / name)
        check(given)
        assert given.grid.crs.to_epsg() == 32632


def test_xarray_without_a_reference():
    array = dataset()["ch4"].assign_attrs(grid_mapping="")
    array["x"].attrs["units"] = "km"
    assert maps.of_xarray(array).grid.metres == 1000
    lonlat = array.rename(x="lon", y="lat")
    assert maps.of_xarray(lonlat).grid.geographic
    assert maps.of_xarray(array.drop_vars(["x", "y"])).grid == u.Grid()


def test_of_several_variables_one_is_named(tmp_path):
    dataset(co2=dataset()["ch4"]).to_netcdf(tmp_path / "two.nc")
    with pytest.raises(ValueError, match="ch4, co2"):
        maps.read(tmp_path / "two.nc")
    with pytest.raises(ValueError, match="no variable n2o"):
        maps.read(tmp_path / "two.nc", variable="n2o")
    check(maps.read(tmp_path / "two.nc", variable="co2"))


def test_what_is_no_map(tmp_path):
    np.save(tmp_path / "flat.npy", np.zeros(9))
    (tmp_path / "text.tif").write_text("no map")
    for path, words in ((tmp_path / "flat.npy", "2-d array"), (tmp_path / "text.tif", "not recognized")):
        with pytest.raises(ValueError, match=words):
            maps.read(path)
    with pytest.raises(ValueError, match="bands 1 to 1"):
        maps.read(tif(tmp_path / "scene.tif", values()), band=2)
    pytest.raises(FileNotFoundError, maps.read, tmp_path / "none.tif")
    array = dataset()["ch4"]
    for wrong, words in ((array.T, "transpose"), (array.expand_dims("time"), "two dimensions"), (array.isel(x=[0, 1, 3, 9]), "evenly spaced")):
        with pytest.raises(ValueError, match=words):
            maps.of_xarray(wrong)
