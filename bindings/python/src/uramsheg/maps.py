"""Maps from files, from xarray and rioxarray: values, lost pixels, and where pixels lie. GeoTIFF needs rasterio, NetCDF xarray, Zarr xarray and zarr."""
import warnings
from pathlib import Path
from typing import NamedTuple

import numpy as np

from .grid import Grid

#: units of length that coordinates may have, in metres
LENGTHS = {**dict.fromkeys(("m", "metre", "metres", "meter", "meters"), 1.0), **dict.fromkeys(("km", "kilometre", "kilometres", "kilometer", "kilometers"), 1000.0)}
DEGREES = ("lon", "longitude", "lat", "latitude")


class Map(NamedTuple):
    """A map: float64 values of rows by cols, NaN where lost; its grid, its values' unit and its name."""

    values: np.ndarray
    grid: Grid = Grid()
    unit: str = ""
    name: str = ""


def read(path, *, band=1, variable=None):
    """The map in a file: .npy, .nc, .zarr, or whatever GDAL reads. ValueError or OSError says what is wrong."""
    path = Path(path)
    path.stat()
    kind = path.suffix.lower()
    if kind == ".npy":
        values = np.load(path, allow_pickle=False)
        if values.ndim != 2 or values.dtype.kind not in "fiu":
            raise ValueError(f"a map is a 2-d array of numbers, not {values.dtype} of shape {values.shape}")
        return Map(values.astype(float), name=path.stem)
    return read_dataset(path, variable) if kind in (".nc", ".nc4", ".zarr") else read_raster(path, band)


def read_raster(path, band):
    """One band of a GeoTIFF, with its scale and offset; pixels that its mask or its nodata value strikes are lost."""
    import rasterio
    from rasterio.errors import NotGeoreferencedWarning

    with warnings.catch_warnings():
        warnings.simplefilter("ignore", NotGeoreferencedWarning)
        try:
            source = rasterio.open(path)
        except rasterio.errors.RasterioIOError as error:
            raise ValueError(str(error)) from None
    with source:
        if not 1 <= band <= source.count:
            raise ValueError(f"it has the bands 1 to {source.count}, not {band}")
        values = source.read(band, masked=True).astype(float).filled(np.nan) * source.scales[band - 1] + source.offsets[band - 1]
        placed = source.crs is not None or not source.transform.is_identity
        grid = grid_of(tuple(source.transform)[:6], source.crs) if placed else Grid()
        return Map(values, grid, source.units[band - 1] or "", Path(path).stem)


def grid_of(transform, crs):
    """The grid of a corner-based transform and a reference of rasterio's, or None."""
    if crs is None:
        return Grid(tuple(map(float, transform)))
    return Grid(tuple(map(float, transform)), None if crs.is_geographic else float(crs.linear_units_factor[1]), bool(crs.is_geographic), crs)


def read_dataset(path, variable):
    """One variable of a NetCDF file or of a Zarr folder."""
    import xarray

    engine = None
    if path.suffix.lower() == ".zarr":
        import zarr  # so that it is named where it is missing: xarray would not

        engine = zarr.__name__
    with warnings.catch_warnings():
        warnings.filterwarnings("ignore", "Failed to open Zarr store with consolidated metadata", RuntimeWarning)
        source = xarray.open_dataset(path, engine=engine, decode_coords="all")
    with source:
        names = [name for name, array in source.data_vars.items() if array.squeeze().ndim == 2]
        if variable is None and len(names) != 1:
            raise ValueError(f"it has the maps {', '.join(map(str, names)) or 'none'}: name one")
        if variable is not None and variable not in source:
            raise ValueError(f"it has no variable {variable}, but {', '.join(map(str, names)) or 'none'}")
        array = source[variable or names[0]].squeeze(drop=False).load()
    return of_xarray(array)._replace(name=path.stem)


def of_xarray(array):
    """A DataArray of two dimensions, rows first; rioxarray's single band is left out.

    Evenly spaced coordinates hold the pixels' centres, as the CF conventions have it. Without them the transform that rioxarray keeps with its reference says
    where pixels lie, as in a turned GeoTIFF.
    """
    if array.ndim == 3 and array.dims[0] == "band" and array.shape[0] == 1:
        array = array[0]
    if array.ndim != 2:
        raise ValueError(f"a map has two dimensions, not {array.dims}")
    down, right = map(str, array.dims)
    if right.lower() in ("y", *DEGREES[2:]) or down.lower() in ("x", *DEGREES[:2]):
        raise ValueError(f"the dimensions are {array.dims}: transpose them to rows and cols first")
    values, unit, name = numbers_of(array), str(array.attrs.get("units", "")), str(array.name or "")
    crs, kept = reference_of(array)
    if down not in array.coords or right not in array.coords or min(array.shape) < 2:
        return Map(values, Grid() if kept is None else grid_of(kept, crs), unit, name)
    (left, wide), (top, high) = steps(array[right]), steps(array[down])
    transform = (wide, 0.0, left - wide / 2, 0.0, high, top - high / 2)
    if crs is not None:
        return Map(values, grid_of(transform, crs), unit, name)
    degrees = right.lower() in DEGREES or str(array[right].attrs.get("units", "")).startswith("degree")
    return Map(values, Grid(transform, LENGTHS.get(array[right].attrs.get("units")), degrees), unit, name)


def numbers_of(array):
    """A DataArray's values. A fill value, a scale and an offset that still stand among its attributes have not been applied yet: xarray moves those it
    applies elsewhere."""
    values = np.array(array.values, float)
    for name in ("_FillValue", "missing_value"):
        if name in array.attrs:
            values[np.isin(array.values, array.attrs[name])] = np.nan
    return values * float(array.attrs.get("scale_factor", 1)) + float(array.attrs.get("add_offset", 0))


def steps(coordinate):
    """The first centre along a side, and the step from one to the next."""
    places = np.asarray(coordinate, float)
    step = (places[-1] - places[0]) / (len(places) - 1)
    if not step or not abs(np.diff(places) - step).max() <= 1e-3 * abs(step):
        raise ValueError(f"{coordinate.name} is not evenly spaced: lay the map on an even grid, or drop the coordinate to get places in pixels")
    return places[0], step


def reference_of(array):
    """The reference that the CF conventions' grid mapping names, rioxarray's where none is named, and the corner-based transform that rioxarray keeps there;
    None for what is missing."""
    mapping = array.encoding.get("grid_mapping") or array.attrs.get("grid_mapping") or "spatial_ref"
    if mapping not in array.coords:
        return None, None
    attributes = array.coords[mapping].attrs
    kept = None
    if "GeoTransform" in attributes:
        c, a, b, f, d, e = map(float, str(attributes["GeoTransform"]).split())  # in GDAL's order
        kept = a, b, c, d, e, f
    text = attributes.get("crs_wkt") or attributes.get("spatial_ref")
    if not text:
        return None, kept
    from rasterio.crs import CRS

    return CRS.from_wkt(text), kept
