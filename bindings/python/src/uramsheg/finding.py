"""From a raw map to a table of spots: ground and unit, levels and detection octave after octave, one row a spot."""
from typing import NamedTuple

import numpy as np

from . import doubles, large, maps
from .detector import Thresholds, octave_count, read_set
from .grid import Grid
from .tables import standard

#: a spot of a map: x, y, size and sigma in the map's pixels, 0 at the first pixel's centre; size is NaN where there is none, and cause says why, a number
#: of NO_SIZE, else 0; row and col are the map's pixel nearest to y and x, a half to the larger; key orders spots by the pixel that they were found at; dx and
#: dy are how far they were moved from there, in the map's pixels
FOUND = np.dtype([
    ("x", "f8"), ("y", "f8"), ("map_x", "f8"), ("map_y", "f8"), ("size", "f8"), ("size_m", "f8"), ("height", "f8"), ("snr", "f8"),
    ("bright", "?"), ("near_lost", "?"), ("octave", "u1"), ("sigma", "f8"), ("peak", "f8"), ("row", "i4"), ("col", "i4"), ("key", "i8"),
    ("cause", "u1"), ("dx", "f8"), ("dy", "f8"),
])
#: the lowest signal to noise that is asked for where neither a peak nor another is given
SNR = 8.0
#: how many sigmas from a spot a lost pixel is near
NEAR = 5.0


class Judged(NamedTuple):
    """Where spots of one octave could have been listed: a mask by its pixels, each 2^octave of the map's, for sigmas from `low` to `high` of the map's."""

    octave: int
    low: float
    high: float
    mask: np.ndarray


class Found(NamedTuple):
    """The spots of a map, strongest first; what was judged; the ground that was taken off, the map's noise, and the power of two that it was divided by."""

    spots: np.ndarray
    judged: tuple
    ground: float
    noise: float
    unit: float
    grid: Grid

    def to_pandas(self):
        """The spots as a DataFrame."""
        import pandas

        return pandas.DataFrame({name: self.spots[name] for name in FOUND.names})

    def to_xarray(self):
        """The spots as a Dataset along the dimension `spot`."""
        import xarray

        return xarray.Dataset({name: ("spot", self.spots[name]) for name in FOUND.names})


def find(values, tables=None, *, peak=None, snr=None, thresholds=None, ground="median", kind="bright", octaves=None, grid=None, lost=None, watch=None):
    """The spots of a raw map of rows by cols, NaN where a pixel is lost: an array, or a DataArray of xarray's, which brings its grid with it.

    A spot is listed where its peak, which is about half its height, is beyond `peak` in the map's unit and its signal to noise is at least `snr`; where
    neither is given, `snr` is 8. `thresholds` gives the other four (its own peak does not count). `ground` is taken off first, the median or a number, in
    float64; then the map is brought to a unit near its noise by a power of two, which alters no digit. `kind` is bright (more gas than around), dark or
    both. `octaves` names those to be looked at, all where it is None. `grid` says where pixels lie. `lost` marks pixels that count as lost or filled in
    the table's `near_lost`, beside those that are NaN. `watch` is called as each octave is done.
    """
    if kind not in ("bright", "dark", "both"):
        raise ValueError(f"kind is {kind!r}, not bright, dark or both")
    tables = standard() if tables is None else read_set(tables)
    if hasattr(values, "coords"):
        values, own, *_ = maps.of_xarray(values)
        grid = own if grid is None else grid
    grid = Grid() if grid is None else grid
    rest = Thresholds(0.0) if thresholds is None else Thresholds(*map(float, thresholds))
    base, ground = grounded(values, ground)
    missing = ~np.isfinite(base) if lost is None else ~np.isfinite(base) | np.asarray(lost, bool)
    noise = noise_of(base)
    unit = unit_of(base, noise)
    least = least_of(base, noise, peak, snr)
    parts, judged = [np.zeros(0, FOUND)], []
    for octave, four in pyramid(np.asfortranarray(base / unit, dtype=np.float32), tables, octaves):
        low, high = rest.low * 2**octave, rest.high * 2**octave
        beyond = peak / unit if peak is not None else least * response_noise(noise / unit, high) * (1 - 1e-6)
        parts.append(rows_of(large.listed(four, tables, rest._replace(peak=beyond), octave), octave, unit))
        judged.append(Judged(octave, low, high, large.judged(four)))
        if watch is not None:
            watch()
    spots = np.concatenate(parts)
    spots["snr"] = signal_to_noise(spots, noise)
    spots = spots[doubles.kept(spots)]
    spots = spots[np.ones(len(spots), bool) if least is None else spots["snr"] >= least]
    spots = spots[np.ones(len(spots), bool) if kind == "both" else spots["bright"] == (kind == "bright")]
    spots = spots[np.lexsort((spots["key"], spots["octave"], -abs(spots["peak"])))]
    return Found(placed(spots, grid, missing), tuple(judged), ground, noise, unit, grid)


def grounded(values, ground):
    """The map in float64 with its lost pixels NaN and its ground taken off, and the ground."""
    masked = np.ma.getmaskarray(values) if np.ma.isMaskedArray(values) else None
    base = np.array(values, dtype=float)
    if base.ndim != 2:
        raise TypeError(f"a map is a 2-d array, not one of shape {base.shape}")
    if masked is not None:
        base[masked] = np.nan
    base[~np.isfinite(base)] = np.nan
    if isinstance(ground, str):
        if ground != "median":
            raise ValueError(f"ground is {ground!r}, neither median nor a number")
        ground = np.nanmedian(base) if np.isfinite(base).any() else 0.0
    return base - float(ground), float(ground)


def noise_of(base):
    """The standard deviation of a map's noise from pixel to pixel, by the median of neighbours' differences, which broad spots hardly touch."""
    steps = [np.diff(base, axis=axis).ravel() for axis in (0, 1)]
    steps = np.concatenate([step[np.isfinite(step)] for step in steps])
    return float(1.4826 * np.median(abs(steps - np.median(steps))) / np.sqrt(2)) if len(steps) else 0.0


def least_of(base, noise, peak, snr):
    """The signal to noise that is asked for, None where only a peak is. It takes a noise to measure by, unless the map is flat."""
    finite = base[np.isfinite(base)]
    if peak is None and not noise and len(finite) and finite.min() < finite.max():
        raise ValueError("most neighbouring pixels are equal, so that the map shows no noise to measure by: give a peak")
    return SNR if peak is None and snr is None else snr


def unit_of(base, noise):
    """A power of two near the noise, or near 2^-20 of the map's largest value where that is more."""
    finite = base[np.isfinite(base)]
    size = max(noise, abs(finite).max(initial=0.0) / 2**20)
    return float(2.0 ** np.clip(np.round(np.log2(size)), -1000, 1000)) if size else 1.0


def response_noise(noise, sigma):
    """The standard deviation that white noise in the map gives the response at a sigma in the map's pixels."""
    return noise / (np.sqrt(2 * np.pi) * sigma)


def signal_to_noise(spots, noise):
    """Each spot's peak over the noise of the response at its own sigma; infinite in a map without noise, or with next to none."""
    with np.errstate(divide="ignore", over="ignore"):
        return abs(spots["peak"]) / response_noise(noise, spots["sigma"]) if noise else np.full(len(spots), np.inf)


def pyramid(base, tables, octaves):
    """The four levels of each octave that is asked for; an octave's base is every second pixel of the third level before it."""
    count = octave_count(*base.shape)
    asked = range(count) if octaves is None else [octave for octave in range(count) if octave in octaves]
    for octave in range(max(asked, default=-1) + 1):
        four = large.levels(base, tables, octave)
        if octave in asked:
            yield octave, four
        base = large.halved(four[2])


def rows_of(records, octave, unit):
    """Rows of the table, in the map's pixels and unit, of the records of SCENE that one octave lists."""
    spots = np.zeros(len(records), FOUND)
    step = 2**octave
    spots["x"], spots["y"] = records["scene_x"] * step, records["scene_y"] * step
    spots["dx"], spots["dy"] = records["dx"].astype(float) * step, records["dy"].astype(float) * step
    spots["row"], spots["col"] = np.floor(spots["y"] + 0.5), np.floor(spots["x"] + 0.5)
    spots["key"] = (records["scene_row"].astype(np.int64) * 2**32 + records["scene_col"]) * step
    spots["sigma"] = records["sigma"].astype(float) * step
    spots["size"] = np.where(records["accepted"], records["size"].astype(float) * step, np.nan)
    spots["cause"] = records["cause"]
    spots["peak"] = records["peak"].astype(float) * unit
    spots["height"] = -2 * spots["peak"]
    spots["bright"] = ~records["is_max"]
    spots["octave"] = octave
    return spots


def placed(spots, grid, missing):
    """The rows with map coordinates, metres, and whether a lost pixel is near."""
    spots["map_x"], spots["map_y"] = grid.place(spots["x"], spots["y"])
    spots["size_m"] = spots["size"] * grid.pixel(spots["x"], spots["y"])
    total = np.pad(np.cumsum(np.cumsum(missing, axis=0), axis=1), ((1, 0), (1, 0)))
    rows, cols = missing.shape
    reach = np.ceil(NEAR * spots["sigma"]).astype(int)
    top, bottom = np.clip(spots["row"] - reach, 0, rows), np.clip(spots["row"] + reach + 1, 0, rows)
    left, right = np.clip(spots["col"] - reach, 0, cols), np.clip(spots["col"] + reach + 1, 0, cols)
    spots["near_lost"] = total[bottom, right] - total[top, right] - total[bottom, left] + total[top, left] > 0
    return spots
