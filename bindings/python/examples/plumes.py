"""Makes a map of known plumes, a GeoTIFF of 5 m pixels: noise, stripes, a slow ground, lost pixels, and eight plumes with tails.

use: plumes.py MAP.tif
"""
import sys

import numpy as np
import rasterio
from rasterio.transform import Affine

ROWS, COLS = 520, 680
#: col and row of the source, width in pixels, height in ppm m, length of the tail in widths
PLUMES = (
    (150, 130, 3.2, 900, 2.0), (182, 151, 2.3, 520, 1.2), (430, 90, 6.5, 420, 2.2), (520, 310, 2.6, 640, 1.5),
    (300, 330, 9.0, 330, 1.6), (330, 300, 2.2, 300, 1.0), (240, 420, 4.0, 480, 1.8), (470, 420, 14.0, 200, 1.2),
)
WIND = 0.5


def plume(rows, cols, x, y, width, height, tail):
    """A Gaussian across the wind, with an exponential tail down it."""
    along = (cols - x) * np.cos(WIND) + (rows - y) * np.sin(WIND)
    across = (rows - y) * np.cos(WIND) - (cols - x) * np.sin(WIND)
    shape = np.where(along > 0, np.exp(-np.abs(along) / (tail * width)), np.exp(-(along**2) / 2 / width**2))
    return height * np.exp(-(across**2) / 2 / width**2) * shape


def made():
    """The map's values."""
    rng = np.random.default_rng(11)
    rows, cols = np.mgrid[:ROWS, :COLS].astype(float)
    values = 60 + 25 * rng.normal(size=(ROWS, COLS)) + 6 * rng.normal(size=COLS) + 30 * np.sin(cols / 90) * np.cos(rows / 70)
    for one in PLUMES:
        values += plume(rows, cols, *one)
    values[cols + 0.35 * rows < 70] = np.nan
    values[cols + 0.25 * rows > 755] = np.nan
    values[((cols - 390) / 26) ** 2 + ((rows - 215) / 14) ** 2 < 1] = np.nan
    values[rng.integers(0, ROWS, 4), rng.integers(80, 600, 4)] = np.nan
    return values.astype("f4")


if __name__ == "__main__":
    place = {"crs": "EPSG:32632", "transform": Affine(5, 0, 688200, 0, -5, 5336900)}
    with rasterio.open(sys.argv[1], "w", driver="GTiff", height=ROWS, width=COLS, count=1, dtype="float32", nodata=np.nan, compress="deflate", **place) as out:
        out.write(made(), 1)
        out.units = ("ppm m",)
