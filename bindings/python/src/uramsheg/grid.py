"""Where pixels lie on the ground."""
from typing import Any, NamedTuple

import numpy as np


class Grid(NamedTuple):
    """Map coordinates of pixels.

    `transform` (a, b, c, d, e, f) is corner-based, as in GDAL and rasterio: the corner of the first pixel is at (c, f). Places of spots have 0 at a
    pixel's centre, so half a pixel is added first. Without a transform map coordinates are the places themselves. `metres` is a unit of the map
    coordinates in metres, None where it is unknown; `geographic` says that they are degrees of longitude and latitude. `crs` is handed on to whatever writes.
    """

    transform: tuple = (1.0, 0.0, -0.5, 0.0, 1.0, -0.5)
    metres: float | None = None
    geographic: bool = False
    crs: Any = None

    def place(self, x, y):
        """The map coordinates of places in pixels."""
        a, b, c, d, e, f = self.transform
        right, down = np.asarray(x, float) + 0.5, np.asarray(y, float) + 0.5
        return a * right + b * down + c, d * right + e * down + f

    def pixel(self, x, y):
        """The side in metres of a square as large as the pixel at each place; NaN where a unit of the map is unknown."""
        a, b, _, d, e, _ = self.transform
        side = np.sqrt(abs(a * e - b * d))
        if self.geographic:
            east, north = degree(self.place(x, y)[1])
            return side * np.sqrt(east * north)
        return np.full(np.shape(x), side * (np.nan if self.metres is None else self.metres))


def degree(latitude):
    """The metres of a degree of longitude and of one of latitude, by the usual series for the ellipsoid WGS 84."""
    p = np.radians(latitude)
    east = 111412.84 * np.cos(p) - 93.5 * np.cos(3 * p) + 0.118 * np.cos(5 * p)
    north = 111132.92 - 559.82 * np.cos(2 * p) + 1.175 * np.cos(4 * p) - 0.0023 * np.cos(6 * p)
    return east, north
