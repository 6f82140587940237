"""Where pixels lie: centres, corners, metres."""
import numpy as np
import pytest

import uramsheg as u
from uramsheg.grid import degree


def test_without_a_transform_places_are_pixels():
    assert [float(value) for value in u.Grid().place(3.25, 7)] == [3.25, 7] and np.isnan(u.Grid().pixel([1.0], [2.0])).all()


def test_a_transform_speaks_of_corners():
    grid = u.Grid((5, 0, 600000, 0, -5, 5000000), metres=1)
    assert grid.place(0, 0) == (600002.5, 4999997.5) and grid.place(-0.5, -0.5) == (600000, 5000000)
    assert grid.pixel([1.0, 2.0], [3.0, 4.0]).tolist() == [5, 5]


def test_a_turned_grid_of_feet():
    c, s = np.cos(0.3), np.sin(0.3)
    grid = u.Grid((3 * c, 2 * s, 10, 3 * s, -2 * c, 20), metres=0.3048)
    assert grid.pixel([0.0], [0.0])[0] == pytest.approx(0.3048 * np.sqrt(6))


@pytest.mark.parametrize("latitude, east, north", [(0, 111319.5, 110574.3), (45, 78846.8, 111131.8), (60, 55800.0, 111412.2)])
def test_metres_of_a_degree(latitude, east, north):
    """WGS 84, by the radii of curvature of its ellipsoid."""
    a, f = 6378137.0, 1 / 298.257223563
    e2, p = f * (2 - f), np.radians(latitude)
    curve = 1 - e2 * np.sin(p) ** 2
    exact = np.radians(1) * a * np.cos(p) / np.sqrt(curve), np.radians(1) * a * (1 - e2) / curve**1.5
    assert degree(latitude) == pytest.approx(exact, abs=0.2) and (east, north) == pytest.approx(exact, abs=1)


def test_geographic_pixels():
    grid = u.Grid((0.001, 0, 8.0, 0, -0.001, 46.0), geographic=True)
    east, north = degree(45.9995)
    assert grid.pixel([0.0], [0.0])[0] == pytest.approx(0.001 * np.sqrt(east * north))
