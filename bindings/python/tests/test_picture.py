"""The picture: what is drawn, and where."""
import io

import blob
import kinds
import numpy as np
import pytest
from matplotlib.image import imread
from matplotlib.patches import Ellipse

import uramsheg as u
from uramsheg import maps, picture

RAW = blob.spots((140, 150), (30.2, 40.1, 2.5, 100), (70.3, 50.4, 3.1, 60), (60.2, 20.4, 2.2, -80), (100.2, 100.1, 2.4, 90))
GRIDS = {
    "pixels": u.Grid(),
    "metres": u.Grid((5, 0, 600000, 0, -5, 5000000), metres=1),
    "turned": u.Grid((4, 3, 600000, 3, -4, 5000000), metres=1),
    "degrees": u.Grid((1e-3, 0, 8, 0, -1e-3, 46), geographic=True),
}


def drawn(raw, grid, **options):
    """A map's spots and its figure, drawn, and the picture as numbers."""
    given = maps.Map(raw, grid, "ppb", "here")
    found = u.find(raw, grid=grid, **options)
    figure = picture.page(given, found)
    octets = io.BytesIO()
    figure.savefig(octets, format="png", dpi=50)
    octets.seek(0)
    return found, figure, imread(octets)


def axes_of(figure):
    """The axes of the map, of the close-ups and of the strip."""
    left, right = figure.subfigs
    main = left.axes[0]
    return main, [axes for axes in right.axes if axes.lines], [axes for axes in right.axes if not axes.lines]


@pytest.mark.parametrize("name", sorted(GRIDS))
def test_circles_lie_where_the_spots_do(name):
    found, figure, image = drawn(RAW, GRIDS[name], peak=10, kind="both")
    main, near, strip = axes_of(figure)
    circles = [patch for patch in main.patches if isinstance(patch, Ellipse)]
    assert len(circles) == len(found.spots) == len(near) == 4 and len(strip) == len(found.judged) == 3
    for circle, spot in zip(circles, found.spots):
        middle = main.transData.inverted().transform(circle.get_data_transform().transform(circle.center))
        assert middle == pytest.approx((spot["map_x"], spot["map_y"]), rel=1e-9) and circle.width == pytest.approx(4 * spot["size"])
        assert circle.get_edgecolor()[0] > 0.5 if spot["bright"] else circle.get_edgecolor()[0] < 0.5
        low, high = sorted(main.get_xlim()), sorted(main.get_ylim())
        assert low[0] < spot["map_x"] < low[1] and high[0] < spot["map_y"] < high[1]
    assert [text.get_text() for text in main.texts] == ["1", "2", "3", "4"] and main.get_title(loc="left").startswith("here: 4 spots")
    assert main.get_title(loc="left").endswith("(circles of 2 sizes; hatched: lost)")
    assert image.shape == (430, 750, 4) and image[..., :3].std() > 0.05


def test_a_spot_without_a_size_is_dashed_and_says_why():
    found = kinds.found()
    main, near, _ = axes_of(picture.page(maps.Map(kinds.RAW, u.Grid(), "ppb", "here"), found))
    circles = [patch for patch in main.patches if isinstance(patch, Ellipse)]
    assert main.get_title(loc="left").endswith("(circles of 2 sizes; dashed: no size; hatched: lost)")
    assert [circle.get_linestyle() for circle in circles] == ["-", "--", "--"] and circles[1].width == pytest.approx(4 * found.spots["sigma"][1])
    assert [[" ".join(text.get_text().split()) for text in axes.texts] for axes in near] == [[], [u.NO_SIZE[2]], [u.NO_SIZE[1]]]


def test_rows_go_downward_in_pixels_and_northward_on_the_ground():
    for name, downward in (("pixels", True), ("metres", False)):
        bottom, top = axes_of(drawn(RAW, GRIDS[name], peak=10)[1])[0].get_ylim()
        assert (bottom > top) == downward


def test_lost_pixels_are_hatched():
    raw = RAW.copy()
    raw[:, 100:] = np.nan
    whole, lost = (drawn(one, u.Grid(), peak=10)[2] for one in (RAW, raw))
    assert axes_of(drawn(raw, u.Grid(), peak=10)[1])[0].patches[0].get_hatch() == "////" and not np.array_equal(whole, lost)


@pytest.mark.parametrize("raw", [np.zeros((0, 0)), np.zeros((5, 7)), np.full((30, 30), np.nan), np.ones((40, 40)), RAW])
def test_maps_with_nothing_are_drawn_too(raw):
    assert drawn(raw, u.Grid(), peak=1e9)[2].shape == (430, 750, 4)


def test_only_the_strongest_are_numbered():
    raw = blob.spots((200, 200), *((30 + 45 * i + 0.2, 30 + 45 * j + 0.1, 2.5, 50 + 10 * i + j) for i in range(4) for j in range(4)))
    found, figure, _ = drawn(raw, u.Grid(), peak=5)
    main, near, _ = axes_of(figure)
    assert len(found.spots) >= 16 and len(near) == len(main.texts) == picture.STRONGEST


def test_names_and_units_are_no_formulas():
    found = u.find(RAW, peak=10)
    figure = picture.page(maps.Map(RAW, u.Grid(), r"$\frac$", r"a $\none$ b"), found)
    figure.savefig(io.BytesIO(), format="png", dpi=50)
    assert axes_of(figure)[0].get_title(loc="left").startswith(r"a $\none$ b: ")
