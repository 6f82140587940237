"""The records of uramsheg.h as numpy types. Every byte is a named field: numpy copies fields, and leaves the bytes between them to chance."""
import numpy as np

from ._native import lib

#: the eleven numbers of a set, in its record's order
NUMBERS = (
    "log_sigma_origin", "curvature_epsilon", "fit_t_min", "fit_t_max", "accepted_sigma_min", "accepted_sigma_max",
    "blend_beta", "blend_boost", "compatibility_lower", "compatibility_upper", "move_cap",
)

#: a set record: cubics have rows a, b, c, d of three; `spatial` has rows w1 to w5 of nine for scale index 1, then for 2
SET = np.dtype([
    ("sigmas", "<f4", (4,)), ("scale", "<f4", (4, 3)), ("geometry", "<f4", (4, 3)), ("spatial", "<f4", (2, 5, 9)),
    *((name, "<f4") for name in NUMBERS), ("order", "u1", (9,)), ("spare", "u1", (3,)),
])

#: a spot as detection listed it before it kept displacements
OLD_SPOT = np.dtype([
    ("x", "<f4"), ("y", "<f4"), ("sigma", "<f4"), ("peak", "<f4"), ("samples", "<f4", (4,)), ("key", "<u4"),
    ("octave", "u1"), ("scale_index", "u1"), ("is_max", "?"), ("spare", "u1"),
])

#: a spot as detection lists it; `key` is row * cols + col of its own pixel, `dx` and `dy` are how far the refinement moved it from there, at most 0.6 each
#: way; x is the col plus dx, y the row plus dy, each rounded once
SPOT = np.dtype(OLD_SPOT.descr + [("dx", "<f4"), ("dy", "<f4")])

#: what the join adds
ADDED = [("size", "<f4"), ("row", "<u2"), ("col", "<u2"), ("accepted", "?"), ("cause", "u1"), ("spare_sized", "u1", (2,))]

#: a spot with its size (0 where it has none: `accepted` is then false, and `cause` says why, a number of NO_SIZE, else 0) and its home pixel: `row` and
#: `col` nearest to y and x, a half to the larger
SIZED = np.dtype(SPOT.descr + ADDED)

#: the same of a spot without displacements
OLD_SIZED = np.dtype(OLD_SPOT.descr + ADDED)

#: a spot of a scene as the call writes it: the numbers of its tile, and its sized record there
TILED = np.dtype([("tile_row", "<u2"), ("tile_col", "<u2"), *SIZED.descr])

#: the same with its place in the scene: x and y, and the row and col of the pixel that it was found at
SCENE = np.dtype(TILED.descr + [("scene_x", "<f8"), ("scene_y", "<f8"), ("scene_row", "<i4"), ("scene_col", "<i4")])

#: the state of a feed: how it was started, and `position`, the number of columns that it has taken
FEED = np.dtype([
    ("set", SET), ("thresholds", "<f4", (5,)), ("rows", "<u4"), ("cols", "<u4"), ("position", "<u4"), ("octave", "u1"), ("spare", "u1", (3,)),
])

#: a table of sets that two desks share: for each slot a set, its owner (0 free, or a Desk's number) and its write count
TABLE = np.dtype([(name, kind, (lib.URAMSHEG_TABLE_SLOTS,)) for name, kind in (("sets", SET), ("owners", "u1"), ("counts", "<u4"))])

#: a live spot of a store with its slot
STORED = np.dtype([("slot", "<i8"), *SPOT.descr])

for kind, width in ((SET, lib.URAMSHEG_SET_BYTES), (SPOT, lib.URAMSHEG_SPOT_BYTES), (SIZED, lib.URAMSHEG_SIZED_BYTES),
                    (OLD_SPOT, lib.URAMSHEG_OLD_SPOT_BYTES), (OLD_SIZED, lib.URAMSHEG_OLD_SIZED_BYTES),
                    (TILED, lib.URAMSHEG_SCENE_BYTES), (FEED, lib.URAMSHEG_FEED_BYTES), (TABLE, lib.URAMSHEG_TABLE_BYTES)):
    if kind.itemsize != width:
        raise ImportError(f"a record of {kind.itemsize} bytes has {width} in uramsheg.h: build the package and its archive from one")
