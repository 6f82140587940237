"""The records as numpy types: each byte at its place, each with a name."""
import re

import cface
import numpy as np
import pytest

import uramsheg as u
from uramsheg._native import lib
from uramsheg.records import FEED, TABLE, TILED

HEADER = (cface.ROOT / "include" / "uramsheg.h").read_text()


@pytest.mark.parametrize("kind, width", [(u.SET, lib.URAMSHEG_SET_BYTES), (u.SPOT, lib.URAMSHEG_SPOT_BYTES), (u.SIZED, lib.URAMSHEG_SIZED_BYTES),
                                         (u.OLD_SPOT, lib.URAMSHEG_OLD_SPOT_BYTES), (u.OLD_SIZED, lib.URAMSHEG_OLD_SIZED_BYTES),
                                         (TILED, lib.URAMSHEG_SCENE_BYTES), (FEED, lib.URAMSHEG_FEED_BYTES), (TABLE, lib.URAMSHEG_TABLE_BYTES),
                                         (u.SCENE, 88), (u.STORED, 8 + lib.URAMSHEG_SPOT_BYTES)])
def test_every_byte_has_a_name(kind, width):
    assert kind.itemsize == width == sum(kind[name].itemsize for name in kind.names)
    assert [kind.fields[name][1] for name in kind.names] == [sum(kind[before].itemsize for before in kind.names[:place]) for place in range(len(kind.names))]


def test_the_places_are_the_header_s():
    places = {name: kind.fields[name][1] for kind in (u.SPOT, u.SIZED) for name in kind.names}
    text = HEADER[HEADER.index("A spot record"):]
    said = {"x": r"(\d+) x,", "y": r"(\d+) y,", "sigma": r"(\d+) sigma,", "peak": r"(\d+) peak,", "samples": r"(\d+) 20 24 28 the four centre samples",
            "key": r"(\d+) order key u32", "octave": r"(\d+) octave,", "scale_index": r"(\d+) scale index", "is_max": r"(\d+) polarity",
            "spare": r"(\d+) zero", "dx": r"(\d+) delta x", "dy": r"(\d+) delta y", "size": r"(\d+) corrected sigma f32", "row": r"(\d+) home row u16", "col": r"(\d+) home col u16",
            "accepted": r"(\d+) accepted", "cause": r"(\d+) cause", "spare_sized": r"(\d+) 59 zero"}
    assert {name: int(re.search(pattern, text)[1]) for name, pattern in said.items()} == places


def test_an_old_record_is_the_new_one_without_displacements():
    """The same fields at the same places as far as it goes; what the join adds follows at once."""
    kept = [name for name in u.SPOT.names if name not in ("dx", "dy")]
    assert list(u.OLD_SPOT.names) == kept and all(u.OLD_SPOT.fields[name] == u.SPOT.fields[name] for name in kept) and u.SPOT.fields["dx"][1] == 40
    assert u.OLD_SIZED.names == (*kept, *u.SIZED.names[len(u.SPOT.names):]) and all(u.OLD_SIZED[name] == u.SIZED[name] for name in u.OLD_SIZED.names)
    assert [u.OLD_SIZED.fields[name][1] for name in u.OLD_SIZED.names[10:]] == [40, 44, 46, 48, 49, 50]


def test_the_places_of_a_scene_s_record_are_the_header_s():
    row, col, sized = map(int, re.search(r"(\d+) tile row u16, (\d+) tile col u16.*?(\d+) the sized record", HEADER, re.S).groups())
    due = {"tile_row": row, "tile_col": col, **{name: sized + u.SIZED.fields[name][1] for name in u.SIZED.names}}
    for kind in (TILED, u.SCENE):
        assert {name: kind.fields[name][1] for name in due} == due and all(kind[name] == TILED[name] for name in due)


def test_the_places_of_a_state_are_the_header_s():
    text = HEADER[HEADER.index("The state (little-endian)"):]
    said = {"set": r"(\d+) the set record", "thresholds": r"(\d+) peak threshold, 532 sigma threshold, 536 curvature ratio, 540 window low, 544 window high",
            "rows": r"(\d+) rows", "cols": r"(\d+) cols", "position": r"(\d+) position", "octave": r"(\d+) octave", "spare": r"(\d+) 562 563 zero"}
    assert {name: int(re.search(pattern, text)[1]) for name, pattern in said.items()} == {name: FEED.fields[name][1] for name in FEED.names}


def test_the_places_of_a_table_are_the_header_s():
    text = HEADER[HEADER.index("The table (4264 bytes, little-endian)"):]
    said = {"sets": r"(\d+) eight set records of 528 bytes", "owners": r"(\d+) eight owner bytes", "counts": r"(\d+) eight write counts \(u32 each\)"}
    assert {name: int(re.search(pattern, text)[1]) for name, pattern in said.items()} == {name: TABLE.fields[name][1] for name in TABLE.names}
    assert all(TABLE[name].shape == (8,) for name in TABLE.names)


def test_the_byte_of_a_free_slot_is_the_header_s():
    text = HEADER[HEADER.index("The store: slots of 48 bytes"):]
    free, place = map(int, re.search(r"A free slot\s+\*\s+has (\d+) in byte (\d+), where a record has its polarity", text).groups())
    assert (lib.URAMSHEG_FREE_SLOT, u.SPOT.fields["is_max"][1]) == (free, place)
    assert [(name, u.STORED.fields[name][1] - 8, u.STORED[name]) for name in u.STORED.names[1:]] == [(name, u.SPOT.fields[name][1], u.SPOT[name]) for name in u.SPOT.names]


def test_chosen_records_keep_every_byte(m):
    spots = np.concatenate([u.detect(m.levels(), m.set, m.thresholds)] * 50)
    for _ in range(20):
        chosen = spots[spots["peak"] > 0]
        assert chosen.tobytes() == m.line * 50 and len(u.join(chosen, m.set, m.shape)) == 50


def test_a_list_in_another_order_is_sized_as_well(m):
    spots = np.concatenate([u.detect(m.levels(), m.set, m.thresholds)] * 6)
    assert u.join(spots[::-2], m.set, m.shape).tobytes() == u.join(spots[:3], m.set, m.shape).tobytes()


def test_records_that_were_kept_before_displacements_were(m, tmp_path):
    """numpy reads an array that was saved then as one of the old type: the old join takes it, and no displacement of 0 is made up for it."""
    then = [("x", "<f4"), ("y", "<f4"), ("sigma", "<f4"), ("peak", "<f4"), ("samples", "<f4", (4,)), ("key", "<u4"),
            ("octave", "u1"), ("scale_index", "u1"), ("is_max", "?"), ("spare", "u1")]
    np.save(tmp_path / "spots.npy", np.frombuffer(m.old * 2, then))
    spots = np.load(tmp_path / "spots.npy")
    sized = u.join_old(spots, m.set, m.shape)
    assert spots.dtype == u.OLD_SPOT and sized.dtype == u.OLD_SIZED and sized.tobytes() == m.old_sized * 2 and "dx" not in sized.dtype.names
    then += [("size", "<f4"), ("row", "<u2"), ("col", "<u2"), ("accepted", "?"), ("cause", "u1"), ("spare_sized", "u1", (2,))]
    np.save(tmp_path / "sized.npy", np.frombuffer(m.old_sized, then))
    assert np.load(tmp_path / "sized.npy").dtype == u.OLD_SIZED


def test_records_that_were_kept_before_causes_were_given(m, tmp_path):
    """numpy reads them as they were; the same bytes as OLD_SIZED have no cause."""
    old = np.dtype(u.OLD_SPOT.descr + [("size", "<f4"), ("row", "<u2"), ("col", "<u2"), ("accepted", "?"), ("spare_sized", "u1", (3,))])
    np.save(tmp_path / "old.npy", np.zeros(2, old))
    kept = np.load(tmp_path / "old.npy").view(u.OLD_SIZED)
    assert kept.dtype == u.OLD_SIZED and not kept["accepted"].any() and not kept["cause"].any()
