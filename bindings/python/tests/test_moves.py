"""Displacements: how far each spot was moved from its own pixel; lists of before they were kept; which of the two a list is."""
import cface
import moves
import numpy as np
import plain
import pytest
from hypothesis import given, strategies as st
from mapm import MapM

import uramsheg as u

TABLES = u.standard()
T, SHAPE = MapM.set, MapM.shape


def noise(shape, seed=0):
    """Four levels of noise, which hold a spot in some fifty pixels."""
    rng = np.random.default_rng(seed)
    return [np.asfortranarray(rng.normal(size=shape), dtype="f4") for _ in range(4)]


@pytest.mark.parametrize("shape", [(60, 70), (30, 4096), (4096, 30), (9, 4096)])
def test_a_place_is_its_pixel_plus_the_displacement_rounded_once(shape):
    spots = u.detect(noise(shape), TABLES, (0.01,))
    moves.hold(spots, shape[1])
    assert len(spots) > 20 and all(spots[name].min() < -0.3 and spots[name].max() > 0.3 for name in ("dx", "dy"))


@pytest.mark.parametrize("tables", [TABLES, TABLES.replace(order=range(8, -1, -1), spatial=TABLES.spatial[..., ::-1])], ids=["standard", "turned"])
@pytest.mark.parametrize("shape", [(60, 70), (30, 4096), (4096, 30)])
def test_the_displacement_is_the_refinement_s_own_number(tables, shape):
    """Computed a second time from the levels, bit for bit."""
    four = noise(shape)
    spots = u.detect(four, tables, (0.01,))
    assert len(spots) > 20 and [move.tobytes() for move in plain.moves(four, tables, spots)] == [spots["dx"].tobytes(), spots["dy"].tobytes()]


def test_the_displacement_keeps_what_rounding_takes_from_the_place():
    """Far from the first pixel a place less its pixel is another number, by up to half a step of float32 there."""
    spots = u.detect(noise((30, 4096)), TABLES, (0.01,))
    col = spots["key"] % 4096
    spots, col = spots[col >= 2048], col[col >= 2048]
    spoiled = abs((spots["x"] - col.astype("f4")).astype(float) - spots["dx"])
    assert len(spots) > 500 and 0 < spoiled.max() <= 2**-13 and np.mean(spoiled > 0) > 0.9


def test_a_spot_s_displacement_is_the_same_wherever_the_map_is_cut():
    four = noise((40, 3000), 1)
    whole = u.detect(four, TABLES, (0.01,))
    part = u.detect([level[:, 2500:2700] for level in four], TABLES, (0.01,))
    col = whole["key"] % 3000
    inner = whole[(col >= 2504) & (col < 2696)]
    assert len(part) > 50 and all(inner[name].tobytes() == part[name].tobytes() for name in ("dx", "dy", "sigma", "peak", "samples"))


@pytest.mark.parametrize("octave", [0, 1, 2])
def test_the_table_has_them_in_the_map_s_pixels(octave):
    step = 2**octave
    spots = u.find(np.random.default_rng(octave).normal(size=(150 * step, 157 * step)), peak=1e-3, kind="both", octaves=[octave]).spots
    row, col = np.divmod(spots["key"], 2**32)
    assert len(spots) > 9 and abs(spots["dx"]).max() <= step * moves.LIMIT and np.count_nonzero(spots["dx"]) > 9
    for move, place, pixel in (("dy", "y", row), ("dx", "x", col)):
        assert np.array_equal(np.float32(pixel / step) + np.float32(spots[move] / step), np.float32(spots[place] / step))
        assert np.array_equal(np.rint(spots[place] - spots[move]), pixel)


BITS = st.one_of(st.sampled_from([0, 0x80000000, 1, 0x3F000000, 0x3F19999A, 0xBF19999A, 0x3F19999B, 0xBF19999B, 0x7F800000, 0xFF800000, 0x7FC00000, 0xFFFFFFFF]),
                 st.integers(0, 2**32 - 1))


@given(st.lists(st.tuples(BITS, BITS), min_size=1, max_size=5))
def test_a_displacement_is_readable_to_0_6_either_way(bits):
    """The first record with another is refused with its place. Those that are readable are kept bit for bit, and none is compared with x, y and the key."""
    spots = np.frombuffer(MapM.line * len(bits), u.SPOT).copy()
    spots["dx"], spots["dy"] = np.array(bits, "u4").view("f4").T
    bad = np.flatnonzero(~((abs(spots["dx"]) <= moves.LIMIT) & (abs(spots["dy"]) <= moves.LIMIT)))
    try:
        sized = u.join(spots, T, SHAPE)
        assert not len(bad) and all(sized[name].tobytes() == spots[name].tobytes() for name in u.SPOT.names)
        assert {record.tobytes()[48:] for record in sized} == {MapM.old_sized[40:]}
    except u.RecordsRefused as error:
        assert (error.index, error.detail) == (bad[0], f"record {bad[0]}")


@pytest.mark.parametrize("bits, good", [(0x80000000, True), (0x3F19999A, True), (0xBF19999A, True), (0x3F19999B, False), (0xBF19999B, False), (0x7FC00000, False),
                                        (0xFF800000, False)])
@pytest.mark.parametrize("name", ["dx", "dy"])
def test_the_ends_of_what_is_readable(name, bits, good):
    spots = np.frombuffer(MapM.line * 3, u.SPOT).copy()
    spots[name][2] = np.array(bits, "u4").view("f4")
    if good:
        assert u.join(spots, T, SHAPE)[name][2].tobytes() == bits.to_bytes(4, "little")
        return
    with pytest.raises(u.RecordsRefused) as caught:
        u.join(spots, T, SHAPE)
    assert caught.value.index == 2


def test_an_old_list_is_sized_as_it_was(m):
    for spots in (m.old * 2, bytearray(m.old * 2), np.frombuffer(m.old * 2, u.OLD_SPOT), np.frombuffer(m.old * 4, u.OLD_SPOT)[::2]):
        sized = u.join_old(spots, m.set, m.shape)
        assert sized.dtype == u.OLD_SIZED and sized.tobytes() == m.old_sized * 2
    assert len(u.join_old(b"", m.set, m.shape)) == 0


def test_an_old_list_of_many_is_sized_as_the_new_one():
    four = noise((90, 80), 2)
    sized = u.join(u.detect(four, TABLES, (0.01,)), TABLES, (90, 80))
    kept = u.join_old(moves.old(sized), TABLES, (90, 80))
    assert len(kept) > 50 and {0, 1} <= set(kept["cause"]) and all(kept[name].tobytes() == sized[name].tobytes() for name in u.OLD_SIZED.names)


@given(st.integers(0, 119), st.integers(0, 255), st.integers(0, 120))
def test_5_of_an_old_list_is_the_c_face_s_own(place, byte, length):
    listed = bytearray(MapM.old * 3)
    listed[place] = byte
    number, value, out = cface.join_old(T, SHAPE, bytes(listed[:length]), cface.OLD_SIZED * (length // cface.OLD_SPOT))
    try:
        assert (number, u.join_old(listed[:length], T, SHAPE).tobytes()) == (0, out)
    except u.RecordsRefused as error:
        assert (number, value) == (5, error.index) and out == b"\xa5" * len(out)


@given(st.sampled_from([(9, 10), (4097, 2)]), st.booleans(), st.sampled_from([120, 119, 0]), st.booleans(), st.integers(0, 4))
def test_the_first_refusal_of_an_old_list_is_the_c_face_s_own(shape, good, length, bad, room):
    """1, 4, 5 for the length, 5 for a record, 6; nothing is written, and what is behind the records is kept."""
    record, listed = T[: 528 if good else 527], (MapM.old[:36] + b"\6" + MapM.old[37:] if bad else MapM.old) * 3
    out = np.full(cface.OLD_SIZED * room, 0xA5, "u1")
    number, value, octets = cface.join_old(record, shape, listed[:length], len(out))
    due = 1 if shape[0] > 4096 else 4 if not good else 5 if length % 40 or (bad and length) else 6 if room < length // 40 else 0
    try:
        sized = u.join_old(listed[:length], record, shape, out=out.view(u.OLD_SIZED))
        assert due == 0 and len(sized) == value == length // 40
    except u.Refused as error:
        assert error.number == due and (error.index or 0) == value == (length // 40 if due == 5 and length % 40 else 0)
        assert octets == b"\xa5" * len(octets)
    assert number == due and out.tobytes() == octets


def said(kind, call, spots, **named):
    """What a call says where it raises."""
    with pytest.raises(kind) as caught:
        call(spots, T, SHAPE, **named)
    return str(caught.value)


def test_a_list_of_the_other_kind_names_the_call_that_sizes_it(m):
    old, new = np.frombuffer(m.old, u.OLD_SPOT), np.frombuffer(m.line, u.SPOT)
    assert said(TypeError, u.join, old).endswith("these look like records of before displacements were kept: use join_old")
    assert said(TypeError, u.join_old, new).endswith("these look like records with displacements: use join")
    assert "(40 bytes are 0 records and 40 bytes more; these look like records of before displacements were kept: use join_old)" in said(u.RecordsRefused, u.join, m.old)
    assert "(96 bytes are 2 records and 16 bytes more; these look like records with displacements: use join)" in said(u.RecordsRefused, u.join_old, m.line * 2)
    assert "(record 0; if these are records of before displacements were kept: use join_old)" in said(u.RecordsRefused, u.join, m.old * 6)
    assert "(record 1; if these are records with displacements: use join)" in said(u.RecordsRefused, u.join_old, m.line * 5)
    for call, listed in ((u.join, m.line), (u.join_old, m.old)):
        assert said(u.RecordsRefused, call, listed[:-1]).endswith(f"({len(listed) - 1} bytes are 0 records and {len(listed) - 1} bytes more)")
    new = np.frombuffer(m.line * 5, u.SPOT).copy()
    new["octave"][3] = 6
    assert said(u.RecordsRefused, u.join, new).endswith("(record 3)")
    assert said(TypeError, u.join, old[0]) != said(TypeError, u.join_old, new[0])


def test_out_is_of_the_list_s_own_kind(m):
    assert said(TypeError, u.join, m.line, out=np.zeros(1, u.OLD_SIZED)) == "out must be a 1-d array of SIZED"
    assert said(TypeError, u.join_old, m.old, out=np.zeros(1, u.SIZED)) == "out must be a 1-d array of OLD_SIZED"
