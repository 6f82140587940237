"""Every refusal: its class, its number, its index, its words; and that it is the C face's own."""
import copy
import importlib.util
import pickle
from types import SimpleNamespace

import cface
import numpy as np
import odd
import pytest
from hypothesis import given, strategies as st
from mapm import MapM

import uramsheg as u
from uramsheg import _native, desks, missing, partner, refusals
from uramsheg._native import lib

T = cface.case("list")[0]
NAN = float("nan")
GIVEN = (1.0, 1.0, 10.0, 1.9027314, 4.1498866)
M = np.zeros((9, 10), "f4")
EMPTY = [np.zeros(0, "f4") for _ in range(4)]


def refused(kind, call, *given, **named):
    """The refusal that a call raises."""
    with pytest.raises(u.Refused) as caught:
        call(*given, **named)
    assert type(caught.value) is kind and str(caught.value).startswith(f"refused {kind.number}: {kind.why}")
    return caught.value


def test_each_number_of_the_header_has_a_class():
    named = {getattr(lib, name) for name in dir(lib) if name.startswith("URAMSHEG_REFUSED_")}
    assert named == set(refusals.REFUSALS) == set(range(1, 14))
    for kind in refusals.REFUSALS.values():
        assert issubclass(kind, u.Refused) and issubclass(kind, ValueError) and kind.why and getattr(u, kind.__name__) is kind


def test_1_size(m):
    for shape in ((4097, 3), (3, 4097)):
        wide = np.zeros(shape, "f4", order="F")
        assert "4097" in str(refused(u.SizeRefused, u.detect, [wide] * 4, b"", GIVEN, 6))
        assert "use scene" in str(refused(u.SizeRefused, u.levels, wide, b"", 6, out=EMPTY))
        refused(u.SizeRefused, u.downsample, wide)
        refused(u.SizeRefused, u.join, b"1", b"", shape)
        refused(u.SizeRefused, u.join_old, b"1", b"", shape)
    assert len(u.detect([np.zeros((4096, 3), "f4")] * 4, m.set, GIVEN)) == 0


@pytest.mark.parametrize("shape", [(9, 9), (10, 9), (90, 1), (0, 0), (9, 11)])
@pytest.mark.parametrize("place", [1, 2, 3])
def test_2_level(m, shape, place):
    levels = m.levels()
    levels[place] = np.zeros(shape, "f4")
    error = refused(u.LevelRefused, u.detect, levels, b"", (NAN,) * 5, 6)
    assert error.detail.split(", ")[place] == f"{shape[0]} by {shape[1]}" and error.index is None


def test_2_level_where_both_hold_nothing():
    refused(u.LevelRefused, u.detect, [np.zeros((0, 5)), np.zeros((5, 0)), np.zeros((0, 5)), np.zeros((0, 5))], T, GIVEN)


def test_2_comes_after_1():
    refused(u.SizeRefused, u.detect, [np.zeros((4097, 1)), *[np.zeros((1, 4097))] * 3], T, GIVEN)


def test_3_octave(m):
    assert "octave 6" in str(refused(u.OctaveRefused, u.detect, m.levels(), b"", (NAN,) * 5, 6))
    refused(u.OctaveRefused, u.detect, m.levels(), m.set, GIVEN, 2**64 - 1)
    assert len(u.detect(m.levels(), m.set, m.thresholds, 5)) == 1
    assert str(refused(u.OctaveRefused, u.levels, M, b"", 6, out=EMPTY)) == "refused 3: the octave is above 5: give one from 0 to 5 (octave 6)"
    refused(u.OctaveRefused, u.levels, M, m.set, 2**64 - 1)


def test_4_set(m):
    bad = m.set[:4] + b"\xff\xff\xff\xff" + m.set[8:527] + b"\1"
    for call in (lambda: u.detect(m.levels(), bad, GIVEN), lambda: u.join(b"1", bad, m.shape), lambda: u.join_old(b"1", bad, m.shape),
                 lambda: u.correct((1, 2, 3, 4), bad, 2, True), lambda: u.read_set(bad), lambda: u.levels(M, bad, 5, out=EMPTY)):
        assert refused(u.SetRefused, call).detail == "sigmas[1] is not finite; spare[2] is 1, not 0"
    assert "527 bytes" in str(refused(u.SetRefused, u.read_set, m.set[:-1]))
    assert u.read_set(m.set).to_bytes() == m.set


def test_5_records(m):
    spots = np.concatenate([u.detect(m.levels(), m.set, m.thresholds)] * 3)
    bad = spots.copy()
    bad["key"][1:] = 90
    assert refused(u.RecordsRefused, u.join, bad, m.set, m.shape).index == 1
    error = refused(u.RecordsRefused, u.join, spots.tobytes()[:-1], m.set, m.shape)
    assert error.index == 2 and error.detail == "143 bytes are 2 records and 47 bytes more"


@given(st.integers(0, 143), st.integers(0, 255), st.integers(0, 144))
def test_5_is_the_c_face_s_own(place, byte, length):
    listed = bytearray(MapM.line * 3)
    listed[place] = byte
    number, value, out = cface.join(T, MapM.shape, bytes(listed[:length]), cface.SIZED * (length // cface.SPOT))
    try:
        assert (number, u.join(listed[:length], T, MapM.shape).tobytes()) == (0, out)
    except u.RecordsRefused as error:
        assert (number, value) == (5, error.index)


def test_6_room(m):
    spots = np.concatenate([u.detect(m.levels(), m.set, m.thresholds)] * 2)
    out = np.zeros(1, u.SIZED)
    refused(u.RoomRefused, u.join, spots, m.set, m.shape, out=out)
    assert not out.tobytes().strip(b"\0")
    wide = np.zeros(3, u.SIZED)
    sized = u.join(spots, m.set, m.shape, out=wide)
    assert np.shares_memory(sized, wide) and sized.tobytes() == u.join(spots, m.set, m.shape).tobytes() and not wide[2].tobytes().strip(b"\0")


@pytest.mark.parametrize("rooms, said", [((89, 90, 90, 90), "level 0 has room for 89 of 90 pixels"), ((90, 90, 91, 0), "level 3 has room for 0 of 90 pixels"),
                                         ((200, 1, 2, 90), "level 1 has room for 1 of 90 pixels, level 2 has room for 2 of 90 pixels")])
def test_6_room_of_levels(m, rooms, said):
    out = [np.full(room, 7, "f4") for room in rooms]
    error = refused(u.RoomRefused, u.levels, M, m.set, out=out)
    assert error.detail == said and "lend a longer one" in str(error) and all((floats == 7).all() for floats in out)


@given(st.sampled_from([(9, 10), (4097, 2)]), st.sampled_from([5, 6]), st.booleans(), st.integers(0, 4))
def test_the_first_refusal_of_levels_is_the_c_face_s_own(shape, octave, good, short):
    raw, record = np.ones(shape, "f4"), T[: 528 if good else 527]
    rooms = [raw.size - (place < short) for place in range(4)]
    out = [np.full(room, 7, "f4") for room in rooms]
    number, floats = cface.levels(record, raw, octave, rooms)
    try:
        u.levels(raw, record, octave, out=out)
        assert number == 0
    except u.Refused as error:
        assert number == error.number == (1 if shape[0] > 4096 else 3 if octave > 5 else 6 if good else 4)
    assert [part.tobytes() for part in out] == floats


def test_2_of_levels_is_the_c_face_s_alone():
    """An array has its own sides, so that only C can say others: before the octave, after the sides."""
    assert [cface.levels(b"", M, 6, [0] * 4, shape)[0] for shape in ((9, 11), (9, 9), (90, 2), (0, 0), (4097, 1))] == [2, 2, 2, 2, 1]


@pytest.mark.parametrize("samples, sigma, is_max, cause, means", [
    ((-1, 4, 0, 0), 2, False, 1, "bent the other way, too weakly, or not finite"), ((-0.25, 4, 0, 0), 2, True, 1, "bent the other way, too weakly, or not finite"),
    ((-1, 12, 0, 0), 16, True, 2, "beyond the set's range of T or its accepted sigmas"), ((-1, 4, 0, 0), 64, True, 2, "beyond the set's range of T"),
])
def test_7_no_size(m, samples, sigma, is_max, cause, means):
    error = refused(u.NoSizeRefused, u.correct, samples, m.set, sigma, is_max)
    assert (error.number, error.cause, error.why, error.index) == (7, cause, u.NO_SIZE[cause], None)
    assert str(error) == f"refused 7: {u.NO_SIZE[cause]} ({error.detail})" and means in error.detail


def test_each_cause_of_the_header_has_the_words_of_the_other_faces():
    assert {getattr(lib, name) for name in dir(lib) if name.startswith("URAMSHEG_NO_SIZE_")} == set(u.NO_SIZE) == set(missing.MEANS) == {1, 2}
    for place in ("bindings/rust/src/missing.rs", "examples/spot.h"):
        assert all(f'"{words}"' in (cface.ROOT / place).read_text() for words in u.NO_SIZE.values())
    for place in ("bindings/python/README.md", "docs/GUIDE.md"):
        assert all(f"| {cause} | {words} |" in (cface.ROOT / place).read_text() for cause, words in u.NO_SIZE.items())
    for cause in (0, 3, 257):
        pytest.raises(RuntimeError, u.NoSizeRefused, cause)


@pytest.mark.parametrize("module, name", [(missing, "URAMSHEG_NO_SIZE_NEW"), (refusals, "URAMSHEG_REFUSED_NEW"), (desks, "URAMSHEG_DESK_NEW"),
                                          (partner, "URAMSHEG_LIST_NEW")])
def test_a_number_of_the_header_without_words_stops_the_import(monkeypatch, module, name):
    def again():
        """The module's own text, run as another module."""
        spec = importlib.util.spec_from_file_location("uramsheg.again", module.__file__)
        spec.loader.exec_module(importlib.util.module_from_spec(spec))

    again()
    numbers = {known: getattr(lib, known) for known in dir(lib) if known.startswith("URAMSHEG_")}
    monkeypatch.setattr(_native, "lib", SimpleNamespace(**numbers, **{name: 99}))
    with pytest.raises(ImportError, match=name):
        again()


@pytest.mark.parametrize("lost", [(0,), (1,), (2,), (3,), (4,), (0, 3), (0, 1, 2, 3, 4)])
def test_8_thresholds(m, lost):
    given = [NAN if place in lost else value for place, value in enumerate(GIVEN)]
    error = refused(u.ThresholdsRefused, u.detect, m.levels(), b"", given)
    assert error.names == tuple(u.Thresholds._fields[place] for place in lost) and error.detail == ", ".join(error.names)
    refused(u.OctaveRefused, u.detect, m.levels(), b"", given, 6)


@given(st.tuples(*[st.sampled_from([NAN, 0.5, 4.0])] * 5))
def test_thresholds_that_are_no_numbers_are_the_c_face_s_matter(given):
    levels = [M + 1, M, M, M]
    number, value, _ = cface.detect(T, given, levels, 0, 0)
    try:
        assert (number, value) == (0, len(u.detect(levels, T, given)))
    except u.ThresholdsRefused as error:
        assert number == error.number and error.names == tuple(name for name, one in zip(u.Thresholds._fields, given) if one != one)


def test_10_scene(m):
    for shape in ((16385, 1), (1, 16385), (0, 16385), (16385, 0)):
        levels = [np.zeros(shape, "f4"), *m.levels()[1:]]
        error = refused(u.SceneRefused, u.scene, levels, b"", (NAN,) * 5, 6)
        assert error.detail.split(", ") == [f"{shape[0]} by {shape[1]}"] + ["9 by 10"] * 3 and error.index is None
        assert refused(u.SceneRefused, u.tiles, *shape).detail == f"{shape[0]} by {shape[1]}"
    assert "above 16384: cut it into scenes that share 8 pixels (16385 by 0)" in str(refused(u.SceneRefused, u.tiles, 16385, 0))
    refused(u.SceneRefused, u.tiles, 2**64 - 1, 9)


@pytest.mark.parametrize("error", [u.SizeRefused("5000 by 3"), u.RecordsRefused("record 3", 3), u.ThresholdsRefused(["peak", "low"]), u.NoSizeRefused(1),
                                   u.NoSizeRefused(2), u.PastRefused("90 of 90"), u.SceneRefused("16385 by 3"), u.NotYoursRefused("slot 3 is free"),
                                   u.CountRefused("slot 3"), u.NoSpotRefused("slot 3 is free", 3)])
def test_a_refusal_travels_between_processes(error):
    for again in (pickle.loads(pickle.dumps(error)), copy.copy(error)):
        assert (type(again), str(again), vars(again), again.args) == (type(error), str(error), vars(error), error.args)


def test_what_is_no_argument_is_no_refusal(m):
    levels = m.levels()
    wrong = [
        lambda: u.detect(levels[:3], m.set, GIVEN), lambda: u.detect([np.zeros(90)] * 4, m.set, GIVEN), lambda: u.detect([M > 0] * 4, m.set, GIVEN),
        lambda: u.detect([M + 1j] * 4, m.set, GIVEN), lambda: u.detect(levels, "standard", GIVEN), lambda: u.detect(levels, 528, GIVEN),
        lambda: u.detect(levels, m.set, GIVEN, 0.5), lambda: u.detect(levels, m.set, (1,) * 6), lambda: u.join(M, m.set, m.shape), lambda: u.join_old(M, m.set, m.shape),
        lambda: u.join(b"", m.set, m.shape, out=M), lambda: u.correct((1, 2, 3), m.set, 1, True), lambda: u.octave_count("9", 9),
        lambda: u.levels(np.zeros(90), m.set), lambda: u.levels(M > 0, m.set), lambda: u.levels(M, 528), lambda: u.levels(M, m.set, 0.5),
        lambda: u.levels(M, m.set, out=EMPTY[:3]), lambda: u.levels(M, m.set, out=[M] * 4), lambda: u.levels(M, m.set, out=[np.zeros(90) for _ in range(4)]),
        lambda: u.levels(M, m.set, out=[np.zeros(180, "f4")[::2] for _ in range(4)]), lambda: u.levels(M, m.set, out=[odd.read_only(np.zeros(90, "f4"))] * 4),
        lambda: u.levels(M, m.set, out=[odd.unaligned(np.zeros(90, "f4")) for _ in range(4)]),
    ]
    for call in wrong:
        pytest.raises(TypeError, call)
    for call in (lambda: u.detect(levels, m.set, GIVEN, -1), lambda: u.octave_count(-1, 9), lambda: u.octave_count(9, 2**64), lambda: u.levels(M, m.set, -1)):
        with pytest.raises(ValueError) as caught:
            call()
        assert not isinstance(caught.value, u.Refused)


def test_levels_must_not_overlap_the_map_nor_each_other(m):
    room = np.zeros(5 * 90, "f4")
    parts = [room[90 * place : 90 * place + 90] for place in range(5)]
    raw = parts[0].reshape((9, 10), order="F")
    assert len(u.levels(raw, m.set, out=parts[1:])) == 4
    for out in (parts[:4], [*parts[1:4], parts[1]], [*parts[1:4], room[359:449]]):
        with pytest.raises(ValueError, match="overlap"):
            u.levels(raw, m.set, out=out)


def test_out_and_spots_must_not_overlap(m):
    for call, spot, sized in ((u.join, u.SPOT, u.SIZED), (u.join_old, u.OLD_SPOT, u.OLD_SIZED)):
        room = np.zeros(sized.itemsize, "u1")
        with pytest.raises(ValueError, match="overlap"):
            call(room[: spot.itemsize].view(spot), m.set, m.shape, out=room.view(sized))
