"""Scenes: the C face's own; each spot once and at its place, wherever tiles meet; tiles run by themselves; sides, room, refusals."""
import math
from fractions import Fraction
from types import SimpleNamespace

import blob
import cface
import numpy as np
import odd
import pytest
from hypothesis import given, settings, strategies as st

import uramsheg as u
from uramsheg import large, scenes
from uramsheg._native import lib
from uramsheg.records import TILED

T, GIVEN, *_ = cface.case("list")
TABLES = u.standard()
NAN = float("nan")
#: what a scene and an untiled list agree in
SAME = ("sigma", "peak", "samples", "octave", "scale_index", "is_max", "dx", "dy", "size", "accepted", "cause")


def specks(shape, *places):
    """Four levels of map M's pixel at these rows and cols: under set T each lists M's spot, half a pixel to its right."""
    four = [np.zeros(shape, "f4", order="F") for _ in range(4)]
    for place in places:
        four[0][place], four[1][place] = 0.25, -0.25
    return four


#: map M's sized record, which one speck in a map of its sides lists
(M,) = u.join(u.detect(specks((9, 10), (4, 4)), T, GIVEN), T, (9, 10))


def due(shape, *places):
    """The records that a scene of specks lists: map M's, each at its place in its tile and in the scene, by tiles and keys."""
    spots = np.zeros(len(places), u.SCENE)
    for name in u.SIZED.names:
        spots[name] = M[name]
    for spot, (row, col) in zip(spots, places):
        down, right = (row - 4) // 4088, (col - 4) // 4088  # the tile that judges the pixel
        y, x = row - 4088 * down, col - 4088 * right
        spot["tile_row"], spot["tile_col"], spot["y"], spot["x"], spot["row"], spot["col"] = down, right, y, x + 0.5, y, x + 1
        spot["key"] = y * min(shape[1] - 4088 * right, 4096) + x
        spot["scene_x"], spot["scene_y"], spot["scene_row"], spot["scene_col"] = col + 0.5, row, row, col
    return spots[np.lexsort((spots["key"], spots["tile_col"], spots["tile_row"]))]


def turned(turn, *pairs):
    """Pairs of rows and cols, turned or as they are."""
    return [pair[::-1] if turn else pair for pair in pairs]


def noise(shape, seed=0, lost=0):
    """Four levels of noise, which hold a spot in some fifty pixels, and some lost pixels, all of them where the first two tiles meet if they do."""
    rng = np.random.default_rng(seed)
    four = [rng.normal(size=shape).astype("f4") for _ in range(4)]
    for _ in range(lost):
        place = tuple(rng.integers(4080, 4105) if side > 4104 else rng.integers(side) for side in shape)
        four[rng.integers(4)][place] = odd.LOST[rng.integers(3)]
    return four


def untiled(four, thresholds, step=1000):
    """What the whole scene lists: the records of windows that are cut elsewhere than tiles are, at the scene's pixels and places."""
    rows, cols = four[0].shape
    parts = []
    for top in range(0, rows, step):
        for left in range(0, cols, step):
            window = [level[top : top + step + 8, left : left + step + 8] for level in four]
            sized = u.join(u.detect(window, TABLES, thresholds), TABLES, window[0].shape)
            parts.append(np.zeros(len(sized), u.SCENE))
            for name in SAME:
                parts[-1][name] = sized[name]
            parts[-1]["scene_row"], parts[-1]["scene_col"] = np.divmod(sized["key"].astype(int), window[0].shape[1]) + np.array([[top], [left]])
            parts[-1]["scene_x"], parts[-1]["scene_y"] = sized["x"] + float(left), sized["y"] + float(top)
    return by_rows(np.concatenate(parts))


def by_rows(spots):
    """Spots by the scene's rows and cols, at one pixel the minimum first."""
    return spots[np.lexsort((spots["is_max"], spots["scene_col"], spots["scene_row"]))]


def test_map_m_is_a_scene_of_one_tile(m):
    (spot,) = u.scene(m.levels(), m.set, m.thresholds, m.octave)
    assert spot.tobytes() == due(m.shape, (4, 4)).tobytes() and spot.tobytes()[4:52] == m.line
    assert (spot["scene_x"], spot["scene_y"], spot["scene_row"], spot["scene_col"], f"{spot['size']:.6f}") == (4.5, 4, 4, 4, "2.828427")


@pytest.mark.parametrize("turn", [False, True])
@pytest.mark.parametrize("place", range(4084, 4101))
def test_a_spot_where_tiles_meet_is_listed_once_at_its_place(place, turn):
    shape, speck = turned(turn, (20, 4130), (9, place))
    spots = u.scene(specks(shape, speck), T, GIVEN)
    assert spots.dtype == u.SCENE and spots.tobytes() == due(shape, speck).tobytes()
    assert spots["tile_row" if turn else "tile_col"].tolist() == [int(place > 4091)]


@pytest.mark.parametrize("turn", [False, True])
@pytest.mark.parametrize("away", range(9))
def test_the_longest_sides(away, turn):
    """Five tiles, with a spot where each two meet, and at the first and the last pixel that are judged."""
    shape, *places = turned(turn, (12, 16384), *((5, place) for place in (4, 2000, *(4088 * k + away for k in range(1, 5)), 16379)))
    spots = u.scene(specks(shape, *places), T, GIVEN)
    assert spots.tobytes() == due(shape, *places).tobytes() and len(spots) == 7


@pytest.mark.parametrize("turn", [False, True])
@pytest.mark.parametrize("place, count", [((5, 3), 0), ((5, 16380), 0), ((3, 9000), 0), ((8, 9000), 0), ((3, 4092), 0), ((4, 4092), 1), ((7, 4091), 1)])
def test_four_pixels_at_the_sides_are_not_judged(place, count, turn):
    shape, speck = turned(turn, (12, 16384), place)
    assert len(u.scene(specks(shape, speck), T, GIVEN)) == count


def test_four_tiles_go_row_by_row():
    shape, places = (4110, 4110), [(50, 60), (70, 4092), (4070, 4091), (4091, 4070), (4091, 4091), (4092, 50), (4080, 4100), (4100, 4080), (4101, 4101)]
    four = specks(shape, *places)
    four[2] = four[3]  # both are zeros
    spots = u.scene(four, T, GIVEN)
    assert spots.tobytes() == due(shape, *places).tobytes()
    assert list(dict.fromkeys(zip(spots["tile_row"], spots["tile_col"]))) == [(0, 0), (0, 1), (1, 0), (1, 1)]


@pytest.mark.parametrize("lost", [0, 12])
@pytest.mark.parametrize("shape", [(40, 4200), (4200, 40), (20, 8300), (300, 400)])
def test_a_scene_lists_what_the_untiled_scene_lists(shape, lost):
    four = noise(shape, shape[0], lost)
    found, whole = by_rows(u.scene(four, TABLES, (0.01,))), untiled(four, (0.01,))
    assert len(whole) > 1000 and set(whole["is_max"]) == set(whole["accepted"]) == {True, False} == set(whole["cause"] > 0)
    assert all(found[name].tobytes() == whole[name].tobytes() for name in (*SAME, "scene_row", "scene_col"))
    assert abs(found["scene_x"] - whole["scene_x"]).max() < 1e-3 and abs(found["scene_y"] - whole["scene_y"]).max() < 1e-3
    long = whole["scene_row" if shape[0] > shape[1] else "scene_col"]
    assert max(shape) < 4096 or all(np.count_nonzero((first <= long) & (long < first + 4)) for first in (4088, 4092))


@given(st.integers(4086, 4098), st.integers(-3, 3), st.integers(-3, 3), st.integers(0, 3), st.sampled_from(odd.LOST), st.booleans())
def test_a_lost_pixel_where_tiles_meet_strikes_its_spots_and_no_others(place, down, right, level, value, turn):
    """Those at most two rows and cols off, but for the corners; the other spot is thirty off."""
    shape, near, far, lost = turned(turn, (17, 4112), (8, place), (8, place - 30), (8 + down, place + right))
    four = specks(shape, near, far)
    four[level][lost] = value
    struck = max(abs(down), abs(right)) <= 2 and abs(down) + abs(right) < 4
    assert u.scene(four, T, GIVEN).tobytes() == due(shape, far, *[near][struck:]).tobytes()


@pytest.mark.parametrize("shape", [(30, 4200), (4200, 30), (12, 12270), (300, 200), (4096, 20), (9, 4097), (0, 9), (9000, 0), (0, 0)])
def test_tiles_run_by_themselves_and_put_together_are_the_scene(shape):
    four = noise(shape, 3, 9 if min(shape) else 0)
    parts = []
    for tile in u.tiles(*shape):
        own = [tile.of(level) for level in four]
        assert own[0].shape == (tile.rows, tile.cols) and all(np.shares_memory(part, level) for part, level in zip(own, four) if part.size)
        parts.append(tile.place(u.join(u.detect(own, TABLES, (0.01,), 2), TABLES, own[0].shape)))
    found = u.scene(four, TABLES, (0.01,), 2)
    assert np.concatenate(parts).tobytes() == found.tobytes() and (len(found) > 9) == (min(shape) > 8) and set(found["octave"]) <= {2}


def test_places_in_the_scene_are_exact():
    found = u.scene(noise((12, 12400)), TABLES, (0.01,))
    assert set(found["tile_col"]) == {0, 1, 2, 3} and len(found) > 500
    for spot in found:
        assert Fraction(float(spot["scene_x"])) == 4088 * int(spot["tile_col"]) + Fraction(float(spot["x"]))
        assert Fraction(float(spot["scene_y"])) == Fraction(float(spot["y"]))
        assert 4088 * int(spot["tile_col"]) + int(spot["col"]) == math.floor(Fraction(float(spot["scene_x"])) + Fraction(1, 2)) and spot["tile_row"] == 0
        assert abs(spot["scene_x"] - spot["scene_col"]) < 0.601 and abs(spot["scene_y"] - spot["scene_row"]) < 0.601


def test_spots_of_known_places():
    """Gaussian spots through the levels of a raw map, the second and the last of them where tiles meet."""
    known = [(300.4, 21.1, 2.5, 100), (4091.3, 20.2, 2.2, 80), (6000.6, 19.3, 2.7, 90), (8180.3, 18.9, 2.4, 70)]
    found = u.scene(large.levels(blob.spots((40, 8300), *known), TABLES), TABLES, u.Thresholds(peak=10))
    assert found["accepted"].all() and found["tile_col"].tolist() == [0, 0, 1, 2]
    for spot, (x, y, size, height) in zip(np.sort(found, order="scene_x"), known, strict=True):
        assert (spot["scene_x"], spot["scene_y"]) == (pytest.approx(x, abs=0.02), pytest.approx(y, abs=0.02))
        assert spot["size"] == pytest.approx(size, rel=0.02) and -2 * spot["peak"] == pytest.approx(height, rel=0.05)


def test_the_tiles_of_every_side():
    for length in range(16385):
        parts = u.tiles(length, 0)
        assert len(parts) == 1 + max(0, length - 9) // 4088 and {(part.col, part.first_col, part.cols) for part in parts} == {(0, 0, 0)}
        assert all((part.row, part.first_row, part.rows) == (k, 4088 * k, min(length - 4088 * k, 4096)) for k, part in enumerate(parts))
        assert all(one.first_row + one.rows - 4 == other.first_row + 4 for one, other in zip(parts, parts[1:])) and min(part.rows for part in parts[1:] or parts) >= min(length, 9)
        assert parts[-1].first_row + parts[-1].rows == length


def test_tiles_of_both_sides():
    assert u.tiles(5000, 4097) == [(0, 0, 0, 0, 4096, 4096), (0, 1, 0, 4088, 4096, 9), (1, 0, 4088, 0, 912, 4096), (1, 1, 4088, 4088, 912, 9)]
    assert len(u.tiles(16384, 16384)) == 25 and u.tiles(0, 0) == [(0, 0, 0, 0, 0, 0)]


@pytest.mark.parametrize("shape", [(0, 0), (0, 12), (12, 0), (0, 16384), (16384, 0), (1, 1), (8, 5000), (5000, 8), (9, 16384), (16384, 9)])
def test_sides_of_nothing(shape):
    found = u.scene([np.zeros(shape, "f4", order="F")] * 4, T, (0.0,))
    assert len(found) == 0 and found.dtype == u.SCENE


def tiled(spots):
    """The records' bytes as the C face writes them."""
    return np.frombuffer(spots.tobytes(), "u1").reshape(-1, u.SCENE.itemsize)[:, : TILED.itemsize].tobytes()


def same_as_c(four, levels, record, thresholds, octave):
    """A scene of the package and of the C face are the same bytes; answers the number of spots."""
    found = u.scene(levels, record, thresholds, octave, room=1)
    lengths = [min(four[0].shape[0], 4096) * min(four[0].shape[1], 4096) + more for more in (0, 3, 0, 1)]
    number, value, out, _ = cface.scene(record, thresholds, four, octave, lengths, len(found) + 1)
    assert (number, value) == (0, len(found))
    assert tiled(found) + b"\xa5" * cface.SCENE == out
    return len(found)


@given(odd.SHAPES, st.integers(0, 2**32 - 1), st.integers(0, 3), st.sampled_from(sorted(odd.DRESSES)), st.sampled_from([T, TABLES.to_bytes()]), st.integers(0, 5))
def test_same_bytes_whatever_the_array(shape, seed, lost, dress, record, octave):
    four = odd.maps("T" if record is T else "standard", shape, seed, lost)
    levels = [odd.DRESSES[dress](level) for level in four]
    before = [np.ma.getdata(level).tobytes() for level in levels]
    same_as_c(four, levels, record, (0.01, 0.0, 12.1, 1.0, 5.0), octave)
    assert before == [np.ma.getdata(level).tobytes() for level in levels]


@pytest.mark.parametrize("dress", sorted(odd.DRESSES))
def test_two_tiles_whatever_the_array(dress):
    four = noise((14, 4180), 5, 4)
    assert same_as_c(four, [odd.DRESSES[dress](level) for level in four], TABLES.to_bytes(), u.Thresholds(0.01), 0) > 200


def test_integers_are_numbers_too():
    four = specks((20, 4130), (9, 4091), (9, 40))
    whole = [np.rint(8 * level).astype("i2") for level in four]
    assert u.scene(whole, T, GIVEN).tobytes() == u.scene([8 * level for level in four], T, GIVEN).tobytes() != b""
    assert u.scene([level.tolist() for level in four], u.Tables.from_bytes(T), list(GIVEN)).tobytes() == due((20, 4130), (9, 40), (9, 4091)).tobytes()


def test_whole_tiles_are_written_where_room_ends():
    """The C face's: of tiles with 2, 0, 1 and 1 spots; each slice keeps what the copies to the last tile that was come to have left."""
    shape = (12, 12290)
    places = [(5, 40), (6, 60), (5, 8180), (6, 12272)]
    four, listed = specks(shape, *places), tiled(due(shape, *places))
    rooms = [(6, 0, 0, 0), (6, 0, 0, 0), (6, 2, 2, 2), (6, 3, 3, 3), (0, 4, 4, 3), (0, 4, 4, 3)]
    for room, (number, value, held, last) in enumerate(rooms):
        told, answered, out, slices = cface.scene(T, GIVEN, four, 0, [12 * 4096 + 2] * 4, room)
        assert (told, answered, out) == (number, value, listed[: cface.SCENE * held] + b"\xa5" * cface.SCENE * (room - held))
        for level, floats in zip(four, slices):
            kept = np.full(12 * 4096 + 2, 7, "f4")
            for k in range(last + 1):
                copy = level[:, 4088 * k : 4088 * k + 4096]
                kept[: copy.size] = copy.ravel("F")
            assert floats == kept.tobytes()


def rooms_of(monkeypatch, call):
    """The rooms of the tries that a scene makes from now on, in records, where each try is answered by `call`; there are fewer than 30."""
    rooms = []

    def watched(*words):
        rooms.append(words[-2] // cface.SCENE)
        assert len(rooms) < 30
        return call(*words)

    numbers = {name: getattr(lib, name) for name in dir(lib) if name.startswith("URAMSHEG_")}
    monkeypatch.setattr(scenes, "lib", SimpleNamespace(uramsheg_scene=watched, **numbers))
    return rooms


@pytest.mark.parametrize("room, tries", [(0, 7), (1, 7), (100, 4), (1024, 2), (10**6, 1)])
def test_room_grows_until_all_fit(monkeypatch, room, tries):
    four = noise((40, 4200), 6)
    whole = u.scene(four, TABLES, (0.0,))
    rooms = rooms_of(monkeypatch, lib.uramsheg_scene)
    assert u.scene(four, TABLES, (0.0,), room=room).tobytes() == whole.tobytes() and len(whole) > 1024
    assert len(rooms) == tries and rooms[0] == min(room, 2 * 40 * 4200) and all(2 * one <= other for one, other in zip(rooms, rooms[1:]))
    assert rooms[-1] >= len(whole) and all(one < len(whole) for one in rooms[:-1])


def test_more_room_than_a_scene_can_fill_is_not_asked_for(monkeypatch):
    """Where an archive answered 6 for ever, the tries would end."""
    rooms = rooms_of(monkeypatch, lambda *words: 6)
    with pytest.raises(u.RoomRefused):
        u.scene(specks((20, 4130)), T, GIVEN, room=0)
    assert rooms[0] == 0 and rooms[-1] == 2 * 20 * 4130 and rooms == sorted(set(rooms))


@given(st.integers(0, 10**6), st.integers(0, 24), st.integers(1, 25), st.integers(1, 10**6))
def test_the_next_room_is_twice_as_much_or_the_most(room, whole, further, beyond):
    count, most = whole + further, room + beyond
    assert min(max(2 * room, 1), most) <= scenes.more(room, whole, count, most) <= most


@settings(max_examples=100)
@given(st.sampled_from([(9, 10), (16385, 2), (2, 16385), (4097, 3)]), st.booleans(), st.sampled_from([5, 6, 2**64 - 1]), st.booleans(), st.booleans())
def test_the_first_refusal_is_the_c_face_s_own(shape, equal, octave, lost, good):
    record, limits = T[: 528 if good else 527], (1.0, 1.0, NAN if lost else 10.0, 1.9, 4.1)
    four = [np.zeros(shape, "f4") for _ in range(3)] + [np.zeros(shape if equal else (shape[1] + 1, shape[0]), "f4")]
    number, value, out, slices = cface.scene(record, limits, four, octave, [4096 * min(shape)] * 4, 1)
    first = 10 if max(shape) > 16384 else 2 if not equal else 3 if octave > 5 else 8 if lost else 4 if not good else 0
    assert (number, value, out) == (first, 0, b"\xa5" * cface.SCENE)
    try:
        assert len(u.scene(four, record, limits, octave)) == 0 and first == 0
    except u.Refused as error:
        assert error.number == first and slices == [np.full(4096 * min(shape), 7, "f4").tobytes()] * 4


@pytest.mark.parametrize("short", range(4))
def test_short_slices_are_refused_by_the_c_face_and_nothing_is_written(short):
    lengths = [9 * 4096 - (place == short) for place in range(4)]
    answer = cface.scene(T, GIVEN, specks((9, 4100), (4, 4)), 0, lengths, 2)
    assert answer == (6, 0, b"\xa5" * 2 * cface.SCENE, [np.full(length, 7, "f4").tobytes() for length in lengths])


def test_a_scene_names_what_is_refused():
    four = specks((9, 4100))
    for given, kind, said in [(([*four[:3], four[3].T], T, GIVEN), u.LevelRefused, "9 by 4100, 9 by 4100, 9 by 4100, 4100 by 9"), ((four, T, GIVEN, 6), u.OctaveRefused, "octave 6"),
                              ((four, T, (1.0, NAN, 1.0, NAN)), u.ThresholdsRefused, "(sigma, low)"), ((four, T[:-1], GIVEN), u.SetRefused, "527 bytes")]:
        with pytest.raises(kind) as caught:
            u.scene(*given)
        assert said in str(caught.value)


def test_what_is_no_argument_is_no_refusal():
    four = specks((9, 10))
    wrong = [
        lambda: u.scene(four[:3], T, GIVEN), lambda: u.scene([four[0][0]] * 4, T, GIVEN), lambda: u.scene([four[0] > 0] * 4, T, GIVEN), lambda: u.scene(four, 528, GIVEN),
        lambda: u.scene(four, T, (1,) * 6), lambda: u.scene(four, T, GIVEN, 0.5), lambda: u.scene(four, T, GIVEN, room=1.5), lambda: u.tiles(9.5, 9), lambda: u.tiles(9, "9"),
    ]
    for call in wrong:
        pytest.raises(TypeError, call)
    for call in (lambda: u.scene(four, T, GIVEN, -1), lambda: u.scene(four, T, GIVEN, room=-1), lambda: u.tiles(-1, 9), lambda: u.tiles(9, 2**64)):
        with pytest.raises(ValueError) as caught:
            call()
        assert not isinstance(caught.value, u.Refused)
