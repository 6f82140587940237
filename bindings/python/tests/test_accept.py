"""A partner's list: the C face's own answer and a plain comparison's; lists and levels of any kind; the finding; refusals, their order and their words."""
import array
import copy
import ctypes
import mmap
import pickle
import re
import struct
from collections import Counter
from dataclasses import FrozenInstanceError
from itertools import product
from pathlib import Path
from types import SimpleNamespace

import beside
import cface
import numpy as np
import odd
import pytest
from ends import BAD, GOOD, byte
from hypothesis import given, strategies as st
from mapm import MapM

import uramsheg as u
from uramsheg import arrays, partner
from uramsheg._native import ffi

T, STANDARD = MapM.set, u.standard().to_bytes()
NAN = float("nan")
NUMBERS = {"accepted": 1, "extra": 2, "absent": 3, "different": 4}


class Case:
    """Four levels with a set, thresholds and an octave, and the list that is due for them."""

    def __init__(self, levels, record, thresholds, octave=0):
        self.levels, self.record, self.thresholds, self.octave = levels, record, thresholds, octave
        self.shape = levels[0].shape
        self.due = u.detect(levels, record, thresholds, octave).tobytes()

    def accept(self, spots):
        """The finding of a list."""
        return u.accept(spots, self.levels, self.record, self.thresholds, self.octave)


def sparse(seed, shape):
    """Four levels in which a tenth of the pixels are -1, 0 or 1: spots of both polarities under the set `standard`, some at one pixel."""
    rng = np.random.default_rng(seed)
    return [(rng.integers(-1, 2, shape) * (rng.random(shape) < 0.1)).astype("f4") for _ in range(4)]


def bowl():
    """The map of crates/zeros whose one spot has a peak of 0."""
    four = [np.zeros((9, 9), "f4") for _ in range(4)]
    four[1][4, 4] = 1
    four[3][:] = 1
    four[3][3:6, 3:6] = [[0, -0.0, 0], [-0.0, 0, -0.0], [0, -0.0, 0]]
    return Case(four, T[:16] + struct.pack("<12f", 0, 0, 0, 0, -1, 0, 0, 0, 0, 0, 0, 0) + T[64:], (-1.0, 1.0, 10.0, 0.0, 0.0))


WIDE = (0.01, 0.0, 12.1, 1.0, 5.0)
CASES = {
    "map M": Case(MapM().levels(), T, MapM.thresholds), "many": Case(sparse(1, (30, 41)), STANDARD, WIDE, 3),
    "lost pixels": Case(odd.maps("standard", (60, 50), 2, 1), STANDARD, WIDE, 5), "a zero peak": bowl(),
    "no spot": Case([np.zeros((9, 10), "f4")] * 4, T, WIDE), "no pixel": Case([np.zeros((0, 7), "f4")] * 4, T, WIDE),
}
M, MANY = CASES["map M"], CASES["many"]
RECORDS = beside.records_of(MANY.due)


def told(call, *given):
    """A call's number, finding and value, as the C face tells them."""
    try:
        found = call(*given)
    except u.Refused as error:
        assert (error.index is None) == (error.number != 5)
        return error.number, 0, error.index or 0
    return 0, NUMBERS[found.kind], found.index or 0


def same_thrice(case, octets):
    """The answer, which is the package's, the C face's and a plain comparison's. Nothing that is lent is changed."""
    answer, listed, floats = cface.accept(case.record, case.thresholds, case.levels, case.octave, octets)
    assert told(case.accept, octets) == answer == beside.answer(octets, case.due, case.shape)
    assert listed == octets and floats == [level.tobytes(order="F") for level in case.levels]
    return answer


def joined(*records):
    """Records as one list."""
    return b"".join(records)


def test_map_m(m):
    found = u.accept(m.line, m.levels(), m.set, m.thresholds)
    assert found and found.accepted is True and (found.kind, found.index) == ("accepted", None)
    for octets, kind, index in ((b"", "absent", 0), (m.line * 2, "extra", 1), (byte(38, 0), "extra", 0), (byte(32, 43), "extra", 0), (byte(32, 45), "absent", 0),
                                (byte(8, 1), "different", 0), (m.line + byte(8, 1), "extra", 1)):
        found = u.accept(octets, m.levels(), m.set, m.thresholds, 0)
        assert not found and found.accepted is False and (found.kind, found.index) == (kind, index)


def test_the_cases_of_the_properties_are_what_they_are_said_to_be():
    assert [len(CASES[name].due) for name in ("map M", "a zero peak", "no spot", "no pixel")] == [48, 48, 0, 0]
    places = [beside.place(record) for record in RECORDS]
    keys = [key for key, _ in places]
    assert len(keys) > 15 and places == sorted(set(places)) and len(keys) - len(set(keys)) > 1
    assert len(CASES["lost pixels"].due) > 48 * 3 and not np.isfinite(CASES["lost pixels"].levels).all()


@pytest.mark.parametrize("name", sorted(CASES))
def test_the_own_list_is_accepted(name):
    assert same_thrice(CASES[name], CASES[name].due) == (0, 1, 0)


@given(odd.SHAPES, st.integers(0, 2**32 - 1), st.integers(0, 3), st.sampled_from(sorted(odd.DRESSES)), st.sampled_from(["T", "standard"]),
       st.sampled_from([0.0, 0.01, 0.1, -1.0, float("inf")]), st.integers(0, 5))
def test_detection_s_own_list_is_accepted_whatever_the_array(shape, seed, lost, dress, name, peak, octave):
    four, record, thresholds = odd.maps(name, shape, seed, lost), {"T": T, "standard": STANDARD}[name], (peak, 0.0, 12.1, 1.0, 5.0)
    levels = [odd.DRESSES[dress](level) for level in four]
    before = [np.ma.getdata(level).tobytes() for level in levels]
    due = u.detect(levels, record, thresholds, octave)
    assert u.accept(due, levels, record, thresholds, octave) == u.accept(due.tobytes(), four, record, thresholds, octave) == u.Finding("accepted")
    assert cface.accept(record, thresholds, four, octave, due.tobytes())[0] == (0, 1, 0)
    listed = due.tobytes()[:-48] if seed % 2 else due.tobytes() + due.tobytes()[:48]
    answer = told(u.accept, listed, levels, record, thresholds, octave)
    assert answer == beside.answer(listed, due.tobytes(), shape) and (answer[1] == 1) == (len(due) == 0)
    assert before == [np.ma.getdata(level).tobytes() for level in levels]


def test_lists_of_the_other_ways_to_detect_are_accepted():
    levels, record, thresholds = MANY.levels, MANY.record, MANY.thresholds
    feed = u.Feed(record, thresholds, *MANY.shape, MANY.octave)
    fed = np.concatenate([feed.push(columns) for columns in zip(*(level.T for level in levels))])
    assert MANY.accept(fed[np.lexsort((fed["is_max"], fed["key"]))]) and not MANY.accept(fed)
    table = u.Table()
    table.claim("daily", 3)
    table.write("daily", 3, record)
    assert u.accept(table.run(levels, 3, thresholds, MANY.octave), levels, table.set(3), thresholds, MANY.octave)
    store = u.Store(len(RECORDS) + 2, *MANY.shape)
    slots = store.extend(MANY.due)
    assert MANY.accept(store.listed)
    store.strike(slots[4])
    assert MANY.accept(store.listed) == u.Finding("absent", 4)


def test_of_a_scene_each_tile_has_a_list():
    levels = [np.tile(level, (140, 1))[:4110] for level in MANY.levels]
    listed = u.scene(levels, MANY.record, MANY.thresholds, MANY.octave)
    for tile in u.tiles(*levels[0].shape):
        spots = np.zeros((listed["tile_row"] == tile.row).sum(), u.SPOT)
        for name in u.SPOT.names:
            spots[name] = listed[name][listed["tile_row"] == tile.row]
        four = [tile.of(level) for level in levels]
        assert len(spots) > 10 and u.accept(spots, four, MANY.record, MANY.thresholds, MANY.octave)
        assert u.accept(spots[:-1], four, MANY.record, MANY.thresholds, MANY.octave) == u.Finding("absent", len(spots) - 1)
    pytest.raises(u.SizeRefused, u.accept, spots, levels, MANY.record, MANY.thresholds, MANY.octave)


def one_bit_more():
    """The levels with one float of the second, at a spot's own pixel, the next larger one."""
    levels = [level.copy() for level in MANY.levels]
    pixel = divmod(beside.place(RECORDS[2])[0], MANY.shape[1])
    levels[1][pixel] = np.nextafter(levels[1][pixel], np.float32(9))
    return levels


OTHERS = {
    "levels": one_bit_more(), "tables": u.standard().replace(spatial=-u.standard().spatial), "octave": MANY.octave + 1,
    "thresholds": (float(np.median(abs(np.frombuffer(MANY.due, u.SPOT)["peak"]))), *WIDE[1:]),
}


@pytest.mark.parametrize("other", sorted(OTHERS))
def test_a_list_made_of_something_else_is_not_accepted(other):
    given = {"levels": MANY.levels, "tables": MANY.record, "thresholds": MANY.thresholds, "octave": MANY.octave, other: OTHERS[other]}
    found, due = u.accept(MANY.due, **given), u.detect(**given).tobytes()
    assert not found and (NUMBERS[found.kind], found.index) == beside.finding(MANY.due, due)


def test_one_left_out_is_absent_at_its_place():
    for index in range(len(RECORDS)):
        assert same_thrice(MANY, joined(*RECORDS[:index], *RECORDS[index + 1 :])) == (0, 3, index)
        assert same_thrice(MANY, joined(*RECORDS[:index])) == (0, 3, index)


def test_one_doubled_is_extra_behind_its_place():
    for index in range(len(RECORDS)):
        assert same_thrice(MANY, joined(*RECORDS[: index + 1], *RECORDS[index:])) == (0, 2, index + 1)
        assert same_thrice(MANY, joined(*RECORDS, RECORDS[index])) == (0, 2, len(RECORDS))


def test_one_moved_is_absent_where_a_later_one_stands():
    for index in range(1, len(RECORDS)):
        rest = RECORDS[:index] + RECORDS[index + 1 :]
        assert same_thrice(MANY, joined(RECORDS[index], *rest)) == (0, 3, 0)
        assert same_thrice(MANY, joined(*RECORDS[: index - 1], RECORDS[index], RECORDS[index - 1], *RECORDS[index + 1 :])) == (0, 3, index - 1)
        assert same_thrice(MANY, joined(*rest, RECORDS[index])) == ((0, 3, index) if rest[index:] else (0, 1, 0))


def test_a_pair_at_one_pixel():
    """The minimum comes first: of one key the polarity decides."""
    places = [beside.place(record) for record in RECORDS]
    index = next(index for index, (one, other) in enumerate(zip(places, places[1:])) if one[0] == other[0])
    before, (low, high), after = RECORDS[:index], RECORDS[index : index + 2], RECORDS[index + 2 :]
    assert (low[38], high[38]) == (0, 1)
    for pair, due in (((high, low), (3, index)), ((high,), (3, index)), ((low,), (3, index + 1)), ((low, low, high), (2, index + 1)),
                      ((low, high, high), (2, index + 2)), ((byte(38, 1, low), high), (3, index)), ((low, byte(38, 0, high)), (2, index + 1)),
                      ((byte(38, 0, high), high), (4, index))):
        assert same_thrice(MANY, joined(*before, *pair, *after)) == (0, *due)


def test_every_byte_counts():
    """Of the first, a middle and the last record each bit is turned. The key and the polarity order the list, whatever else differs."""
    came = Counter()
    for index, place, bit in product((0, len(RECORDS) // 2, len(RECORDS) - 1), range(48), range(8)):
        changed = byte(place, RECORDS[index][place] ^ 1 << bit, RECORDS[index])
        number, finding, value = same_thrice(MANY, joined(*RECORDS[:index], changed, *RECORDS[index + 1 :]))
        assert value == index and finding != 1 and (finding == 4 or number == 5 or place in (32, 33, 34, 35, 38))
        came[place in (32, 33, 34, 35, 38), number, finding] += 1
    assert set(came) == {(False, 0, 4), (False, 5, 0), (True, 0, 2), (True, 0, 3), (True, 5, 0)} and min(came.values()) > 3


def test_the_sign_of_a_zero_peak_is_a_difference():
    """The published Rust leaves it open: docs/DIFFERENCES.md."""
    case = CASES["a zero peak"]
    (record,) = np.frombuffer(case.due, u.SPOT)
    assert record["peak"] == 0
    assert same_thrice(case, byte(15, case.due[15] ^ 0x80, case.due)) == (0, 4, 0)


def test_a_displacement_of_minus_0_is_readable_and_a_difference():
    (record,) = np.frombuffer(M.due, u.SPOT)
    assert record["dy"] == 0 and same_thrice(M, byte(47, 0x80, M.due)) == (0, 4, 0)


EDITS = ("drop", "double", "move", "byte", "put", "cut", "tail")
#: records that an edit puts in, some of them bad
PUT = [*GOOD, *RECORDS, *BAD[:: len(BAD) // 5]]


def edited(records, edit, first, second, value):
    """Records with one edit; its numbers are taken as far as there are records."""
    index, end = first % max(len(records), 1), first % (len(records) + 1)
    before, one, after = records[:index], records[index : index + 1], records[index + 1 :]
    if edit == "drop":
        return before + after
    if edit == "double":
        return before + one + one + after
    if edit == "move":
        rest = before + after
        return rest[: second % (len(rest) + 1)] + one + rest[second % (len(rest) + 1) :]
    if edit == "byte":
        return before + [byte(second % 48, value, record) for record in one] + after
    if edit == "put":
        return records[:end] + [PUT[second % len(PUT)]] + records[end:]
    return records[:end] if edit == "cut" else [*records, bytes(value % 48)]


NUMBER = st.integers(0, 99)


@given(st.sampled_from(sorted(CASES)), st.lists(st.tuples(st.sampled_from(EDITS), NUMBER, NUMBER, st.integers(0, 255)), max_size=3))
def test_any_list_is_answered_as_a_plain_comparison_does(name, edits):
    records = beside.records_of(CASES[name].due)
    for edit in edits:
        records = edited(records, *edit)
    same_thrice(CASES[name], joined(*records))


def test_the_edits_of_the_property_come_to_every_answer():
    rng, came = np.random.default_rng(11), Counter()
    for _ in range(900):
        records = RECORDS
        for _ in range(rng.integers(3)):
            records = edited(records, EDITS[rng.integers(len(EDITS))], *map(int, rng.integers(100, size=2)), int(rng.integers(256)))
        came[same_thrice(MANY, joined(*records))[:2]] += 1
    assert set(came) == {(0, 1), (0, 2), (0, 3), (0, 4), (5, 0)} and min(came.values()) > 40


def plain_array(octets):
    """The same records as a new array."""
    return np.frombuffer(octets, u.SPOT).copy()


def unaligned(octets):
    """The same records at an odd address."""
    return np.frombuffer(b"7" + octets, "u1")[1:].view(u.SPOT)


def in_larger(octets):
    """The same records, each in a larger one."""
    larger = np.ones(len(octets) // 48, [("number", "u1"), ("spot", u.SPOT), ("more", "u4")])
    larger["spot"] = np.frombuffer(octets, u.SPOT)
    return larger["spot"]


def mapped(octets):
    """The same bytes in a map of memory."""
    held = mmap.mmap(-1, len(octets))
    held[:] = octets
    return held


#: how a list may be held, read where it lies
HELD = {
    "bytes": bytes, "bytearray": bytearray, "memoryview": memoryview, "memoryview, read only": lambda octets: memoryview(bytearray(octets)).toreadonly(),
    "memoryview at an odd place": lambda octets: memoryview(b"7" + octets)[1:], "memoryview of records": lambda octets: memoryview(plain_array(octets)),
    "memoryview of words": lambda octets: memoryview(octets).cast("I"), "mmap": mapped, "array of bytes": lambda octets: array.array("B", octets),
    "array of words": lambda octets: array.array("I", octets), "ctypes": lambda octets: (ctypes.c_uint8 * len(octets)).from_buffer_copy(octets),
    "numpy, octets": lambda octets: np.frombuffer(octets, "u1"), "numpy, rows of octets": lambda octets: np.frombuffer(octets, "u1").reshape(-1, 48),
    "spots": plain_array, "spots, read only": lambda octets: np.frombuffer(octets, u.SPOT), "spots, unaligned": unaligned,
    "spots by names": lambda octets: plain_array(octets).view(np.recarray),
}
#: arrays of records that do not lie one after the other: they are copied
COPIED = {
    "every second": lambda octets: np.repeat(plain_array(octets), 2)[::2], "turned": lambda octets: plain_array(octets)[::-1].copy()[::-1],
    "a column": lambda octets: np.array([plain_array(octets)[::-1], plain_array(octets)]).T.copy()[:, 1],
    "a field of larger records": in_larger,
}


def octets_held(held):
    """The bytes of a list, however it is held."""
    return held.tobytes() if isinstance(held, np.ndarray) else bytes(held)


@pytest.mark.parametrize("kind", sorted(HELD) + sorted(COPIED))
def test_a_list_however_it_is_held(kind):
    bad = joined(*RECORDS[:3], byte(38, 2, RECORDS[3]), *RECORDS[4:])
    for octets in (MANY.due, joined(*RECORDS[:2], *RECORDS[3:]), joined(*RECORDS[:3], byte(12, 7, RECORDS[3]), *RECORDS[4:]), bad):
        held = {**HELD, **COPIED}[kind](octets)
        assert octets_held(held) == octets
        assert told(MANY.accept, held) == beside.answer(octets, MANY.due, MANY.shape)
        assert octets_held(held) == octets
        if kind == "mmap":
            held.close()


@pytest.mark.parametrize("kind", sorted(HELD) + sorted(COPIED))
def test_a_list_that_lies_in_one_piece_is_not_copied(kind):
    held = {**HELD, **COPIED}[kind](MANY.due)
    lent = partner.octets_of(held)
    own = held if isinstance(held, np.ndarray) else np.frombuffer(held, "u1")
    assert np.shares_memory(lent, own) == (kind in HELD) and lent.tobytes() == MANY.due
    pointer, length = arrays.octets(lent)
    assert length == len(MANY.due) and (int(ffi.cast("uintptr_t", pointer)) == own.__array_interface__["data"][0]) == (kind in HELD)


@pytest.mark.parametrize("kind", sorted({*HELD, *COPIED} - {"mmap", "memoryview of words"}))
def test_an_empty_list_however_it_is_held(kind):
    for name in ("no spot", "no pixel", "map M", "many"):
        due = u.Finding("accepted") if name.startswith("no ") else u.Finding("absent", 0)
        assert CASES[name].accept({**HELD, **COPIED}[kind](b"")) == due


@pytest.mark.parametrize("name", ["no spot", "no pixel"])
def test_of_a_map_without_spots_every_record_is_extra(name):
    for record in GOOD:
        assert same_thrice(CASES[name], record) == ((0, 2, 0) if name == "no spot" else (5, 0, 0))


def test_a_file_as_a_partner_sends_it(tmp_path):
    path = tmp_path / "partner.spots"
    path.write_bytes(MANY.due)
    with path.open("rb") as file, mmap.mmap(file.fileno(), 0, access=mmap.ACCESS_READ) as held:
        assert MANY.accept(held)
    np.save(tmp_path / "spots.npy", np.frombuffer(MANY.due, u.SPOT))
    for spots in (path.read_bytes(), np.fromfile(path, "u1"), np.fromfile(path, u.SPOT), np.memmap(path, u.SPOT, "r"), np.load(tmp_path / "spots.npy")):
        assert MANY.accept(spots) == u.Finding("accepted")
    assert path.read_bytes() == MANY.due
    path.write_bytes(MANY.due[:-48])
    assert MANY.accept(path.read_bytes()) == u.Finding("absent", len(RECORDS) - 1)


OTHER_TYPES = {
    "big-endian": np.dtype([(name, u.SPOT[name].newbyteorder(">")) for name in u.SPOT.names]), "old": u.OLD_SPOT, "sized": u.SIZED, "stored": u.STORED,
    "scene": u.SCENE, "found": u.FOUND, "nameless": np.dtype("V48"), "turned": np.dtype([(name, u.SPOT[name]) for name in reversed(u.SPOT.names)]),
    "floats": np.dtype("f4"), "signed": np.dtype("i1"), "some fields of stored ones": np.zeros(0, u.STORED)[list(u.SPOT.names)].dtype,
}


@pytest.mark.parametrize("kind", sorted(OTHER_TYPES))
def test_an_array_of_another_type_is_no_list(kind):
    for wrong in (np.zeros(0, OTHER_TYPES[kind]), np.zeros(48, OTHER_TYPES[kind]), np.zeros(48, OTHER_TYPES[kind])[::2]):
        for case in (MANY, CASES["no spot"]):
            with pytest.raises(TypeError, match="spots must be a 1-d array of SPOT, as detect lists them, or the bytes of such records"):
                case.accept(wrong)


def test_big_endian_records_are_accepted_once_they_are_spots():
    turned = np.frombuffer(MANY.due, u.SPOT).astype(OTHER_TYPES["big-endian"])
    assert turned.tobytes() != MANY.due and MANY.accept(turned.astype(u.SPOT))
    pytest.raises(TypeError, MANY.accept, turned)


def test_what_is_no_list():
    spots, found = np.frombuffer(MANY.due, u.SPOT), u.find(MANY.levels[0], peak=0.01)
    for wrong in (None, "spots", 48, [MANY.due], RECORDS, Path("spots"), spots[0], spots[:4].reshape(2, 2), spots[:1].reshape(()), list(spots), found, found.spots,
                  u.Store(1, 9, 10), np.uint8(7), np.bytes_(MANY.due)):
        with pytest.raises(TypeError, match="find's table, are no such list"):
            MANY.accept(wrong)
    for wrong in (memoryview(MANY.due * 2)[::2], np.frombuffer(MANY.due * 2, "u1")[::2], np.zeros((48, 2), "u1").T):
        with pytest.raises(TypeError, match="a list's bytes must lie one after the other"):
            MANY.accept(wrong)


def test_what_is_no_argument_is_no_refusal(m):
    levels, given = m.levels(), m.thresholds
    for wrong in ((levels[:3], m.set, given), ([np.zeros(90)] * 4, m.set, given), (levels, 528, given), (levels, m.set, given, 0.5), (levels, m.set, (1,) * 6),
                  (levels, m.set), (m.line, levels, m.set, given)):
        pytest.raises(TypeError, u.accept, m.line, *wrong)
    for octave in (-1, 2**64):
        with pytest.raises(ValueError, match="no count") as caught:
            u.accept(m.line, levels, m.set, given, octave)
        assert not isinstance(caught.value, u.Refused)


def test_a_set_by_name_and_thresholds_by_name(m):
    for tables in (m.set, bytearray(m.set), u.Tables.from_bytes(m.set)):
        assert u.accept(spots=m.line, levels=m.levels(), tables=tables, thresholds=u.Thresholds(*m.thresholds), octave=m.octave)


def test_the_first_refusal_is_the_c_face_s_own():
    """1, 2, 3, 8, 4, then 5 for the length, 5 for a record; then the finding."""
    answers = {0: (1, 0, 0), 1: (2, 0, 0), 2: (3, 0, 0), 3: (8, 0, 0), 4: (4, 0, 0), 5: (5, 0, 3), 6: (5, 0, 2)}
    for wrong in product([False, True], repeat=7):
        size, level, octave, threshold, record, short, bad = wrong
        levels = [np.zeros((4097, 1) if size else (9, 10), "f4") for _ in range(4)]
        levels[2] = np.zeros((9, 11), "f4") if level else levels[2]
        thresholds = (NAN if threshold else 1.0, *MapM.thresholds[1:])
        octets = joined(GOOD[1], GOOD[0], BAD[0] if bad else GOOD[2]) + b"\0" * short
        given = T[: 527 if record else 528]
        due = answers[wrong.index(True)] if any(wrong) else (0, 2, 0)
        assert cface.accept(given, thresholds, levels, 6 if octave else 5, octets)[:2] == (due, octets)
        assert told(u.accept, octets, levels, given, thresholds, 6 if octave else 5) == due


def test_the_first_bad_record_is_told_wherever_it_stands():
    """Behind the first difference, and behind the last due record too."""
    for place, bad in product(range(4), BAD):
        records = [M.due, GOOD[3], GOOD[1], GOOD[2]]
        records[place] = bad
        assert same_thrice(M, joined(*records, BAD[0])) == same_thrice(M, joined(*records)) == (5, 0, place)


def test_every_readable_record_is_answered():
    came = Counter(same_thrice(M, joined(*records)) for count in (1, 2) for records in product(GOOD, repeat=count))
    assert came == {(0, 1, 0): 1, (0, 2, 0): 22, (0, 2, 1): 10, (0, 3, 0): 11, (0, 4, 0): 66}


def test_a_list_of_every_length():
    for length in range(len(MANY.due[:146]) + 1):
        assert same_thrice(MANY, MANY.due[:length]) == ((5, 0, length // 48) if length % 48 else (0, 3, length // 48))


def test_5_for_the_sides():
    """The same list on other sides: a record beyond them is bad, before any finding."""
    for shape, due in (((9, 5), (5, 0, 0)), ((9, 6), (0, 2, 0)), ((4, 10), (5, 0, 0)), ((4, 12), (5, 0, 0)), ((5, 10), (0, 2, 0)), ((0, 10), (5, 0, 0)),
                       ((4096, 6), (0, 2, 0))):
        assert same_thrice(Case([np.zeros(shape, "f4")] * 4, T, MapM.thresholds), MapM.line) == due


RECORD = "refused 5: a record is bad for this map, or only a part of one"
ASK = "ask for the whole list of these levels, as it was made"
OLD = "if it has records of 40 bytes, of before displacements were kept, ask for one with displacements"


@pytest.mark.parametrize("spots, index, said", [
    (MapM.line * 3 + b"7", 3, f"145 bytes are 3 records and 1 bytes more: {ASK}"), (b"7", 0, f"1 bytes are 0 records and 1 bytes more: {ASK}"),
    (MapM.line + BAD[0], 1, f"record 1 is no spot of a map of 9 by 10: {ASK}"),
    (MapM.line * 4 + BAD[0], 4, f"record 4 is no spot of a map of 9 by 10: {ASK}; {OLD}"),
    (MapM.old * 2, 1, f"80 bytes are 1 records and 32 bytes more: {ASK}; {OLD}"),
    (np.frombuffer(MapM.old * 2, "u1"), 1, f"80 bytes are 1 records and 32 bytes more: {ASK}; {OLD}"),
    (np.frombuffer(MapM.line * 4 + BAD[0], u.SPOT), 4, f"record 4 is no spot of a map of 9 by 10: {ASK}"),
], ids=lambda value: None if isinstance(value, int) else "")
def test_the_words_of_5(spots, index, said):
    with pytest.raises(u.RecordsRefused) as caught:
        M.accept(spots)
    assert str(caught.value) == f"{RECORD} ({said})" and caught.value.index == index and caught.value.detail == said
    again = pickle.loads(pickle.dumps(caught.value))
    assert (str(again), again.index) == (str(caught.value), index)


@pytest.mark.parametrize("change, kind, said", [
    ({"levels": [np.zeros((4097, 3), "f4")] * 4}, u.SizeRefused, "(4097 by 3; of a scene, accept the list of each tile)"),
    ({"levels": [*MapM().levels()[:3], np.zeros((9, 9), "f4")]}, u.LevelRefused, "(9 by 10, 9 by 10, 9 by 10, 9 by 9)"),
    ({"octave": 6}, u.OctaveRefused, "(octave 6)"), ({"thresholds": (1, NAN, 1, NAN, 1)}, u.ThresholdsRefused, "(sigma, low)"),
    ({"tables": T[:-1]}, u.SetRefused, "527 bytes"), ({"tables": T[:527] + b"\1"}, u.SetRefused, "(spare[2] is 1, not 0)"),
], ids=["1", "2", "3", "8", "4", "4, a byte"])
def test_the_words_of_detection_s_refusals(change, kind, said):
    given = {"spots": MapM.line, "levels": MapM().levels(), "tables": T, "thresholds": MapM.thresholds, "octave": 0, **change}
    with pytest.raises(u.Refused) as caught:
        u.accept(**given)
    assert type(caught.value) is kind and caught.value.index is None
    assert str(caught.value).startswith(f"refused {kind.number}: {kind.why}") and said in str(caught.value)


FINDINGS = [u.Finding("accepted"), u.Finding("extra", 3), u.Finding("absent", 0), u.Finding("different", 2**40)]


def test_a_finding_in_words():
    assert [str(found) for found in FINDINGS] == [
        "accepted: the list is the one that is due, bit for bit", "record 3 is extra: it comes before the one that is due here, or behind the last",
        "record 0 is absent: the one that is due here is missing; a later one stands in its place, or the list ends",
        "record 1099511627776 is different: it has the key and the polarity of the one that is due, and another byte differs"]
    assert [repr(found) for found in FINDINGS[:2]] == ["Finding(kind='accepted', index=None)", "Finding(kind='extra', index=3)"]


def test_a_finding_is_true_where_the_list_is_accepted_and_equal_by_what_it_says():
    assert [bool(found) for found in FINDINGS] == [found.accepted for found in FINDINGS] == [True, False, False, False]
    assert u.Finding("extra", 3) == FINDINGS[1] and u.Finding("extra", 4) != FINDINGS[1] != u.Finding("absent", 3)
    assert not any(FINDINGS[0] == other for other in (True, 1, "accepted", ("accepted", None)))
    assert len({*FINDINGS, *map(copy.copy, FINDINGS), *map(copy.deepcopy, FINDINGS), *pickle.loads(pickle.dumps(FINDINGS))}) == 4


def test_a_finding_can_t_be_changed():
    for found, (name, value) in product(FINDINGS, [("kind", "accepted"), ("index", None), ("accepted", True), ("other", 1)]):
        before = repr(found)
        with pytest.raises((FrozenInstanceError, AttributeError, TypeError)):
            setattr(found, name, value)
        assert repr(found) == before and not hasattr(found, "__dict__")


def test_what_is_no_finding():
    for wrong in (("accepted", 0), ("accepted", 3), ("extra", None), ("absent",), ("different",), ("none", 3), ("none",), ("", None), (1, None)):
        with pytest.raises(ValueError, match="accepted has no index, extra, absent and different have one"):
            u.Finding(*wrong)


def test_the_numbers_are_the_header_s():
    header = (cface.ROOT / "include" / "uramsheg.h").read_text()
    said = {name.lower(): int(number) for name, number in re.findall(r"URAMSHEG_LIST_(\w+) = (\d+)", header)}
    assert said == NUMBERS == {kind: number for number, kind in partner.KINDS.items()} and set(partner.MEANS) == set(NUMBERS)
    assert re.findall(r"URAMSHEG_NO_FINDING = (\d+)", header) == ["0"] and 0 not in partner.KINDS


def answering(number, finding, value):
    """A library whose call answers so."""

    def call(*given):
        given[-2][0], given[-1][0] = finding, value
        return number

    return SimpleNamespace(uramsheg_accept=call)


def test_an_answer_that_the_header_does_not_name_is_no_finding(monkeypatch):
    for finding in (0, 5, 2**32 - 1):
        monkeypatch.setattr(partner, "lib", answering(0, finding, 0))
        with pytest.raises(RuntimeError, match=f"answered the finding {finding}, which uramsheg.h does not name"):
            M.accept(M.due)
    monkeypatch.setattr(partner, "lib", answering(99, 1, 0))
    with pytest.raises(RuntimeError, match="answered 99"):
        M.accept(M.due)


@pytest.mark.parametrize("number", [1, 2, 3, 4, 5, 8])
def test_a_refused_list_is_never_taken_for_an_accepted_one(monkeypatch, number):
    """Whatever stands beside the number."""
    for finding in range(5):
        monkeypatch.setattr(partner, "lib", answering(number, finding, 0))
        with pytest.raises(u.Refused) as caught:
            M.accept(M.due)
        assert caught.value.number == number
