"""Two desks and their table: the C face's own, and eight plain slots; what a desk's slot depends on; buffers, copies, threads; refusals and their words."""
import array
import copy
import ctypes
import mmap
import pickle
import subprocess
import sys
import threading
from multiprocessing.shared_memory import SharedMemory

import cface
import numpy as np
import odd
import pytest
from eight import LARGEST, Eight
from hypothesis import given, settings, strategies as st
from hypothesis.stateful import RuleBasedStateMachine, invariant, rule, run_state_machine_as_test
from mapm import MapM

import uramsheg as u
from uramsheg import desks
from uramsheg.records import TABLE

T = u.Tables.from_bytes(MapM.set)
#: good records, each of which lists another thing of map M
GOOD = [made.to_bytes() for made in (T, T.replace(sigmas=2 * T.sigmas), T.replace(spatial=-T.spatial))]
BAD = [b"", MapM.set[:-1], MapM.set + b"\0", bytes(528), MapM.set[:-1] + b"\1"]
M, GIVEN = MapM().levels(), MapM.thresholds
LIMITS = u.Thresholds(0.01, low=1.0, high=5.0)
NAN = float("nan")
NEW = bytes(4264)
LENGTHS = [0, 1, 528, 4224, 4263, 4265, 8528]

OTHER_NUMBERS = [2**8, 2**32, 2**64 - 8]
DESKS = st.sampled_from([1, 2] * 4 + [0, 3, *(1 + number for number in OTHER_NUMBERS)])
SLOTS = st.one_of(st.integers(0, 7), st.integers(0, 7), st.sampled_from([8, 9, 255, *OTHER_NUMBERS]))
RECORDS = st.sampled_from(GOOD + BAD)
CALLS = st.one_of(st.tuples(st.sampled_from(["claim", "release"]), DESKS, SLOTS), st.tuples(st.just("write"), DESKS, SLOTS, RECORDS))
#: counts beside which a byte carries, and the last two
EDGES = [edge for bits in (0, 8, 16, 24, 31) for edge in (2**bits - 1, 2**bits)] + [LARGEST - 1, LARGEST]
COUNTS = st.one_of(st.sampled_from(EDGES), st.integers(0, LARGEST))
OWNERS = st.one_of(st.integers(0, 2), st.integers(0, 255))
#: records of NaNs, quiet and signalling
LOST = [b"\xff" * 528, b"\1\0\x80\x7f" * 132]
HELD = st.tuples(st.sampled_from([*GOOD, *BAD[3:], *LOST]), OWNERS, COUNTS)


def octets_of(*slots):
    """A table's bytes: these slots, each a record, an owner and a count, then free ones."""
    eight = Eight()
    for place, (record, owner, count) in enumerate(slots):
        eight.sets[place], eight.owners[place], eight.counts[place] = record, owner, count
    return eight.octets()


#: any table: its slots hold whatever they do
TABLES = st.lists(HELD, min_size=8, max_size=8).map(lambda slots: octets_of(*slots))


def answer(call, *given):
    """A call's number, and what it lists, as bytes."""
    try:
        listed = call(*given)
    except u.Refused as error:
        return error.number, b""
    return 0, b"" if listed is None else listed.tobytes()


def changed(table, call, *given):
    """The number of a claim, a write or a release."""
    return answer(getattr(table, call), *given)[0]


def same_thrice(table, eight, call, *given):
    """The number of a call, which is the package's, the C face's and that of eight plain slots, as are the bytes after it; refused, it changes nothing."""
    before = table.to_bytes()
    number = changed(table, call, *given)
    assert cface.desk(call, before, *given) == (number, table.to_bytes())
    assert (getattr(eight, call)(*given), eight.octets()) == (number, table.to_bytes())
    assert number == 0 or table.to_bytes() == before
    return number


def run_thrice(table, eight, slot):
    """The number of a run on map M, which is the package's, the C face's, and detection's with the record of the plain slot, as is all that is listed."""
    before = table.to_bytes()
    number, listed = answer(table.run, M, slot, GIVEN)
    count = len(listed) // cface.SPOT
    assert cface.desk_run(before, slot, GIVEN, M, 0, count + 1) == (number, count, listed + b"\xa5" * cface.SPOT, before)
    assert (number, listed) == ((11, b"") if eight.may_run(slot) else answer(u.detect, M, eight.sets[slot], GIVEN)) and table.to_bytes() == before
    return number


def hold(table, eight):
    """The readers say what eight plain slots hold."""
    assert table.to_bytes() == eight.octets()
    assert table.slots == list(zip(range(8), eight.owners, eight.counts, map(cface.good, eight.sets)))
    assert [(table.owner(slot), table.count(slot), table.set(slot).to_bytes()) for slot in range(8)] == list(zip(eight.owners, eight.counts, eight.sets))
    assert table.free == [slot for slot in range(8) if eight.owners[slot] == 0]


def test_map_m(m):
    table = u.Table()
    assert table.claim(u.Desk.REPROCESSING, 3) is None and table.write(u.Desk.REPROCESSING, 3, T) is None
    assert table.run(m.levels(), 3, m.thresholds, m.octave).tobytes() == m.line and table.run(m.levels(), 3, m.thresholds).dtype == u.SPOT
    assert table.to_bytes() == bytes(3 * 528) + m.set + bytes(4 * 528) + bytes([0, 0, 0, 2, 0, 0, 0, 0]) + bytes(12) + b"\2\0\0\0" + bytes(16)
    assert table.release(u.Desk.REPROCESSING, 3) is None and (table.owner(3), table.count(3), table.set(3)) == (0, 2, T)


def test_the_records_of_the_properties_are_what_they_are_said_to_be():
    assert all(map(cface.good, GOOD)) and not any(map(cface.good, BAD)) and len({u.detect(M, record, GIVEN).tobytes() for record in GOOD}) == 3


@given(TABLES, st.lists(st.one_of(CALLS, SLOTS), max_size=8))
def test_calls_on_any_table(octets, calls):
    table, eight = u.Table(octets), Eight(octets)
    for call in calls:
        if isinstance(call, int):
            run_thrice(table, eight, call)
        else:
            same_thrice(table, eight, *call)
    hold(table, eight)


class TwoDesks(RuleBasedStateMachine):
    """Two desks, and others that are none, at one table: it lies in a buffer, which ages and is laid elsewhere now and then."""

    #: each call with each number that came
    seen = set()

    def __init__(self):
        super().__init__()
        self.buffer, self.eight = bytearray(NEW), Eight()
        self.table = u.Table.over(self.buffer)

    @rule(call=CALLS)
    def change(self, call):
        self.seen.add((call[0], same_thrice(self.table, self.eight, *call)))

    @rule(slot=SLOTS)
    def run(self, slot):
        self.seen.add(("run", run_thrice(self.table, self.eight, slot)))

    @rule(desk=st.sampled_from([1, 2]), slot=st.integers(0, 7), record=st.sampled_from(GOOD))
    def take(self, desk, slot, record):
        self.change(("claim", desk, slot))
        self.run(slot)
        self.change(("write", desk, slot, record))
        self.run(slot)

    @rule(slot=st.integers(0, 7))
    def give_back(self, slot):
        self.change(("release", self.eight.owners[slot], slot))
        self.run(slot)

    @rule(slot=st.integers(0, 7), count=st.integers(LARGEST - 2, LARGEST), desk=st.sampled_from([1, 2]), record=RECORDS)
    def age(self, slot, count, desk, record):
        self.eight.counts[slot] = count
        self.buffer[4232 + 4 * slot : 4236 + 4 * slot] = count.to_bytes(4, "little")
        self.change(("claim", desk, slot))
        self.change(("write", desk, slot, record))

    @rule()
    def move(self):
        self.buffer = bytearray(pickle.loads(pickle.dumps(self.table)).to_bytes())
        self.table = u.Table.over(self.buffer)

    @invariant()
    def same(self):
        assert self.buffer == self.table.to_bytes()
        hold(self.table, self.eight)


def test_two_desks_and_eight_plain_slots():
    TwoDesks.seen.clear()
    run_state_machine_as_test(TwoDesks, settings=settings(max_examples=max(50, settings.default.max_examples // 4), stateful_step_count=40))
    assert TwoDesks.seen == {(call, number) for call, numbers in (("claim", (0, 11, 12)), ("write", (0, 4, 11, 12)), ("release", (0, 11)), ("run", (0, 4, 11)))
                             for number in numbers}


#: what a desk does in its own slot: a write, or a run, where there is no record
OWN = st.one_of(RECORDS, st.just(None))


#: a count that lets a claim through, and soon no more
LATE = st.one_of(st.integers(0, LARGEST - 1), st.integers(LARGEST - 3, LARGEST - 1))


@given(st.permutations([1, 2]), st.integers(0, 7), TABLES, LATE, st.lists(st.tuples(OWN, *[st.lists(CALLS, max_size=5)] * 2), max_size=5))
def test_a_desk_s_own_slot_does_not_depend_on_the_other_desk(both, slot, octets, count, steps):
    """Two histories from one claim on, with the desk's own calls in common: all its answers, and all that its slot holds, are the same."""
    own, other = both
    eight = Eight(octets)
    eight.owners[slot], eight.counts[slot] = 0, count
    one, two = u.Table(eight.octets()), u.Table(eight.octets())
    for table in (one, two):
        table.claim(own, slot)
    for record, *others in steps:
        for table, calls in zip((one, two), others):
            for call, desk, *given in calls:
                changed(table, call, other if desk == own else desk, *given)
        answers = [answer(table.run, M, slot, GIVEN) if record is None else changed(table, "write", own, slot, record) for table in (one, two)]
        assert answers[0] == answers[1]
        assert one.slots[slot] == two.slots[slot] and one.set(slot) == two.set(slot) and one.owner(slot) == own
    assert one.release(own, slot) is two.release(own, slot) is None


def test_what_does_depend_on_the_other_desk():
    """Whether a claim is granted, and a run from the other desk's slot."""
    one, two = u.Table(), u.Table()
    two.claim("reprocessing", 0)
    assert [changed(table, "claim", "daily", 0) for table in (one, two)] == [0, 11]
    for table, record in zip((one, two), GOOD):
        table.claim("reprocessing", 1)
        table.write("reprocessing", 1, record)
    listed = [table.run(M, 1, GIVEN).tobytes() for table in (one, two)]
    assert listed == [u.detect(M, record, GIVEN).tobytes() for record in GOOD[:2]] and listed[0] != listed[1]


@given(TABLES, st.lists(CALLS, max_size=12))
def test_counts_are_the_claims_and_writes_done_and_tell_whether_a_set_was_written(octets, calls):
    table = u.Table(octets)
    due, kept = [table.count(slot) for slot in range(8)], {}
    for call, desk, slot, *record in calls:
        if changed(table, call, desk, slot, *record) == 0 and call != "release":
            due[slot] += 1
        assert [table.count(slot) for slot in range(8)] == due
        for slot, held in enumerate(table.slots):
            assert kept.setdefault((slot, held.owner, held.count), table.set(slot).to_bytes()) == table.set(slot).to_bytes()


@pytest.mark.parametrize("count", EDGES)
def test_a_count_becomes_one_more_whatever_bytes_it_has(count):
    for slot in range(8):
        for owner, *call in ((0, "claim", 2, slot), (2, "write", 2, slot, GOOD[0])):
            octets = octets_of(*[(GOOD[1], owner, count)] * 8)
            table = u.Table(octets)
            assert same_thrice(table, Eight(octets), *call) == (12 if count == LARGEST else 0)
            assert [table.count(other) for other in range(8)] == [count + (other == slot and count < LARGEST) for other in range(8)]


def test_a_count_at_its_end():
    table = u.Table(octets_of((GOOD[0], 0, LARGEST - 1), (GOOD[0], 1, LARGEST - 1), (GOOD[0], 0, LARGEST), (GOOD[0], 1, LARGEST)))
    eight = Eight(table.to_bytes())
    for due, *call in [(0, "claim", 1, 0), (12, "write", 1, 0, GOOD[1]), (12, "write", 1, 0, b""), (11, "write", 2, 0, b""), (11, "claim", 2, 0), (0, "release", 1, 0),
                       (12, "claim", 2, 0), (0, "write", 1, 1, GOOD[1]), (12, "write", 1, 1, GOOD[1]), (12, "claim", 1, 2), (11, "claim", 1, 3),
                       (12, "write", 1, 3, b""), (0, "release", 1, 3), (12, "claim", 1, 3)]:
        assert same_thrice(table, eight, *call) == due
    assert [table.count(slot) for slot in range(4)] == [LARGEST] * 4 and table.run(M, 1, GIVEN).tobytes() == u.detect(M, GOOD[1], GIVEN).tobytes()


def test_owners_of_every_value():
    for owner in range(256):
        octets = octets_of((GOOD[0], owner, 5))
        due = {("claim", 1): 0 if owner == 0 else 11, ("claim", 2): 0 if owner == 0 else 11,
               **{(call, desk): 0 if owner == desk else 11 for call in ("write", "release") for desk in (1, 2)}}
        for (call, desk), number in due.items():
            assert same_thrice(u.Table(octets), Eight(octets), call, desk, 0, *[GOOD[1]] * (call == "write")) == number
        table = u.Table(octets)
        assert run_thrice(table, Eight(octets), 0) == (0 if owner in (1, 2) else 11)
        assert table.owner(0) == owner and isinstance(table.owner(0), u.Desk) == (owner in (1, 2)) and (0 in table.free) == (owner == 0)


@pytest.mark.parametrize("length", LENGTHS)
def test_a_table_of_another_length(length):
    octets = (octets_of((GOOD[0], 1, 5), (GOOD[0], 0, 5)) * 2)[:length]
    for call in (("claim", 1, 1), ("write", 1, 0, GOOD[1]), ("release", 1, 0)):
        assert cface.desk(call[0], octets, *call[1:]) == (11, octets)
    assert cface.desk_run(octets, 0, GIVEN, M, 0, 1) == (11, 0, b"\xa5" * cface.SPOT, octets)
    for make, given in ((u.Table, octets), (u.Table.from_bytes, octets), (u.Table.over, bytearray(octets))):
        with pytest.raises(u.NotYoursRefused) as caught:
            make(given)
        assert caught.value.detail == f"the table has {length} bytes, not 4264" and caught.value.number == 11


@given(odd.SHAPES, st.integers(0, 2**32 - 1), st.integers(0, 3), st.sampled_from(sorted(odd.DRESSES)), st.sampled_from(["T", "standard"]), st.integers(0, 5),
       st.integers(0, 7), st.integers(0, 3))
def test_a_run_is_detection_with_the_slot_s_record_whatever_the_array(shape, seed, lost, dress, name, octave, slot, room):
    four = odd.maps(name, shape, seed, lost)
    levels = [odd.DRESSES[dress](level) for level in four]
    record = {"T": T, "standard": u.standard()}[name]
    table = u.Table(octets_of(*[(GOOD[1], 1, 1)] * slot))
    table.claim(2, slot)
    table.write(2, slot, record)
    spots, before = u.detect(levels, record, LIMITS, octave), table.to_bytes()
    assert table.run(levels, slot, LIMITS, octave, room=room).tobytes() == spots.tobytes() and table.to_bytes() == before
    fits = spots[:room].tobytes()
    assert cface.desk_run(before, slot, LIMITS, four, octave, room) == (0, len(spots), fits + b"\xa5" * (cface.SPOT * room - len(fits)), before)


def test_the_maps_of_the_property_hold_spots():
    assert sum(len(u.detect(odd.maps("standard", (21, 20), seed, 1), u.standard(), LIMITS)) for seed in range(12)) > 11


@given(st.sampled_from([(9, 10), (4097, 1)]), st.booleans(), st.sampled_from([5, 6, 2**64 - 1]), st.booleans(), st.sampled_from(GOOD + BAD[3:]), OWNERS, SLOTS)
def test_the_first_refusal_of_a_run_is_the_c_face_s_own(shape, short, octave, lost, record, owner, slot):
    """11 for the slot or its owner, then as detection: 1, 2, 3, 8, 4."""
    levels = [np.zeros(shape, "f4") for _ in range(4)]
    levels[3] = levels[3][:-1] if short else levels[3]
    limits = (1.0, 1.0, NAN if lost else 10.0, 1.9, 4.1)
    octets = octets_of(*[(record, owner, 3)] * 8)
    due = (11 if slot > 7 or owner not in (1, 2) else 1 if shape[0] > 4096 else 2 if short else 3 if octave > 5 else 8 if lost else 0 if record in GOOD else 4)
    assert answer(u.Table(octets).run, levels, slot, limits, octave) == (due, b"")
    assert cface.desk_run(octets, slot, limits, levels, octave, 1) == (due, 0, b"\xa5" * cface.SPOT, octets)


@given(st.sampled_from([0, 1, 2, 3, 257]), st.sampled_from([7, 8]), st.sampled_from([0, 1, 2, 3]), st.sampled_from([LARGEST - 1, LARGEST]), st.booleans())
def test_the_first_refusal_of_a_change_is_the_c_face_s_own(desk, slot, owner, count, good):
    """11, then 12 for a claim and a write, then 4 for a write."""
    octets = octets_of(*[(GOOD[0], owner, count)] * 8)
    none, full = desk not in (1, 2) or slot > 7, count == LARGEST
    for call, record, due in (("claim", [], 11 if none or owner else 12 if full else 0), ("release", [], 11 if none or owner != desk else 0),
                              ("write", [GOOD[1] if good else BAD[4]], 11 if none or owner != desk else 12 if full else 0 if good else 4)):
        assert same_thrice(u.Table(octets), Eight(octets), call, desk, slot, *record) == due


BUFFERS = {
    "bytearray": bytearray, "memoryview": lambda octets: memoryview(bytearray(octets)), "at an odd place": lambda octets: memoryview(bytearray(b"7" + octets))[1:],
    "array": lambda octets: array.array("B", octets), "ctypes": lambda octets: (ctypes.c_uint8 * 4264).from_buffer_copy(octets),
    "numpy": lambda octets: np.frombuffer(octets, "u1").copy(), "numpy, eight rows": lambda octets: np.frombuffer(octets, "u1").reshape(8, 533).copy(),
    "numpy, by name": lambda octets: np.frombuffer(octets, TABLE).copy(), "words": lambda octets: array.array("I", octets),
}


def reaches(buffer):
    """A table over a buffer and the buffer are the same bytes."""
    table, octets = u.Table.over(buffer), memoryview(buffer).cast("B") if isinstance(buffer, (memoryview, bytearray, mmap.mmap)) else np.frombuffer(buffer, "u1")
    copied = u.Table(buffer)
    table.claim(2, 7)
    table.write(2, 7, GOOD[0])
    assert bytes(octets) == table.to_bytes() != copied.to_bytes() == NEW
    octets[4231] = 1
    assert table.owner(7) == u.Desk.DAILY and u.Table(buffer) == table and copied.owner(7) == 0
    return table


@pytest.mark.parametrize("kind", sorted(BUFFERS))
def test_a_buffer_is_not_copied(kind):
    reaches(BUFFERS[kind](NEW))


def test_two_tables_over_one_buffer_are_one():
    buffer = bytearray(NEW)
    one, two = u.Table.over(buffer), u.Table.over(memoryview(buffer))
    one.claim(1, 0)
    assert two.owner(0) == 1 and one == two and changed(two, "claim", 2, 0) == 11
    with pytest.raises(BufferError):
        buffer.append(1)


def test_shared_memory_and_a_map_of_a_file_can_be_closed_when_the_table_has_let_go(tmp_path):
    path = tmp_path / "desks"
    path.write_bytes(NEW)
    with path.open("r+b") as file:
        for held in (mmap.mmap(file.fileno(), 0), mmap.mmap(-1, 4264)):
            with reaches(held) as table:
                pytest.raises(BufferError, held.close)
            held.close()
    assert path.read_bytes()[4231] == 1 and repr(table) == "<uramsheg.Table, closed>"
    for call in (table.to_bytes, lambda: table.claim(1, 0), lambda: table.run(M, 0, GIVEN), lambda: table.slots):
        with pytest.raises(ValueError, match="closed") as caught:
            call()
        assert not isinstance(caught.value, u.Refused)
    held = SharedMemory(create=True, size=4264)
    with pytest.raises(u.NotYoursRefused), reaches(held.buf[:4264]) as table:
        table.claim(1, 7)
    held.close()
    held.unlink()


OTHER_PROCESS = """
import mmap, sys, uramsheg
with open(sys.argv[1], "r+b") as file, mmap.mmap(file.fileno(), 0) as held, uramsheg.Table.over(held) as table:
    table.claim("reprocessing", table.free[0])
    table.write("reprocessing", 1, uramsheg.standard())
    print(table)
"""


def test_two_processes_share_a_table_in_a_file(tmp_path):
    path = tmp_path / "desks"
    path.write_bytes(NEW)
    with path.open("r+b") as file, mmap.mmap(file.fileno(), 0) as held, u.Table.over(held) as table:
        table.claim("daily", 0)
        said = subprocess.run([sys.executable, "-c", OTHER_PROCESS, path], capture_output=True, text=True)
        assert (said.stdout, said.stderr) == ("<uramsheg.Table: slot 0 daily's, slot 1 reprocessing's, 6 free>\n", "")
        assert (table.owner(1), table.count(1), table.set(1)) == (u.Desk.REPROCESSING, 2, u.standard()) and changed(table, "write", "daily", 1, T) == 11


def test_what_can_be_no_table():
    locked = np.zeros(4264, "u1")
    locked.flags.writeable = False
    for buffer in (NEW, memoryview(NEW), memoryview(bytearray(NEW)).toreadonly(), locked):
        with pytest.raises(TypeError, match=r"can't be written: Table\(buffer\) makes a copy"):
            u.Table.over(buffer)
        assert u.Table(buffer) == u.Table()
    for buffer in (np.zeros(2 * 4264, "u1")[::2], memoryview(bytearray(2 * 4264))[::2], np.zeros((533, 8), "u1").T):
        for make in (u.Table, u.Table.over):
            with pytest.raises(TypeError, match="one after the other"):
                make(buffer)
    for wrong in ("desks", 4264, [0] * 4264, T, u.Table()):
        for make in (u.Table, u.Table.from_bytes, u.Table.over):
            pytest.raises(TypeError, make, wrong)


COPIES = {"copy": copy.copy, "deep copy": copy.deepcopy, "pickle": lambda table: pickle.loads(pickle.dumps(table)), "bytes": lambda table: u.Table(table.to_bytes()),
          "from_bytes": lambda table: u.Table.from_bytes(bytearray(table.to_bytes()))}


@pytest.mark.parametrize("kind", sorted(COPIES))
@pytest.mark.parametrize("over", [False, True])
def test_a_copy_has_bytes_of_its_own(kind, over):
    octets = octets_of((GOOD[0], 1, 5), (b"\xff" * 528, 200, LARGEST))
    table = u.Table.over(bytearray(octets)) if over else u.Table(octets)
    made = COPIES[kind](table)
    assert made == table and made.to_bytes() == octets and type(made) is u.Table
    made.release(1, 0)
    assert made != table and table.to_bytes() == octets


def test_equal_by_bytes():
    assert u.Table() == u.Table(NEW) == u.Table.over(bytearray(NEW)) and u.Table() != NEW and u.Table() != u.Table(octets_of((bytes(528), 0, 1)))
    pytest.raises(TypeError, hash, u.Table())


def test_what_it_says_of_itself():
    table = u.Table(octets_of((GOOD[0], 1, 5), (bytes(528), 2, 1), (GOOD[0], 0, 9), (GOOD[0], 200, LARGEST)))
    assert repr(table) == "<uramsheg.Table: slot 0 daily's, slot 1 reprocessing's, slot 3 nobody's (owner 200), 5 free>"
    assert repr(u.Table()) == "<uramsheg.Table: 8 free>" and table.free == [2, 4, 5, 6, 7]
    assert table.slots[:4] == [(0, 1, 5, True), (1, 2, 1, False), (2, 0, 9, True), (3, 200, LARGEST, True)] and len(table.slots) == 8
    assert str(table.slots[0]) == "Slot(number=0, owner=<Desk.DAILY: 1>, count=5, good=True)"


@pytest.mark.parametrize("desk", [1, u.Desk.DAILY, "daily", np.uint8(1), np.int64(1)])
def test_a_desk_by_number_or_by_word(desk):
    table = u.Table()
    table.claim(desk, np.int32(4))
    table.write(desk, 4, bytearray(GOOD[0]))
    assert table.owner(np.uint8(4)) is u.Desk.DAILY and table.set(4) == T
    table.release(desk, 4)
    assert [one.value for one in u.Desk] == [1, 2] and table.owner(4) == 0


HOLDS = octets_of((GOOD[0], 1, 5), (GOOD[0], 2, LARGEST), (GOOD[0], 0, LARGEST), (GOOD[0], 7, 0), (bytes(528), 1, 1), (BAD[4], 1, 1))
FULL = octets_of(*[(GOOD[0], 1, 1)] * 8)
NOT_YOURS = "refused 11: not yours: claim a free slot, write and release your desk's own, run from one that a desk owns"
NO_COUNT = "refused 12: the slot's write count is 4294967295, the largest: use another slot"


@pytest.mark.parametrize("call, said", [
    (("claim", 0, 9), f"{NOT_YOURS} (desk 0: daily is 1, reprocessing is 2)"), (("write", 257, 9, b""), f"{NOT_YOURS} (desk 257: daily is 1, reprocessing is 2)"),
    (("claim", 1, 8), f"{NOT_YOURS} (slot 8: a table has slots 0 to 7)"), (("release", 1, 2**64 - 1), f"{NOT_YOURS} (slot {2**64 - 1}: a table has slots 0 to 7)"),
    (("run", 8), f"{NOT_YOURS} (slot 8: a table has slots 0 to 7)"), (("owner", 8), f"{NOT_YOURS} (slot 8: a table has slots 0 to 7)"),
    (("claim", 1, 0), f"{NOT_YOURS} (slot 0 is daily's; free: 2, 6, 7)"), (("claim", 1, 3), f"{NOT_YOURS} (slot 3 is nobody's (owner 7); free: 2, 6, 7)"),
    (("write", 1, 1, b""), f"{NOT_YOURS} (slot 1 is reprocessing's, not daily's)"), (("write", 2, 2, b""), f"{NOT_YOURS} (slot 2 is free, not reprocessing's)"),
    (("release", 2, 3), f"{NOT_YOURS} (slot 3 is nobody's (owner 7), not reprocessing's)"), (("run", 2), f"{NOT_YOURS} (slot 2 is free)"),
    (("run", 3), f"{NOT_YOURS} (slot 3 is nobody's (owner 7))"), (("claim", 1, 2), f"{NO_COUNT} (slot 2)"), (("write", 2, 1, b""), f"{NO_COUNT} (slot 1)"),
    (("write", 1, 0, BAD[1]), "refused 4: the set of tables is not good (the record is 527 bytes long, not 528)"),
    (("run", 4), "refused 4: the set of tables is not good (slot 4 was claimed, and not written yet)"),
    (("run", 5), "refused 4: the set of tables is not good (spare[2] is 1, not 0)"),
])
def test_the_words_of_a_refusal(call, said):
    table = u.Table(HOLDS)
    given = (M, call[1], GIVEN) if call[0] == "run" else call[1:]
    with pytest.raises(u.Refused) as caught:
        getattr(table, call[0])(*given)
    assert str(caught.value) == said and caught.value.index is None and table.to_bytes() == HOLDS


def test_the_words_of_other_refusals():
    assert f"    {NOT_YOURS} (slot 3 is daily's; free: 0, 5)\n" in (cface.ROOT / "bindings" / "python" / "README.md").read_text()
    with pytest.raises(u.NotYoursRefused, match="slot 5 is daily's; free: none"):
        u.Table(FULL).claim(2, 5)
    for levels, thresholds, octave, kind, said in (
            ([np.zeros((4097, 1))] * 4, GIVEN, 0, u.SizeRefused, "4097 by 1"), ([M[0]] * 3 + [np.zeros((9, 9))], GIVEN, 0, u.LevelRefused, "9 by 9"),
            (M, GIVEN, 6, u.OctaveRefused, "octave 6"), (M, (NAN, NAN), 0, u.ThresholdsRefused, "peak, sigma")):
        with pytest.raises(kind, match=said):
            u.Table(FULL).run(levels, 5, thresholds, octave)


@pytest.mark.parametrize("reader", ["owner", "count", "set"])
def test_a_reader_takes_slots_0_to_7(reader):
    for slot in (8, 255, 2**64 - 1):
        with pytest.raises(u.NotYoursRefused, match=f"slot {slot}: a table has slots 0 to 7"):
            getattr(u.Table(FULL), reader)(slot)


def test_what_is_no_argument_is_no_refusal():
    table = u.Table(HOLDS)
    calls = [lambda desk, slot: table.claim(desk, slot), lambda desk, slot: table.write(desk, slot, T), lambda desk, slot: table.release(desk, slot)]
    readers = [table.owner, table.count, table.set, lambda slot: table.run(M, slot, GIVEN)]
    for wrong in (1.0, None, "1", b"1", [1], np.float32(1)):
        for call in calls:
            pytest.raises(TypeError, call, 1, wrong)
            if wrong != "1":
                pytest.raises(TypeError, call, wrong, 1)
        for reader in readers:
            pytest.raises(TypeError, reader, wrong)
    for wrong in (-1, -(2**70), 2**64, 2**70):
        for call in [*(lambda one=call: one(wrong, 1) for call in calls), *(lambda one=call: one(1, wrong) for call in calls),
                     *(lambda one=reader: one(wrong) for reader in readers)]:
            with pytest.raises(ValueError, match="no count") as caught:
                call()
            assert not isinstance(caught.value, u.Refused)
    pytest.raises(ValueError, table.run, M, 0, GIVEN, room=-1)
    for call in calls:
        for wrong in ("", "Daily", "DAILY", "1"):
            with pytest.raises(ValueError, match="a desk is daily or reprocessing, not ") as caught:
                call(wrong, 1)
            assert not isinstance(caught.value, u.Refused)
    for wrong in (lambda: table.write(1, 0, "standard"), lambda: table.write(1, 0, 528), lambda: table.write(1, 0, table), lambda: table.run(M[:3], 0, GIVEN),
                  lambda: table.run([M[0] > 0] * 4, 0, GIVEN), lambda: table.run(M, 0, (1,) * 6), lambda: table.run(M, 0, GIVEN, 0.5), lambda: u.detect(M, table, GIVEN)):
        pytest.raises(TypeError, wrong)
    assert table.to_bytes() == HOLDS


def test_a_set_in_the_table_is_not_the_caller_s():
    """A write copies the record, and so does a reader: the table's own record may be written to another slot."""
    table, record = u.Table(FULL), bytearray(GOOD[1])
    table.write(1, 0, record)
    record[:] = bytes(528)
    assert table.set(0).to_bytes() == GOOD[1]
    buffer = bytearray(table.to_bytes())
    table = u.Table.over(buffer)
    table.write(1, 4, memoryview(buffer)[:528])
    assert table.set(4).to_bytes() == GOOD[1]


def test_the_set_of_a_slot_goes_where_any_set_goes(m):
    table = u.Table(FULL)
    spots = table.run(m.levels(), 6, m.thresholds)
    assert u.join(spots, table.set(6), m.shape).tobytes() == u.join(spots, T, m.shape).tobytes() and table.set(6) == T
    assert table.set(6).faults() == [] and u.Table().set(0).faults() != []


@pytest.mark.parametrize("call", ["claim", "write", "release", "run", "owner", "free", "to_bytes", "Table", "pickle", "repr"])
def test_what_touches_the_bytes_waits_for_the_lock(call):
    table = u.Table.over(bytearray(octets_of((GOOD[0], 1, 1))))
    calls = {"claim": lambda: table.claim(1, 1), "write": lambda: table.write(1, 0, GOOD[1]), "release": lambda: table.release(1, 0), "run": lambda: table.run(M, 0, GIVEN),
             "owner": lambda: table.owner(0), "free": lambda: table.free, "to_bytes": table.to_bytes, "Table": lambda: u.Table(bytearray(NEW)),
             "pickle": lambda: pickle.dumps(table), "repr": lambda: repr(table)}
    thread = threading.Thread(target=calls[call])
    with desks.LOCK:
        thread.start()
        thread.join(0.05)
        assert thread.is_alive()
    thread.join(10)
    assert not thread.is_alive() and not desks.LOCK.locked()


def test_a_run_holds_no_lock_and_goes_by_the_bytes_that_it_began_with(monkeypatch):
    table, spots_by = u.Table(FULL), desks.spots_by

    def meanwhile(*given):
        assert not desks.LOCK.locked()
        table.write(1, 0, GOOD[1])
        return spots_by(*given)

    monkeypatch.setattr(desks, "spots_by", meanwhile)
    assert table.run(M, 0, GIVEN, room=0).tobytes() == u.detect(M, GOOD[0], GIVEN).tobytes() and table.set(0).to_bytes() == GOOD[1]


def test_threads_that_share_a_table_lose_no_write():
    buffer, listed = bytearray(FULL), {u.detect(M, record, GIVEN).tobytes() for record in GOOD}

    def work(place):
        table = u.Table.over(buffer)
        for turn in range(200):
            table.write(1, place % 2, GOOD[(place + turn) % 3])
            if turn % 20 == 0:
                assert table.run(M, place % 2, GIVEN).tobytes() in listed
        done.append(place)

    done, threads = [], [threading.Thread(target=work, args=(place,)) for place in range(4)]
    for thread in threads:
        thread.start()
    for thread in threads:
        thread.join()
    assert sorted(done) == [0, 1, 2, 3] and [u.Table(buffer).count(slot) for slot in (0, 1, 2)] == [401, 401, 1]
