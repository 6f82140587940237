"""A store of spots: the C face's own, and a list of optional spots; readers, the way to sizes; arrays, buffers, copies, threads; refusals and their words."""
import array
import copy
import ctypes
import mmap
import pickle
import subprocess
import sys
import threading
from collections import Counter
from itertools import product
from multiprocessing.shared_memory import SharedMemory

import cface
import numpy as np
import pytest
from ends import BAD, GOOD, byte, spot
from hypothesis import given, settings, strategies as st
from hypothesis.stateful import RuleBasedStateMachine, invariant, rule, run_state_machine_as_test
from mapm import MapM
from optional import FREE, Optional, readable

import uramsheg as u
from uramsheg import store as stores

SHAPE = MapM.shape
LAST = 2**64 - 1
#: free slots with another byte that is not 0
FORGED = [byte(place, 1, FREE) for place in range(48) if place != 38]
LENGTHS = [b"", MapM.line[:1], MapM.line[:-1], MapM.line + b"\0", MapM.line * 2, MapM.old]

SPOTS = st.one_of(st.sampled_from(GOOD), st.builds(lambda x, y, key, dx: spot(x=x, y=y, key=key, dx=dx), st.floats(0, 9, width=32), st.floats(0, 8, width=32),
                                                   st.integers(0, 89), st.integers(0, 0x3F19999A)))
ANY = st.one_of(SPOTS, SPOTS, SPOTS, st.sampled_from(BAD + FORGED + LENGTHS + [FREE]), st.builds(byte, st.integers(0, 47), st.integers(0, 255), SPOTS))
SLOT = st.one_of(st.just(FREE), SPOTS)


def of_sizes(items, *sizes):
    """Lists of as many items as one of the sizes says."""
    return st.sampled_from(sizes).flatmap(lambda size: st.lists(items, min_size=size, max_size=size))


NUMBERS = st.one_of(*[st.integers(0, 5)] * 4, st.sampled_from([6, 8, 9, 255, 2**32, LAST // 48, LAST - 1, LAST]))
CALLS = st.one_of(*[st.tuples(st.just("add"), SPOTS)] * 3, st.tuples(st.just("add"), ANY), *[st.tuples(st.just("strike"), NUMBERS)] * 3, *[st.just(("close_up",))] * 2,
                  st.sampled_from([("close_up",), ("close_up",), ("clear",)]))
SOUND = of_sizes(SLOT, 0, 1, 3, 6, 6, 9).map(b"".join)
#: any bytes: most are a store, some hold what is no slot, some are no whole slots
STORES = st.one_of(SOUND, of_sizes(st.one_of(SLOT, SLOT, SLOT, st.sampled_from(BAD + FORGED)), 1, 3, 6).map(b"".join), st.binary(max_size=150),
                   st.tuples(SOUND, st.binary(min_size=1, max_size=47)).map(b"".join))
SHAPES = st.one_of(*[st.just(SHAPE)] * 3, st.sampled_from([(0, 0), (9, 0), (0, 10), (8, 10), (9, 9), (4096, 4096), (4097, 10), (9, 4097), (9, 2**32), (LAST, LAST)]))


def answer(call, *given):
    """A call's number and value, as the C face tells them."""
    try:
        return 0, call(*given) or 0
    except u.Refused as error:
        return error.number, error.index if error.number == 5 else 0


def same_thrice(store, plain, call, *given):
    """The number of a call, which is the package's, the C face's and a plain list's, as are its value and the bytes after it; refused, it changes nothing."""
    before = store.to_bytes()
    told = answer(getattr(store, call), *given)
    assert cface.store(call, before, store.shape, *given) == (*told, store.to_bytes())
    assert getattr(plain, call)(*given) == told and plain.octets() == store.to_bytes()
    assert told[0] == 0 or store.to_bytes() == before
    return told[0]


def octets_of(record):
    """An optional spot's bytes."""
    return None if record is None else record.tobytes()


def hold(store, plain):
    """The readers say what a plain list of optional spots holds; of bytes that are no store, what the calls are refused with."""
    assert store.to_bytes() == plain.octets() and len(store) == len(plain.held)
    readers = [lambda: store.live, lambda: store.free, lambda: store.spots, lambda: store.listed, lambda: list(store), lambda: store[0]]
    if plain.wrong():
        assert [answer(reader) for reader in readers] == [plain.wrong()] * 6
        return
    live = [(slot, held) for slot, held in enumerate(plain.held) if held is not None]
    assert (store.live, store.free) == ([slot for slot, _ in live], [slot for slot, held in enumerate(plain.held) if held is None])
    assert [octets_of(record) for record in store] == [octets_of(store[slot]) for slot in range(len(store))] == plain.held
    assert store.listed.dtype == u.SPOT and [held.tobytes() for held in store.listed] == [held for _, held in live]
    assert store.spots.dtype == u.STORED and [held.tobytes() for held in store.spots] == [slot.to_bytes(8, "little") + held for slot, held in live]


def both(octets, shape=SHAPE):
    """A store and a plain list of these bytes."""
    return u.Store.from_bytes(octets, *shape), Optional(octets, shape)


def test_map_m(m):
    store = u.Store(3, *m.shape)
    (found,) = u.detect(m.levels(), m.set, m.thresholds)
    assert store.to_bytes() == FREE * 3 and (len(store), store.live, store.free, store.shape) == (3, [], [0, 1, 2], (9, 10))
    assert [store.add(found), store.add(m.line), store.add(found)] == [0, 1, 2] and store.strike(1) is None
    assert store.to_bytes() == m.line + FREE + m.line and store[1] is None and store[2].tobytes() == m.line and store.live == [0, 2]
    assert store.close_up() == 2 and store.to_bytes() == m.line * 2 + FREE and store.clear() is None and store.to_bytes() == FREE * 3


def test_the_records_of_the_properties_are_what_they_are_said_to_be():
    for records, number in ((GOOD, 0), (BAD, 5)):
        for record in records:
            assert cface.join(MapM.set, SHAPE, record, 60)[0] == number and readable(record, SHAPE) == (number == 0)
    assert len(set(GOOD)) == len(GOOD) and len(FORGED) == 47 and not any(map(GOOD.__contains__, BAD + FORGED))


@given(STORES, SHAPES, of_sizes(CALLS, 1, 4, 8))
def test_calls_on_any_bytes(octets, shape, calls):
    store, plain = both(octets, shape)
    hold(store, plain)
    for call in calls:
        same_thrice(store, plain, *call)
    hold(store, plain)


@given(SOUND, of_sizes(CALLS, 1, 5, 20))
def test_any_calls_leave_what_a_list_of_optional_spots_holds(octets, calls):
    store, plain = both(octets)
    for call in calls:
        same_thrice(store, plain, *call)
        hold(store, plain)
    assert not plain.wrong()


def history(rng, slots, calls):
    """Calls by chance on a store of so many slots: each with its number, and whether it moved a spot to another slot."""
    store, plain = both(FREE * slots)
    share = rng.uniform(0.3, 0.6)
    for _ in range(calls):
        call = rng.choice(["add", "strike", "close_up", "clear"], p=[share, 0.97 - share, 0.02, 0.01])
        record = BAD[rng.integers(len(BAD))] if rng.random() < 0.05 else spot(x=rng.random(dtype="f4"), y=rng.random(dtype="f4"), key=rng.integers(90))
        given, before = {"add": [record], "strike": [int(rng.integers(slots + 1))]}.get(call, []), plain.held
        yield call, same_thrice(store, plain, call, *given), call == "close_up" and plain.held != before
    hold(store, plain)


def test_long_histories():
    came = Counter(one for seed in range(8) for one in history(np.random.default_rng(seed), 2 + 5 * seed, 700))
    assert set(came) == {("add", 0, False), ("add", 5, False), ("add", 6, False), ("strike", 0, False), ("strike", 13, False), ("close_up", 0, False),
                         ("close_up", 0, True), ("clear", 0, False)} and min(came.values()) > 20


class Day(RuleBasedStateMachine):
    """A day's calls on one store of five slots: it lies in a buffer, which other code spoils and mends, and is laid elsewhere now and then."""

    #: each call with each number that came
    seen = set()

    def __init__(self):
        super().__init__()
        self.lay(FREE * 5)

    def lay(self, octets):
        self.buffer, self.plain = bytearray(octets), Optional(bytes(octets), SHAPE)
        self.store = u.Store.over(self.buffer, *SHAPE)

    @rule(call=CALLS)
    def change(self, call):
        self.seen.add((call[0], same_thrice(self.store, self.plain, *call)))

    @rule(records=st.lists(SPOTS, max_size=6))
    def add_several(self, records):
        for record in records:
            self.change(("add", record))

    @rule(slot=st.integers(0, 4), bad=st.sampled_from(BAD + FORGED), call=CALLS)
    def spoil_and_mend(self, slot, bad, call):
        good, self.buffer[48 * slot : 48 * slot + 48] = bytes(self.buffer[48 * slot : 48 * slot + 48]), bad
        self.plain = Optional(bytes(self.buffer), SHAPE)
        self.change(call)
        hold(self.store, self.plain)
        if call[0] != "clear":
            self.buffer[48 * slot : 48 * slot + 48] = good
        self.plain = Optional(bytes(self.buffer), SHAPE)

    @rule()
    def move(self):
        self.lay(pickle.loads(pickle.dumps(self.store)).to_bytes())

    @invariant()
    def same(self):
        assert self.buffer == self.store.to_bytes()
        hold(self.store, self.plain)


def test_a_day_and_a_list_of_optional_spots():
    Day.seen.clear()
    run_state_machine_as_test(Day, settings=settings(max_examples=max(50, settings.default.max_examples // 4), stateful_step_count=40))
    assert Day.seen == {("add", 0), ("add", 5), ("add", 6), ("strike", 0), ("strike", 5), ("strike", 13), ("close_up", 0), ("close_up", 5), ("clear", 0)}


@pytest.mark.parametrize("shape, short, bad, full", product([SHAPE, (4097, 10), (9, 4097)], *[[False, True]] * 3))
def test_the_first_refusal_is_the_c_face_s_own(shape, short, bad, full):
    """1, then 5 for the length, 5 for a slot; adding: 5 for the new spot, then 6; striking: 13. Clearing: 5 for the length alone."""
    octets = MapM.line + (BAD[0] if bad else GOOD[1]) + (GOOD[2] if full else FREE) + (b"\0" if short else b"")
    first = (1, 0) if shape != SHAPE else (5, 3) if short else (5, 1) if bad else None
    room = (6, 0) if full else (0, 2)
    due = [(("clear",), (5, 3) if short else (0, 0)), (("close_up",), first or (0, 3 if full else 2)), *((("add", given), first or (5, 3)) for given in BAD + LENGTHS),
           *((("add", given), first or room) for given in GOOD), (("strike", 0), first or (0, 0)), (("strike", 2), first or ((0, 0) if full else (13, 0))),
           *((("strike", slot), first or (13, 0)) for slot in (3, 4, 255, 2**32, LAST))]
    for (call, *arguments), told in due:
        store, plain = both(octets, shape)
        same_thrice(store, plain, call, *arguments)
        assert cface.store(call, octets, shape, *arguments)[:2] == told


def test_the_first_bad_slot_is_told():
    for slot, bad in product(range(4), BAD + FORGED):
        held = [FREE, MapM.line, FREE, MapM.line]
        held[slot] = bad
        store, plain = both(b"".join(held + BAD[:1]))
        for call in (("close_up",), ("add", MapM.line), ("add", b""), ("strike", 1), ("strike", LAST)):
            assert same_thrice(store, plain, *call) == 5
            assert answer(getattr(store, call[0]), *call[1:]) == (5, slot)
        hold(store, plain)


def test_a_store_of_every_length():
    for length, call in product(range(146), (("add", MapM.line), ("strike", 0), ("close_up",), ("clear",))):
        store, plain = both((MapM.line + FREE + b"\xff" * 50)[:length])
        due = 5 if length % 48 or (length == 144 and call[0] != "clear") else {"add": 0 if length == 96 else 6, "strike": 0 if length else 13}.get(call[0], 0)
        assert same_thrice(store, plain, *call) == due
        hold(store, plain)


def test_a_store_of_no_slots():
    store = u.Store(0, *SHAPE)
    assert (len(store), store.to_bytes(), list(store), store.live, store.free, len(store.spots), len(store.listed)) == (0, b"", [], [], [], 0, 0)
    assert [answer(store.add, MapM.line), answer(store.add, b""), answer(store.strike, 0), answer(store.close_up), answer(store.clear)] == [(6, 0), (5, 0), (13, 0), (0, 0), (0, 0)]
    with pytest.raises(IndexError, match="slot 0: the store has no slots"):
        store[0]


@pytest.mark.parametrize("shape", [(0, 0), (0, 10), (9, 0)])
def test_sides_of_0_take_free_slots_alone(shape):
    for octets, number in ((FREE * 2, 0), (FREE + spot(x=0, y=0, key=0), 5)):
        store, plain = both(octets, shape)
        assert same_thrice(store, plain, "close_up") == number and same_thrice(store, plain, "add", spot(x=0, y=0, key=0)) == 5
        hold(store, plain)


def test_a_free_slot_is_the_lowest_one():
    store = u.Store(6, *SHAPE)
    assert store.extend(b"".join(GOOD[:5])) == [0, 1, 2, 3, 4]
    for slot in (3, 1, 4):
        store.strike(slot)
    assert [store.add(GOOD[5]), store.add(GOOD[6]), store.add(GOOD[7]), store.add(GOOD[8]), answer(store.add, GOOD[9])] == [1, 3, 4, 5, (6, 0)]
    assert store.to_bytes() == b"".join(GOOD[place] for place in (0, 5, 2, 6, 7, 8))


def test_closing_up_twice_changes_nothing_more():
    store = u.Store.from_bytes(FREE + GOOD[2] + FREE + GOOD[1] + GOOD[2] + FREE, *SHAPE)
    listed = store.listed.tobytes()
    assert store.close_up() == 3 and store.to_bytes() == GOOD[2] + GOOD[1] + GOOD[2] + FREE * 3 == listed + FREE * 3
    assert store.close_up() == 3 and store.to_bytes() == listed + FREE * 3


@given(SOUND)
def test_the_way_to_sizes(octets):
    """The list, closed up or not, is sized as the C face sizes the closed store's first bytes, each record in the order of its slot."""
    store = u.Store.from_bytes(octets, *SHAPE)
    sized, slots = u.join(store.listed, MapM.set, store.shape), store.spots["slot"]
    assert len(sized) == len(slots) and [store[slot].tobytes() for slot in slots] == [record.tobytes()[:48] for record in sized]
    count = store.close_up()
    front = store.to_bytes()[: 48 * count]
    assert u.size(store.listed, MapM.set, store.shape).tobytes() == sized.tobytes() == cface.join(MapM.set, SHAPE, front, 60 * count)[2]
    assert u.join(front, MapM.set, SHAPE).tobytes() == sized.tobytes() and store.spots["slot"].tolist() == list(range(count))


def test_spots_of_many_maps_are_detection_s_own_but_for_the_struck():
    four = [np.random.default_rng(place).normal(size=(60, 70)).astype("f4") for place in range(4)]
    found = u.detect(four, u.standard(), (0.01,))
    store = u.Store(len(found) + 1, 60, 70)
    assert store.extend(found) == list(range(len(found))) and len(found) > 20
    for slot in store.live[::3]:
        store.strike(slot)
    kept = np.delete(found, slice(None, None, 3))
    assert store.listed.tobytes() == kept.tobytes() and [store.spots[name].tobytes() for name in u.SPOT.names] == [kept[name].tobytes() for name in u.SPOT.names]
    assert store.close_up() == len(kept) and store.to_bytes() == kept.tobytes() + FREE * (len(store) - len(kept))


def test_what_readers_give_is_not_the_store_s():
    store = u.Store.from_bytes(MapM.line + FREE, *SHAPE)
    before = store.to_bytes()
    for given in (store[0], next(iter(store)), *store.spots, *store.listed):
        given["x"] = 99
    store.live.clear()
    store.free.clear()
    assert store.to_bytes() == before and store.live == [0] and store.free == [1]


def test_an_iterator_goes_by_the_slots_that_it_began_with():
    store = u.Store.from_bytes(b"".join(GOOD[:3]), *SHAPE)
    spots = iter(store)
    store.clear()
    assert [held.tobytes() for held in spots] == GOOD[:3] and list(store) == [None] * 3


RECORDS = np.frombuffer(b"".join(GOOD), u.SPOT)


def unaligned(records):
    """The same records at an odd address."""
    room = np.zeros(records.nbytes + 1, "u1")
    view = room[1:].view(u.SPOT)
    view[:] = records
    return view


DRESSES = {
    "as it is": np.copy, "read only": lambda a: a, "every second": lambda a: np.repeat(a, 2)[::2], "turned": lambda a: a[::-1].copy()[::-1], "unaligned": unaligned,
    "a column": lambda a: np.array([a[::-1], a]).T.copy()[:, 1], "by names": lambda a: a.view(np.recarray), "bytes": np.ndarray.tobytes,
    "bytearray": lambda a: bytearray(a.tobytes()), "memoryview": lambda a: memoryview(a.tobytes()), "memoryview of records": memoryview,
    "every second byte": lambda a: memoryview(bytes(part for octet in a.tobytes() for part in (octet, 7)))[::2],
}


@pytest.mark.parametrize("dress", sorted(DRESSES))
@pytest.mark.parametrize("count", [0, 1, len(GOOD)])
def test_spots_whatever_the_array(dress, count):
    spots = DRESSES[dress](RECORDS[:count])
    store = u.Store(count + 1, *SHAPE)
    assert store.extend(spots) == list(range(count)) and store.to_bytes() == b"".join(GOOD[:count]) + FREE
    assert bytes(spots) == b"".join(GOOD[:count])


HOLDERS = {
    "bytes": bytes, "bytearray": bytearray, "memoryview": memoryview, "a record": lambda octets: np.frombuffer(octets, u.SPOT)[0],
    "an array of no sides": lambda octets: np.frombuffer(octets, u.SPOT).reshape(()), "of a list": lambda octets: np.repeat(np.frombuffer(octets, u.SPOT), 3)[::2][1],
    "by names": lambda octets: np.frombuffer(octets, u.SPOT).view(np.recarray)[0],
}


@pytest.mark.parametrize("holder", sorted(HOLDERS))
def test_a_spot_whatever_holds_it(holder):
    store = u.Store(len(GOOD), *SHAPE)
    for octets in GOOD:
        store.add(HOLDERS[holder](octets))
    assert store.to_bytes() == b"".join(GOOD)


OTHER_TYPES = {
    "big-endian": np.dtype([(name, u.SPOT[name].newbyteorder(">")) for name in u.SPOT.names]), "old": u.OLD_SPOT, "sized": u.SIZED, "stored": u.STORED,
    "nameless": np.dtype("V48"), "octets": np.dtype(("u1", (48,))), "turned": np.dtype([(name, u.SPOT[name]) for name in reversed(u.SPOT.names)]),
}


@pytest.mark.parametrize("kind", sorted(OTHER_TYPES))
def test_an_array_of_another_type_is_no_spot(kind):
    store, records = u.Store(3, *SHAPE), np.zeros(2, OTHER_TYPES[kind])
    for call, given in ((store.add, records[0]), (store.add, records), (store.extend, records), (store.extend, records[0])):
        pytest.raises(TypeError, call, given)
    assert store.to_bytes() == FREE * 3


def test_an_array_is_no_spot_and_a_spot_no_array():
    store = u.Store(3, *SHAPE)
    for given in (RECORDS, RECORDS[:1], RECORDS[:0], RECORDS[:4].reshape(2, 2)):
        with pytest.raises(TypeError, match="extend takes an array of them"):
            store.add(given)
    for given in (RECORDS[0], RECORDS[:4].reshape(2, 2), RECORDS[:1].reshape(())):
        with pytest.raises(TypeError, match="add takes one spot"):
            store.extend(given)
    assert store.to_bytes() == FREE * 3


@given(SOUND, of_sizes(SPOTS, 0, 1, 3, 6), st.sampled_from([b"", *BAD, MapM.line[:-1], MapM.line[:1]]))
def test_several_are_one_call_each(octets, spots, last):
    """What is refused at one has been done for those before it."""
    store, plain = both(octets)
    due = [plain.add(record) for record in spots + [last] * bool(last)]
    slots = [slot for number, slot in due if not number]
    try:
        assert store.extend(b"".join(spots) + last) == slots and len(slots) == len(due)
    except u.Refused as error:
        assert (error.number, error.index or 0) == due[len(slots)] and error.added == slots and len(slots) < len(due)
        assert error.detail.endswith(f"; {len(slots)} of {len(due)} were added")
    hold(store, plain)


def test_the_store_s_own_record_may_be_added_to_it():
    buffer = bytearray(MapM.line + FREE * 2)
    store = u.Store.over(buffer, *SHAPE)
    assert store.add(memoryview(buffer)[:48]) == 1 and store.extend(np.frombuffer(buffer, u.SPOT)[1:2]) == [2] and bytes(buffer) == MapM.line * 3


BUFFERS = {
    "bytearray": bytearray, "memoryview": lambda octets: memoryview(bytearray(octets)), "at an odd place": lambda octets: memoryview(bytearray(b"7" + octets))[1:],
    "array": lambda octets: array.array("B", octets), "ctypes": lambda octets: (ctypes.c_uint8 * 96).from_buffer_copy(octets),
    "numpy": lambda octets: np.frombuffer(octets, "u1").copy(), "numpy, rows": lambda octets: np.frombuffer(octets, "u1").reshape(8, 12).copy(),
    "spots": lambda octets: np.frombuffer(octets, "u1").copy().view(u.SPOT), "words": lambda octets: array.array("I", octets),
}


def reaches(buffer):
    """A store over a buffer and the buffer are the same bytes."""
    octets = memoryview(buffer).cast("B") if isinstance(buffer, (memoryview, bytearray, mmap.mmap)) else np.frombuffer(buffer, "u1")
    store, copied = u.Store.over(buffer, *SHAPE), u.Store.from_bytes(buffer, *SHAPE)
    store.clear()
    before = copied.to_bytes()
    assert store.add(MapM.line) == 0 and bytes(octets) == store.to_bytes() == MapM.line + FREE and copied.to_bytes() == before
    octets[38] = 0
    assert not store[0]["is_max"] and u.Store.from_bytes(buffer, *SHAPE) == store and copied != store
    return store


@pytest.mark.parametrize("kind", sorted(BUFFERS))
def test_a_buffer_is_not_copied(kind):
    reaches(BUFFERS[kind](bytes(96)))


def test_two_stores_over_one_buffer_are_one():
    buffer = bytearray(FREE * 2)
    one, two = u.Store.over(buffer, *SHAPE), u.Store.over(memoryview(buffer), *SHAPE)
    assert [one.add(GOOD[0]), two.add(GOOD[1])] == [0, 1] and one == two and one.live == [0, 1]
    with pytest.raises(BufferError):
        buffer.append(1)


def test_shared_memory_and_a_map_of_a_file_can_be_closed_when_the_store_has_let_go(tmp_path):
    path = tmp_path / "day"
    path.write_bytes(bytes(96))
    with path.open("r+b") as file:
        for held in (mmap.mmap(file.fileno(), 0), mmap.mmap(-1, 96)):
            with reaches(held) as store:
                pytest.raises(BufferError, held.close)
            held.close()
    assert path.read_bytes() == spot(is_max=False) + FREE and repr(store) == "<uramsheg.Store, closed>"
    for call in (store.to_bytes, store.clear, store.close_up, lambda: store.add(MapM.line), lambda: store.strike(0), lambda: store.live, lambda: store[0],
                 lambda: list(store), lambda: len(store), lambda: copy.copy(store)):
        with pytest.raises(ValueError, match="the store was closed") as caught:
            call()
        assert not isinstance(caught.value, u.Refused)
    held = SharedMemory(create=True, size=96)
    with pytest.raises(u.NoSpotRefused), reaches(held.buf[:96]) as store:
        store.strike(1)
    held.close()
    held.unlink()


OTHER_PROCESS = """
import mmap, sys, uramsheg
with open(sys.argv[1], "r+b") as file, mmap.mmap(file.fileno(), 0) as held, uramsheg.Store.over(held, 9, 10) as store:
    store.strike(0)
    print(store)
"""


def test_two_processes_share_a_store_in_a_file(tmp_path):
    path = tmp_path / "day"
    path.write_bytes(FREE * 3)
    with path.open("r+b") as file, mmap.mmap(file.fileno(), 0) as held, u.Store.over(held, *SHAPE) as store:
        store.extend(b"".join(GOOD[:2]))
        said = subprocess.run([sys.executable, "-c", OTHER_PROCESS, path], capture_output=True, text=True)
        assert (said.stdout, said.stderr) == ("<uramsheg.Store of 9 by 10: 1 of 3 slots live>\n", "")
        assert store.live == [1] and store.add(GOOD[2]) == 0


def test_what_can_be_no_store():
    locked = np.zeros(96, "u1")
    locked.flags.writeable = False
    for buffer in (bytes(96), memoryview(bytes(96)), memoryview(bytearray(96)).toreadonly(), locked, b"", RECORDS):
        with pytest.raises(TypeError, match=r"can't be written: Store.from_bytes\(buffer, rows, cols\) makes a copy"):
            u.Store.over(buffer, *SHAPE)
        assert u.Store.from_bytes(buffer, *SHAPE).to_bytes() == bytes(buffer)
    for buffer in (np.zeros(192, "u1")[::2], memoryview(bytearray(192))[::2], np.zeros((48, 2), "u1").T, np.zeros(4, u.SPOT)[::2]):
        for make in (u.Store.from_bytes, u.Store.over):
            with pytest.raises(TypeError, match="a store's bytes must lie one after the other"):
                make(buffer, *SHAPE)
    for wrong in ("day", 96, [0] * 96, None, u.Store(2, *SHAPE)):
        for make in (u.Store.from_bytes, u.Store.over):
            pytest.raises(TypeError, make, wrong, *SHAPE)


COPIES = {"copy": copy.copy, "deep copy": copy.deepcopy, "pickle": lambda store: pickle.loads(pickle.dumps(store)),
          "bytes": lambda store: u.Store.from_bytes(store.to_bytes(), *store.shape)}


@pytest.mark.parametrize("kind", sorted(COPIES))
@pytest.mark.parametrize("over", [False, True])
@given(STORES, SHAPES)
def test_a_copy_has_bytes_of_its_own(kind, over, octets, shape):
    store = u.Store.over(bytearray(octets), *shape) if over else u.Store.from_bytes(octets, *shape)
    made = COPIES[kind](store)
    assert made == store and made.to_bytes() == octets and made.shape == shape and type(made) is u.Store
    made._octets[:] = 1
    assert store.to_bytes() == octets and (made != store or not octets.strip(b"\1"))


def test_equal_by_bytes_and_sides():
    store = u.Store(2, *SHAPE)
    assert store == u.Store.from_bytes(FREE * 2, *SHAPE) == u.Store.over(bytearray(FREE * 2), *SHAPE) and store != FREE * 2
    assert store != u.Store(2, 10, 9) and store != u.Store(3, *SHAPE) and store != u.Store.from_bytes(FREE + MapM.line, *SHAPE)
    pytest.raises(TypeError, hash, store)


def test_what_it_says_of_itself():
    assert repr(u.Store.from_bytes(MapM.line + FREE * 2 + MapM.line, *SHAPE)) == "<uramsheg.Store of 9 by 10: 2 of 4 slots live>"
    assert repr(u.Store(0, 0, 5000)) == ("<uramsheg.Store of 0 by 5000: refused 1: rows or cols above 4096: use scene, which takes the levels of larger maps "
                                        "(0 by 5000; of a scene, keep a store for each tile)>")
    assert repr(u.Store.from_bytes(b"1", 9, 10)).endswith("(1 bytes are 0 slots and 1 bytes more: lend whole slots)>")


RECORD, ROOM = "refused 5: a record is bad for this map, or only a part of one", "refused 6: the output, a feed's ring or a store is too short: lend a longer one"
NO_SPOT = "refused 13: the store's slot holds no spot: strike one that is live"
NEITHER = "is neither free nor holds a spot of a map of 9 by 10: clear a new store, and give the sides of the map that the spots were found on"


@pytest.mark.parametrize("octets, call, index, said", [
    (MapM.line + FREE, ("strike", 1), 1, f"{NO_SPOT} (slot 1 is free)"), (MapM.line + FREE, ("strike", 2), 2, f"{NO_SPOT} (slot 2: the store has slots 0 to 1)"),
    (MapM.line, ("strike", LAST), LAST, f"{NO_SPOT} (slot {LAST}: the store has slots 0 to 0)"), (b"", ("strike", 0), 0, f"{NO_SPOT} (slot 0: the store has no slots)"),
    (MapM.line * 2, ("add", MapM.line), None, f"{ROOM} (none of 2 slots is free: strike a spot, or add to a longer store)"),
    (MapM.line * 2, ("extend", MapM.line * 3), None, f"{ROOM} (none of 2 slots is free: strike a spot, or add to a longer store; 0 of 3 were added)"),
    (MapM.line * 2, ("add", BAD[0]), 2, f"{RECORD} (the new spot is no spot of a map of 9 by 10)"), (FREE, ("add", b""), 1, f"{RECORD} (the new spot has 0 bytes, not 48)"),
    (FREE, ("add", MapM.line * 2), 1, f"{RECORD} (the new spot has 96 bytes, not 48)"),
    (bytes(96), ("add", MapM.line), 0, f"{RECORD} (slot 0 {NEITHER})"), (FREE + FORGED[40], ("strike", 0), 1, f"{RECORD} (slot 1 {NEITHER})"),
    (MapM.line + BAD[3], ("close_up",), 1, f"{RECORD} (slot 1 {NEITHER})"), (FREE + b"7", ("clear",), 1, f"{RECORD} (49 bytes are 1 slots and 1 bytes more: lend whole slots)"),
    (b"", ("extend", b"7"), 0, f"{RECORD} (the new spot has 1 bytes, not 48; 0 of 1 were added)"),
], ids=lambda value: f"{len(value)} bytes" if isinstance(value, bytes) else None)
def test_the_words_of_a_refusal(octets, call, index, said):
    store = u.Store.from_bytes(octets, *SHAPE)
    with pytest.raises(u.Refused) as caught:
        getattr(store, call[0])(*call[1:])
    assert str(caught.value) == said and caught.value.index == index and store.to_bytes() == octets


def test_the_words_of_other_refusals():
    assert f"    {NO_SPOT} (slot 3 is free)\n" in (cface.ROOT / "bindings" / "python" / "README.md").read_text()
    store = u.Store(2, *SHAPE)
    with pytest.raises(u.RecordsRefused) as caught:
        store.extend(MapM.line + BAD[0] + MapM.line)
    assert str(caught.value) == f"{RECORD} (the new spot is no spot of a map of 9 by 10; 1 of 3 were added)" and caught.value.added == [0] and store.live == [0]
    for call in (lambda: u.Store(2, 5000, 3).close_up(), lambda: u.Store(2, 5000, 3).strike(9), lambda: u.Store(2, 5000, 3).add(b""), lambda: u.Store(2, 5000, 3).live):
        with pytest.raises(u.SizeRefused, match="5000 by 3"):
            call()
    with pytest.raises(IndexError, match="slot 2: the store has slots 0 to 1"):
        store[2]


def test_a_refusal_of_several_travels_between_processes():
    with pytest.raises(u.RoomRefused) as caught:
        u.Store(1, *SHAPE).extend(RECORDS)
    for again in (pickle.loads(pickle.dumps(caught.value)), copy.copy(caught.value)):
        assert (str(again), again.added, vars(again)) == (str(caught.value), [0], vars(caught.value))


def test_what_is_no_argument_is_no_refusal():
    store = u.Store.from_bytes(MapM.line + FREE, *SHAPE)
    numbers = [store.strike, store.__getitem__, lambda wrong: u.Store(wrong, 9, 10), lambda wrong: u.Store(1, wrong, 10), lambda wrong: u.Store(1, 9, wrong),
               lambda wrong: u.Store.over(bytearray(48), wrong, 10), lambda wrong: u.Store.from_bytes(b"", 9, wrong)]
    for wrong in (1.0, None, "1", b"1", [1], np.float32(1), slice(1)):
        for call in numbers:
            pytest.raises(TypeError, call, wrong)
    for wrong in (-1, -(2**70), 2**64, 2**70):
        for call in numbers:
            with pytest.raises(ValueError, match="no count") as caught:
                call(wrong)
            assert not isinstance(caught.value, u.Refused)
    for call in (store.add, store.extend):
        for wrong in ("spot", 48, None, [MapM.line], (1,) * 12, store):
            pytest.raises(TypeError, call, wrong)
    assert store.to_bytes() == MapM.line + FREE


@pytest.mark.parametrize("number", [np.uint8(1), np.int64(1), True])
def test_a_slot_by_any_whole_number(number):
    store = u.Store.from_bytes(MapM.line * 2, *map(np.int32, SHAPE))
    assert store[number].tobytes() == MapM.line and store.strike(number) is None and store.live == [0] and store.shape == SHAPE


TOUCHING = {"add": lambda store: store.add(MapM.line), "extend": lambda store: store.extend(MapM.line), "strike": lambda store: store.strike(0),
            "close_up": lambda store: store.close_up(), "clear": lambda store: store.clear(), "live": lambda store: store.live, "free": lambda store: store.free,
            "spots": lambda store: store.spots, "listed": lambda store: store.listed, "item": lambda store: store[0], "iter": iter, "to_bytes": u.Store.to_bytes,
            "from_bytes": lambda _: u.Store.from_bytes(bytearray(96), *SHAPE), "pickle": pickle.dumps, "repr": repr}


@pytest.mark.parametrize("call", sorted(TOUCHING))
def test_what_touches_the_bytes_waits_for_the_lock(call):
    store = u.Store.from_bytes(MapM.line + FREE, *SHAPE)
    thread = threading.Thread(target=TOUCHING[call], args=(store,))
    with stores.LOCK:
        thread.start()
        thread.join(0.05)
        assert thread.is_alive()
    thread.join(10)
    assert not thread.is_alive() and not stores.LOCK.locked()


@pytest.mark.parametrize("call", sorted(TOUCHING))
def test_a_refusal_leaves_the_lock(call):
    for store in (u.Store.from_bytes(b"7", *SHAPE), u.Store.from_bytes(MapM.line, 4097, 1)):
        answer(lambda: bool(TOUCHING[call](store)))
        assert not stores.LOCK.locked()


def test_threads_that_share_a_store_lose_no_spot():
    """Each adds its own records and strikes every second of them: all others are there at the end, each once."""
    buffer, kept = bytearray(FREE * 200), []

    def work(place):
        store = u.Store.over(buffer, *SHAPE)
        for turn in range(80):
            record = spot(x=place, key=turn)
            slot = store.add(record)
            if turn % 2:
                store.strike(slot)
            else:
                kept.append((slot, record))

    threads = [threading.Thread(target=work, args=(place,)) for place in range(4)]
    for thread in threads:
        thread.start()
    for thread in threads:
        thread.join()
    assert [(slot, held.tobytes()) for slot, held in enumerate(u.Store.over(buffer, *SHAPE)) if held is not None] == sorted(kept) and len(kept) == 160
