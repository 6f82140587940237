"""A store of a day's spots: slots that spots are added to and struck from. Nothing is decided here, as in detector.py."""
import numpy as np

from . import arrays
from ._native import ffi, lib
from .lent import LOCK, Lent, octets_in, writable
from .records import SPOT, STORED
from .refusals import NoSpotRefused, RecordsRefused, Refused, RoomRefused, SizeRefused, kind_of

#: the byte of a slot that says whether it is free
POLARITY = SPOT.fields["is_max"][1]
#: a slot that no store has: striking it changes nothing, and is refused with 13 where nothing else is wrong
NO_SLOT = 2 ** (8 * ffi.sizeof("size_t")) - 1


class Store(Lent):
    """A day's spots of maps of `rows` by `cols`: one that is added goes to the lowest free slot and stays there until it is struck or the store is closed up.

    It is the bytes of the header's store, 48 a slot: its own, or those of a buffer of the caller's (`over`). To read, it is a list of optional spots: `len` is
    the number of slots, and a slot's item its record, or None where it is free. Stores are equal where their bytes, rows and cols are. A copy, or a pickle read
    again, has bytes of its own.

    Calls but `clear`, and readers but `len`, `shape` and `to_bytes`, check all slots first: the first of them refuses bytes that are no store (RecordsRefused).

    Threads may share a store, and stores over the same bytes: what looks at the bytes or changes them waits for what does so already. Where another process, or
    other code, writes to the bytes too, both have to take a lock of the caller's.
    """

    __slots__ = ("_shape",)
    NAME = "store"

    def __init__(self, slots, rows, cols):
        """A new store of so many slots, all free."""
        self._shape = shape_of(rows, cols)
        self._octets = np.empty(SPOT.itemsize * arrays.count("slots", slots), "u1")
        self.clear()

    @classmethod
    def from_bytes(cls, octets, rows, cols):
        """A store that begins as a copy of these bytes."""
        found = octets_in(octets, cls.NAME)
        with LOCK:
            return cls._of(found.copy(), rows, cols)

    @classmethod
    def over(cls, buffer, rows, cols):
        """The store that lies in a writable buffer, say a bytearray, an mmap, shared memory or an array of SPOT: nothing is copied, and the calls write there.

        `clear` makes a new store of a buffer that holds anything else, zeros too. An mmap, or shared memory, can be closed when no store lies in it any more:
        `close` lets go of it, as the end of a `with` does.
        """
        return cls._of(writable(octets_in(buffer, cls.NAME), "Store.from_bytes(buffer, rows, cols)"), rows, cols)

    @classmethod
    def _of(cls, octets, rows, cols):
        """A store of these bytes."""
        store = cls.__new__(cls)
        store._octets, store._shape = octets, shape_of(rows, cols)
        return store

    @property
    def shape(self):
        """The rows and cols of the maps that the spots were found on."""
        return self._shape

    def clear(self):
        """Frees every slot, whatever stands in the bytes."""
        self._change("clear", [])

    def add(self, spot):
        """Puts a spot, a record of SPOT or its 48 bytes, into the lowest free slot, and answers the slot's number."""
        octets = record_of(spot)
        return self._change("add", [*self._shape, octets, len(octets)], spot=octets)

    def extend(self, spots):
        """Adds spots, an array of SPOT or the bytes of such records, one after the other, and answers the numbers of their slots, a list.

        Where one is refused, those before it have been added: the refusal's `added` has the numbers of their slots.
        """
        slots, records = [], records_of(spots)
        for octets in records:
            try:
                slots.append(self.add(octets))
            except Refused as error:
                told = type(error)(f"{error.detail}; {len(slots)} of {len(records)} were added", error.index)
                told.added = slots
                raise told from None
        return slots

    def strike(self, slot):
        """Strikes the spot of a slot: the slot is free."""
        number = arrays.count("slot", slot)
        self._change("strike", [*self._shape, number], slot=number)

    def close_up(self):
        """Moves the live spots down to the first slots, in the order of their slots, frees the slots behind them, and answers how many are live."""
        return self._change("close_up", self._shape)

    def _change(self, call, given, **case):
        """The value of a call that changes the store. Refused, it changes nothing."""
        with LOCK:
            number, value = self._answer(call, given)
            if number:
                raise refused(number, value, self._lent().size, self._shape, **case)
            return value

    def _answer(self, call, given):
        """The number and the value of a call."""
        value = ffi.new("uint64_t *")
        number = getattr(lib, f"uramsheg_store_{call}")(*arrays.octets_to_write(self._lent()), *given, value)
        return number, value[0]

    def _held(self):
        """The slots as they are now, an array of SPOT, and which of them are live. Bytes that are no store are refused as by any call."""
        with LOCK:
            number, value = self._answer("strike", [*self._shape, NO_SLOT])
            if kind_of(number) is not NoSpotRefused:
                raise refused(number, value, self._lent().size, self._shape)
            octets = self._lent().copy()
        return octets.view(SPOT), octets[POLARITY :: SPOT.itemsize] != lib.URAMSHEG_FREE_SLOT

    @property
    def live(self):
        """The numbers of the slots that hold a spot, a list."""
        return np.flatnonzero(self._held()[1]).tolist()

    @property
    def free(self):
        """The numbers of the slots that hold none, a list."""
        return np.flatnonzero(~self._held()[1]).tolist()

    @property
    def spots(self):
        """The live spots with their slots, an array of STORED in the order of the slots."""
        slots, live = self._held()
        stored = np.zeros(np.count_nonzero(live), STORED)
        stored["slot"] = np.flatnonzero(live)
        for name in SPOT.names:
            stored[name] = slots[name][live]
        return stored

    @property
    def listed(self):
        """The same spots as a list that `join` takes with `shape`, an array of SPOT: the records that the store begins with once it is closed up."""
        slots, live = self._held()
        return slots[live]

    def __len__(self):
        return self._lent().size // SPOT.itemsize

    def __getitem__(self, slot):
        number = arrays.count("slot", slot)
        slots, live = self._held()
        if number >= len(slots):
            raise IndexError(no_slot(number, len(slots)))
        return slots[number] if live[number] else None

    def __iter__(self):
        slots, live = self._held()
        return (spot if lives else None for spot, lives in zip(slots, live))

    def __eq__(self, other):
        return isinstance(other, Store) and self._shape == other._shape and self.to_bytes() == other.to_bytes()

    __hash__ = None

    def __reduce__(self):
        return type(self).from_bytes, (self.to_bytes(), *self._shape)

    def __repr__(self):
        if self._octets is None:
            return "<uramsheg.Store, closed>"
        try:
            said = f"{len(self.live)} of {len(self)} slots live"
        except Refused as error:
            said = str(error)
        return "<uramsheg.Store of {} by {}: {}>".format(*self._shape, said)


def shape_of(rows, cols):
    """The sides of a map."""
    return arrays.count("rows", rows), arrays.count("cols", cols)


def record_of(spot):
    """A spot's bytes, copied, so that it may lie in the store itself: those of a record of SPOT, or the ones given."""
    if isinstance(spot, (np.void, np.ndarray)) and spot.ndim == 0 and spot.dtype == SPOT:
        return spot.tobytes()
    if isinstance(spot, (bytes, bytearray, memoryview)):
        return bytes(spot)
    raise TypeError("a spot must be one record of SPOT, or its bytes; extend takes an array of them")


def records_of(spots):
    """The bytes of each of several records, copied; of bytes that are no whole number of records the last are a part of one."""
    if isinstance(spots, np.ndarray) and spots.ndim == 1 and spots.dtype == SPOT:
        octets = np.asarray(spots).tobytes()
    elif isinstance(spots, (bytes, bytearray, memoryview)):
        octets = bytes(spots)
    else:
        raise TypeError("spots must be a 1-d array of SPOT, or the bytes of such records; add takes one spot")
    return [octets[place : place + SPOT.itemsize] for place in range(0, len(octets), SPOT.itemsize)]


def refused(number, value, length, shape, spot=b"", slot=0):
    """The exception of a refused call on a store of so many bytes; `spot` is what was to be added, `slot` the one that was to be struck."""
    kind = kind_of(number)
    slots = length // SPOT.itemsize
    if kind is SizeRefused:
        return kind("{} by {}; of a scene, keep a store for each tile".format(*shape))
    if kind is RecordsRefused:
        return kind(fault(value, length, shape, spot), value)
    if kind is RoomRefused:
        return kind(f"none of {slots} slots is free: strike a spot, or add to a longer store")
    if kind is NoSpotRefused:
        return kind(f"slot {slot} is free" if slot < slots else no_slot(slot, slots), slot)
    return kind()


def fault(value, length, shape, spot):
    """What is wrong with a store, or with the spot that is added to it, that is refused with 5."""
    slots, rest = divmod(length, SPOT.itemsize)
    if rest:
        return f"{length} bytes are {slots} slots and {rest} bytes more: lend whole slots"
    sides = "a map of {} by {}".format(*shape)
    if value < slots:
        return f"slot {value} is neither free nor holds a spot of {sides}: clear a new store, and give the sides of the map that the spots were found on"
    return f"the new spot is no spot of {sides}" if len(spot) == SPOT.itemsize else f"the new spot has {len(spot)} bytes, not {SPOT.itemsize}"


def no_slot(number, slots):
    """The words on a slot that a store of so many does not have."""
    return f"slot {number}: the store has {f'slots 0 to {slots - 1}' if slots else 'no slots'}"
