"""A table of sets that two desks share: eight slots, each with a set, an owner and a write count. Nothing is decided here, as in detector.py."""
from enum import IntEnum
from typing import NamedTuple

import numpy as np

from . import arrays
from ._native import lib
from .detector import asked_of, refusal, spots_by
from .lent import LOCK, Lent, octets_in, writable
from .records import TABLE
from .refusals import CountRefused, NotYoursRefused, SetRefused, kind_of
from .tables import Tables, record_of


class Desk(IntEnum):
    """A desk, by the number that its slots have as their owner."""

    DAILY = lib.URAMSHEG_DESK_DAILY
    REPROCESSING = lib.URAMSHEG_DESK_REPROCESSING


#: the desks by their names in words
DESKS = {desk.name.lower(): desk for desk in Desk}
#: the owner of a slot that may be claimed
FREE = 0
SLOTS = range(lib.URAMSHEG_TABLE_SLOTS)

for name in dir(lib):
    if name.startswith("URAMSHEG_DESK_") and getattr(lib, name) not in DESKS.values():
        raise ImportError(f"{name} of uramsheg.h is no desk here: build the package and its archive from one")


class Slot(NamedTuple):
    """A slot: its number, its owner (0 where it is free, a Desk, or another number, which is nobody's), its write count, and whether its set is good."""

    number: int
    owner: int
    count: int
    good: bool


class Table(Lent):
    """Sets of two desks: a desk claims a free slot, writes its own, and gives it back; anybody runs detection from a slot that a desk owns.

    It is the 4,264 bytes of the header's table: its own, or those of a buffer of the caller's (`over`). A desk is a `Desk`, its number, or its name in words.
    Tables are equal where their bytes are. A copy, or a pickle read again, has bytes of its own.

    Threads may share a table, and tables over the same bytes: what looks at the bytes or changes them waits for what does so already, and a run goes by the
    bytes that it finds when it begins. Where another process, or other code, writes to the bytes too, both have to take a lock of the caller's.
    """

    __slots__ = ()
    NAME = "table"

    def __init__(self, octets=None):
        """A new table, of zeros: every slot is free, and every count 0; or one that begins as a copy of these bytes."""
        found = np.zeros(TABLE.itemsize, "u1") if octets is None else octets_of(octets)
        with LOCK:
            self._octets = found.copy()

    @classmethod
    def from_bytes(cls, octets):
        """A table that begins as a copy of these bytes."""
        return cls(octets)

    @classmethod
    def over(cls, buffer):
        """The table that lies in a writable buffer, say a bytearray, an mmap, shared memory or an array: nothing is copied, and the calls write there.

        An mmap, or shared memory, can be closed when no table lies in it any more: `close` lets go of it, as the end of a `with` does.
        """
        table = cls.__new__(cls)
        table._octets = writable(octets_of(buffer), "Table(buffer)")
        return table

    def claim(self, desk, slot):
        """Makes a free slot the desk's: its set becomes zeros, which no run takes before the desk has written another; its count becomes one more."""
        self._change("claim", desk, slot)

    def write(self, desk, slot, tables):
        """Writes a good set, a Tables or a record's bytes, to a slot of the desk's own; its count becomes one more."""
        self._change("write", desk, slot, record_of(tables))

    def release(self, desk, slot):
        """Gives a slot of the desk's own back: it is free; its set and its count stay."""
        self._change("release", desk, slot)

    def _change(self, call, desk, slot, *record):
        """One of the three calls that change a table. Refused, it changes nothing."""
        desk, slot = desk_of(desk), arrays.count("slot", slot)
        given = [part for octets in record for part in (octets, len(octets))]
        with LOCK:
            number = getattr(lib, f"uramsheg_desk_{call}")(*arrays.octets_to_write(self._lent()), desk, slot, *given)
            if number:
                raise refused(number, call, Held(self._lent()), desk, slot, *record)

    def run(self, levels, slot, thresholds, octave=0, *, room=1024):
        """The spots of four blurred levels, as `detect` lists them under the set that stands in the slot, which may be either desk's.

        All else is as in `detect`. A set that is written meanwhile is not looked at; a slot that was claimed and not yet written is refused (SetRefused).
        """
        slot, octets = arrays.count("slot", slot), self.to_bytes()
        held = Held(octets)
        record = held.record(slot) if slot in SLOTS else b""
        asked = asked_of(levels, record, thresholds, octave)

        def refused_run(number):
            kind = kind_of(number)
            if kind is NotYoursRefused:
                return kind(not_yours("run", held, slot))
            if kind is SetRefused and not any(record):
                return kind(f"slot {slot} was claimed, and not written yet")
            return asked.refusal(number)

        return spots_by(lib.uramsheg_desk_run, [octets, len(octets), slot, *asked.rest()], refused_run, room)

    def owner(self, slot):
        """Whose a slot is: 0 where it is free, a Desk, or another number, which is nobody's."""
        return self._held().owner(slot_of(slot))

    def count(self, slot):
        """A slot's write count: it rises by one with each claim and each write that is done."""
        return self._held().count(slot_of(slot))

    def set(self, slot):
        """The set that stands in a slot, a Tables, good or not."""
        return Tables.from_bytes(self._held().record(slot_of(slot)))

    @property
    def slots(self):
        """The eight slots, a list of Slot."""
        held = self._held()
        return [Slot(slot, held.owner(slot), held.count(slot), held.good(slot)) for slot in SLOTS]

    @property
    def free(self):
        """The numbers of the slots that may be claimed, a list."""
        return self._held().free()

    def _held(self):
        """What the table holds now."""
        return Held(self.to_bytes())

    def __eq__(self, other):
        return isinstance(other, Table) and self.to_bytes() == other.to_bytes()

    __hash__ = None

    def __reduce__(self):
        return type(self), (self.to_bytes(),)

    def __repr__(self):
        if self._octets is None:
            return "<uramsheg.Table, closed>"
        held = self._held()
        taken = [f"slot {slot} {whose(held.owner(slot))}" for slot in SLOTS if slot not in held.free()]
        return f"<uramsheg.Table: {', '.join([*taken, f'{len(held.free())} free'])}>"


class Held:
    """What a table's bytes hold."""

    def __init__(self, octets):
        (self.table,) = np.frombuffer(octets, TABLE)

    def record(self, slot):
        """A slot's set record."""
        return self.table["sets"][slot].tobytes()

    def owner(self, slot):
        """A slot's owner."""
        owner = int(self.table["owners"][slot])
        return Desk(owner) if owner in DESKS.values() else owner

    def count(self, slot):
        """A slot's write count."""
        return int(self.table["counts"][slot])

    def good(self, slot):
        """Whether a slot's set is good."""
        record = self.record(slot)
        return lib.uramsheg_set_check(record, len(record)) == lib.URAMSHEG_DONE

    def free(self):
        """The slots that may be claimed."""
        return [slot for slot in SLOTS if self.owner(slot) == FREE]


def octets_of(buffer):
    """The bytes of a table in a buffer, where they lie."""
    octets = octets_in(buffer, Table.NAME)
    if octets.size != TABLE.itemsize:
        raise NotYoursRefused(f"the table has {octets.size} bytes, not {TABLE.itemsize}")
    return octets


def desk_of(desk):
    """A desk's number."""
    if not isinstance(desk, str):
        return arrays.count("desk", desk)
    if desk not in DESKS:
        raise ValueError(f"a desk is {' or '.join(DESKS)}, not {desk!r}")
    return int(DESKS[desk])


def slot_of(slot):
    """The number of one of the eight slots."""
    number = arrays.count("slot", slot)
    if number not in SLOTS:
        raise NotYoursRefused(no_slot(number))
    return number


def no_slot(number):
    """The words on a slot that no table has."""
    return f"slot {number}: a table has slots {SLOTS[0]} to {SLOTS[-1]}"


def whose(owner):
    """An owner in words."""
    return "free" if owner == FREE else f"{owner.name.lower()}'s" if isinstance(owner, Desk) else f"nobody's (owner {owner})"


def refused(number, call, held, desk, slot, record=b""):
    """The exception of a refused change of a table."""
    kind = kind_of(number)
    if kind is NotYoursRefused:
        return kind(not_yours(call, held, slot, desk))
    return kind(f"slot {slot}") if kind is CountRefused else refusal(number, record=record)


def not_yours(call, held, slot, desk=None):
    """Which cause of the refusal NotYours it was; a run has no desk."""
    if desk is not None and desk not in DESKS.values():
        return f"desk {desk}: {', '.join(f'{word} is {known.value}' for word, known in DESKS.items())}"
    if slot not in SLOTS:
        return no_slot(slot)
    said = f"slot {slot} is {whose(held.owner(slot))}"
    if call == "claim":
        return f"{said}; free: {', '.join(map(str, held.free())) or 'none'}"
    if call == "run":
        return said
    return f"{said}, not {whose(Desk(desk))}"
