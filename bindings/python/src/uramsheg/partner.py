"""A partner's list beside the one that is due. Nothing is decided here, as in detector.py."""
from dataclasses import dataclass

import numpy as np

from . import arrays
from ._native import ffi, lib
from .detector import asked_of
from .lent import octets_in
from .records import OLD_SPOT, SPOT
from .refusals import RecordsRefused, SizeRefused, kind_of

#: what may be found of a list, by its number
KINDS = {
    lib.URAMSHEG_LIST_ACCEPTED: "accepted",
    lib.URAMSHEG_LIST_EXTRA: "extra",
    lib.URAMSHEG_LIST_ABSENT: "absent",
    lib.URAMSHEG_LIST_DIFFERENT: "different",
}
#: what each means
MEANS = {
    "accepted": "the list is the one that is due, bit for bit",
    "extra": "it comes before the one that is due here, or behind the last",
    "absent": "the one that is due here is missing; a later one stands in its place, or the list ends",
    "different": "it has the key and the polarity of the one that is due, and another byte differs",
}
#: of what can be no list
NO_LIST = "spots must be a 1-d array of SPOT, as detect lists them, or the bytes of such records; other records, and find's table, are no such list"

for name in dir(lib):
    if name.startswith("URAMSHEG_LIST_") and getattr(lib, name) not in KINDS:
        raise ImportError(f"{name} of uramsheg.h has no words here: build the package and its archive from one")


@dataclass(frozen=True, slots=True)
class Finding:
    """What `accept` finds of a list: true where it is accepted, and in words as a string. `kind` is accepted, extra, absent or different; `index` is the place
    of the first record that differs, None where none does."""

    kind: str
    index: int | None = None

    def __post_init__(self):
        if self.kind not in MEANS or (self.index is None) != self.accepted:
            raise ValueError(f"{self!r} is no finding: accepted has no index, extra, absent and different have one")

    @property
    def accepted(self):
        """Whether the list is the one that is due."""
        return self.kind == "accepted"

    def __bool__(self):
        return self.accepted

    def __str__(self):
        return f"{'' if self.accepted else f'record {self.index} is '}{self.kind}: {MEANS[self.kind]}"


def accept(spots, levels, tables, thresholds, octave=0):
    """Whether a list that someone else's detector made is the one that `detect` gives for these levels, tables, thresholds and octave, bit for bit: a Finding.

    `spots` is an array of SPOT, or the bytes of such records as they were sent, in any buffer. An array whose records lie one after the other is read where it
    lies, as bytes are; another is copied. Levels are taken, and copied, as in `detect`. Records that no map of these sides has, and a part of one, are refused
    (RecordsRefused), wherever they stand; a refused list has no finding.
    """
    asked = asked_of(levels, tables, thresholds, octave)
    listed = octets_of(spots)
    finding, value = ffi.new("uint32_t *"), ffi.new("uint64_t *")
    number = lib.uramsheg_accept(*asked.words(), *arrays.octets(listed), finding, value)
    if number:
        raise refused(number, value[0], asked, spots, len(listed))
    return finding_of(finding[0], value[0])


def finding_of(number, value):
    """The finding of a call that was not refused."""
    if number not in KINDS:
        raise RuntimeError(f"libalp_c.a answered the finding {number}, which uramsheg.h does not name: build both from one")
    return Finding(KINDS[number], None if KINDS[number] == "accepted" else value)


def octets_of(spots):
    """A list's bytes: those of an array of SPOT, or the ones given."""
    if isinstance(spots, np.ndarray) and spots.ndim == 1 and spots.dtype == SPOT:
        return np.ascontiguousarray(spots).view("u1")
    if isinstance(spots, np.generic) or isinstance(spots, np.ndarray) and spots.dtype != np.uint8:
        raise TypeError(NO_LIST)
    try:
        view = memoryview(spots)
    except TypeError:
        raise TypeError(NO_LIST) from None
    return octets_in(view, "list")


def refused(number, value, asked, spots, length):
    """The exception of a refused call on a list of so many bytes."""
    kind, shape = kind_of(number), asked.levels[0].shape
    if kind is SizeRefused:
        return kind("{} by {}; of a scene, accept the list of each tile".format(*shape))
    if kind is RecordsRefused:
        return kind(fault(value, shape, spots, length), value)
    return asked.refusal(number)


def fault(value, shape, spots, length):
    """What is wrong with a list that is refused with 5. Bytes whose length is one of old records may be such."""
    whole, rest = divmod(length, SPOT.itemsize)
    said = f"{length} bytes are {whole} records and {rest} bytes more" if rest else "record {} is no spot of a map of {} by {}".format(value, *shape)
    said += ": ask for the whole list of these levels, as it was made"
    if length % OLD_SPOT.itemsize or isinstance(spots, np.ndarray) and spots.dtype == SPOT:
        return said
    return f"{said}; if it has records of {OLD_SPOT.itemsize} bytes, of before displacements were kept, ask for one with displacements"
