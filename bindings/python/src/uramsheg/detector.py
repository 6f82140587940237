"""The proved functions on numpy arrays. Nothing is decided here: arguments become slices, answers get names. Other threads run meanwhile."""
from typing import NamedTuple

import numpy as np

from . import arrays
from ._native import ffi, lib
from .records import OLD_SIZED, OLD_SPOT, SIZED, SPOT
from .refusals import LevelRefused, NoSizeRefused, OctaveRefused, RecordsRefused, RoomRefused, SceneRefused, SetRefused, SizeRefused, ThresholdsRefused, kind_of
from .tables import Tables, faults, record_of


class Thresholds(NamedTuple):
    """What a spot must pass: its peak is beyond `peak`, its curvature over scale beyond `sigma`, the ratio of its curvatures in the plane not above
    `ratio`, its sigma from `low` to `high`. All but `peak` have the values that the published text states."""

    peak: float
    sigma: float = 0.0
    ratio: float = 12.1
    low: float = 1.9027314
    high: float = 4.1498866


def levels(raw, tables, octave=0, *, out=None):
    """The four blurred levels of a raw map, float32 in Fortran order.

    A map is a 2-d array of rows by cols, copied as a level is in `detect`; NaN is a lost pixel, and takes all that the kernels reach with it: in level k
    the pixels at most R_k rows and cols off, R_k 3 times the kernel's sigma rounded up, 1 to 16. The map of octave 0 is taken to have a blur of 0.5
    pixels, one of a later octave half the third sigma. `out`, four 1-d arrays of float32, is written to where it is given: each begins with its level, and
    keeps what comes after it.
    """
    record = record_of(tables)
    array = arrays.level(raw, "map")
    rows, cols = array.shape
    octave = arrays.count("octave", octave)
    lent = lent_levels(array, [np.empty(array.size, np.float32) for _ in range(4)] if out is None else list(out))
    slices = [part for floats in lent for part in arrays.floats_to_write(floats)]
    number = lib.uramsheg_levels(record, len(record), rows, cols, octave, *arrays.floats(array), *slices)
    if number:
        raise refusal(number, record=record, shapes=[array.shape], octave=octave, rooms=[len(floats) for floats in lent])
    return [floats[: array.size].reshape(array.shape, order="F") for floats in lent]


def lent_levels(array, out):
    """The four buffers that levels go to, none of which overlaps another or the map."""
    if len(out) != 4 or not all(isinstance(floats, np.ndarray) and floats.dtype == np.float32 and floats.ndim == 1 and floats.flags.carray for floats in out):
        raise TypeError("out must be four 1-d arrays of float32, contiguous, aligned and writable")
    if any(np.may_share_memory(one, other) for place, one in enumerate(out) for other in [array, *out[:place]]):
        raise ValueError("out must not overlap the map, nor one level another")
    return out


class Asked(NamedTuple):
    """What a detection is asked: a set's record, thresholds, an octave and four levels."""

    record: bytes
    thresholds: Thresholds
    octave: int
    levels: list

    def words(self):
        """The arguments that a call begins with."""
        return [self.record, len(self.record), *self.rest()]

    def rest(self):
        """All of them but the set."""
        shape = self.levels[0].shape
        slices = [part for array in self.levels for part in slice_of(array, shape)]
        return [*self.thresholds, *shape, self.octave, *slices]

    def refusal(self, number):
        """The exception of a refused call."""
        return refusal(number, record=self.record, shapes=[array.shape for array in self.levels], thresholds=self.thresholds, octave=self.octave)


def asked_of(levels, tables, thresholds, octave):
    """What a detection is asked, of the arguments that it is given."""
    record = record_of(tables)
    given = Thresholds(*map(float, thresholds))
    four = [arrays.level(values) for values in levels]
    if len(four) != 4:
        raise TypeError(f"detection takes four levels, not {len(four)}")
    return Asked(record, given, arrays.count("octave", octave), four)


def detect(levels, tables, thresholds, octave=0, *, room=1024):
    """The spots of four blurred levels, an array of SPOT by rising key.

    A level is a 2-d array of rows by cols; NaN is a lost pixel. Levels that are float32 (native, aligned) in Fortran order are read where they lie;
    each other one is copied: another type is rounded to float32, a masked pixel is NaN. `room` is the number of spots that the first try has room
    for; where there are more, a second try has room for all.
    """
    asked = asked_of(levels, tables, thresholds, octave)
    return spots_by(lib.uramsheg_detect, asked.words(), asked.refusal, room)


def spots_by(call, given, refused, room):
    """The spots that a call lists, an array of SPOT, in one try or two; `refused` makes the exception of a number."""
    value = ffi.new("uint64_t *")
    while True:
        out = np.zeros(arrays.count("room", room), SPOT)
        number = call(*given, *arrays.octets_to_write(out), value)
        if number:
            raise refused(number)
        if value[0] <= len(out):
            return out[:value[0]].copy()
        room = value[0]


def slice_of(array, shape):
    """A level's floats. One of another shape goes as a slice of a wrong length, so that the call refuses it at its own place in the order."""
    if array.shape == shape:
        return arrays.floats(array)
    wrong = 0 if shape[0] * shape[1] else 1
    return ffi.new("float[1]"), wrong


class Listing(NamedTuple):
    """A kind of list: the name of the call that sizes it, its records and those that they become, with their names, and words that tell it from the other."""

    call: str
    spot: np.dtype
    sized: np.dtype
    names: tuple
    words: str


NEW = Listing("join", SPOT, SIZED, ("SPOT", "SIZED"), "with displacements")
OLD = Listing("join_old", OLD_SPOT, OLD_SIZED, ("OLD_SPOT", "OLD_SIZED"), "of before displacements were kept")
OTHER = {NEW.call: OLD, OLD.call: NEW}


def join(spots, tables, shape, *, out=None):
    """Each spot with its size and its home pixel, an array of SIZED in the list's order.

    `spots` is what `detect` answers, or the bytes of such records; `shape` is the levels' rows and cols. A size comes from the four samples, the
    sigma and the polarity in the spot's own record; where there is none, `cause` says why (NO_SIZE has the words). `row` and `col` are the pixel nearest
    to y and x, a half to the larger; the one that the spot was found at is key // cols, key % cols. `out`, a contiguous array of SIZED, is written to
    where it is given, and its first records are answered.
    """
    return joined(NEW, spots, tables, shape, out)


def join_old(spots, tables, shape, *, out=None):
    """The join of a list that was kept before records had displacements: an array of OLD_SIZED, which has none either.

    `spots` is an array of OLD_SPOT, or the bytes of such records. All else is as in `join`, with OLD_SIZED for SIZED.
    """
    return joined(OLD, spots, tables, shape, out)


def joined(kind, spots, tables, shape, out):
    """The join of a kind of list."""
    record = record_of(tables)
    listed = listed_bytes(kind, spots)
    rows, cols = (arrays.count("a side", side) for side in shape)
    if out is None:
        out = np.zeros(len(listed) // kind.spot.itemsize, kind.sized)
    if not isinstance(out, np.ndarray) or out.dtype != kind.sized or out.ndim != 1:
        raise TypeError(f"out must be a 1-d array of {kind.names[1]}")
    if np.may_share_memory(out, listed):
        raise ValueError("out must not overlap the spots")
    value = ffi.new("uint64_t *")
    call = getattr(lib, f"uramsheg_{kind.call}")
    number = call(record, len(record), rows, cols, *arrays.octets(listed), *arrays.octets_to_write(out), value)
    if number:
        raise refusal(number, value[0], record=record, shapes=[(rows, cols)], listed=list_fault(kind, spots, len(listed), value[0]))
    return out[:value[0]]


def listed_bytes(kind, spots):
    """A list's bytes: those of an array of its kind's records, or the ones given."""
    if isinstance(spots, np.ndarray) and spots.ndim == 1:
        if spots.dtype == kind.spot:
            return np.ascontiguousarray(spots).view("u1")
        if spots.dtype == OTHER[kind.call].spot:
            raise TypeError(f"{kind.call} takes records {kind.words}; these look like {meant(kind)}")
    if isinstance(spots, (bytes, bytearray, memoryview)):
        return np.frombuffer(spots, "u1")
    raise TypeError(f"spots must be a 1-d array of {kind.names[0]}, or the bytes of such records")


def meant(kind):
    """The other kind of records, and their call."""
    other = OTHER[kind.call]
    return f"records {other.words}: use {other.call}"


def list_fault(kind, spots, length, value):
    """What is wrong with a list that is refused with 5. Bytes whose length is one of the other kind's records may be meant for the other call."""
    whole, rest = divmod(length, kind.spot.itemsize)
    said = f"{length} bytes are {whole} records and {rest} bytes more" if rest else f"record {value}"
    if length % OTHER[kind.call].spot.itemsize or isinstance(spots, np.ndarray):
        return said
    return f"{said}; {'these look like' if rest else 'if these are'} {meant(kind)}"


def correct(samples, tables, sigma, is_max):
    """The corrected sigma of a spot with these four centre samples, this sigma and this polarity; NoSizeRefused says why it has none."""
    record = record_of(tables)
    four = [float(sample) for sample in samples]
    if len(four) != 4:
        raise TypeError(f"a spot has four samples, not {len(four)}")
    corrected, cause = ffi.new("float *"), ffi.new("uint64_t *")
    number = lib.uramsheg_correct(record, len(record), *four, float(sigma), bool(is_max), corrected, cause)
    if number:
        raise refusal(number, cause[0], record=record)
    return corrected[0]


def octave_count(rows, cols):
    """How many octaves a map of these sides has, 0 to 6."""
    return lib.uramsheg_octave_count(arrays.count("rows", rows), arrays.count("cols", cols))


def downsample(level):
    """Every second pixel of every second column: pixel (r, c) of the answer is (2r, 2c) of the level, which is copied as in `detect`."""
    array = arrays.level(level)
    rows, cols = array.shape
    out = np.zeros((rows // 2) * (cols // 2), np.float32)
    half_rows, half_cols = ffi.new("uint64_t *"), ffi.new("uint64_t *")
    number = lib.uramsheg_downsample(rows, cols, *arrays.floats(array), *arrays.floats_to_write(out), half_rows, half_cols)
    if number:
        raise refusal(number, shapes=[array.shape])
    return out[:half_rows[0] * half_cols[0]].reshape((half_rows[0], half_cols[0]), order="F")


def read_set(record):
    """The tables of a good set record; SetRefused names every fault of another."""
    octets = record_of(record)
    number = lib.uramsheg_set_check(octets, len(octets))
    if number:
        raise refusal(number, record=octets)
    return Tables.from_bytes(octets)


def refusal(number, value=0, *, record=b"", shapes=(), thresholds=(), octave=0, listed="", rooms=()):
    """The exception of a refused call, with what was handed in where it says more than the number does."""
    kind = kind_of(number)
    if kind is ThresholdsRefused:
        return kind([name for name, given in zip(Thresholds._fields, thresholds) if given != given])
    if kind is RecordsRefused:
        return kind(listed, int(value))
    if kind is NoSizeRefused:
        return kind(int(value))
    if kind is SetRefused:
        return kind("; ".join(faults(record)))
    if kind is OctaveRefused:
        return kind(f"octave {octave}")
    if kind in (SizeRefused, LevelRefused, SceneRefused):
        return kind(", ".join(f"{rows} by {cols}" for rows, cols in shapes))
    if kind is RoomRefused and rooms:
        (rows, cols), = shapes
        return kind(", ".join(f"level {k} has room for {room} of {rows * cols} pixels" for k, room in enumerate(rooms) if room < rows * cols))
    return kind()
