"""A feed of columns: the map comes column by column, and its spots go out as soon as they are known. Nothing is decided here, as in detector.py."""
import threading

import numpy as np

from . import arrays
from ._native import ffi, lib
from .detector import Thresholds, refusal
from .records import FEED, SPOT
from .refusals import LevelRefused, PastRefused, kind_of
from .tables import record_of

#: the longest side; a longer one is refused before any room is looked at
LONGEST = 4096
#: how many floats longer than five columns a slice of the ring is, so that the levels of a map of 4,096 rows do not push each other out of a cache
LONGER = 1024
#: how many columns at a map's side are not judged
MARGIN = 4


class Feed:
    """The spots of a map of `rows` by `cols` whose columns come one after the other.

    It holds five columns of each level. Column c is judged when c + 2 has come; in the first and the last four there are no spots. Over all columns the
    spots are those of `detect` on the same levels, in the order of their columns. A copy, or a pickle read again, goes on where it was made.
    """

    __slots__ = ("_lock", "_out", "_ring", "_state")

    def __init__(self, tables, thresholds, rows, cols, octave=0):
        """A feed that has taken no column."""
        record = record_of(tables)
        given = Thresholds(*map(float, thresholds))
        rows, cols, octave = arrays.count("rows", rows), arrays.count("cols", cols), arrays.count("octave", octave)
        held = min(rows, LONGEST)
        self._lend(np.zeros(1, FEED), np.zeros((4, lib.URAMSHEG_RING_COLUMNS * held + LONGER), np.float32), held)
        number = lib.uramsheg_feed_start(record, len(record), *given, rows, cols, octave, *self._slices(), *arrays.octets_to_write(self._state))
        if number:
            raise refusal(number, record=record, shapes=[(rows, cols)], thresholds=given, octave=octave)

    def _lend(self, state, ring, rows):
        """What the calls are lent: the state, the ring, and room for the spots of a column, of which a pixel has two at most."""
        self._state, self._ring, self._out = state, ring, np.zeros(2 * rows, SPOT)
        self._lock = threading.Lock()

    def _slices(self):
        """The ring's four slices."""
        return [part for floats in self._ring for part in arrays.floats_to_write(floats)]

    def push(self, columns):
        """Takes the next column, and answers the spots of the one that is judged by it, an array of SPOT by rising row.

        `columns` are the column's pixels in each of the four levels: four 1-d arrays of `rows` floats, or one array of 4 by `rows`, copied as a level is in
        `detect`. A refused column is not taken, and may be given again.
        """
        four = [arrays.column(values) for values in columns]
        if len(four) != 4:
            raise TypeError(f"a feed takes a column of four levels, not of {len(four)}")
        slices = [part for array in four for part in arrays.floats(array)]
        value = ffi.new("uint64_t *")
        with self._lock:  # other threads run during the call, and must not give this feed a column meanwhile
            number = lib.uramsheg_feed_column(*arrays.octets_to_write(self._state), *slices, *self._slices(), *arrays.octets_to_write(self._out), value)
            if number:
                raise self._refusal(number, four)
            return self._out[: value[0]].copy()

    def spots(self, columns):
        """The spots of columns that come one after the other, each as soon as it is known; `columns` is anything that gives what `push` takes."""
        for four in columns:
            yield from self.push(four)

    def _refusal(self, number, four):
        """The exception of a refused column."""
        kind = kind_of(number)
        if kind is LevelRefused:
            return kind(f"columns of {', '.join(str(len(array)) for array in four)} pixels for {self.rows} rows")
        return kind(f"{self.position} of {self.cols}") if kind is PastRefused else kind()

    @property
    def rows(self):
        """How many pixels a column has."""
        return int(self._state["rows"][0])

    @property
    def cols(self):
        """How many columns the feed takes."""
        return int(self._state["cols"][0])

    @property
    def octave(self):
        """The octave that its spots carry."""
        return int(self._state["octave"][0])

    @property
    def position(self):
        """How many columns have been taken: the number of the next one."""
        return int(self._state["position"][0])

    @property
    def judged(self):
        """The columns that have been judged, a range: their spots have all been given."""
        return range(MARGIN, max(MARGIN, min(self.position - 2, self.cols - MARGIN)))

    @property
    def complete(self):
        """Whether all columns have come."""
        return self.position == self.cols

    @classmethod
    def _from_bytes(cls, state, ring):
        """A feed that goes on from a state and a ring."""
        feed = cls.__new__(cls)
        kept = np.frombuffer(state, FEED).copy()
        feed._lend(kept, np.frombuffer(ring, np.float32).reshape(4, -1).copy(), int(kept["rows"][0]))
        return feed

    def __reduce__(self):
        with self._lock:
            return type(self)._from_bytes, (self._state.tobytes(), self._ring.tobytes())

    def __repr__(self):
        return f"<uramsheg.Feed of {self.rows} by {self.cols}, {self.position} columns taken>"
