"""The C face through ctypes: its signatures are written here a second time, from include/uramsheg.h, and nothing of the package is used."""
import ctypes as c
import struct
from pathlib import Path

ROOT = Path(__file__).resolve().parents[3]
library = c.CDLL(str(ROOT / "target" / "python" / "libalp_c.so"))
SIZE, FLOAT, U64 = c.c_size_t, c.c_float, c.POINTER(c.c_uint64)
OCTETS, FLOATS = c.POINTER(c.c_uint8), c.POINTER(FLOAT)
SIGNATURES = {
    "uramsheg_levels": [OCTETS, SIZE, SIZE, SIZE, SIZE, *[FLOATS, SIZE] * 5],
    "uramsheg_detect": [OCTETS, SIZE, *[FLOAT] * 5, SIZE, SIZE, SIZE, *[FLOATS, SIZE] * 4, OCTETS, SIZE, U64],
    "uramsheg_feed_start": [OCTETS, SIZE, *[FLOAT] * 5, SIZE, SIZE, SIZE, *[FLOATS, SIZE] * 4, OCTETS, SIZE],
    "uramsheg_feed_column": [OCTETS, SIZE, *[FLOATS, SIZE] * 8, OCTETS, SIZE, U64],
    "uramsheg_scene": [OCTETS, SIZE, *[FLOAT] * 5, SIZE, SIZE, SIZE, *[FLOATS, SIZE] * 8, OCTETS, SIZE, U64],
    "uramsheg_desk_claim": [OCTETS, SIZE, SIZE, SIZE],
    "uramsheg_desk_write": [OCTETS, SIZE, SIZE, SIZE, OCTETS, SIZE],
    "uramsheg_desk_release": [OCTETS, SIZE, SIZE, SIZE],
    "uramsheg_desk_run": [OCTETS, SIZE, SIZE, *[FLOAT] * 5, SIZE, SIZE, SIZE, *[FLOATS, SIZE] * 4, OCTETS, SIZE, U64],
    "uramsheg_store_clear": [OCTETS, SIZE, U64],
    "uramsheg_store_add": [OCTETS, SIZE, SIZE, SIZE, OCTETS, SIZE, U64],
    "uramsheg_store_strike": [OCTETS, SIZE, SIZE, SIZE, SIZE, U64],
    "uramsheg_store_close_up": [OCTETS, SIZE, SIZE, SIZE, U64],
    "uramsheg_accept": [OCTETS, SIZE, *[FLOAT] * 5, SIZE, SIZE, SIZE, *[FLOATS, SIZE] * 4, OCTETS, SIZE, c.POINTER(c.c_uint32), U64],
    "uramsheg_join": [OCTETS, SIZE, SIZE, SIZE, OCTETS, SIZE, OCTETS, SIZE, U64],
    "uramsheg_join_old": [OCTETS, SIZE, SIZE, SIZE, OCTETS, SIZE, OCTETS, SIZE, U64],
    "uramsheg_correct": [OCTETS, SIZE, *[FLOAT] * 5, c.c_bool, FLOATS, U64],
    "uramsheg_octave_count": [SIZE, SIZE],
    "uramsheg_downsample": [SIZE, SIZE, FLOATS, SIZE, FLOATS, SIZE, U64, U64],
    "uramsheg_set_check": [OCTETS, SIZE],
}
#: the bytes of a spot record, a sized one and a scene's, and of the first two before displacements were kept
SPOT, SIZED, SCENE, OLD_SPOT, OLD_SIZED = 48, 60, 64, 40, 52
for name, kinds in SIGNATURES.items():
    function = getattr(library, name)
    function.argtypes, function.restype = kinds, c.c_uint32


def octets(data):
    """Bytes as a slice."""
    return (c.c_uint8 * max(len(data), 1)).from_buffer_copy(data.ljust(1, b"\0")), len(data)


def by_columns(level):
    """A level's floats as a slice: pixel (row, col) at col * rows + row."""
    values = [value for column in level.T.tolist() for value in column]
    return (FLOAT * max(len(values), 1))(*values), len(values)


def sevens(lengths):
    """Floats to be lent, as many in each as is said, all 7."""
    return [(FLOAT * max(length, 1))(*[7] * max(length, 1)) for length in lengths]


def slices_of(lent, lengths):
    """Lent floats as slices."""
    return [part for floats, length in zip(lent, lengths) for part in (floats, length)]


def bytes_of(lent, lengths):
    """The bytes of lent floats."""
    return [bytes(floats)[: 4 * length] for floats, length in zip(lent, lengths)]


def levels(record, raw, octave, rooms, shape=None):
    """The number, and the floats of the four buffers, each of which has room for as many and holds 7 before the call."""
    rows, cols = shape or raw.shape
    lent = sevens(rooms)
    number = library.uramsheg_levels(*octets(record), rows, cols, octave, *by_columns(raw), *slices_of(lent, rooms))
    return number, bytes_of(lent, rooms)


def detect(record, thresholds, levels, octave, room, shape=None):
    """The number, the value and the bytes of `out`, which has room for as many records."""
    rows, cols = shape or levels[0].shape
    out, value = (c.c_uint8 * max(SPOT * room, 1))(), c.c_uint64(77)
    slices = [part for level in levels for part in by_columns(level)]
    number = library.uramsheg_detect(*octets(record), *thresholds, rows, cols, octave, *slices, out, SPOT * room, value)
    return number, value.value, bytes(out)[: SPOT * room]


class Feed:
    """A feed whose ring has room for as many floats in each slice, all 7 before the start, and whose state has `room` bytes, all 0xa5; `number` is the
    start's."""

    def __init__(self, record, thresholds, shape, octave, lengths, room=564):
        self.lengths, self.room = lengths, room
        self.ring = sevens(lengths)
        self.state = (c.c_uint8 * max(room, 1))(*[0xA5] * max(room, 1))
        self.number = library.uramsheg_feed_start(*octets(record), *thresholds, *shape, octave, *self.slices(), self.state, room)

    def slices(self):
        """The ring's four slices."""
        return slices_of(self.ring, self.lengths)

    def column(self, columns, room):
        """The number, the value and the bytes of `out`, which has room for as many records and holds 0xa5 before the call."""
        out, value = (c.c_uint8 * max(SPOT * room, 1))(*[0xA5] * max(SPOT * room, 1)), c.c_uint64(77)
        given = [part for column in columns for part in ((FLOAT * max(len(column), 1))(*map(float, column)), len(column))]
        number = library.uramsheg_feed_column(self.state, self.room, *given, *self.slices(), out, SPOT * room, value)
        return number, value.value, bytes(out)[: SPOT * room]

    def held(self):
        """The bytes of the state and of the ring."""
        return bytes(self.state)[: self.room], bytes_of(self.ring, self.lengths)


def scene(record, thresholds, levels, octave, lengths, room):
    """The number, the value, the bytes of `out`, which has room for as many records and holds 0xa5 before the call, and those of the four tile slices, which
    have as many floats as is said, all 7 before it."""
    lent, out, value = sevens(lengths), (c.c_uint8 * max(SCENE * room, 1))(*[0xA5] * max(SCENE * room, 1)), c.c_uint64(77)
    given = [part for level in levels for part in by_columns(level)]
    number = library.uramsheg_scene(*octets(record), *thresholds, *levels[0].shape, octave, *given, *slices_of(lent, lengths), out, SCENE * room, value)
    return number, value.value, bytes(out)[: SCENE * room], bytes_of(lent, lengths)


def desk(call, table, desk, slot, *record):
    """The number of a claim, a release, or a write of a record, and the table's bytes after it."""
    lent, length = octets(table)
    number = getattr(library, f"uramsheg_desk_{call}")(lent, length, desk, slot, *[part for one in record for part in octets(one)])
    return number, bytes(lent)[:length]


def desk_run(table, slot, thresholds, levels, octave, room, shape=None):
    """The number, the value and the bytes of `out`, which has room for as many records and holds 0xa5 before the call, and the table's bytes after it."""
    rows, cols = shape or levels[0].shape
    lent, length = octets(table)
    out, value = (c.c_uint8 * max(SPOT * room, 1))(*[0xA5] * max(SPOT * room, 1)), c.c_uint64(77)
    slices = [part for level in levels for part in by_columns(level)]
    number = library.uramsheg_desk_run(lent, length, slot, *thresholds, rows, cols, octave, *slices, out, SPOT * room, value)
    return number, value.value, bytes(out)[: SPOT * room], bytes(lent)[:length]


def store(call, octets_held, shape, *given):
    """The number and the value of a call on a store, and the store's bytes after it; a spot is given as its bytes."""
    lent, length = octets(octets_held)
    value = c.c_uint64(77)
    words = [part for one in given for part in (octets(one) if isinstance(one, bytes) else (one,))]
    number = getattr(library, f"uramsheg_store_{call}")(lent, length, *(() if call == "clear" else shape), *words, value)
    return number, value.value, bytes(lent)[:length]


def accept(record, thresholds, levels, octave, listed, shape=None):
    """The number, the finding and the value, and the bytes of the list and of the four levels after the call."""
    rows, cols = shape or levels[0].shape
    lent, length = octets(listed)
    slices = [by_columns(level) for level in levels]
    finding, value = c.c_uint32(77), c.c_uint64(77)
    given = [part for one in slices for part in one]
    number = library.uramsheg_accept(*octets(record), *thresholds, rows, cols, octave, *given, lent, length, finding, value)
    return (number, finding.value, value.value), bytes(lent)[:length], [bytes(floats)[: 4 * size] for floats, size in slices]


def join(record, shape, listed, room, call="join"):
    """The number, the value and the bytes of `out`, which has room for as many bytes and holds 0xa5 before the call."""
    out, value = (c.c_uint8 * max(room, 1))(*[0xA5] * max(room, 1)), c.c_uint64(77)
    number = getattr(library, f"uramsheg_{call}")(*octets(record), *shape, *octets(listed), out, room, value)
    return number, value.value, bytes(out)[:room]


def join_old(record, shape, listed, room):
    """The same of a list of before displacements were kept."""
    return join(record, shape, listed, room, "join_old")


def correct(record, samples, sigma, is_max):
    """The number, the corrected sigma, which is -1 before the call, and the cause."""
    corrected, cause = FLOAT(-1), c.c_uint64(77)
    number = library.uramsheg_correct(*octets(record), *samples, sigma, is_max, corrected, cause)
    return number, corrected.value, cause.value


def downsample(level):
    """The number, the new sides and the floats."""
    rows, cols = level.shape
    out, half_rows, half_cols = (FLOAT * max(rows * cols, 1))(), c.c_uint64(77), c.c_uint64(77)
    number = library.uramsheg_downsample(rows, cols, *by_columns(level), out, rows * cols, half_rows, half_cols)
    sides = half_rows.value, half_cols.value
    return number, sides, list(out)[: sides[0] * sides[1]] if not number else []


def good(record):
    """Whether a set record is good."""
    return library.uramsheg_set_check(*octets(record)) == 0


def case(name):
    """A stored case of the list program: the set, the thresholds, the sides, the octave and the levels' floats by columns."""
    raw = (ROOT / "crates" / name / "stdin").read_bytes()
    rows, cols, octave = struct.unpack("<3I", raw[548:560])
    return raw[:528], struct.unpack("<5f", raw[528:548]), (rows, cols), octave, struct.unpack(f"<{4 * rows * cols}f", raw[560:])
