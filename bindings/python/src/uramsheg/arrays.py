"""Arrays as the slices that C functions take: a pointer and a length."""
import operator

import numpy as np

from ._native import ffi


def level(values, what="level", sides=2):
    """Values as a level, or as a map: the array itself where it is float32, native, aligned and Fortran-ordered, else a copy. Masked pixels become NaN."""
    array = np.asanyarray(values)
    if array.ndim != sides:
        raise TypeError(f"a {what} is a {sides}-d array, not one of shape {array.shape}")
    if array.dtype.kind not in "fiu":
        raise TypeError(f"a {what} holds real numbers, not {array.dtype}")
    if np.ma.isMaskedArray(array):
        array = array.astype(np.float32).filled(np.nan)
    array = np.asarray(array)
    flags = array.flags
    if array.dtype == np.float32 and flags.f_contiguous and flags.aligned:  # the type's order of bytes is part of it
        return array
    with np.errstate(over="ignore", invalid="ignore"):
        return np.array(array, dtype=np.float32, order="F")


def column(values):
    """Values as a column of a level, copied where a level would be."""
    return level(values, "column", 1)


def floats(array):
    """A level's floats by columns, where they lie: its transpose is in the order that the buffer protocol asks for."""
    return ffi.from_buffer("float[]", array.T), array.size


def floats_to_write(array):
    """The floats of a 1-d array, to be written."""
    return ffi.from_buffer("float[]", array, require_writable=True), array.size


def octets(array):
    """The bytes of an array of records, where they lie."""
    return ffi.from_buffer("uint8_t[]", array), array.nbytes


def octets_to_write(array):
    """The same, to be written."""
    return ffi.from_buffer("uint8_t[]", array, require_writable=True), array.nbytes


def count(name, value):
    """A whole number from 0 on that fits a size_t."""
    number = operator.index(value)
    if not 0 <= number < 2 ** (8 * ffi.sizeof("size_t")):
        raise ValueError(f"{name} is {number}, which is no count")
    return number
