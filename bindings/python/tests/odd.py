"""Maps with spots in them, and the many ways in which numpy can hold one map."""
import numpy as np
from hypothesis import strategies as st

LOST = (np.nan, np.inf, -np.inf)
SHAPES = st.tuples(st.integers(0, 21), st.integers(0, 21))


def specks(shape, rng):
    """Four levels of single pixels that differ between levels 0 and 1, as map M's does: spots under set T."""
    four = [np.zeros(shape, "f4") for _ in range(4)]
    for _ in range(3 if min(shape) > 8 else 0):
        place = rng.integers(4, shape[0] - 4), rng.integers(4, shape[1] - 4)
        four[0][place] = rng.choice([-0.5, -0.25, 0.25, 1])
        four[1][place] = -four[0][place]
    return four


def blobs(shape, rng):
    """Four levels of Gaussian blobs, each blurred to sigma 1.6, 2.26, 3.2 and 4.53, on a little noise: spots under the set `standard`."""
    rows, cols = np.mgrid[: shape[0], : shape[1]]
    four = [0.001 * rng.normal(size=shape) for _ in range(4)]
    for _ in range(2):
        row, col, width, height = rng.uniform(4, 17), rng.uniform(4, 17), rng.uniform(1.8, 4), rng.choice([-10, 10, 300])
        for level, sigma in zip(four, (1.6, 2.2627418, 3.2, 4.5254836)):
            whole = width**2 + sigma**2
            level += height * width**2 / whole * np.exp(-((rows - row) ** 2 + (cols - col) ** 2) / 2 / whole)
    return [level.astype("f4") for level in four]


def maps(kind, shape, seed, lost):
    """Four levels of float32 values of a kind, some of whose pixels are lost."""
    rng = np.random.default_rng(seed)
    four = {"T": specks, "standard": blobs}[kind](shape, rng)
    for _ in range(lost if shape[0] * shape[1] else 0):
        four[rng.integers(4)][rng.integers(shape[0]), rng.integers(shape[1])] = LOST[rng.integers(3)]
    return four


def unaligned(a):
    """The same floats at odd addresses."""
    room = np.zeros(a.nbytes + 1, "u1")
    view = room[1:].view("f4").reshape(a.shape, order="F")
    view[...] = a
    return view


def reversed_rows(a):
    """The last row first in memory."""
    return np.ascontiguousarray(a[::-1])[::-1]


def read_only(a):
    """Not to be written."""
    kept = np.asfortranarray(a).copy(order="F")
    kept.setflags(write=False)
    return kept


def masked(a):
    """NaN hidden under a mask, with another number below."""
    return np.ma.MaskedArray(np.where(np.isnan(a), np.float32(5), a), mask=np.isnan(a))


DRESSES = {
    "Fortran order": np.asfortranarray,
    "C order": np.ascontiguousarray,
    "float64": lambda a: a.astype("f8"),
    "float64 by columns": lambda a: np.asfortranarray(a, dtype="f8"),
    "big-endian float32": lambda a: np.asfortranarray(a, dtype=">f4"),
    "big-endian float64": lambda a: a.astype(">f8"),
    "long double": lambda a: a.astype(np.longdouble),
    "every second col": lambda a: np.repeat(a, 2, axis=1)[:, ::2],
    "every third row": lambda a: np.asfortranarray(np.repeat(a, 3, axis=0))[::3],
    "rows turned": reversed_rows,
    "a transpose": lambda a: np.ascontiguousarray(a.T).T,
    "unaligned": unaligned,
    "read only": read_only,
    "masked": masked,
    "a corner of a larger map": lambda a: np.pad(np.asfortranarray(a), 3, mode="edge" if a.size else "constant")[3:-3, 3:-3],
}
COPIED = [name for name in DRESSES if name not in ("Fortran order", "read only", "a transpose")]
