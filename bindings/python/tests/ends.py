"""Records at the ends of what is readable on maps of map M's sides, 9 by 10."""
import numpy as np
from mapm import MapM

import uramsheg as u


def spot(**fields):
    """Map M's record with some fields changed, as bytes; of a displacement its bits are given."""
    record = np.frombuffer(MapM.line, u.SPOT).copy()
    for name, value in fields.items():
        record[name] = np.array(value, "<u4").view("f4") if name in ("dx", "dy") else value
    return record.tobytes()


def byte(place, value, record=MapM.line):
    """A record with one byte changed."""
    return record[:place] + bytes([value]) + record[place + 1 :]


TINY = np.float32(1e-45)
#: records that are readable on maps of 9 by 10, at the ends of what is
GOOD = [MapM.line, spot(x=0, y=0, key=0), spot(x=9, y=8, key=89), spot(is_max=False), spot(octave=5), spot(scale_index=2), spot(dx=0x80000000, dy=0x80000000),
        spot(dx=0x3F19999A, dy=0xBF19999A), spot(sigma=-TINY, peak=3e38, samples=[-3e38, TINY, -0.0, 0]), spot(x=-0.0, y=TINY, dx=1)]
#: records that are not, each for one cause
BAD = [spot(x=np.nextafter(np.float32(9), np.float32(10))), spot(x=-TINY), spot(y=np.nextafter(np.float32(8), np.float32(9))), spot(y=-TINY), spot(key=90),
       spot(key=2**32 - 1), *(spot(**{name: lost}) for name in ("x", "y", "sigma", "peak") for lost in (np.nan, np.inf, -np.inf)),
       *(spot(samples=np.where(np.arange(4) == place, np.nan, 1)) for place in range(4)), *(spot(**{name: bits}) for name in ("dx", "dy")
       for bits in (0x3F19999B, 0xBF19999B, 0x7FC00000, 0x7F800000)), byte(36, 6), byte(36, 255), byte(37, 0), byte(37, 3), byte(38, 2), byte(38, 254), byte(38, 255),
       byte(39, 1), bytes(48), b"\xff" * 48]
