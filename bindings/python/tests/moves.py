"""What holds of the displacements of every list."""
import numpy as np

import uramsheg as u

#: the largest displacement
LIMIT = np.float32(0.6)


def hold(spots, cols):
    """The displacements of a list that detection made of a map of so many cols: each place is its pixel plus the displacement, rounded once to float32."""
    own = np.divmod(spots["key"], np.uint32(max(cols, 1)))
    for move, place, pixel in zip(("dy", "dx"), ("y", "x"), own):
        moved = spots[move]
        assert (pixel.astype("f4") + moved).tobytes() == spots[place].tobytes()
        assert np.all(abs(moved) <= LIMIT) and not np.signbit(moved[moved == 0]).any()


def old(spots):
    """The same spots as they were listed before displacements were kept."""
    kept = np.zeros(len(spots), u.OLD_SPOT)
    for name in u.OLD_SPOT.names:
        kept[name] = spots[name]
    return kept
