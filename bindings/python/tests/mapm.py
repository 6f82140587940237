"""Map M, document 01's worked case."""
import cface
import numpy as np


class MapM:
    """As the list program's stored input holds it."""

    set, thresholds, shape, octave, floats = cface.case("list")
    line = bytes.fromhex((cface.ROOT / "crates" / "list" / "stdout").read_text().split()[0])
    #: its record of before displacements were kept, and what the join made of it then
    old = bytes.fromhex("00009040000080400000004000008040000080bf0000804000000000000000002c00000000010100")
    old_sized = old + bytes.fromhex("f30435400400050001000000")

    def levels(self):
        """Four levels of its own, float32 in Fortran order."""
        return [np.array(level, "f4").reshape(self.shape, order="F") for level in np.reshape(self.floats, (4, -1))]
