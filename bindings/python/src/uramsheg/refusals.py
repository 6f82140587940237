"""Why a call was refused: one class a number of uramsheg.h."""
from ._native import lib
from .missing import MEANS, NO_SIZE


class Refused(ValueError):
    """A refused call: `number` is that of uramsheg.h, `why` its meaning, `detail` the case, `index` the record or slot it speaks of, else None."""

    number = 0
    why = ""

    def __init__(self, detail="", index=None):
        super().__init__(detail, index)
        self.detail = detail
        self.index = index

    def __str__(self):
        return f"refused {self.number}: {self.why}" + (f" ({self.detail})" if self.detail else "")


class SizeRefused(Refused):
    """Rows or cols above 4096."""

    number = lib.URAMSHEG_REFUSED_SIZE
    why = "rows or cols above 4096: use scene, which takes the levels of larger maps"


class LevelRefused(Refused):
    """The levels are not of one shape, or a feed's columns not as long as the feed has rows."""

    number = lib.URAMSHEG_REFUSED_LEVEL
    why = "the four levels must have one shape, a feed's four columns a pixel for each row"


class OctaveRefused(Refused):
    """The octave is above 5."""

    number = lib.URAMSHEG_REFUSED_OCTAVE
    why = "the octave is above 5: give one from 0 to 5"


class SetRefused(Refused):
    """The set record is not 528 bytes long or not good; `detail` names every fault."""

    number = lib.URAMSHEG_REFUSED_SET
    why = "the set of tables is not good"


class RecordsRefused(Refused):
    """The list is no whole number of records (`index` is how many are whole), or holds a bad one (`index` is its place). Of a store, the same of its slots; of
    the spot that is added to it `index` is the number of slots."""

    number = lib.URAMSHEG_REFUSED_RECORDS
    why = "a record is bad for this map, or only a part of one"


class RoomRefused(Refused):
    """The output, or a feed's ring, is shorter than needed; no slot of a store is free."""

    number = lib.URAMSHEG_REFUSED_ROOM
    why = "the output, a feed's ring or a store is too short: lend a longer one"


class NoSizeRefused(Refused):
    """The spot has no size; `cause` is why, a number of NO_SIZE, `why` says it and `detail` what it means."""

    number = lib.URAMSHEG_REFUSED_NO_SIZE
    why = "no size"

    def __init__(self, cause):
        if cause not in NO_SIZE:
            raise RuntimeError(f"libalp_c.a answered the cause {cause}, which uramsheg.h does not name: build both from one")
        super().__init__(MEANS[cause])
        self.args = (cause,)
        self.cause = cause
        self.why = NO_SIZE[cause]


class ThresholdsRefused(Refused):
    """A threshold is not a number; `names` says which."""

    number = lib.URAMSHEG_REFUSED_THRESHOLDS
    why = "a threshold is not a number"

    def __init__(self, names=()):
        super().__init__(", ".join(names))
        self.args = (tuple(names),)
        self.names = tuple(names)


class PastRefused(Refused):
    """All columns of the feed have come."""

    number = lib.URAMSHEG_REFUSED_PAST
    why = "all columns of the feed have come: start another feed for the next map"


class SceneRefused(Refused):
    """Rows or cols of a scene above 16384."""

    number = lib.URAMSHEG_REFUSED_SCENE
    why = "rows or cols of a scene above 16384: cut it into scenes that share 8 pixels"


class NotYoursRefused(Refused):
    """The table is not 4,264 bytes long, the desk or the slot is none, or the slot is not free for a claim, not the desk's own for a write or a release, of
    neither desk for a run; `detail` says which."""

    number = lib.URAMSHEG_REFUSED_NOT_YOURS
    why = "not yours: claim a free slot, write and release your desk's own, run from one that a desk owns"


class CountRefused(Refused):
    """The slot's write count is the largest that there is."""

    number = lib.URAMSHEG_REFUSED_COUNT
    why = "the slot's write count is 4294967295, the largest: use another slot"


class NoSpotRefused(Refused):
    """The store's slot is free, or there is none of that number; `index` is the number."""

    number = lib.URAMSHEG_REFUSED_NO_SPOT
    why = "the store's slot holds no spot: strike one that is live"


#: the classes by their numbers
REFUSALS = {kind.number: kind for kind in Refused.__subclasses__()}

for name in dir(lib):
    if name.startswith("URAMSHEG_REFUSED_") and getattr(lib, name) not in REFUSALS:
        raise ImportError(f"{name} of uramsheg.h has no class here: build the package and its archive from one")


def kind_of(number):
    """The class of a refusal's number."""
    if number not in REFUSALS:
        raise RuntimeError(f"libalp_c.a answered {number}, which uramsheg.h does not name: build both from one")
    return REFUSALS[number]
