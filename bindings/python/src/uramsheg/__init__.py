"""Uramsheg: the spots of a gas map that stand out at one size. Every call ends, whatever it is given; a refused one raises a `Refused`."""
from .desks import Desk, Slot, Table
from .detector import Thresholds, correct, detect, downsample, join, join_old, levels, octave_count, read_set
from .feed import Feed
from .filling import fill
from .finding import FOUND, Found, Judged, find
from .grid import Grid
from .missing import NO_SIZE
from .partner import Finding, accept
from .records import OLD_SIZED, OLD_SPOT, SCENE, SET, SIZED, SPOT, STORED
from .refusals import (
    CountRefused,
    LevelRefused,
    NoSizeRefused,
    NoSpotRefused,
    NotYoursRefused,
    OctaveRefused,
    PastRefused,
    RecordsRefused,
    Refused,
    RoomRefused,
    SceneRefused,
    SetRefused,
    SizeRefused,
    ThresholdsRefused,
)
from .scenes import Tile, scene, tiles
from .store import Store
from .tables import Tables, TablesFault, standard

#: the join by what it is for: each spot's size
size = join

__version__ = "0.1.0"
__all__ = [
    "CountRefused", "Desk", "FOUND", "Feed", "Finding", "Found", "Grid", "Judged", "LevelRefused", "NO_SIZE", "NoSizeRefused", "NoSpotRefused", "NotYoursRefused",
    "OLD_SIZED", "OLD_SPOT", "OctaveRefused", "PastRefused", "RecordsRefused", "Refused", "RoomRefused", "SCENE", "SET", "SIZED", "SPOT", "STORED",
    "SceneRefused", "SetRefused", "SizeRefused", "Slot", "Store", "Table", "Tables", "TablesFault", "Thresholds", "ThresholdsRefused", "Tile", "accept",
    "correct", "detect", "downsample", "fill", "find", "join", "join_old", "levels", "octave_count", "read_set", "scene", "size", "standard", "tiles",
]
