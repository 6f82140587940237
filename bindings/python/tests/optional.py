"""A store a second time: a list of optional spots, each None or a record's bytes. Nothing of the package is used."""
import math
import struct

FREE = bytes(38) + b"\xff" + bytes(9)
LIMIT = struct.unpack("<f", b"\x9a\x99\x19\x3f")[0]


def readable(record, shape):
    """Whether bytes are a record of a map of these sides."""
    if len(record) != 48:
        return False
    rows, cols = shape
    *floats, key, octave, index, polarity, spare, dx, dy = struct.unpack("<8fI4B2f", record)
    return (all(map(math.isfinite, [*floats, dx, dy])) and 0 <= floats[0] <= cols - 1 and 0 <= floats[1] <= rows - 1 and key < rows * cols and octave <= 5
            and index in (1, 2) and polarity in (0, 1) and spare == 0 and abs(dx) <= LIMIT and abs(dy) <= LIMIT)


class Optional:
    """A list of optional spots of maps of these sides, first as bytes of a store say. Each call answers its number and its value."""

    def __init__(self, octets, shape):
        self.shape, self.rest = shape, octets[len(octets) // 48 * 48 :]
        self.held = [None if octets[place : place + 48] == FREE else octets[place : place + 48] for place in range(0, len(octets) - len(self.rest), 48)]

    def octets(self):
        """The store's bytes."""
        return b"".join(spot or FREE for spot in self.held) + self.rest

    def wrong(self):
        """What every call but clearing is refused with for the store's sake, or None."""
        if max(self.shape) > 4096:
            return 1, 0
        if self.rest:
            return 5, len(self.held)
        bad = [place for place, spot in enumerate(self.held) if spot is not None and not readable(spot, self.shape)]
        return (5, bad[0]) if bad else None

    def clear(self):
        """Clearing."""
        if self.rest:
            return 5, len(self.held)
        self.held = [None] * len(self.held)
        return 0, 0

    def add(self, spot):
        """Adding."""
        if self.wrong():
            return self.wrong()
        if not readable(spot, self.shape):
            return 5, len(self.held)
        if None not in self.held:
            return 6, 0
        place = self.held.index(None)
        self.held[place] = spot
        return 0, place

    def strike(self, slot):
        """Striking."""
        if self.wrong():
            return self.wrong()
        if slot >= len(self.held) or self.held[slot] is None:
            return 13, 0
        self.held[slot] = None
        return 0, 0

    def close_up(self):
        """Closing up."""
        if self.wrong():
            return self.wrong()
        live = [spot for spot in self.held if spot is not None]
        self.held = live + [None] * (len(self.held) - len(live))
        return 0, len(live)
