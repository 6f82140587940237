"""A table of two desks a second time: eight plain slots. Nothing of the package is used."""
import struct

import cface

#: where no count goes beyond
LARGEST = 2**32 - 1


class Eight:
    """The records, owners and counts of eight slots, first as bytes of a table say. Each call answers its number."""

    def __init__(self, octets=bytes(4264)):
        self.sets = [octets[528 * slot : 528 * slot + 528] for slot in range(8)]
        self.owners = list(octets[4224:4232])
        self.counts = list(struct.unpack("<8I", octets[4232:]))

    def octets(self):
        """The table's bytes."""
        return b"".join(self.sets) + bytes(self.owners) + struct.pack("<8I", *self.counts)

    def put(self, slot, record, owner):
        """What a claim or a write does."""
        self.sets[slot], self.owners[slot] = record, owner
        self.counts[slot] += 1
        return 0

    def claim(self, desk, slot):
        """A claim."""
        if desk not in (1, 2) or slot > 7 or self.owners[slot] != 0:
            return 11
        return 12 if self.counts[slot] == LARGEST else self.put(slot, bytes(528), desk)

    def write(self, desk, slot, record):
        """A write."""
        if desk not in (1, 2) or slot > 7 or self.owners[slot] != desk:
            return 11
        if self.counts[slot] == LARGEST:
            return 12
        return self.put(slot, record, desk) if cface.good(record) else 4

    def release(self, desk, slot):
        """A release."""
        if desk not in (1, 2) or slot > 7 or self.owners[slot] != desk:
            return 11
        self.owners[slot] = 0
        return 0

    def may_run(self, slot):
        """Whether a run gets as far as detection's own checks: 0, or 11."""
        return 0 if slot < 8 and self.owners[slot] in (1, 2) else 11
