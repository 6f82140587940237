"""A partner's list a second time: plain records beside the due ones, one after the other. Nothing of the package is used."""
import struct

from optional import readable


def records_of(octets):
    """The whole records of a list's bytes."""
    return [octets[start : start + 48] for start in range(0, len(octets) - 47, 48)]


def place(record):
    """What orders a list: the key, then the polarity."""
    return struct.unpack("<I", record[32:36])[0], record[38]


def fault(octets, shape):
    """What stands beside 5, or None where the list is readable."""
    records = records_of(octets)
    if len(octets) % 48:
        return len(records)
    bad = [index for index, record in enumerate(records) if not readable(record, shape)]
    return bad[0] if bad else None


def finding(octets, due):
    """The finding's number and index of a readable list."""
    given, wanted = records_of(octets), records_of(due)
    for index, (record, one) in enumerate(zip(given, wanted)):
        if place(record) != place(one):
            return (2 if place(record) < place(one) else 3), index
        if record != one:
            return 4, index
    if len(given) == len(wanted):
        return 1, 0
    return (2, len(wanted)) if len(given) > len(wanted) else (3, len(given))


def answer(octets, due, shape):
    """The number, the finding and the value of a call that detection would not refuse."""
    bad = fault(octets, shape)
    return (0, *finding(octets, due)) if bad is None else (5, 0, bad)
