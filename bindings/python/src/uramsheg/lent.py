"""Bytes that calls change: an object's own, or those of a buffer of the caller's."""
import threading

import numpy as np

#: held while such bytes are looked at or changed, since other threads run during a call
LOCK = threading.Lock()


class Lent:
    """An object that is its bytes; `NAME` is what it is in words."""

    __slots__ = ("_octets",)
    NAME = ""

    def close(self):
        """Lets go of the bytes, wherever they lie; no other call is possible after it."""
        self._octets = None

    def __enter__(self):
        return self

    def __exit__(self, *_):
        self.close()

    def _lent(self):
        """The bytes that a call is lent."""
        if self._octets is None:
            raise ValueError(f"the {self.NAME} was closed")
        return self._octets

    def to_bytes(self):
        """The bytes, copied."""
        with LOCK:
            return self._lent().tobytes()


def octets_in(buffer, name):
    """The bytes of a buffer, where they lie."""
    view = memoryview(buffer)
    if not view.c_contiguous:
        raise TypeError(f"a {name}'s bytes must lie one after the other")
    return np.frombuffer(view, "u1")


def writable(octets, copier):
    """The same bytes, which must be ones that can be written; `copier` is the call that takes others."""
    if not octets.flags.writeable:
        raise TypeError(f"the buffer can't be written: {copier} makes a copy")
    return octets
