"""Sets of tables: the 528 bytes that the detector is given, by name; what is wrong with a set, in words; sets in files."""
from importlib import resources
from pathlib import Path

import numpy as np

from . import text
from .records import NUMBERS, SET
from .refusals import SetRefused


class TablesFault(ValueError):
    """A text that is no set; `faults` names everything that is wrong with it."""

    def __init__(self, faults):
        super().__init__(tuple(faults))
        self.faults = tuple(faults)

    def __str__(self):
        return "; ".join(self.faults)


def record_of(tables):
    """A set's bytes: those of a Tables, or the ones given."""
    return tables.to_bytes() if isinstance(tables, Tables) else bytes(memoryview(tables))


class Tables:
    """A set of tables, unchangeable; its fields are those of SET, each a read-only array or a number. It need not be good: see `faults`."""

    __slots__ = ("_record",)

    def __init__(self, **fields):
        """A set of all of SET's fields but `spare`, which is zero where it is not given."""
        record = np.zeros((), SET)
        missing = [name for name in SET.names if name not in fields and name != "spare"]
        unknown = [name for name in fields if name not in SET.names]
        if missing or unknown:
            raise TypeError(f"a set has the fields {', '.join(SET.names)}; missing: {missing}, unknown: {unknown}")
        for name, value in fields.items():
            if np.shape(value) != SET[name].shape:
                raise TypeError(f"{name} has the shape {SET[name].shape}, not {np.shape(value)}")
            record[name] = value
        record.setflags(write=False)
        object.__setattr__(self, "_record", record)

    @classmethod
    def from_bytes(cls, record):
        """The set of a record of 528 bytes, good or not."""
        octets = bytes(memoryview(record))
        if len(octets) != SET.itemsize:
            raise SetRefused("; ".join(faults(octets)))
        made = np.frombuffer(octets, SET)[0]
        return cls(**{name: made[name] for name in SET.names})

    @classmethod
    def from_toml(cls, toml):
        """The set of a text that `to_toml` wrote, or one like it; TablesFault names every fault of the text."""
        fields, wrong = text.read(toml)
        if wrong:
            raise TablesFault(wrong)
        return cls(**fields)

    def to_bytes(self):
        """The record."""
        return self._record.tobytes()

    def to_toml(self):
        """A good set as text, from which `from_toml` makes the same bytes."""
        wrong = faults(self)
        if wrong:
            raise SetRefused("; ".join(wrong))
        return text.write(self)

    def replace(self, **fields):
        """The same set with some fields changed."""
        return Tables(**{**{name: self._record[name] for name in SET.names}, **fields})

    def faults(self):
        """Every reason why the set is not good, in words; none where it is good."""
        return faults(self)

    def __getattr__(self, name):
        if name not in SET.names:
            raise AttributeError(f"a set has no {name}")
        return self._record[name] if SET[name].shape else float(self._record[name])

    def __setattr__(self, name, value):
        raise AttributeError("a set is unchangeable: replace() makes another")

    def __eq__(self, other):
        return isinstance(other, Tables) and self.to_bytes() == other.to_bytes()

    def __hash__(self):
        return hash(self.to_bytes())

    def __reduce__(self):
        return Tables.from_bytes, (self.to_bytes(),)

    def __repr__(self):
        return f"<uramsheg.Tables of sigmas {', '.join(text.shortest(sigma) for sigma in self.sigmas)}>"


@np.errstate(invalid="ignore")  # a signalling NaN is compared as any other
def faults(tables):
    """Every reason why a set, or a record's bytes, is not good; the proved check says only whether there is one."""
    octets = record_of(tables)
    if len(octets) != SET.itemsize:
        return [f"the record is {len(octets)} bytes long, not {SET.itemsize}"]
    record = np.frombuffer(octets, SET)[0]
    wrong = []
    for name in ("sigmas", "scale", "geometry", "spatial", *NUMBERS):
        lost = np.argwhere(~np.isfinite(record[name]))
        wrong += [f"{name}{''.join(f'[{at}]' for at in place)} is not finite" for place in lost]
    sigmas = record["sigmas"]
    wrong += [f"sigmas[{k}] is {text.shortest(sigmas[k])}, not above 0" for k in range(4) if sigmas[k] <= 0]
    wrong += [f"sigmas[{k}] is not above sigmas[{k - 1}]" for k in range(1, 4) if sigmas[k] <= sigmas[k - 1]]
    if record["move_cap"] < 0:
        wrong.append(f"move_cap is {text.shortest(record['move_cap'])}, below 0")
    wrong += [f"order[{place}] is {byte}, not 0 to 8" for place, byte in enumerate(record["order"]) if byte > 8]
    wrong += [f"spare[{place}] is {byte}, not 0" for place, byte in enumerate(record["spare"]) if byte]
    return wrong


def load(path):
    """The set in a file, which holds a record of 528 bytes or a set as TOML; SetRefused or TablesFault where it is not good."""
    octets = Path(path).read_bytes()
    if len(octets) != SET.itemsize:
        try:
            octets = Tables.from_toml(octets.decode()).to_bytes()
        except UnicodeDecodeError:
            raise TablesFault([f"{len(octets)} bytes that are no text: a set record has {SET.itemsize}"]) from None
    wrong = faults(octets)
    if wrong:
        raise SetRefused("; ".join(wrong))
    return Tables.from_bytes(octets)


def standard():
    """The set `standard`, as it is stored. uramsheg.make made it: it says which parts are stated, derived, fitted or chosen."""
    return Tables.from_bytes(resources.files(__package__).joinpath("standard.set").read_bytes())
