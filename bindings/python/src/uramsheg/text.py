"""A set of tables as TOML: each number is the shortest text that gives the same float again."""
import tomllib

import numpy as np

from .records import NUMBERS, SET

FORMAT = 1
#: each table's key, its field, its place in that field and what stands above it
LISTS = (
    ("sigmas", "sigmas", (), "the four levels' blurs, in pixels of their octave"),
    ("scale", "scale", (), "rows a, b, c, d of a cubic in sigma; columns: samples 0, 1, 2, each less sample 3; d gains sample 3"),
    ("geometry", "geometry", (), "the same in log2(sigma / log_sigma_origin)"),
    ("spatial_1", "spatial", 0, "scale index 1: rows w1 (x^2), w2 (y^2), w3 (xy), w4 (x), w5 (y); columns in the order of `order`"),
    ("spatial_2", "spatial", 1, "scale index 2: the same"),
)


@np.errstate(invalid="ignore")  # of a signalling NaN too
def shortest(value):
    """The shortest text of an f32 that reads back as the same f32, also where it is read as an f64 first."""
    single = np.float32(value)
    plain = single == 0 or 1e-4 <= abs(single) < 1e7
    made = (np.format_float_positional if plain else np.format_float_scientific)(single, unique=True, trim="0")
    return made if np.float32(float(made)) == single else repr(float(single))


def listed(array):
    """An array as TOML: one row a line."""
    if array.ndim == 1:
        return "[" + ", ".join(map(shortest, array)) + "]"
    return "[\n" + "".join(f"    {listed(row)},\n" for row in array) + "]"


def write(tables):
    """A set's text."""
    lines = [f"format = {FORMAT}"]
    for key, field, place, words in LISTS:
        lines += [f"# {words}", f"{key} = {listed(getattr(tables, field)[place])}"]
    lines += ["# which of the nine samples, by rows from the upper left, each column of a spatial table takes"]
    lines += [f"order = [{', '.join(map(str, tables.order))}]", "", "[numbers]"]
    lines += [f"{name} = {shortest(getattr(tables, name))}" for name in NUMBERS]
    return "\n".join(lines) + "\n"


def read(text):
    """A text's fields, and everything that is wrong with it."""
    try:
        document = tomllib.loads(text)
    except tomllib.TOMLDecodeError as error:
        return {}, [f"this is no TOML: {error}"]
    numbers = document.get("numbers")
    numbers = numbers if isinstance(numbers, dict) else {}
    wrong = unknown("", document, ("format", "order", "numbers", *(key for key, *_ in LISTS))) + unknown("numbers.", numbers, NUMBERS)
    if document.get("format") != FORMAT:
        wrong.append(f"format is {document.get('format')}, not {FORMAT}")
    fields = {name: taken(numbers, name, (), wrong, "numbers.") for name in NUMBERS}
    fields["order"] = taken(document, "order", SET["order"].shape, wrong)
    parts = {key: taken(document, key, np.zeros((), SET)[field][place].shape, wrong) for key, field, place, _ in LISTS}
    fields.update({name: parts[name] for name in ("sigmas", "scale", "geometry")})
    fields["spatial"] = [parts["spatial_1"], parts["spatial_2"]]
    wrong += [f"order[{at}] is {byte}, not 0 to 8" for at, byte in enumerate(fields["order"] or ()) if type(byte) is not int or not 0 <= byte <= 8]
    return fields, wrong


def unknown(before, given, known):
    """The keys that a set has not."""
    return [f"{before}{key} is unknown" for key in given if key not in known]


def taken(given, key, shape, wrong, before=""):
    """A key's numbers where they have the shape asked for; else what is wrong is noted."""
    if key not in given:
        wrong.append(f"{before}{key} is missing")
    elif shape_of(given[key]) != shape:
        asked = " by ".join(map(str, shape)) + " numbers" if shape else "a number"
        wrong.append(f"{before}{key} is not {asked}")
    else:
        return given[key]
    return None


def shape_of(value):
    """The shape of nested lists of numbers; None for anything else."""
    if type(value) in (int, float):
        return ()
    if not isinstance(value, list) or not value:
        return None
    inner = {shape_of(part) for part in value}
    return (len(value), *inner.pop()) if len(inner) == 1 and None not in inner else None
