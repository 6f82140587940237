"""The report: one page of HTML that needs nothing else, with the picture, a table that can be sorted, and the numbers of the run."""
import base64
import io
from html import escape
from importlib import resources
from string import Template

import numpy as np

from . import output, picture
from .missing import NO_SIZE

#: of each column of the table: its name in `output.columns`, its words, and how its numbers are written
COLUMNS = (
    ("rank", "rank", "d"), ("map_x", "map x", ""), ("map_y", "map y", ""), ("height", "height", ".4g"), ("snr", "signal to noise", ".1f"),
    ("size_m", "size, m", ".2f"), ("size_px", "size, pixels", ".2f"), ("sigma_px", "sigma, pixels", ".2f"), ("octave", "octave", "d"),
    ("dx", "dx, pixels", ".4f"), ("dy", "dy, pixels", ".4f"),
    ("kind", "kind", "s"), ("near_lost", "near lost", ""), ("cause", "why no size", "s"),
)


def save(path, given, found, numbers):
    """Writes the report of a map; ValueError where the path is not one of HTML."""
    if not path.lower().endswith((".html", ".htm")):
        raise ValueError(f"{path}: a report ends in .html")
    text = page(given, found, numbers)
    output.whole(path, lambda aside: output.write_text(aside, text))


def page(given, found, numbers):
    """The page's text. All that comes from the map, the set or the command is escaped."""
    count = len(found.spots)
    lost = int((~np.isfinite(given.values)).sum())
    rows, cols = given.values.shape
    parts = {
        "title": f"{numbers['map']}: {count} spot{'' if count == 1 else 's'}",
        "summary": f"A map of {rows} rows by {cols} cols, {lost} pixels lost, {numbers['filled']} of them filled.",
    }
    parts = {name: escape(text) for name, text in parts.items()}
    digits = ".6f" if given.grid.geographic else ".2f"
    table = output.columns(found)
    table["cause"] = [NO_SIZE.get(cause) for cause in table["cause"]]
    parts["heads"] = "".join(f'<th data-name="{name}"><button>{escape(words)}</button></th>' for name, words, _ in COLUMNS)
    parts["rows"] = "\n".join(f"<tr>{''.join(cell(table[name][place], how or digits) for name, _, how in COLUMNS)}</tr>" for place in range(count))
    parts["run"] = "\n".join(f"<tr><th>{escape(name)}</th><td>{escape(text)}</td></tr>" for name, text in run_of(numbers))
    parts["judged"] = "\n".join(
        f"<tr><td>{one['octave']}</td><td>{one['sigma_px'][0]:.3g} to {one['sigma_px'][1]:.3g}</td><td>{100 * one['share']:.1f} %</td></tr>"
        for one in numbers["judged"])
    parts["picture"] = base64.b64encode(png(picture.page(given, found))).decode()
    return Template(resources.files(__package__).joinpath("report.html").read_text(encoding="utf-8")).substitute(parts)


def cell(value, how):
    """A cell: what it is sorted by, and what is read."""
    if value is None:
        return '<td data-value=""></td>'
    if isinstance(value, bool):
        return f'<td data-value="{int(value)}">{"yes" if value else "no"}</td>'
    return f'<td data-value="{escape(str(value))}">{escape(format(value, how))}</td>'


def run_of(numbers):
    """The numbers of the run, by name."""
    least = numbers["thresholds"]
    unit = numbers["unit"]
    yield "Version", f"uramsheg {numbers['version']}"
    yield "Map", numbers["map"]
    yield "Unit", unit or "not stated"
    yield "Set of tables", numbers["set"]
    yield "Kind", numbers["kind"]
    yield "Least peak", "none" if least["peak"] is None else f"{least['peak']:g} {unit}".rstrip()
    yield "Least signal to noise", "none" if least["snr"] is None else f"{least['snr']:g}"
    yield "Least curvature over scale", f"{least['curvature']:g}"
    yield "Largest ratio of curvatures", f"{least['ratio']:g}"
    yield "Sigmas that an octave lists, in its pixels", f"{least['window'][0]:g} to {least['window'][1]:g}"
    yield "Ground", f"{numbers['ground']:.6g} {unit}".rstrip()
    yield "Noise from pixel to pixel", f"{numbers['noise']:.4g} {unit}".rstrip()


def png(figure):
    """A figure as a PNG."""
    octets = io.BytesIO()
    figure.savefig(octets, format="png", dpi=100)
    return octets.getvalue()
