"""uramsheg on the command line."""
import os
import sys
from concurrent.futures import ProcessPoolExecutor
from pathlib import Path
from typing import NamedTuple

import numpy as np

from . import __version__, maps, output, progress
from .detector import Thresholds, octave_count
from .filling import fill
from .finding import SNR, find
from .missing import NO_SIZE
from .options import parser
from .refusals import Refused
from .tables import TablesFault, load, standard


class Failed(Exception):
    """What ends the command: its exit code and a line for people."""

    def __init__(self, code, words):
        super().__init__(code, words)
        self.code, self.words = code, words


def set_named(name):
    """The set `standard`, or the one in a file."""
    try:
        return standard() if name == "standard" else load(name)
    except OSError as error:
        raise Failed(3, f"{name}: {error.strerror}") from None
    except TablesFault as error:
        raise Failed(3, f"{name}: neither a set record nor a set in TOML: {error}") from None
    except Refused as error:
        raise Failed(10 + error.number, f"{name}: {error}") from None


def package(error):
    """The package that an import did not find."""
    return (error.name or str(error)).split(".")[0]


def read_map(path, options):
    """The map in a file."""
    try:
        return maps.read(path, band=options.band, variable=options.variable)
    except ImportError as error:
        raise Failed(3, f"{path}: to read it the Python package {package(error)} is needed") from None
    except OSError as error:
        raise Failed(3, f"{path}: {error.strerror or error}") from None
    except ValueError as error:
        raise Failed(3, f"{path}: {error}") from None


class Answer(NamedTuple):
    """What one map came to: lines for standard output, or a failure."""

    lines: list
    code: int = 0
    words: str = ""


def one_map(path, options):
    """All the work on one map."""
    try:
        given = read_map(path, options)
        values, filled = fill(given.values, options.fill) if options.fill else (given.values, np.zeros(given.values.shape, bool))
        found = searched(path, values, filled, given.grid, options)
        numbers = about(path, given, found, int(filled.sum()), options)
        write_all(given, found, numbers, options)
        return Answer(lines_of(path, given, found, numbers, options))
    except Failed as failure:
        return Answer([], failure.code, failure.words)


def searched(path, values, filled, grid, options):
    """A map's spots; its octaves are shown as they are done where it is the only map."""
    rest = Thresholds(0.0, options.curvature, options.ratio, *options.window)
    octaves = [octave for octave in range(octave_count(*values.shape)) if options.octaves is None or octave in options.octaves]
    try:
        with progress.bar(len(octaves), "octave", options.quiet or len(options.maps) > 1) as bar:
            return find(values, set_named(options.set), peak=options.peak, snr=options.snr, thresholds=rest, ground=options.ground, kind=options.kind,
                        octaves=options.octaves, grid=grid, lost=filled, watch=bar.step)
    except Refused as error:
        raise Failed(10 + error.number, f"{path}: {error}") from None
    except ValueError as error:
        raise Failed(2, f"{path}: {error}") from None


def write_all(given, found, numbers, options):
    """The files that were asked for."""
    writers = (
        (options.output, lambda to: output.save(to, found, numbers)), (options.picture, lambda to: draw(to, given, found)),
        (options.report, lambda to: tell(to, given, found, numbers)),
    )
    for name, write in writers:
        if name is None:
            continue
        to = name.replace("{name}", given.name)
        try:
            write(to)
        except ImportError as error:
            raise Failed(4, f"{to}: to write it the Python package {package(error)} is needed") from None
        except OSError as error:
            raise Failed(4, f"{to}: {error.strerror or error}") from None
        except ValueError as error:
            raise Failed(2, str(error)) from None


def draw(path, given, found):
    """The picture."""
    from . import picture

    output.whole(path, lambda aside: picture.page(given, found).savefig(aside, dpi=100))


def tell(path, given, found, numbers):
    """The report."""
    from . import report

    report.save(path, given, found, numbers)


def about(path, given, found, filled, options):
    """The numbers of the run."""
    least = SNR if options.peak is None and options.snr is None else options.snr
    return {
        "version": __version__, "map": Path(path).name, "set": Path(options.set).name, "unit": given.unit, "ground": found.ground, "noise": found.noise,
        "kind": options.kind, "filled": filled,
        "thresholds": {"peak": options.peak, "snr": least, "curvature": options.curvature, "ratio": options.ratio, "window": list(options.window)},
        "judged": [{"octave": one.octave, "sigma_px": [one.low, one.high], "share": share(one)} for one in found.judged],
        "causes": {str(cause): words for cause, words in NO_SIZE.items()},
    }


def share(judged):
    """The share of an octave's pixels that was judged."""
    return round(float(judged.mask.mean()), 4)


def lines_of(path, given, found, numbers, options):
    """The list for people: the ten strongest, and what was judged."""
    if options.quiet:
        return []
    count = len(found.spots)
    lines = [f"{path}: {count} spot{'' if count == 1 else 's'}; ground {found.ground:.6g}, noise {found.noise:.3g} {given.unit}".rstrip()]
    lines[0] += f"; {numbers['filled']} lost pixels filled" if options.fill else ""
    table = output.columns(found)
    if count:
        lines.append(f"{'rank':>4} {'map x':>14} {'map y':>14} {'height':>10} {'snr':>8} {'size':>10}  kind")
    for place in range(min(count, 10)):
        row = {name: values[place] for name, values in table.items()}
        size = "none" if row["size_px"] is None else f"{row['size_px']:.2f} px" if row["size_m"] is None else f"{row['size_m']:.1f} m"
        snr = "" if row["snr"] is None else f"{row['snr']:.1f}" if row["snr"] < 1e5 else f"{row['snr']:.3g}"
        line = f"{row['rank']:4d} {row['map_x']:14.4f} {row['map_y']:14.4f} {row['height']:10.4g} {snr:>8} {size:>10}  {row['kind']}"
        lines.append(line + (f"  {NO_SIZE[row['cause']]}" if row["cause"] in NO_SIZE else ""))
    if count > 10:
        lines.append(f"... and {count - 10} more")
    judged = [f"{100 * share(one):.0f} % for sigmas {one.low:.3g} to {one.high:.3g} px" for one in found.judged]
    return lines + ["judged: " + ("; ".join(judged) or "nothing, the map is too small")]


def detect(options):
    """Lists the spots of maps, in the order in which they were named."""
    set_named(options.set)
    several = len(options.maps) > 1
    for name in (options.output, options.picture, options.report):
        if name is not None and several and "{name}" not in name:
            raise Failed(2, f"{name}: with several maps an output's name needs {{name}} in it, as in spots/{{name}}.geojson")
    failures = []
    with progress.bar(len(options.maps), "map", options.quiet or not several) as bar:
        for answer in worked(options):
            bar.step()
            for line in answer.lines:
                bar.say(line, sys.stdout)
            if answer.code:
                failures.append(answer)
                bar.say(f"uramsheg: {answer.words}", sys.stderr)
    if failures:
        if several:
            raise Failed(5, f"{len(failures)} of {len(options.maps)} maps failed")
        raise Failed(failures[0].code, "")


def worked(options):
    """The answers, one map after another or several at a time."""
    if options.jobs == 1 or len(options.maps) == 1:
        yield from (one_map(path, options) for path in options.maps)
        return
    with ProcessPoolExecutor(options.jobs) as pool:
        yield from pool.map(one_map, options.maps, [options] * len(options.maps))


def info(options):
    """Says what a map is."""
    given = read_map(options.map, options)
    rows, cols = given.values.shape
    finite = given.values[np.isfinite(given.values)]
    print(f"{options.map}: {rows} rows by {cols} cols, {given.values.size - len(finite)} pixels lost")
    if len(finite):
        print(f"values {finite.min():.6g} to {finite.max():.6g}, median {np.median(finite):.6g} {given.unit}".rstrip())
    side = given.grid.pixel(np.array([cols / 2]), np.array([rows / 2]))[0]
    print(f"transform {', '.join(f'{number:.10g}' for number in given.grid.transform)}; a pixel is " + ("of unknown size" if np.isnan(side) else f"{side:.6g} m"))


def set_make(options):
    """Makes the set standard anew, or one in the same way for other sigmas."""
    from . import make

    tables = make.made(options.sigmas or make.SIGMAS)
    if options.output is None:
        print(tables.to_toml(), end="")
        return
    try:
        octets = tables.to_toml().encode() if options.output.endswith(".toml") else tables.to_bytes()
        output.whole(options.output, lambda aside: Path(aside).write_bytes(octets))
    except OSError as error:
        raise Failed(4, f"{options.output}: {error.strerror}") from None


def set_show(options):
    """Shows a set as TOML."""
    print(set_named(options.set).to_toml(), end="")


def set_check(options):
    """Says that a set is good, or everything that is wrong with it."""
    set_named(options.set)
    print(f"{options.set}: good")


#: what does each command's work
RUNS = {"detect": detect, "info": info, "make": set_make, "show": set_show, "check": set_check}


def main(words=None):
    """Runs the command; answers its exit code."""
    options = parser(RUNS).parse_args(words)
    try:
        options.run(options)
        sys.stdout.flush()
        return 0
    except Failed as failure:
        if failure.words:
            print(f"uramsheg: {failure.words}", file=sys.stderr)
        return failure.code
    except KeyboardInterrupt:
        return 130
    except BrokenPipeError:  # whoever read the list has gone
        os.dup2(os.open(os.devnull, os.O_WRONLY), sys.stdout.fileno())
        return 0
