"""The words of the command line."""
import argparse
from importlib.metadata import version

from .detector import Thresholds

EXITS = (
    "0 done; 2 wrong use; 3 an input that can't be read; 4 an output that can't be written; 5 some of several maps failed; "
    "10+N refused with number N; 130 stopped"
)


def ground_of(text):
    """The ground option: median or a number."""
    return text if text == "median" else float(text)


def whole(text):
    """A whole number from 0 on."""
    number = int(text)
    if number < 0:
        raise ValueError(text)
    return number


def reading(parser):
    """The options that say how a map is read."""
    parser.add_argument("--band", type=int, default=1, help="band of a GeoTIFF (1)")
    parser.add_argument("--variable", help="variable of a NetCDF file or a Zarr folder")


def detect_options(parser):
    """The options of detect."""
    parser.add_argument("maps", nargs="+", metavar="MAP", help="GeoTIFF, NetCDF, Zarr or .npy")
    parser.add_argument("--set", default="standard", help="the name standard, or a file with a set record or a set in TOML")
    parser.add_argument("-o", "--output", help=".geojson, .csv or .gpkg; {name} stands for the map's name")
    parser.add_argument("--picture", help=".png, .svg or .pdf; {name} as above")
    parser.add_argument("--report", help=".html: one page with the picture, the table and the numbers of the run; {name} as above")
    least = parser.add_mutually_exclusive_group()
    least.add_argument("--peak", type=float, help="least peak, in the map's unit; a spot's height is about twice its peak")
    least.add_argument("--snr", type=float, help="least signal to noise (8, where no peak is given)")
    parser.add_argument("--kind", choices=("bright", "dark", "both"), default="bright", help="bright is more gas than around")
    parser.add_argument("--ground", type=ground_of, default="median", help="taken off first: median or a number")
    parser.add_argument("--fill", type=whole, default=0, metavar="N", help="fill holes of at most N lost pixels, each pixel by the mean of its neighbours (0)")
    parser.add_argument("--octaves", type=int, nargs="+", help="octaves to look at (all)")
    parser.add_argument("--curvature", type=float, default=Thresholds(0).sigma, help="least curvature over scale")
    parser.add_argument("--ratio", type=float, default=Thresholds(0).ratio, help="largest ratio of curvatures in the plane")
    parser.add_argument("--window", type=float, nargs=2, default=Thresholds(0)[3:], metavar=("LOW", "HIGH"), help="sigmas that an octave lists")
    parser.add_argument("--jobs", type=int, default=1, help="how many maps to work on at a time")
    parser.add_argument("-q", "--quiet", action="store_true", help="no list on standard output, no progress")
    reading(parser)


def parser(runs):
    """The command's words; `runs` has for each command's name what does its work."""
    top = argparse.ArgumentParser(prog="uramsheg", description="Lists the spots of gas maps.", epilog=f"Exit codes: {EXITS}.")
    top.add_argument("--version", action="version", version=version("uramsheg"))
    parts = top.add_subparsers(dest="command", required=True)
    spots = parts.add_parser("detect", help="list the spots of maps", epilog=f"Exit codes: {EXITS}.")
    detect_options(spots)
    one = parts.add_parser("info", help="say what a map is")
    one.add_argument("map", metavar="MAP")
    reading(one)
    sets = parts.add_parser("set", help="make, show and check sets of tables").add_subparsers(dest="what", required=True)
    made = sets.add_parser("make", help="make the set standard anew, or one for other sigmas")
    made.add_argument("--sigmas", type=float, nargs=4)
    made.add_argument("-o", "--output", help=".toml for text, else a set record; without it text on standard output")
    shown = sets.add_parser("show", help="show a set as TOML")
    checked = sets.add_parser("check", help="say what is wrong with a set")
    for name, part in (("detect", spots), ("info", one), ("make", made), ("show", shown), ("check", checked)):
        part.set_defaults(run=runs[name])
    for part in (shown, checked):
        part.add_argument("set")
    return top
