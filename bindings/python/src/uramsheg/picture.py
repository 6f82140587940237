"""The picture of a map and its spots: the map in ground coordinates with circles by size, the strongest close by, and what was judged at each size."""
import textwrap

import numpy as np
from matplotlib.colors import ListedColormap
from matplotlib.figure import Figure
from matplotlib.patches import Ellipse, Rectangle
from matplotlib.transforms import Affine2D

from .missing import NO_SIZE

BRIGHT, DARK, PAPER = "#c2255c", "#1971c2", "#f1f3f5"
COLOURS = "YlOrBr"
#: how many sizes a circle's radius is
SIZES = 2.0
STRONGEST = 6


def page(given, found):
    """The whole picture, a figure of matplotlib's."""
    figure = Figure(figsize=(15, 8.6))
    left, right = figure.subfigures(1, 2, width_ratios=[1.55, 1])
    limits = limits_of(given.values)
    main = left.add_axes([0.11, 0.15, 0.87, 0.78])
    image = field(main, given, limits)
    circles(main, found, numbered=STRONGEST)
    count = len(found.spots)
    dashed = "; dashed: no size" if np.isnan(found.spots["size"]).any() else ""
    title = f"{given.name}: {count} spot{'' if count == 1 else 's'} (circles of {SIZES:g} sizes{dashed}; hatched: lost)"
    main.set_title(title, fontsize=11, loc="left", parse_math=False)
    bar = left.add_axes([0.3, 0.055, 0.45, 0.018])
    left.colorbar(image, cax=bar, orientation="horizontal", extend="both").set_label(given.unit or "value", fontsize=9, parse_math=False)
    bar.tick_params(labelsize=8)
    for place in range(min(STRONGEST, count)):
        close(right.add_axes([0.02 + 0.325 * (place % 3), 0.66 - 0.32 * (place // 3), 0.29, 0.25]), given, found, place, limits)
    strip(right, given, found)
    return figure


def limits_of(values):
    """The values that the colours run between: most of the map's."""
    finite = values[np.isfinite(values)]
    if not len(finite):
        return 0.0, 1.0
    low, high = np.percentile(finite, [2, 99.7])
    return (low, high) if high > low else (low - 0.5, low + 0.5)


def ground(grid):
    """The transform from places in pixels, 0 at a centre, to map coordinates."""
    a, b, c, d, e, f = grid.transform
    return Affine2D(np.array([[a, b, c + (a + b) / 2], [d, e, f + (d + e) / 2], [0, 0, 1]]))


def field(axes, given, limits):
    """The map in ground coordinates, lost pixels hatched."""
    rows, cols = given.values.shape
    axes.add_patch(Rectangle((0, 0), 1, 1, transform=axes.transAxes, fc=PAPER, ec="#adb5bd", hatch="////", lw=0, zorder=0))
    extent = (-0.5, max(cols, 1) - 0.5, max(rows, 1) - 0.5, -0.5)
    shown = given.values if given.values.size else np.full((1, 1), np.nan)
    image = axes.imshow(shown, extent=extent, cmap=COLOURS, vmin=limits[0], vmax=limits[1], interpolation="nearest", transform=ground(given.grid) + axes.transData)
    corners = ground(given.grid).transform([(x, y) for x in extent[:2] for y in extent[2:]])
    axes.set_xlim(corners[:, 0].min(), corners[:, 0].max())
    axes.set_ylim(*((corners[:, 1].max(), corners[:, 1].min()) if plain(given.grid) else (corners[:, 1].min(), corners[:, 1].max())))
    axes.set_aspect("equal")
    axes.ticklabel_format(useOffset=False, style="plain")
    axes.tick_params(labelsize=8)
    across, along = ("longitude", "latitude") if given.grid.geographic else ("col", "row") if plain(given.grid) else ("map x", "map y")
    axes.set_xlabel(across, fontsize=9)
    axes.set_ylabel(along, fontsize=9)
    return image


def plain(grid):
    """Whether map coordinates are places in pixels."""
    return grid.crs is None and not grid.geographic and grid.metres is None and tuple(grid.transform) == (1.0, 0.0, -0.5, 0.0, 1.0, -0.5)


def radius(spot):
    """A circle's radius in pixels; by sigma where the spot has no size."""
    return SIZES * (spot["sigma"] if np.isnan(spot["size"]) else spot["size"])


def circles(axes, found, numbered=0, own=True):
    """A circle around each spot, dashed where it has no size; the strongest numbered. In ground coordinates, or in pixels."""
    turn = ground(found.grid) if own else Affine2D()
    for place, spot in enumerate(found.spots):
        style = "--" if np.isnan(spot["size"]) else "-"
        circle = Ellipse((spot["x"], spot["y"]), 2 * radius(spot), 2 * radius(spot), fill=False, lw=1.2, ec=BRIGHT if spot["bright"] else DARK, ls=style)
        circle.set_transform(turn + axes.transData)
        axes.add_patch(circle)
        if place < numbered:
            corner = turn.transform((spot["x"] + 0.75 * radius(spot), spot["y"] - 0.75 * radius(spot)))
            axes.annotate(str(place + 1), corner, fontsize=8, weight="bold", bbox={"boxstyle": "round,pad=0.15", "fc": "white", "ec": "none", "alpha": 0.8})


def close(axes, given, found, place, limits):
    """One spot close by, with its numbers, and why it has no size where it has none."""
    spot = found.spots[place]
    half = max(6.0, 2.2 * radius(spot))
    ends = (limits[0], max(limits[1], found.ground + 1.05 * spot["height"])) if spot["bright"] else (min(limits[0], found.ground + 1.05 * spot["height"]), limits[1])
    axes.set_facecolor(PAPER)
    axes.imshow(given.values, cmap=COLOURS, vmin=ends[0], vmax=ends[1], interpolation="nearest")
    circles(axes, found, own=False)
    axes.plot(spot["x"], spot["y"], "+", color="black", ms=8, mew=1)
    axes.set_xlim(spot["x"] - half, spot["x"] + half)
    axes.set_ylim(spot["y"] + half, spot["y"] - half)
    axes.set_xticks([])
    axes.set_yticks([])
    size = "none" if np.isnan(spot["size"]) else f"{spot['size']:.2f} px" if np.isnan(spot["size_m"]) else f"{spot['size_m']:.1f} m"
    axes.set_title(f"{place + 1}.  height {spot['height']:.3g}\n     size {size}", fontsize=9, loc="left", linespacing=1.2)
    if spot["cause"] in NO_SIZE:
        box = {"boxstyle": "round,pad=0.2", "fc": "white", "ec": "none", "alpha": 0.8}
        axes.text(0.5, 0.03, textwrap.fill(NO_SIZE[spot["cause"]], 24), fontsize=7.5, ha="center", transform=axes.transAxes, bbox=box)
    digits = 5 if given.grid.geographic else 1
    axes.set_xlabel(f"{spot['map_x']:.{digits}f}, {spot['map_y']:.{digits}f}", fontsize=7.5)


def strip(figure, given, found):
    """For each octave, where spots of its sizes could have been listed."""
    rows, cols = given.values.shape
    figure.text(0.02, 0.265, "Judged, by sigma of spot (dark: too near a lost pixel or the side to be listed)", fontsize=8.5)
    wide = min(0.185, 0.95 / max(len(found.judged), 1) - 0.01)
    metres = float(given.grid.pixel(np.array([cols / 2]), np.array([rows / 2]))[0])
    scale, unit = (1.0, "px") if np.isnan(metres) else (metres, "m")
    for place, one in enumerate(found.judged):
        axes = figure.add_axes([0.02 + (wide + 0.01) * place, 0.04, wide, 0.19], anchor="N")
        axes.imshow(one.mask, cmap=ListedColormap(["#495057", "#b2f2bb"]), vmin=0, vmax=1, interpolation="nearest")
        axes.set_xticks([])
        axes.set_yticks([])
        axes.set_title(f"{one.low * scale:.3g} to {one.high * scale:.3g} {unit}", fontsize=8)
        axes.set_xlabel(f"{100 * one.mask.mean():.0f} %", fontsize=8)
