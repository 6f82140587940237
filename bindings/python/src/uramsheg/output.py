"""Spots in files: GeoJSON in WGS 84, as RFC 7946 has it; CSV and GeoPackage in the map's own reference. A file is there whole or not at all."""
import csv
import json
import os
import tempfile

import numpy as np

ENDINGS = (".geojson", ".json", ".csv", ".gpkg")


def columns(found):
    """The table for people, by name: rank 1 is the strongest peak; None where there is no number. `cause` is 0 beside a size, else a number of NO_SIZE;
    `dx` and `dy` are how far the spot was moved from its own pixel, in the map's pixels."""
    spots = found.spots
    named = {
        "rank": np.arange(1, len(spots) + 1), "x": spots["x"], "y": spots["y"], "map_x": spots["map_x"], "map_y": spots["map_y"],
        "kind": np.where(spots["bright"], "bright", "dark"), "height": spots["height"], "snr": spots["snr"], "size_px": spots["size"],
        "size_m": spots["size_m"], "sigma_px": spots["sigma"], "octave": spots["octave"], "near_lost": spots["near_lost"],
        "cause": spots["cause"], "dx": spots["dx"], "dy": spots["dy"],
    }
    return {name: [plain(value) for value in values] for name, values in named.items()}


def plain(value):
    """A numpy value as Python's own; None where it is not finite."""
    value = value.item()
    return None if isinstance(value, float) and not np.isfinite(value) else value


def save(path, found, about=None):
    """Writes the spots in the kind that the path's ending names. ValueError says why they can't be written so."""
    kind = os.path.splitext(path)[1].lower()
    if kind not in ENDINGS:
        raise ValueError(f"{path}: the known endings are {', '.join(ENDINGS)}")
    if kind == ".csv":
        whole(path, lambda aside: write_csv(aside, columns(found)))
    elif kind == ".gpkg":
        whole(path, lambda aside: write_gpkg(aside, columns(found), found.grid))
    else:
        document = geojson(columns(found), found.grid, finite(about or {}))
        whole(path, lambda aside: write_text(aside, json.dumps(document, indent=1, allow_nan=False) + "\n"))


def finite(value):
    """A value as JSON can hold it: a number that is not finite becomes its name."""
    if isinstance(value, dict):
        return {name: finite(part) for name, part in value.items()}
    if isinstance(value, (list, tuple)):
        return [finite(part) for part in value]
    return str(value) if isinstance(value, float) and not np.isfinite(value) else value


def whole(path, write):
    """Lets `write` write to a file beside the path, and renames it."""
    folder = os.path.dirname(os.path.abspath(path))
    handle, aside = tempfile.mkstemp(dir=folder, prefix=".", suffix=os.path.splitext(path)[1])
    os.close(handle)
    try:
        write(aside)
        os.chmod(aside, 0o666 & ~mask())
        os.replace(aside, path)
    except BaseException:
        os.unlink(aside)
        raise


def mask():
    """The permissions that new files are not to have."""
    now = os.umask(0)
    os.umask(now)
    return now


def write_text(path, text):
    """A text file."""
    with open(path, "w", encoding="utf-8") as out:
        out.write(text)


def write_csv(path, table):
    """One line a spot; an empty field where there is no number."""
    with open(path, "w", newline="", encoding="utf-8") as out:
        writer = csv.writer(out)
        writer.writerow(table)
        writer.writerows(zip(*table.values()))


def geojson(table, grid, about):
    """A FeatureCollection of points in longitude and latitude."""
    east, north = degrees(table["map_x"], table["map_y"], grid)
    rows = [dict(zip(table, row)) for row in zip(*table.values())]
    features = [
        {"type": "Feature", "geometry": {"type": "Point", "coordinates": [round(x, 9), round(y, 9)]}, "properties": row}
        for x, y, row in zip(east, north, rows)
    ]
    return {"type": "FeatureCollection", "uramsheg": about, "features": features}


def degrees(x, y, grid):
    """Longitudes and latitudes of map coordinates."""
    if grid.crs is None:
        if grid.geographic:
            return x, y
        raise ValueError("GeoJSON asks for longitude and latitude, and this map has no reference: write .csv")
    from rasterio.warp import transform

    return transform(grid.crs, "EPSG:4326", x, y) if x else ([], [])


def write_gpkg(path, table, grid):
    """A GeoPackage with one layer, spots, of points in the map's reference."""
    import fiona

    os.unlink(path)
    kinds = {"rank": "int", "octave": "int", "kind": "str", "near_lost": "bool", "cause": "int"}
    schema = {"geometry": "Point", "properties": {name: kinds.get(name, "float") for name in table}}
    reference = grid.crs.to_wkt() if grid.crs is not None else None
    with fiona.open(path, "w", driver="GPKG", layer="spots", schema=schema, crs_wkt=reference) as out:
        for row in zip(*table.values()):
            properties = dict(zip(table, row))
            out.write({"type": "Feature", "geometry": {"type": "Point", "coordinates": (properties["map_x"], properties["map_y"])}, "properties": properties})
