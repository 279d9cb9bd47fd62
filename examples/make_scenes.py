#!/usr/bin/env python3
"""make_scenes.py [FOLDER]: writes 200 made-up Sentinel-2 scenes in two collections, each as a collection's document and a
FeatureCollection of its items. The folder is that of this script where none is given.

The scenes are 100 passes over ten tiles from January to April 2024, at the levels 1C and 2A. Tiles, grids, footprints and
the members of the projection extension are those of the real tiles; clouds and times of day are made up. Each run writes the
same bytes. Links of the collections begin with http://127.0.0.1:8080/, which the proxy writes anew as the public address."""
import datetime
import json
import math
import pathlib
import random
import sys

SERVER = "http://127.0.0.1:8080"
FILES = "https://scenes.example.org"
TILES = ["31UDS", "31UES", "31UET", "31UFS", "31UFT", "31UFU", "32ULB", "32ULC", "32UMB", "32UMC"]
PASSES = 10
DAYS_BETWEEN = 12
FIRST_DAY = datetime.date(2024, 1, 3)
TILE_METRES = 109800
LEVELS = {
    "sentinel-2-l1c": ("L1C", "Level 1C", "Top of the atmosphere", {"visual": ("TCI", 10), "nir": ("B08", 10)}),
    "sentinel-2-l2a": ("L2A", "Level 2A", "Surface reflectance", {"visual": ("TCI", 10), "nir": ("B08", 10), "scl": ("SCL", 20)}),
}
EXTENSIONS = [
    "https://stac-extensions.github.io/eo/v1.1.0/schema.json",
    "https://stac-extensions.github.io/grid/v1.1.0/schema.json",
    "https://stac-extensions.github.io/projection/v1.1.0/schema.json",
    "https://stac-extensions.github.io/view/v1.0.0/schema.json",
]


def corner_of(tile):
    """The UTM zone, and the west and north edges of a tile: its 100 km square, opened to whole multiples of 60 m."""
    zone, column, row = int(tile[:2]), tile[3], tile[4]
    columns = ["STUVWXYZ", "ABCDEFGH", "JKLMNPQR"][zone % 3]
    rows = "ABCDEFGHJKLMNPQRSTUV"
    east = 100000 * (columns.index(column) + 1)
    north = 4000000 + 100000 * ((rows.index(row) - (0 if zone % 2 else 5)) % 20)
    return zone, east // 60 * 60, -(-(north + 100000) // 60) * 60


def degrees_of(zone, east, north):
    """Longitude and latitude of a place in a northern UTM zone (WGS 84), to six digits."""
    a, f, k0 = 6378137.0, 1 / 298.257223563, 0.9996
    e2 = f * (2 - f)
    e1 = (1 - math.sqrt(1 - e2)) / (1 + math.sqrt(1 - e2))
    mu = north / k0 / (a * (1 - e2 / 4 - 3 * e2**2 / 64 - 5 * e2**3 / 256))
    foot = mu + (3 * e1 / 2 - 27 * e1**3 / 32) * math.sin(2 * mu) + (21 * e1**2 / 16 - 55 * e1**4 / 32) * math.sin(4 * mu)
    foot += 151 * e1**3 / 96 * math.sin(6 * mu) + 1097 * e1**4 / 512 * math.sin(8 * mu)
    sine, cosine, tangent = math.sin(foot), math.cos(foot), math.tan(foot)
    ep2 = e2 / (1 - e2)
    c, t = ep2 * cosine**2, tangent**2
    n = a / math.sqrt(1 - e2 * sine**2)
    r = a * (1 - e2) / (1 - e2 * sine**2) ** 1.5
    d = (east - 500000) / (n * k0)
    inner = d**2 / 2 - (5 + 3 * t + 10 * c - 4 * c**2 - 9 * ep2) * d**4 / 24
    inner += (61 + 90 * t + 298 * c + 45 * t**2 - 252 * ep2 - 3 * c**2) * d**6 / 720
    latitude = foot - n * tangent / r * inner
    longitude = d - (1 + 2 * t + c) * d**3 / 6 + (5 - 2 * c + 28 * t - 3 * c**2 + 8 * ep2 + 24 * t**2) * d**5 / 120
    return [round(zone * 6 - 183 + math.degrees(longitude / cosine), 6), round(math.degrees(latitude), 6)]


def footprint_of(zone, west, north, cut):
    """The ring of what was seen of a tile, counterclockwise: all, or all but a strip at its western edge."""
    south, east = north - TILE_METRES, west + TILE_METRES
    corners = [(west + cut, north), (west + cut // 2, south), (east, south), (east, north), (west + cut, north)]
    return [degrees_of(zone, *corner) for corner in corners]


def asset_of(folder, name, metres, west, north):
    size = TILE_METRES // metres
    return {
        "href": "%s/%s/%s.tif" % (FILES, folder, name),
        "type": "image/tiff; application=geotiff; profile=cloud-optimized",
        "roles": ["visual" if name == "TCI" else "data"],
        "gsd": metres,
        "proj:shape": [size, size],
        "proj:transform": [metres, 0, west, 0, -metres, north],
    }


def passes():
    """The passes: what the scenes of both levels have in common."""
    chance = random.Random(2024)
    for number, tile in enumerate(TILES):
        for turn in range(PASSES):
            day = FIRST_DAY + datetime.timedelta(days=DAYS_BETWEEN * turn + number % 5)
            moment = "%sT10:%02d:%02d.%03dZ" % (day, 31 + number, chance.randrange(60), chance.randrange(1000))
            yield {
                "tile": tile,
                "day": day,
                "moment": moment,
                "platform": "ab"[turn % 2],
                "cloud": round(100 * chance.random() ** 1.5, 2),
                "sun": (round(150 + 20 * chance.random(), 2), round(15 + 3 * turn + chance.random(), 2)),
                "cut": 0 if turn % 3 else 12000 + 600 * number,
            }


def scene_of(seen, collection):
    level, _, _, assets = LEVELS[collection]
    tile, day = seen["tile"], seen["day"]
    zone, west, north = corner_of(tile)
    name = "S2%s_%s_%s_0_%s" % (seen["platform"].upper(), tile, day.strftime("%Y%m%d"), level)
    ring = footprint_of(zone, west, north, seen["cut"])
    folder = "%s/%d/%s/%s/%d/%d/%s" % (collection, zone, tile[2], tile[3:], day.year, day.month, name)
    return {
        "type": "Feature",
        "stac_version": "1.0.0",
        "stac_extensions": EXTENSIONS,
        "id": name,
        "collection": collection,
        "geometry": {"type": "Polygon", "coordinates": [ring]},
        "bbox": [min(p[0] for p in ring), min(p[1] for p in ring), max(p[0] for p in ring), max(p[1] for p in ring)],
        "properties": {
            "datetime": seen["moment"],
            "platform": "sentinel-2" + seen["platform"],
            "constellation": "sentinel-2",
            "instruments": ["msi"],
            "gsd": 10,
            "eo:cloud_cover": seen["cloud"],
            "grid:code": "MGRS-" + tile,
            "view:sun_azimuth": seen["sun"][0],
            "view:sun_elevation": seen["sun"][1],
            "proj:epsg": 32600 + zone,
            "proj:bbox": [west, north - TILE_METRES, west + TILE_METRES, north],
        },
        "assets": {key: asset_of(folder, file, metres, west, north) for key, (file, metres) in assets.items()},
        "links": [],
    }


def collection_of(name, items):
    level, title, what, _ = LEVELS[name]
    boxes = [item["bbox"] for item in items]
    times = sorted(item["properties"]["datetime"] for item in items)
    here = "%s/collections/%s" % (SERVER, name)
    return {
        "type": "Collection",
        "stac_version": "1.0.0",
        "id": name,
        "title": "Sentinel-2 " + title,
        "description": "%s, made-up scenes of ten tiles (%s)" % (what, level),
        "license": "proprietary",
        "itemType": "feature",
        "extent": {
            "spatial": {"bbox": [[pick(box[at] for box in boxes) for at, pick in enumerate((min, min, max, max))]]},
            "temporal": {"interval": [[times[0], times[-1]]]},
        },
        "catalogue:cut": "month",
        "links": [
            {"rel": "self", "type": "application/json", "href": here},
            {"rel": "root", "type": "application/json", "href": SERVER + "/"},
            {"rel": "items", "type": "application/geo+json", "href": here + "/items"},
            {"rel": "http://www.opengis.net/def/rel/ogc/1.0/queryables", "type": "application/schema+json", "href": here + "/queryables"},
        ],
    }


def main():
    folder = pathlib.Path(sys.argv[1]) if len(sys.argv) > 1 else pathlib.Path(__file__).resolve().parent
    for name in LEVELS:
        items = [scene_of(seen, name) for seen in passes()]
        lines = ",\n".join(json.dumps(item, separators=(",", ":")) for item in items)
        (folder / (name + ".items.json")).write_text('{"type":"FeatureCollection","features":[\n%s\n]}\n' % lines)
        (folder / (name + ".collection.json")).write_text(json.dumps(collection_of(name, items), indent=1) + "\n")


main()
