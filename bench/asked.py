"""What bench/pipe and bench/serve load and ask for: points, items of 6 kB, and requests of each kind, the same in every run."""
import calendar
import json
import os
import random
import subprocess
import sys
import time
import urllib.parse

POINTS = int(os.environ.get("POINTS", 100_000))
LOAD = int(os.environ.get("LOAD", 1_000))
BANDS = 22
FIRST_YEAR = 2023
MONTHS = 24
BOX = 20
ROOT = os.path.dirname(os.path.dirname(os.path.abspath(__file__)))


def program():
    """The program that STACD names, or the repository's own, which is proved and built first where that isn't done."""
    named = os.environ.get("STACD")
    if named:
        return os.path.abspath(named)
    subprocess.run([os.path.join(ROOT, "stacd"), "page", "1"], stdin=subprocess.DEVNULL, stdout=subprocess.DEVNULL, check=True)
    return os.path.join(ROOT, "crates", "stacd", "out", "stacd")


def moment(chance, year):
    first = calendar.timegm((year, 1, 1, 0, 0, 0))
    return time.strftime("%Y-%m-%dT%H:%M:%SZ", time.gmtime(first + chance.randrange(MONTHS * 730 * 3600)))


def point(number):
    chance = random.Random(number)
    return ('{"type":"Feature","id":"P%07d","geometry":{"type":"Point","coordinates":[%.4f,%.4f]},"properties":{"datetime":"%s","eo:cloud_cover":%.2f}}'
            % (number, chance.uniform(-180, 180), chance.uniform(-90, 90), moment(chance, FIRST_YEAR), chance.uniform(0, 100)))


def scene(number):
    """An item of 6 kB, of the years before those of the points."""
    chance = random.Random(-1 - number)
    west, south = round(chance.uniform(-179, 178), 6), round(chance.uniform(-89, 88), 6)
    ring = [[west, south], [west + 1, south], [west + 1, south + 1], [west, south + 1], [west, south]]
    ring = ",".join("[%.6f,%.6f]" % (x, y) for x, y in ring)
    name = "S2A_%010d_L2A" % number
    assets = ",".join(
        '"B%02d":{"href":"https://scenes.example/%s/B%02d.tif","type":"image/tiff; application=geotiff; profile=cloud-optimized",'
        '"title":"Band %d","roles":["data","reflectance"],"raster:bands":[{"nodata":0,"data_type":"uint16","scale":0.0001,"offset":-0.1}]}'
        % (band, name, band, band) for band in range(BANDS))
    return ('{"type":"Feature","stac_version":"1.0.0","id":"%s","geometry":{"type":"Polygon","coordinates":[[%s]]},'
            '"bbox":[%.6f,%.6f,%.6f,%.6f],"properties":{"datetime":"%s","platform":"sentinel-2a","eo:cloud_cover":%.2f,"gsd":10},'
            '"links":[],"assets":{%s}}'
            % (name, ring, west, south, west + 1, south + 1, moment(chance, FIRST_YEAR - 2), chance.uniform(0, 100), assets))


def loads(item, count, size):
    """The bodies of loads of that many items each, count items in all."""
    for at in range(0, count, size):
        items = ",".join(item(number) for number in range(at, min(at + size, count)))
        yield '{"type":"FeatureCollection","features":[%s]}' % items


def collection(name):
    return json.dumps({"id": name, "catalogue:cut": "month"})


def request(method, path, body=""):
    length = "Content-Length: %d\r\n" % len(body) if method == "POST" else ""
    return ("%s %s HTTP/1.1\r\nHost: h\r\n%s\r\n%s" % (method, path, length, body)).encode()


def bbox(chance):
    west, south = chance.randrange(-180, 180 - BOX), chance.randrange(-90, 90 - BOX)
    return "bbox=%d,%d,%d,%d" % (west, south, west + BOX, south + BOX)


def month(chance):
    at = chance.randrange(MONTHS)
    year, number = FIRST_YEAR + at // 12, at % 12 + 1
    return "datetime=%d-%02d-01T00:00:00Z/%d-%02d-%02dT23:59:59Z" % (year, number, year, number, calendar.monthrange(year, number)[1])


def name(chance):
    return "P%07d" % chance.randrange(POINTS)


CLOUDLESS = "filter=" + urllib.parse.quote("eo:cloud_cover < 20")
PATHS = {
    "landing page": lambda chance: "/",
    "item": lambda chance: "/collections/points/items/" + name(chance),
    "10 ids": lambda chance: "/search?ids=" + ",".join(name(chance) for _ in range(10)),
    "latest 10": lambda chance: "/search?limit=10",
    "latest 10 in a box": lambda chance: "/search?limit=10&" + bbox(chance),
    "box and month": lambda chance: "/search?limit=10&%s&%s" % (bbox(chance), month(chance)),
    "box, month and clouds": lambda chance: "/search?limit=10&%s&%s&%s" % (bbox(chance), month(chance), CLOUDLESS),
}


def paths(kind, count):
    chance = random.Random(kind)
    return [PATHS[kind](chance) for _ in range(count)]


def fail(text):
    sys.exit("%s: %s" % (os.path.join("bench", os.path.basename(sys.argv[0])), text))
