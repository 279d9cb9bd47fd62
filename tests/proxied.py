#!/usr/bin/env python3
"""proxied.py COMMAND ...: what tests/proxy.sh asks of the server behind a proxy beside curl.

    points COUNT FIRST BYTES     prints a FeatureCollection of so many points, each padded by so many bytes
    local FILE TILE SCENES       prints the scenes of the tile, their picture being that file of 1098 by 1098 pixels
    links BASE URL               the links of the document at the URL begin with BASE
    pages BASE COLLECTION COUNT  by GET and by POST, `next` leads through all items, each once, and stays at BASE
    paths BASE COLLECTION ITEM   each path that BASE/api tells answers GET with 200
    slow BASE CLIENTS SECONDS    each answer comes within a second while so many slow clients hold connections
    rates DIRECT PROXIED         prints both rates of the latest 10; the second is at least a third of the first

It ends with status 0 only where that holds."""
import http.client
import json
import selectors
import socket
import ssl
import sys
import threading
import time
import urllib.parse

WITHIN = 1.0
TRUSTED = ssl.create_default_context()


def same(what, wanted, came):
    if wanted != came:
        sys.exit("%s: wanted %r, got %r" % (what, wanted, came))


def asked(url, body=None):
    """The status and the JSON body of the reply, on a connection of its own."""
    parts = urllib.parse.urlsplit(url)
    if parts.scheme == "https":
        connection = http.client.HTTPSConnection(parts.netloc, timeout=20, context=TRUSTED)
    else:
        connection = http.client.HTTPConnection(parts.netloc, timeout=20)
    target = urllib.parse.urlunsplit(("", "", parts.path, parts.query, ""))
    connection.request("GET" if body is None else "POST", target, None if body is None else json.dumps(body))
    reply = connection.getresponse()
    text = reply.read()
    connection.close()
    return reply.status, json.loads(text)


def points(count, first, size):
    features = []
    for k in range(int(first), int(first) + int(count)):
        place = [round(k * 0.37 % 360 - 180, 6), round(k * 0.11 % 160 - 80, 6)]
        moment = "2024-%02d-%02dT%02d:%02d:00Z" % (1 + k // 1440 % 12, 1 + k // 60 % 28, k // 7 % 24, k % 60)
        properties = {"datetime": moment, "value": k}
        if int(size):
            properties["padding"] = "x" * int(size)
        geometry = {"type": "Point", "coordinates": place}
        features.append({"type": "Feature", "id": "p%06d" % k, "geometry": geometry, "properties": properties})
    json.dump({"type": "FeatureCollection", "features": features}, sys.stdout)


def local(file, tile, scenes):
    with open(scenes) as source:
        items = [item for item in json.load(source)["features"] if item["properties"]["grid:code"] == "MGRS-" + tile]
    for item in items:
        west, _, _, north = item["properties"]["proj:bbox"]
        shape = {"proj:shape": [1098, 1098], "proj:transform": [100, 0, west, 0, -100, north]}
        item["assets"] = {"visual": {**item["assets"]["visual"], **shape, "href": file}}
        del item["collection"]
    json.dump({"type": "FeatureCollection", "features": items}, sys.stdout)


def links_in(tree):
    """The addresses of all links anywhere in a document."""
    if isinstance(tree, list):
        return [href for part in tree for href in links_in(part)]
    if not isinstance(tree, dict):
        return []
    own = [tree["href"]] if "rel" in tree and "href" in tree else []
    return own + [href for part in tree.values() for href in links_in(part)]


def links(base, url):
    status, tree = asked(url)
    found = links_in(tree)
    same("links of " + url, (200, True), (status, bool(found)))
    same("links of " + url, [], [href for href in found if not href.startswith(base + "/")])


def next_of(page):
    return next((link for link in page["links"] if link["rel"] == "next"), None)


def pages(base, collection, count):
    for body in (None, {"collections": [collection], "limit": 300}):
        url = "%s/collections/%s/items?limit=300" % (base, collection) if body is None else base + "/search"
        names = []
        while True:
            status, page = asked(url, body)
            same("a page of " + url, 200, status)
            names += [item["id"] for item in page["features"]]
            link = next_of(page)
            if link is None:
                break
            same("the start of next", base + "/", link["href"][: len(base) + 1])
            url, body = link["href"], None if body is None else {**body, **link["body"]}
        same("items, each once", (int(count), int(count)), (len(names), len(set(names))))


def paths(base, collection, item):
    _, tree = asked(base + "/api")
    same("paths", True, len(tree["paths"]) > 8)
    for path in tree["paths"]:
        status, _ = asked(base + path.format(collectionId=collection, featureId=item))
        same("GET " + path, 200, status)


class Slow:
    """Connections to a proxy of three kinds, a third each: half a head, a byte a second, nothing. One that the proxy ends
    is opened anew."""

    def __init__(self, place, count):
        self.place, self.count, self.ended, self.stop = place, count, 0, False
        self.kinds = selectors.DefaultSelector()

    def open(self, number):
        held = socket.create_connection(self.place, timeout=5)
        if number % 3 == 0:
            held.sendall(b"GET /search?limit=1 HTTP/1.1\r\nHost: h\r\nX-Half")
        elif number % 9 == 1:
            held.sendall(b"POST /search HTTP/1.1\r\nHost: h\r\nContent-Length: 1000\r\n\r\n")
        held.setblocking(False)
        self.kinds.register(held, selectors.EVENT_READ, number)

    def trickle(self):
        """One byte on each connection of the second kind."""
        for key in list(self.kinds.get_map().values()):
            if key.data % 3 == 1:
                try:
                    key.fileobj.send(b"G")
                except OSError:
                    pass

    def again(self, seconds):
        """What was ended within so many seconds is opened anew."""
        for key, _ in self.kinds.select(seconds):
            self.kinds.unregister(key.fileobj)
            key.fileobj.close()
            self.ended += 1
            self.open(key.data)

    def run(self):
        turn = time.monotonic()
        while not self.stop:
            self.again(0.1)
            if time.monotonic() > turn + 1:
                turn += 1
                self.trickle()


def slow(base, count, seconds):
    parts = urllib.parse.urlsplit(base)
    crowd = Slow((parts.hostname, parts.port), int(count))
    for number in range(crowd.count):
        crowd.open(number)
        time.sleep(0.002)
    thread = threading.Thread(target=crowd.run, daemon=True)
    thread.start()
    longest, end, turn = 0.0, time.monotonic() + float(seconds), 0
    questions = [("/", None), ("/search?limit=10", None), ("/search", {"limit": 10}), ("/collections", None)]
    while time.monotonic() < end:
        path, body = questions[turn % len(questions)]
        start = time.monotonic()
        status, _ = asked(base + path, body)
        longest = max(longest, time.monotonic() - start)
        same("%s amid slow clients" % path, 200, status)
        turn += 1
        time.sleep(0.1)
    same("held connections", crowd.count, len(crowd.kinds.get_map()))
    crowd.stop = True
    thread.join()
    print("%d answers, the slowest in %.3f s; %d slow clients were ended" % (turn, longest, crowd.ended))
    same("each answer within %.0f s" % WITHIN, True, longest < WITHIN)


def rate(connection, seconds):
    """How many answers came in so many seconds."""
    count, end = 0, time.monotonic() + seconds
    while time.monotonic() < end:
        connection.request("GET", "/search?limit=10")
        reply = connection.getresponse()
        reply.read()
        same("the latest 10", 200, reply.status)
        count += 1
    return count


def rates(direct, proxied):
    """By turns, so that both meet the same machine; up to three times, since other work may fall on one of the two."""
    both = [http.client.HTTPConnection(urllib.parse.urlsplit(base).netloc, timeout=20) for base in (direct, proxied)]
    seconds, turns = 0.5, 8
    for _ in range(3):
        counts = [0, 0]
        for _ in range(turns):
            for k in range(2):
                counts[k] += rate(both[k], seconds)
        told = tuple(count / (seconds * turns) for count in counts)
        print("the latest 10 on one connection: %.0f a second directly, %.0f through the proxy" % told)
        if counts[1] * 3 >= counts[0]:
            return
    same("at least a third", True, False)


COMMANDS = {"points": points, "local": local, "links": links, "pages": pages, "paths": paths, "slow": slow, "rates": rates}
COMMANDS[sys.argv[1]](*sys.argv[2:])
