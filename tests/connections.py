#!/usr/bin/env python3
"""connections.py PORT: asks a server with two workers and no collection `pages` and `both`, on connections that stay open.

It pages through 25 items by the links of the pages, and lets two connections load and read at the same time. It prints what
differs, and ends with status 0 only where nothing does."""
import http.client
import json
import sys
import threading

SECONDS = 20
PORT = int(sys.argv[1])
BASE = "http://127.0.0.1:%d" % PORT


class Connection:
    """One connection, which stays open, and the latest revision that it was told."""

    def __init__(self):
        self.http = http.client.HTTPConnection("127.0.0.1", PORT, timeout=SECONDS)
        self.revision = 0

    def ask(self, status, method, target, body=None, seen=None):
        """The body of the reply, which has the status and no older revision than the one before."""
        headers = {} if seen is None else {"Catalogue-Seen": str(seen)}
        self.http.request(method, target, None if body is None else json.dumps(body), headers)
        reply = self.http.getresponse()
        text = reply.read()
        revision = int(reply.getheader("Catalogue-Revision", -1))
        asked = "%s %s" % (method, target)
        same(asked, status, reply.status, text)
        same(asked + " is no older than what was told", True, revision >= self.revision, revision)
        same(asked + " leaves the connection open", None, reply.getheader("Connection"), "")
        self.revision = revision
        return json.loads(text)

    def close(self):
        self.http.close()


def same(what, wanted, came, beside):
    if wanted != came:
        raise AssertionError("%s: wanted %r, got %r (%r)" % (what, wanted, came, beside))


def scene(name, day):
    return {
        "type": "Feature",
        "id": name,
        "geometry": None,
        "properties": {"datetime": "2024-%02d-%02dT00:00:00Z" % (1 + day // 28, 1 + day % 28)},
    }


def ids(page):
    return [item["id"] for item in page["features"]]


def next_of(page):
    return next((link for link in page["links"] if link["rel"] == "next"), None)


def pages_by_get(connection, target):
    """The ids of each page, from the first on along the links."""
    pages = []
    while True:
        page = connection.ask(200, "GET", target)
        same("numberReturned", len(page["features"]), page["numberReturned"], page)
        pages.append(ids(page))
        link = next_of(page)
        if link is None:
            return pages
        same("the link's start", BASE, link["href"][: len(BASE)], link)
        target = link["href"][len(BASE) :]


def pages_by_post(connection, body):
    pages = []
    while True:
        page = connection.ask(200, "POST", "/search", body)
        pages.append(ids(page))
        link = next_of(page)
        if link is None:
            return pages
        same("the link", (BASE + "/search", "POST", True), (link["href"], link["method"], link["merge"]), link)
        body = {**body, **link["body"]}


def cut(names, limit):
    return [names[at : at + limit] for at in range(0, len(names), limit)]


def pages():
    """25 items, of which several share a day, in pages of 10: none is left out, and none comes twice."""
    one = Connection()
    one.ask(201, "POST", "/collections", {"id": "pages", "catalogue:cut": "month"})
    days = {"i%02d" % k: (k * 7) % 11 * 9 for k in range(25)}
    items = [scene(name, day) for name, day in days.items()]
    one.ask(201, "POST", "/collections/pages/items", {"type": "FeatureCollection", "features": items})
    newest = sorted(days, key=lambda name: (-days[name], name))
    same("pages of 10", cut(newest, 10), pages_by_get(one, "/collections/pages/items?limit=10"), "")
    same("pages of 7", cut(newest, 7), pages_by_get(one, "/search?limit=7&collections=pages"), "")
    same("pages by id", cut(sorted(days), 10), pages_by_get(one, "/search?sortby=id&collections=pages&limit=10"), "")
    same("pages by POST", cut(newest, 10), pages_by_post(one, {"limit": 10, "collections": ["pages"]}), "")
    first = one.ask(200, "GET", "/collections/pages/items?limit=10")
    one.ask(200, "DELETE", "/collections/pages/items/" + newest[9])
    one.ask(200, "DELETE", "/collections/pages/items/" + newest[12])
    one.ask(201, "POST", "/collections/pages/items", scene("zz", 200))
    rest = [name for name in newest[10:] if name != newest[12]]
    same("pages amid loads", cut(rest, 10), pages_by_get(one, next_of(first)["href"][len(BASE) :]), "")
    one.close()


def two_in_turn():
    """Two connections that stay open: what one loads the other sees, if it says that it knows of it."""
    one, two = Connection(), Connection()
    one.ask(201, "POST", "/collections", {"id": "both", "catalogue:cut": "year"})
    two.ask(200, "GET", "/collections/both", seen=one.revision)
    one.ask(201, "POST", "/collections/both/items", scene("a", 0))
    same("the other's item", ["a"], ids(two.ask(200, "GET", "/collections/both/items", seen=one.revision)), "")
    two.ask(200, "DELETE", "/collections/both/items/a")
    one.ask(404, "GET", "/collections/both/items/a", seen=two.revision)
    behind = one.ask(409, "GET", "/search", seen=one.revision + 1)
    same("a revision ahead", {"code": "Behind", "description": str(one.revision)}, behind, "")
    one.close()
    two.close()


def load_many(name, count, told, faults):
    """Loads items one after the other, and looks for each at once."""
    try:
        connection = Connection()
        for k in range(count):
            done = connection.ask(201, "POST", "/collections/both/items", scene("%s%02d" % (name, k), k))
            same("the revision of a load", connection.revision, done["revision"], done)
            told.append(done["revision"])
            page = connection.ask(200, "GET", "/collections/both/items?limit=10000")
            own = sorted(i for i in ids(page) if i.startswith(name))
            same("what was loaded so far", ["%s%02d" % (name, j) for j in range(k + 1)], own, page)
        connection.close()
    except (AssertionError, OSError, ValueError, http.client.HTTPException) as fault:
        faults.append(fault)


def two_at_once():
    """Two connections that load at the same time: each load is there once, and has a revision of its own."""
    count, told, faults = 20, [[], []], []
    threads = [threading.Thread(target=load_many, args=("ab"[n], count, told[n], faults)) for n in range(2)]
    for thread in threads:
        thread.start()
    for thread in threads:
        thread.join()
    if faults:
        raise faults[0]
    for revisions in told:
        same("revisions of one connection rise", sorted(revisions), revisions, "")
    all_told = sorted(told[0] + told[1])
    one = Connection()
    names = sorted(ids(one.ask(200, "GET", "/collections/both/items?limit=10000", seen=all_told[-1])))
    same("all items", ["%s%02d" % (name, k) for name in "ab" for k in range(count)], names, "")
    same("a revision for each load", list(range(one.revision - 2 * count + 1, one.revision + 1)), all_told, "")
    one.close()


for check in (pages, two_in_turn, two_at_once):
    try:
        check()
    except (AssertionError, OSError, ValueError, http.client.HTTPException) as fault:
        print("tests/connections.py: %s: %s" % (check.__name__, fault), file=sys.stderr)
        sys.exit(1)
