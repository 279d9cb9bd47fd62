#!/usr/bin/env python3
"""kill.py PROGRAM ROUNDS [SEED]: ends `stacd keep` by SIGKILL at a random moment, so many times, and looks for what was loaded.

In each round two connections load at the same time, each one load after the other; a copy of the journal is made meanwhile. Then
the server is killed, and the journal is read here by its format: every load that was answered is there, whole, once, in its
connection's order, and no other but those that were sent. Then the server is started anew on it and has to answer the same, and
one on the copy. It prints the first difference, with the seed, and ends with status 0 only where there is none. A kill leaves
what was written, so it shows what is written when, and not what a machine that stops would lose."""
import http.client
import json
import os
import random
import shutil
import socket
import subprocess
import sys
import tempfile
import threading
import time

SECONDS = 20
MOST_LOADS = 400
MOST_SECONDS = 0.5
LOADERS = 2
UPSERT = 4


class Server:
    """`stacd keep` over a file, which is killed at the block's end."""

    def __init__(self, program, file):
        self.words = [program, "keep", "0", str(LOADERS + 1), "1000000", file]

    def __enter__(self):
        for _ in range(3):
            with socket.socket() as taken:
                taken.bind(("127.0.0.1", 0))
                self.port = taken.getsockname()[1]
            self.words[2] = str(self.port)
            self.process = subprocess.Popen(self.words, stdin=subprocess.DEVNULL, stdout=subprocess.PIPE, stderr=subprocess.STDOUT)
            if self.listens():
                return self
            self.kill()
        raise AssertionError("the server doesn't listen: %r" % self.process.stdout.read())

    def __exit__(self, *_):
        self.kill()
        self.process.stdout.close()

    def listens(self):
        end = time.monotonic() + SECONDS
        while time.monotonic() < end and self.process.poll() is None:
            try:
                socket.create_connection(("127.0.0.1", self.port), 1).close()
                return True
            except OSError:
                time.sleep(0.02)
        return False

    def kill(self):
        self.process.kill()
        self.process.wait()


class Connection:
    def __init__(self, server):
        self.http = http.client.HTTPConnection("127.0.0.1", server.port, timeout=SECONDS)
        self.revision = 0

    def ask(self, method, target, body=None):
        """The status and the body of the reply."""
        self.http.request(method, target, body)
        reply = self.http.getresponse()
        text = reply.read()
        self.revision = int(reply.getheader("Catalogue-Revision", -1))
        return reply.status, text

    def wants(self, status, method, target, body=None):
        came = self.ask(method, target, body)
        same("%s %s" % (method, target), status, came[0], came[1])
        return json.loads(came[1])


def same(what, wanted, came, beside=""):
    if wanted != came:
        raise AssertionError("%s: wanted %.2000r, got %.2000r (%.2000r)" % (what, wanted, came, beside))


def item(name, number, size):
    """An item whose text grows with the size."""
    properties = {"datetime": "2024-%02d-01T00:00:00Z" % (1 + number % 12), "load": number, "text": "x" * size}
    return {"type": "Feature", "collection": "k", "id": name, "geometry": None, "properties": properties}


class Loader(threading.Thread):
    """Sends loads one after the other, until the connection ends. Each upserts items of its own, and one that all its loads share."""

    def __init__(self, server, name, seed):
        super().__init__()
        self.connection, self.name, self.chance = Connection(server), name, random.Random(seed)
        self.sent, self.answered, self.fault = [], [], None

    def load(self, number):
        size = self.chance.choice([10, 10, 10, 500, 6000])
        items = [item("%s-%d-%d" % (self.name, number, k), number, size) for k in range(self.chance.randrange(1, 20))]
        return items + [item(self.name, number, 0)]

    def run(self):
        try:
            for number in range(MOST_LOADS):
                items = self.load(number)
                body = json.dumps({"type": "FeatureCollection", "features": items})
                self.sent.append(items)
                status, text = self.connection.ask("POST", "/collections/k/items?upsert=true", body)
                if status != 201:
                    self.fault = "a load was answered %d %r" % (status, text)
                    return
                self.answered.append(json.loads(text)["revision"])
        except (OSError, ValueError, http.client.HTTPException):
            pass


def records(file):
    """The records of a journal: the kind, the number of the worker and the fields of each."""
    with open(file, "rb") as opened:
        bytes_ = opened.read()
    found, at = [], 0
    while at < len(bytes_) and len(bytes_) > 1 and bytes_[at] == 1:
        size = int.from_bytes(bytes_[at + 1 : at + 9], "big")
        payload = bytes_[at + 9 : at + 9 + size]
        same("a record's bytes, and a gate behind them", True, len(payload) == size and at + 9 + size < len(bytes_), at)
        found.append((payload[0], int.from_bytes(payload[1:5], "big"), fields(payload[5:])))
        at += 9 + size
    return found


def fields(bytes_):
    found, at = [], 0
    while at < len(bytes_):
        size = int.from_bytes(bytes_[at : at + 8], "big")
        found.append(bytes_[at + 8 : at + 8 + size])
        at += 8 + size
    return found


class Wanted:
    """What the journal has to have: the loads of the rounds before, and then those of this round's connections."""

    def __init__(self):
        self.loads, self.items = [], {}

    def adds(self, file, loaders, least):
        """How the journal goes on from what it had: each load of a connection that was answered up to the moment, which `least` has, in order, and none that
        wasn't sent."""
        found = [record[2] for record in records(file) if record[0] == UPSERT]
        same("the loads of the rounds before", self.loads, found[: len(self.loads)])
        new, taken = found[len(self.loads) :], {loader.name: 0 for loader in loaders}
        for load in new:
            documents = [json.loads(document) for document in load[1:]]
            name = documents[-1]["id"]
            sent = next((loader.sent for loader in loaders if loader.name == name), [])
            same("a load that was sent", True, taken.get(name, 0) < len(sent), name)
            same("load %d of %s" % (taken[name], name), sent[taken[name]], documents)
            taken[name] += 1
        for loader in loaders:
            same("the loads of %s, of which so many were answered" % loader.name, True, taken[loader.name] >= least[loader.name], taken)
        return new

    def keep(self, new):
        self.loads += new
        for load in new:
            for document in load[1:]:
                document = json.loads(document)
                self.items[document["id"]] = document

    def stands(self, server, extra=()):
        """The server that was started anew answers what the journal has, and one load a record."""
        wanted = dict(self.items)
        for load in extra:
            wanted.update((document["id"], document) for document in map(json.loads, load[1:]))
        one = Connection(server)
        came, target = {}, "/collections/k/items?limit=1000&sortby=id"
        while target:
            page = one.wants(200, "GET", target)
            for document in page["features"]:
                same("an item stands on one page", True, document["id"] not in came, document["id"])
                came[document["id"]] = document
            links = [link["href"] for link in page["links"] if link["rel"] == "next"]
            target = links[0][links[0].index("/", 8) :] if links else None
        same("the ids of all items", sorted(wanted), sorted(came))
        for name, document in wanted.items():
            same("item %s" % name, document, came[name])
        same("the revision", 1 + len(self.loads) + len(extra), one.revision)
        one.http.close()


def round_of(program, folder, number, wanted, chance):
    file, copy = os.path.join(folder, "journal"), os.path.join(folder, "copy")
    with Server(program, file) as server:
        loaders = [Loader(server, "r%d%s" % (number, "ab"[k]), chance.random()) for k in range(LOADERS)]
        for loader in loaders:
            loader.start()
        time.sleep(chance.uniform(0, MOST_SECONDS))
        least = {loader.name: len(loader.answered) for loader in loaders}
        shutil.copyfile(file, copy)
        time.sleep(chance.uniform(0, MOST_SECONDS / 4))
    for loader in loaders:
        loader.join()
        same("the replies of %s" % loader.name, None, loader.fault)
        same("the revisions told to %s rise" % loader.name, sorted(set(loader.answered)), loader.answered)
    copied = wanted.adds(copy, loaders, least)
    if number % 10 == 0:
        with Server(program, copy) as server:
            wanted.stands(server, copied)
    new = wanted.adds(file, loaders, {loader.name: len(loader.answered) for loader in loaders})
    wanted.keep(new)
    with Server(program, file) as server:
        wanted.stands(server)
    return len(new)


def main():
    program, rounds = sys.argv[1], int(sys.argv[2])
    seed = int(sys.argv[3]) if len(sys.argv) > 3 else random.randrange(1 << 32)
    chance, total, wanted = random.Random(seed), 0, None
    for number in range(rounds):
        if number % 10 == 0:  # each ten rounds begin with an empty file
            folder = tempfile.TemporaryDirectory(dir=os.environ.get("FOLDER"))
            wanted = Wanted()
            with Server(program, os.path.join(folder.name, "journal")) as server:
                Connection(server).wants(201, "POST", "/collections", '{"id":"k","catalogue:cut":"month"}')
        try:
            total += round_of(program, folder.name, number, wanted, chance)
        except (AssertionError, OSError, ValueError, http.client.HTTPException) as fault:
            print("tests/kill.py: round %d, seed %d: %s" % (number, seed, fault), file=sys.stderr)
            return 1
    print("after each of %d kills all loads that were answered are there, %d loads in all" % (rounds, total))
    return 0


sys.exit(main())
