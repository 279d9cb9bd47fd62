#!/usr/bin/env python3
"""hostile.py PROGRAM: runs `stacd pipe` and `stacd page` over cut, long, deep and malformed input, and over files that can't be
read or written, `stacd serve` over a port that is taken, and `stacd keep` over files that aren't a journal.

What is wanted is stated here by hand, out of the tables of limits and refusals: the status of the program, the line that it
tells, and the replies' statuses with what they say of a refusal. It prints what differs, and ends with status 0 only where
nothing does."""
import fcntl
import json
import os
import re
import socket
import subprocess
import sys
import tempfile
import urllib.parse

SECONDS = 60
PROGRAM = sys.argv[1]
PIPE = [PROGRAM, "pipe", "http://h"]
HEAD = re.compile(rb"HTTP/1\.1 (\d{3}) [^\r]*\r\n(?:[^\r]+\r\n)*?Content-Length: (\d+)\r\n(?:[^\r]+\r\n)*\r\n")
failed = []


def run(words, given):
    """The program's status, output and the line that it tells."""
    done = subprocess.run(words, input=given, capture_output=True, timeout=SECONDS)
    return done.returncode, done.stdout, done.stderr.decode()


def replies(output):
    """The status of each reply, and for a refusal its code and what is told about it."""
    found, at = [], 0
    while at < len(output):
        head = HEAD.match(output, at)
        if head is None:
            return found + [output[at : at + 80]]
        end = head.end() + int(head[2])
        status, body = int(head[1]), output[head.end() : end]
        if status < 400:
            found.append(status)
        else:
            told = json.loads(body)
            found.append((status, " ".join(filter(None, [told["code"], told["description"]]))))
        at = end
    return found


def wants(name, wanted, came):
    if wanted != came:
        failed.append("%s: wanted %r, got %r" % (name, wanted, came))


def asks(name, given, wanted, status=0, told=""):
    """One connection: the replies to these bytes, the program's status and the line that it tells."""
    came = run(PIPE, given)
    wants(name, (status, wanted, told), (came[0], replies(came[1]), came[2]))


def get(target):
    return b"GET %s HTTP/1.1\r\nHost: h\r\n\r\n" % target.encode()


def post(target, body):
    return b"POST %s HTTP/1.1\r\nHost: h\r\nContent-Length: %d\r\n\r\n%s" % (target.encode(), len(body), body)


def searched(**pairs):
    return get("/search?" + urllib.parse.urlencode(pairs))


def cut_requests():
    """Each front of three requests: whole ones are answered, and of one that is cut so many bytes are told."""
    item = b'{"type":"Feature","id":"a","geometry":null,"properties":{"datetime":"2024-01-02T00:00:00Z"}}'
    requests = [post("/collections", b'{"id":"s2"}'), post("/collections/s2/items", item), get("/search")]
    statuses = [201, 201, 200]
    for number, request in enumerate(requests):
        before = b"".join(requests[:number])
        for size in range(1, len(request)):
            told = "stacd: cut after %d bytes\n" % size
            asks("%d bytes of request %d" % (size, number), before + request[:size], statuses[:number], 3, told)
    asks("no request", b"", [])
    asks("three requests", b"".join(requests), statuses)


def heads():
    """Lines and bytes of a head, and lengths of a body."""
    start = b"GET / HTTP/1.1\r\n"
    filled = lambda size: start + b"A: " + b"b" * (size - len(start) - 3 - 4) + b"\r\n\r\n"
    bad_head, bad_length = "stacd: bad head\n", "stacd: bad length\n"
    asks("64 header lines", start + b"A: b\r\n" * 64 + b"\r\n", [200])
    asks("65 header lines", start + b"A: b\r\n" * 65 + b"\r\n", [(431, "BadHead TooLarge")], 3, bad_head)
    asks("a head of 65,536 bytes", filled(65536), [200])
    asks("a head of 65,537 bytes", filled(65537), [(431, "BadHead TooLarge")], 3, bad_head)
    asks("65,536 bytes without an end", filled(65538)[:65536], [(431, "BadHead TooLarge")], 3, bad_head)
    asks("65,535 bytes without an end", filled(65538)[:65535], [], 3, "stacd: cut after 65535 bytes\n")
    asks("a line without a colon", start + b"A b\r\n\r\n", [(400, "BadHead Malformed")], 3, bad_head)
    asks("two lengths", start + b"Content-Length: 0\r\n" * 2 + b"\r\n", [(400, "BadLength Unreadable")], 3, bad_length)
    asks("a length with a sign", start + b"Content-Length: +0\r\n\r\n", [(400, "BadLength Unreadable")], 3, bad_length)
    asks("chunks", start + b"Transfer-Encoding: chunked\r\n\r\n", [(501, "BadLength Coded")], 3, bad_length)
    long = b"POST /search HTTP/1.1\r\nContent-Length: 16777217\r\n\r\n"
    asks("a body of 2^24 bytes and one", long, [(413, "BadLength TooLong")], 3, bad_length)
    asks("a body of 2^24 bytes", post("/search", b"{}" + b" " * (2**24 - 2)), [200])
    asks("no length", b"POST /search HTTP/1.1\r\n\r\n", [(411, "NoLength")])
    asks("a refusal leaves the connection open", get("/search?limit=0") + get("/search"), [(400, "BadLimit"), 200])


def bodies():
    """Depth and width of JSON."""
    deep = lambda depth: b'{"a":' + b"[" * (depth - 1) + b"]" * (depth - 1) + b"}"
    asks("JSON of depth 64", post("/search", deep(64)), [200])
    asks("JSON of depth 65", post("/search", deep(65)), [(400, "BadBody TooDeep 68")])
    asks("brackets alone", post("/search", b"[" * 2**24), [(400, "BadBody TooDeep 64")])
    asks("digits", post("/search", b'{"a":%s}' % (b"1" * 34)), [200])
    asks("one digit more", post("/search", b'{"a":%s}' % (b"1" * 35)), [(400, "BadBody NumberTooWide 5")])
    asks("a name twice", post("/search", b'{"a":1,"a":2}'), [(400, "BadBody Duplicate 7")])
    asks("no UTF-8", post("/search", b'{"a":"\xff"}'), [(400, "BadBody NotUtf8 6")])


def queries():
    """Filters, ids and tokens at their limits."""
    nots = lambda count: "NOT (" * count + "a = 1" + ")" * count
    chain = lambda count: " OR ".join(["a IS NULL"] * count)
    asks("a filter of depth 24", searched(filter=nots(22)), [200])
    asks("a filter of depth 25", searched(filter=nots(23)), [(400, "BadFilter TooDeep")])
    asks("1,023 nodes", searched(filter=chain(511)), [200])
    asks("1,025 nodes", searched(filter=chain(512)), [(400, "BadFilter TooManyNodes")])
    asks("64 parentheses", searched(filter="(" * 64 + "a = 1" + ")" * 64), [200])
    asks("65 parentheses", searched(filter="(" * 65 + "a = 1" + ")" * 65), [(400, "BadFilter TooDeep")])
    ids = lambda count: json.dumps({"ids": ["i%d" % number for number in range(count)]}).encode()
    asks("10,000 ids", post("/search", ids(10000)), [200])
    asks("10,001 ids", post("/search", ids(10001)), [(400, "BadIds")])
    token = '[1704067200000000000,"s2","b"]'.encode().hex()
    asks("a token", searched(token=token), [200])
    asks("a token of odd length", searched(token=token[1:]), [(400, "BadToken NotHex")])
    asks("a token in upper case", searched(token=token.upper()), [(400, "BadToken NotHex")])
    asks("a token of another sort", searched(token=token, sortby="id,gsd"), [(400, "BadToken WrongCount 3")])
    asks("5 sort keys", searched(sortby="a,b,c,d,e"), [(400, "BadSort TooManyKeys 5")])


def faults():
    """Input that can't be read, output that can't be written, and words that are no command."""
    line = b'{"type":"Feature","collection":"c","id":"i","geometry":null,"properties":{"datetime":"2024-01-02T00:00:00Z"}}\n'
    ends = lambda words, given, out: subprocess.run(words, stdin=given, stdout=out, stderr=subprocess.PIPE, timeout=SECONDS)
    told = lambda done: (done.returncode, done.stderr.decode())
    for words in ([PROGRAM, "page", "3"], PIPE):
        folder = os.open("/", os.O_RDONLY)
        wants("%s: a folder as input" % words[1], (4, "stacd: read fault\n"), told(ends(words, folder, subprocess.DEVNULL)))
        os.close(folder)
    if os.path.exists("/dev/full"):
        with open("/dev/full", "wb") as full:
            wants("a full device", (5, "stacd: write fault\n"), told(ends([PROGRAM, "page", "3"], subprocess.DEVNULL, full)))
    with socket.create_server(("127.0.0.1", 0)) as taken:
        port = str(taken.getsockname()[1])
        wants("a port that is taken", (7, "stacd: listen fault\n"), told(ends([PROGRAM, "serve", port, "1", "1", "1"], subprocess.DEVNULL, subprocess.DEVNULL)))
    wants("a bad line", (3, b"", "stacd: bad line 2\n"), run([PROGRAM, "page", "3"], line + b"{}\n"))
    wants("no lines", 0, run([PROGRAM, "page", "3"], b"")[0])
    for words in ([], ["page"], ["page", "0"], ["page", "x"], ["pipe"], ["serve", "8080"], ["serve", "0", "1", "1", "1"], ["page", "-1"],
                  ["keep", "8080", "1", "1"], ["keep", "8080", "9", "1", "f"], ["keep", "8080", "1", "1", "-f"]):
        came = run([PROGRAM, *words], line)
        wants("the words %r" % words, (2, b"", True), (came[0], came[1], came[2].startswith("usage: stacd page LIMIT, ")))


def record(kind, *fields):
    """A record behind its open gate, by the number 1."""
    payload = bytes([kind, 0, 0, 0, 1]) + b"".join(len(field).to_bytes(8, "big") + field for field in fields)
    return b"\1" + len(payload).to_bytes(8, "big") + payload


def journals():
    """Files of `stacd keep`, at a port that is taken: what opens ends with that fault, and what doesn't stays as it is."""
    opens, fails = (7, "stacd: listen fault\n"), (8, "stacd: disk fault\n")
    bad = lambda number: (3, "stacd: bad record %d\n" % number)
    collection = record(1, b'{"id":"s2"}')
    files = [
        ("no byte", b"", opens),
        ("an open gate alone", b"\1", opens),
        ("a gate that is neither", b"\5\xff\xff", opens),
        ("an open gate and a byte", b"\1\0", bad(0)),
        ("a record", collection + b"\0", opens),
        ("a record, and what is ignored", collection + b"\0" + collection, opens),
        ("a record without its gate", collection, bad(0)),
        ("a record that is cut", collection[:-1], bad(0)),
        ("a length of 2^64 less 1", b"\1" + b"\xff" * 8 + b"\0", bad(0)),
        ("a kind that there isn't", collection + record(9, b"s2") + b"\0", bad(1)),
        ("a field too many", collection + record(2, b"s2", b"") + b"\0", bad(1)),
        ("a collection twice", collection * 2 + b"\0", bad(1)),
        ("an item that isn't there", collection + record(7, b"s2", b"b") + b"\0", bad(1)),
    ]
    with tempfile.TemporaryDirectory() as folder, socket.create_server(("127.0.0.1", 0)) as taken:
        file = os.path.join(folder, "journal")

        def ends(name):
            words = [PROGRAM, "keep", str(taken.getsockname()[1]), "1", "1", name]
            done = subprocess.run(words, stdin=subprocess.DEVNULL, capture_output=True, timeout=SECONDS)
            return done.returncode, done.stderr.decode()

        for name, content, wanted in files:
            with open(file, "wb") as out:
                out.write(content)
            wants("a journal of %s" % name, wanted, ends(file))
            with open(file, "rb") as left:
                wants("%s is left" % name, content if len(content) > 1 else b"\0", left.read())
        with open(file, "rb") as held:
            fcntl.flock(held, fcntl.LOCK_EX)
            wants("a journal that another process has", fails, ends(file))
        wants("a folder as journal", fails, ends(folder))
        wants("a journal in no folder", fails, ends(os.path.join(folder, "no", "journal")))
        wants("a journal without a name", fails, ends(""))
        if os.path.exists("/dev/full"):
            wants("a full device as journal", fails, ends("/dev/full"))


for table in (cut_requests, heads, bodies, queries, faults, journals):
    table()
for text in failed[:20]:
    print("tests/hostile.py: " + text, file=sys.stderr)
if not failed:
    print("hostile input is answered as it should be")
sys.exit(1 if failed else 0)
