#!/usr/bin/env python3
"""stopped.py page|pipe STATUS OUT WANTED: whether a run in which memory may have been wanting wrote what it should.

With status 0 OUT has all that WANTED has. With status 6 `page` wrote a front of it, and `pipe` the replies to the requests
before one of them and then the fixed reply to want of memory, or nothing. It ends with status 0 only where that is so."""
import pathlib
import re
import sys

UNAVAILABLE = b"HTTP/1.1 503 Service Unavailable\r\nContent-Length: 0\r\nConnection: close\r\n\r\n"
DONE, NO_MEMORY = 0, 6


def fronts_of_replies(text):
    """What stands before each reply of the text, and the whole text."""
    at, fronts = 0, [b""]
    while at < len(text):
        head = text.index(b"\r\n\r\n", at) + 4
        length = re.search(rb"^Content-Length: (\d+)\r$", text[at:head], re.MULTILINE)
        at = head + int(length[1])
        fronts.append(text[:at])
    return fronts


def is_right(command, status, out, wanted):
    if status == DONE:
        return out == wanted
    if status != NO_MEMORY:
        return False
    if command == "page":
        return wanted.startswith(out)
    return out == b"" or any(out == front + UNAVAILABLE for front in fronts_of_replies(wanted))


def main():
    command, status, *paths = sys.argv[1:]
    out, wanted = (pathlib.Path(path).read_bytes() for path in paths)
    return 0 if is_right(command, int(status), out, wanted) else 1


sys.exit(main())
