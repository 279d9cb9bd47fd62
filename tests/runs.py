#!/usr/bin/env python3
"""runs.py PROGRAM FOLDER..: runs a program over stored cases, and stops at the first that differs.

A case of a folder is NAME.args (the words, one a line), NAME.in (standard input), NAME.out and NAME.err (what it must write, byte
for byte) and NAME.status. It prints 'N passed, M failed' for each folder, and ends with status 0 only where each folder has cases
and all pass."""
import pathlib
import subprocess
import sys

SECONDS = 30


def difference(program, case):
    """What the program does otherwise than the case says, or None."""
    words = case.with_suffix(".args").read_bytes().split(b"\n")[:-1]
    with case.with_suffix(".in").open("rb") as given:
        try:
            done = subprocess.run([program, *words], stdin=given, capture_output=True, timeout=SECONDS)
        except subprocess.TimeoutExpired:
            return "no end within %d seconds" % SECONDS
    wanted = {
        "status": int(case.with_suffix(".status").read_text()),
        "standard output": case.with_suffix(".out").read_bytes(),
        "standard error": case.with_suffix(".err").read_bytes(),
    }
    came = {"status": done.returncode, "standard output": done.stdout, "standard error": done.stderr}
    for what, value in wanted.items():
        if came[what] != value:
            return "%s: wanted %r, got %r" % (what, value, came[what])
    return None


def run(program, folder):
    """Whether all cases of the folder pass, of which there must be some."""
    passed = 0
    for case in sorted(pathlib.Path(folder).glob("*.args")):
        wrong = difference(program, case)
        if wrong:
            print("%s: %s" % (case.with_suffix(""), wrong))
            print("%s: %d passed, 1 failed (the rest wasn't run)" % (folder, passed))
            return False
        passed += 1
    print("%s: %d passed, 0 failed" % (folder, passed))
    return passed > 0


def main():
    program, *folders = sys.argv[1:]
    return 0 if folders and all(run(program, folder) for folder in folders) else 1


sys.exit(main())
