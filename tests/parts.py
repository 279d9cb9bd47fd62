#!/usr/bin/env python3
"""parts.py PROBE FILE..: asks the probe each input of the files, and compares its answers.

A file NAME.txt has lines HEX<TAB>ANSWER; the kind that the probe is asked is NAME up to its first point. It prints
'N passed, M failed' and the first differences, and ends with status 0 only where all pass."""
import pathlib
import subprocess
import sys

SECONDS = 120
SHOWN = 5


def failures(probe, file):
    """The cases of a file, and those whose answer differs."""
    kind = file.name.split(".")[0]
    cases = [line.split("\t", 1) for line in file.read_text(encoding="utf-8").split("\n")[:-1]]
    asked = "".join("%s %s\n" % (kind, case[0]) for case in cases)
    done = subprocess.run([probe], input=asked.encode(), capture_output=True, timeout=SECONDS)
    answers = done.stdout.decode("utf-8", "backslashreplace").split("\n")[:-1]
    answers += ["no answer (status %d)" % done.returncode] * (len(cases) - len(answers))
    return cases, [(given, wanted, came) for (given, wanted), came in zip(cases, answers) if wanted != came]


def main():
    probe, *files = sys.argv[1:]
    passed = failed = 0
    for file in map(pathlib.Path, files):
        cases, wrong = failures(probe, file)
        passed, failed = passed + len(cases) - len(wrong), failed + len(wrong)
        for given, wanted, came in wrong[:SHOWN]:
            print("%s %s: wanted %r, got %r" % (file.name, given[:400], wanted, came))
    print("%d passed, %d failed" % (passed, failed))
    return 0 if passed and not failed else 1


sys.exit(main())
