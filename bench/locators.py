#!/usr/bin/env python3
"""Times the reading of a million locators beside `grep -E` of the same grammar.

    bench/locators.py PROGRAM [LOCATORS]

PROGRAM is the built `keep_bench`. The locators are made afresh, every tenth of them one that is refused. Both commands
read the same file; the figures are the ratio of their times in the same run."""
import hashlib
import os
import subprocess
import sys
import tempfile
import time

GRAMMAR = r"^[0-9a-f]{32}\+[0-9]{1,19}(\+[A-Z][A-Za-z0-9@_-]*)*$"


def locator(number):
    digest = hashlib.md5(b"%d" % number).hexdigest()
    permission = "+A" + hashlib.sha1(b"%d" % number).hexdigest() + "@%08x" % (1700000000 + number)
    hints = ["", permission, "+K0123" + permission, "+Zx"][number % 4]
    if number % 10 == 9:
        digest = digest[:-1] + "G"
    return "%s+%d%s" % (digest, number * 7919 % 67108864, hints)


def timed(words, path):
    with open(path, "rb") as source:
        start = time.monotonic()
        done = subprocess.run(words, stdin=source, stdout=subprocess.PIPE, env={**os.environ, "LC_ALL": "C"})
        taken = time.monotonic() - start
    return taken, done.stdout.decode().strip()


def main():
    program, count = sys.argv[1], int(sys.argv[2]) if len(sys.argv) > 2 else 1000000
    with tempfile.NamedTemporaryFile("w") as file:
        file.write("\n".join(locator(number) for number in range(count)))
        file.write("\n")
        file.flush()
        grep, found = timed(["grep", "-c", "-E", GRAMMAR], file.name)
        ours, said = timed([program, "locators"], file.name)
        assert said == found + " locators", (said, found)
        print("%d lines, %s" % (count, said))
        print("grep -E: %.2f s" % grep)
        print("keep_locator: %.2f s, %.2f times grep -E" % (ours, ours / grep))


if __name__ == "__main__":
    main()
