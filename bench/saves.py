#!/usr/bin/env python3
"""Times `keepd run` over one save of a collection of many signed locators, at three sizes.

    bench/saves.py PROGRAM

PROGRAM is the built `keepd`. The yardstick is this script's own making of the same signatures with `hmac`. A save needs no block to be
there: the signatures alone let it pass. A growth in proportion takes twice the time for twice the locators."""
import hashlib
import hmac
import json
import subprocess
import sys
import tempfile
import time

CONFIG = (
    '{"cluster":"zzzzz","ttl":1209600,"skew":1,"secret":"sesame","system_token":"sys","tokens":["alice"],'
    '"devices":[{"capacity":1000}],"servers":[{"uuid":"zzzzz-bi6l4-000000000000000"}],'
    '"mounts":[{"uuid":"zzzzz-nyw5e-000000000000000","server":0,"device":0}],"versions":4,"trash_life":50}\n'
)
EXPIRY = 1700000000 + 1209600


def signed(number):
    digest = hashlib.md5(b"%d" % number).hexdigest()
    text = "%s@alice@%08x@%x" % (digest, EXPIRY, 1209600)
    return "%s+1+A%s@%08x" % (digest, hmac.new(b"sesame", text.encode(), hashlib.sha1).hexdigest(), EXPIRY)


def measure(program, count):
    start = time.monotonic()
    locators = [signed(number) for number in range(count)]
    yardstick = time.monotonic() - start
    manifest = ". %s 0:%d:file\n" % (" ".join(locators), count)
    at = 1700000000000000000
    with tempfile.TemporaryFile("w+") as script:
        script.write(CONFIG)
        script.write(json.dumps({"open": "s", "at": at, "do": "save", "token": "alice", "manifest": manifest, "want": 1}) + "\n")
        script.write(json.dumps({"finish": "s", "at": at}) + "\n")
        script.seek(0)
        start = time.monotonic()
        done = subprocess.run([program, "run"], stdin=script, stdout=subprocess.PIPE)
        taken = time.monotonic() - start
    assert done.returncode == 0 and b"s = Saved" in done.stdout, done
    print("%6d locators: %.3f s, %.2f times the making of the signatures in Python (%.3f s)" % (count, taken, taken / yardstick, yardstick))


if __name__ == "__main__":
    for size in (10000, 20000, 40000):
        measure(sys.argv[1], size)
