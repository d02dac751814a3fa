#!/usr/bin/env python3
"""Times the signing of a manifest of 100,000 locators beside a plain Python script with hmac.

    bench/sign.py PROGRAM [LOCATORS]

PROGRAM is the built `keep_bench`."""
import hashlib
import hmac
import subprocess
import sys
import tempfile
import time

TOKEN, EXPIRY, TTL, SECRET = b"alice", 1700000000, 1209600, b"sesame"


def manifest(count):
    digests = (hashlib.md5(b"%d" % number).hexdigest() for number in range(count))
    return (". " + " ".join(digest + "+1000" for digest in digests) + " 0:1000:file\n").encode()


def signed(text):
    tokens = []
    for token in text.rstrip(b"\n").split(b" "):
        if len(token) > 33 and token[32:33] == b"+":
            text_of = b"%s@%s@%08x@%x" % (token[:32], TOKEN, EXPIRY, TTL)
            token += b"+A%s@%08x" % (hmac.new(SECRET, text_of, hashlib.sha1).hexdigest().encode(), EXPIRY)
        tokens.append(token)
    return b" ".join(tokens) + b"\n"


def main():
    program, count = sys.argv[1], int(sys.argv[2]) if len(sys.argv) > 2 else 100000
    text = manifest(count)
    start = time.monotonic()
    want = signed(text)
    python = time.monotonic() - start
    with tempfile.TemporaryFile() as file:
        file.write(text)
        file.seek(0)
        start = time.monotonic()
        said = subprocess.run([program, "sign"], stdin=file, stdout=subprocess.PIPE, check=True).stdout.decode().strip()
        ours = time.monotonic() - start
    assert said == "%d bytes signed" % len(want), (said, len(want))
    print("%d locators, %s" % (count, said))
    print("python with hmac: %.2f s" % python)
    print("keep_sign: %.2f s, %.2f times python" % (ours, ours / python))


if __name__ == "__main__":
    main()
