#!/usr/bin/env python3
"""Times the reading of a large manifest beside `wc` and beside a plain Python script of the same rules.

    bench/manifest.py PROGRAM [MEGABYTES]

PROGRAM is the built `keep_bench`. The manifest has many streams and many segments; it is made afresh. The figures are
ratios to `wc` in the same run, and the peak of memory as a multiple of the text."""
import hashlib
import os
import re
import resource
import subprocess
import sys
import tempfile
import time


def manifest(size):
    """Lines of 4 blocks and 40 segments each, until the text has this many bytes."""
    pieces, total, line = [], 0, 0
    while total < size:
        digests = [hashlib.md5(b"%d/%d" % (line, i)).hexdigest() for i in range(4)]
        blocks = " ".join(d + "+1000000" for d in digests)
        files = " ".join("%d:%d:file\\040%d.txt" % (i * 100000, 100000, i) for i in range(40))
        piece = "./dir%d %s %s\n" % (line, blocks, files)
        pieces.append(piece)
        total += len(piece)
        line += 1
    return "".join(pieces).encode()


LOCATOR = re.compile(rb"[0-9a-f]{32}\+([0-9]{1,19})(\+[A-Z][A-Za-z0-9@_-]*)*\Z")
SEGMENT = re.compile(rb"([0-9]{1,19}):([0-9]{1,19}):(.*)\Z", re.S)
ESCAPE = re.compile(rb"\\(?:([0-3][0-7]{2})|(\\))")


def decode(name):
    return ESCAPE.sub(lambda m: bytes([int(m[1], 8)]) if m[1] else b"\\", name)


def read(text):
    """A plain reader of the same rules."""
    streams = []
    for line in text.split(b"\n")[:-1]:
        tokens = line.split(b" ")
        name, at, total, locators = decode(tokens[0]), 1, 0, []
        while at < len(tokens) and (found := LOCATOR.match(tokens[at])):
            locators.append(tokens[at])
            total += int(found[1])
            at += 1
        segments = []
        for token in tokens[at:]:
            found = SEGMENT.match(token)
            position, size, file = int(found[1]), int(found[2]), decode(found[3])
            assert position + size <= total
            assert all(part not in (b"", b".", b"..") for part in file.split(b"/"))
            segments.append((position, size, file))
        assert locators and segments
        streams.append((name, locators, segments))
    return streams


def run(words, path):
    """Seconds and peak megabytes of a command that reads the file."""
    with open(path, "rb") as source:
        start = time.monotonic()
        child = subprocess.Popen(words, stdin=source, stdout=subprocess.PIPE)
        output = child.stdout.read()
        _, status, usage = os.wait4(child.pid, 0)
        taken = time.monotonic() - start
    assert status == 0, words
    return taken, usage.ru_maxrss / 1024, output.decode().strip()


def main():
    program, megabytes = sys.argv[1], int(sys.argv[2]) if len(sys.argv) > 2 else 100
    text = manifest(megabytes * 1000000)
    with tempfile.NamedTemporaryFile() as file:
        file.write(text)
        file.flush()
        size = len(text) / 1048576
        wc, _, _ = run(["wc"], file.name)
        ours, peak, said = run([program, "manifest"], file.name)
        plain, _, _ = run([sys.executable, __file__, "--plain"], file.name)
        print("text: %.0f MiB; %s" % (size, said))
        print("wc: %.2f s" % wc)
        print("keep_manifest: %.2f s, %.1f times wc, peak memory %.1f times the text" % (ours, ours / wc, peak / size))
        print("python: %.2f s, %.1f times wc, %.1f times keep_manifest" % (plain, plain / wc, plain / ours))


if __name__ == "__main__":
    if sys.argv[1:] == ["--plain"]:
        print(len(read(sys.stdin.buffer.read())), "streams")
    else:
        main()
