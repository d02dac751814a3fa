#!/usr/bin/env python3
"""Times the normal form of a manifest of many files beside a plain Python script of the same rule.

    bench/normal.py PROGRAM [FILES]

PROGRAM is the built `keep_bench`. The manifest has many directories; the files of each come from two streams and stand in no
order. It is made afresh, both read the same text, and both write the same normal form."""
import hashlib
import random
import re
import subprocess
import sys
import tempfile
import time


def manifest(files):
    """Streams of 40 blocks and 50 segments; each file has two segments, which lie in two streams of one directory."""
    random.seed(1)
    lines = []
    for number in range(files // 25):
        digests = [hashlib.md5(b"%d/%d" % (number, i)).hexdigest() for i in range(40)]
        names = ["file%d" % (number // 2 * 50 + i) for i in range(50)]
        random.shuffle(names)
        blocks = " ".join("%s+1000+Khint" % digest for digest in digests)
        segments = " ".join("%d:%d:%s.txt" % (i * 800, 800, name) for i, name in enumerate(names))
        lines.append("./dir%d %s %s\n" % (number // 2, blocks, segments))
    random.shuffle(lines)
    return "".join(lines).encode()


LOCATOR = re.compile(rb"([0-9a-f]{32}\+([0-9]{1,19}))(\+[A-Z][A-Za-z0-9@_-]*)*\Z")
ESCAPE = re.compile(rb"\\(?:([0-3][0-7]{2})|(\\))")


def decode(name):
    return ESCAPE.sub(lambda m: bytes([int(m[1], 8)]) if m[1] else b"\\", name)


def encode(name):
    return b"".join(b"\\%03o" % b if b <= 32 or b in b":\\" else bytes([b]) for b in name)


def files_of(text):
    """The files of a text: from each path to its ranges of stripped locators."""
    from bisect import bisect_right

    files = {}
    for line in text.split(b"\n")[:-1]:
        tokens = line.split(b" ")
        stream, at, starts, blocks, total = decode(tokens[0]), 1, [], [], 0
        while at < len(tokens) and (found := LOCATOR.match(tokens[at])):
            starts.append(total)
            blocks.append((found[1], int(found[2])))
            total += int(found[2])
            at += 1
        for token in tokens[at:]:
            position, size, name = token.split(b":", 2)
            position, size, name = int(position), int(size), decode(name)
            if size == 0 and name == b".":
                continue
            ranges = files.setdefault(stream + b"/" + name, [])
            block, end = max(bisect_right(starts, position) - 1, 0), position + size
            while position < end:
                locator, length = blocks[block]
                offset = position - starts[block]
                part = min(length - offset, end - position)
                if part > 0:
                    if ranges and ranges[-1][0] == locator and ranges[-1][1] + ranges[-1][2] == offset:
                        ranges[-1] = (locator, ranges[-1][1], ranges[-1][2] + part)
                    else:
                        ranges.append((locator, offset, part))
                    position += part
                block += 1
    return files


def normal(text):
    """A plain script of the same rule."""
    directories = {}
    for path, ranges in files_of(text).items():
        directory, _, name = path.rpartition(b"/")
        directories.setdefault(directory, []).append((name, ranges))
    lines = []
    for directory in sorted(directories):
        starts, total, segments = {}, 0, []
        for name, ranges in sorted(directories[directory]):
            spans = []
            for locator, offset, length in ranges:
                if locator not in starts:
                    starts[locator] = total
                    total += int(locator[33:])
                begin = starts[locator] + offset
                if spans and spans[-1][1] == begin:
                    spans[-1][1] = begin + length
                else:
                    spans.append([begin, begin + length])
            written = encode(name)
            segments += [b"%d:%d:%s" % (a, b - a, written) for a, b in spans or [(0, 0)]]
        blocks = list(starts) or [b"d41d8cd98f00b204e9800998ecf8427e+0"]
        lines.append(b" ".join([encode(directory)] + blocks + segments) + b"\n")
    return b"".join(lines)


def timed(words, text):
    """Seconds, and what a command says of the text."""
    with tempfile.TemporaryFile() as file:
        file.write(text)
        file.seek(0)
        start = time.monotonic()
        said = subprocess.run(words, stdin=file, stdout=subprocess.PIPE, check=True).stdout
        return time.monotonic() - start, said


def main():
    program, count = sys.argv[1], int(sys.argv[2]) if len(sys.argv) > 2 else 100000
    text = manifest(count)
    plain, want = timed([sys.executable, __file__, "--plain"], text)
    ours, said = timed([program, "normal"], text)
    assert said == want, "the two normal forms differ"
    print("%d files, %.1f MiB, the same normal form" % (count, len(text) / 1048576))
    print("python: %.2f s" % plain)
    print("keep_normal: %.2f s, %.2f times python" % (ours, ours / plain))


if __name__ == "__main__":
    if sys.argv[1:] == ["--plain"]:
        sys.stdout.buffer.write(normal(sys.stdin.buffer.read()))
    else:
        main()
