#!/usr/bin/env python3
"""Times the reading of HTTP requests beside a plain loop over httparse, which parses each head where it lies and copies nothing.

    bench/wire.py PROGRAM

PROGRAM is the built `keep_bench`. It does a task once for each of its words, so a time is that of ten tasks less that of none,
over ten. A head of 60,000 bytes and a body of 1 MiB are read in one piece and in pieces of one byte: were each piece to cost
the bytes before it, the ratio would be in the thousands."""
import resource
import subprocess
import sys
import tempfile
import time

SMALL = b"GET /acbd18db4cc2f85cedef654fccc4a4d8+3 HTTP/1.1\r\nHost: keep\r\nAuthorization: Bearer alice\r\nA: bcdef\r\n\r\n"


def fields(size, count):
    """A head of this many bytes with this many fields."""
    start = b"GET / HTTP/1.1\r\n"
    each = (size - len(start) - 2) // count
    lines = [b"X%02d: " % number + b"x" * (each - 7) + b"\r\n" for number in range(count)]
    return start + b"".join(lines) + b"\r\n"


def put(size):
    return b"PUT /a HTTP/1.1\r\nContent-Length: %d\r\n\r\n" % size + b"y" * size


def timed(program, task, times, path):
    """The least time of three runs that do the task this many times, and what the first task said."""
    best, said = None, ""
    for _ in range(3):
        with open(path, "rb") as source:
            start = time.monotonic()
            done = subprocess.run([program] + [task] * times, stdin=source, stdout=subprocess.PIPE)
            taken = time.monotonic() - start
        best = taken if best is None else min(best, taken)
        said = done.stdout.decode().split("\n")[0]
    return best, said


def main():
    program = sys.argv[1]
    rows = [
        ("requests of %d bytes" % len(SMALL), SMALL, 200000),
        ("a body of 1 MiB", put(1 << 20), 200),
        ("a body of 64 MiB", put(1 << 26), 4),
        ("a head of 60,000 bytes, 1 field", fields(60000, 1), 200),
        ("a head of 60,000 bytes, 64 fields", fields(60000, 64), 200),
    ]
    for name, one, count in rows:
        with tempfile.NamedTemporaryFile("wb") as file:
            for _ in range(count):
                file.write(one)
            file.flush()
            nothing, _ = timed(program, "requests", 0, file.name)
            heads, expected = timed(program, "heads", 10, file.name)
            whole, said = timed(program, "requests", 10, file.name)
            assert said == expected, (said, expected)
            cut = None
            if len(one) < 1 << 26:
                cut, said = timed(program, "requests-by-byte", 1, file.name)
                assert said == expected, (said, expected)
        whole, heads = (whole - nothing) / 10, (heads - nothing) / 10
        alone = "httparse alone is %.1f times as fast" % (whole / heads) if heads > 0.002 else "httparse alone takes no time to speak of"
        print("%d times %s: %.0f a second, %.0f MB a second; %s" % (
            count, name, count / whole, count * len(one) / whole / 1e6, alone))
        if cut is not None:
            print("  in pieces of one byte %.1f ns a byte, %.1f times as long" % (
                (cut - nothing) / (count * len(one)) * 1e9, (cut - nothing) / whole))
    print("peak memory of all runs: %d MiB" % (resource.getrusage(resource.RUSAGE_CHILDREN).ru_maxrss >> 10))


if __name__ == "__main__":
    main()
