#!/usr/bin/env python3
"""Times the reading of put lines by itself, and each of its steps.

    bench/lines.py PROGRAM

PROGRAM is the built `keep_bench`. Blocks of four sizes, each in the line that opens its put, the longest just below the bound of a line; no put is opened.
The steps are: the reader of lines, which finds a line and copies it into its buffer; JSON; the test and the decoding of the digits; and, for all that is
done with a line, `read_line`. Of each the time of a run over the same input that only reads it in and finds its lines is taken off, but for the reader of
lines, of which only the reading in is. Beside each stands Python over the same lines in memory: its own lines, `json.loads`, `bytes.fromhex`, and both.
The least of three runs counts."""
import os
import subprocess
import sys
import tempfile
import time

CONFIG = (
    '{"cluster":"zzzzz","ttl":1209600,"skew":1,"secret":"sesame","system_token":"sys","tokens":["alice"],'
    '"devices":[{"capacity":1099511627776}],"servers":[{"uuid":"zzzzz-bi6l4-000000000000000"}],'
    '"mounts":[{"uuid":"zzzzz-nyw5e-000000000000000","server":0,"device":0}],"versions":4,"trash_life":50}\n'
)
LINE = '{"open":"p%d","at":%d,"do":"put","token":"alice","server":0,"bytes":"%s"}\n'
# How many lines, and the bytes of each block. The longest lines have 1,048,573 to 1,048,575 bytes.
SIZES = [(200000, 16), (50000, 1024), (400, 262144), (200, 524243)]
RUNS = 3
PYTHON = """
import io, json, sys, time
def seconds(work, data):
    least = None
    for _ in range(%d):
        start = time.perf_counter()
        work(data)
        taken = time.perf_counter() - start
        least = taken if least is None else min(least, taken)
    return least
def lines(data):
    for line in io.BytesIO(data):
        pass
def parse(data):
    for line in data:
        json.loads(line)
def decode(data):
    for line in data:
        bytes.fromhex(line)
def both(data):
    for line in data:
        bytes.fromhex(json.loads(line)["bytes"])
script = open(sys.argv[1], "rb").read()
digits = open(sys.argv[2]).read().split("\\n")
puts = script.split(b"\\n")[1:-1]
print(seconds(lines, script), seconds(parse, puts), seconds(decode, digits), seconds(both, puts))
""" % RUNS


def write_inputs(script_path, digits_path, lines, size):
    with open(script_path, "w") as script, open(digits_path, "w") as digits:
        script.write(CONFIG)
        for i in range(lines):
            block = os.urandom(size).hex()
            script.write(LINE % (i % 1000, 1700000000000000000 + i, block))
            digits.write(block + "\n")


def seconds(program, task, path):
    least = None
    for _ in range(RUNS):
        with open(path, "rb") as source:
            start = time.perf_counter()
            subprocess.run([program, task], stdin=source, stdout=subprocess.DEVNULL, check=True)
            taken = time.perf_counter() - start
        least = taken if least is None else min(least, taken)
    return least


def measure(program, lines, size):
    with tempfile.TemporaryDirectory() as folder:
        script, digits = os.path.join(folder, "script"), os.path.join(folder, "digits")
        write_inputs(script, digits, lines, size)
        read, found = seconds(program, "read", script), seconds(program, "split-lines", script)
        ours = [
            seconds(program, "lend-lines", script) - read,
            seconds(program, "parse-lines", script) - found,
            seconds(program, "decode-lines", digits) - seconds(program, "split-lines", digits),
            seconds(program, "script", script) - found,
        ]
        words = [sys.executable, "-c", PYTHON, script, digits]
        other = [float(word) for word in subprocess.run(words, stdout=subprocess.PIPE, check=True).stdout.split()]
    print("%d lines of %d bytes each, microseconds a line and times Python:" % (lines, size))
    for name, taken, beside in zip(["reader of lines", "JSON", "digits", "read_line"], ours, other):
        print("  %-16s %10.2f %7.2f" % (name, taken / lines * 1e6, taken / beside))


def main():
    for lines, size in SIZES:
        measure(sys.argv[1], lines, size)


if __name__ == "__main__":
    main()
