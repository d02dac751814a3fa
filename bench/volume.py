#!/usr/bin/env python3
"""Times the putting of small blocks into one device that keeps them in memory, at two numbers of blocks.

    bench/volume.py PROGRAM [BLOCKS]

PROGRAM is the built `keep_bench`. The blocks are lines of digits, made afresh; each is put as a client does, which first
asks whether the device has it. Each number of blocks runs five times. The figures are the median seconds at BLOCKS (10,000)
and at ten times as many, the least and the greatest, and the ratio of the medians: 10 would be growth in proportion."""
import statistics
import subprocess
import sys
import time


def seconds(program, count):
    blocks = "".join("%d\n" % number for number in range(count)).encode()
    start = time.monotonic()
    done = subprocess.run([program, "volume"], input=blocks, stdout=subprocess.PIPE)
    taken = time.monotonic() - start
    said = done.stdout.decode().strip()
    # the empty line behind the last newline is a block too
    assert said == "%d blocks" % (count + 1), said
    return taken


def measured(program, count, runs=5):
    taken = sorted(seconds(program, count) for _ in range(runs))
    middle = statistics.median(taken)
    print("%d blocks: %.4f s (%.4f to %.4f), %.0f blocks a second" % (count, middle, taken[0], taken[-1], count / middle))
    return middle


def main():
    program, count = sys.argv[1], int(sys.argv[2]) if len(sys.argv) > 2 else 10000
    few, many = measured(program, count), measured(program, 10 * count)
    print("%.1f times" % (many / few))


if __name__ == "__main__":
    main()
