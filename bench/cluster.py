#!/usr/bin/env python3
"""Times `keepd run` over scripts of a whole cluster: many open tasks, and puts over several devices and servers.

    bench/cluster.py PROGRAM

PROGRAM is the built `keepd`. First so many gets are opened, then each is stepped, then each is finished, and the same with ten times as many:
a growth with the square would show. Then an input of 2^30 bytes in lines of 2^20, and two inputs that pass the bounds: where a line passes its own bound at
the same byte as the input, the line is refused, and where it does so one byte later, the input. Then the same number of puts goes to 1, 8 and 64 devices behind 1 and 8 servers, each server mounting its
part of the devices, or all where there is one server. Beside each stands `md5sum` of the script itself, run over the same file, as a yardstick
of the machine. Peak memory is the child's greatest resident set, as the kernel counts it for the child alone."""
import json
import os
import subprocess
import sys
import tempfile
import time

AT = 1700000000000000000


def config(devices, servers):
    mounts = [
        {"uuid": "zzzzz-nyw5e-%015d" % device, "server": device % servers, "device": device}
        for device in range(devices)
    ]
    return json.dumps(
        {
            "cluster": "zzzzz",
            "ttl": 1209600,
            "skew": 1,
            "secret": "sesame",
            "system_token": "sys",
            "tokens": ["alice"],
            "devices": [{"capacity": 1099511627776}] * devices,
            "servers": [{"uuid": "zzzzz-bi6l4-%015d" % server} for server in range(servers)],
            "mounts": mounts,
            "versions": 4,
            "trash_life": 50,
        },
        separators=(",", ":"),
    )


def tasks(count):
    """So many gets that are opened, then stepped at one device of two, then finished."""
    yield config(2, 1)
    locator = "acbd18db4cc2f85cedef654fccc4a4d8+3"
    for i in range(count):
        yield '{"open":"g%d","at":%d,"do":"get","token":"sys","server":0,"locator":"%s"}' % (i, AT, locator)
    for i in range(count):
        yield '{"step":"g%d","at":%d}' % (i, AT)
    for i in range(count):
        yield '{"finish":"g%d","at":%d}' % (i, AT)


def puts(count, devices, servers):
    yield config(devices, servers)
    for i in range(count):
        block = b"block %d" % i
        yield '{"open":"p%d","at":%d,"do":"put","token":"alice","server":%d,"bytes":"%s"}' % (i, AT + i, i % servers, block.hex())
        yield '{"finish":"p%d","at":%d}' % (i, AT + i)


LINE = 1048576
INPUT = 1073741824


def long_lines(total):
    """Script lines of 1,048,576 bytes each, gets by a token that is unknown, and empty lines after them: `total` bytes with the newlines."""
    first = config(1, 1)
    yield first
    taken = len(first) + 1
    number = 0
    while taken + LINE + 1 <= total:
        front = '{"open":"g%d","at":%d,"do":"get","server":0,"locator":"x","token":"' % (number, AT)
        yield front + "t" * (LINE - len(front) - 2) + '"}'
        taken += LINE + 1
        number += 1
    for _ in range(total - taken):
        yield ""


def run(words, path):
    """Seconds, peak megabytes and printed lines of a command that reads the file."""
    with open(path, "rb") as source, tempfile.TemporaryFile() as printed:
        start = time.monotonic()
        child = subprocess.Popen(words, stdin=source, stdout=printed)
        _, status, usage = os.wait4(child.pid, 0)
        taken = time.monotonic() - start
        assert status == 0, (words, status)
        printed.seek(0)
        lines = sum(block.count(b"\n") for block in iter(lambda: printed.read(1 << 20), b""))
    return taken, usage.ru_maxrss / 1024, lines


def measure(program, name, count, lines):
    with tempfile.TemporaryDirectory() as folder:
        path = os.path.join(folder, "script")
        with open(path, "w") as script:
            for line in lines:
                script.write(line + "\n")
        taken, peak, printed = run([program, "run"], path)
        yardstick, _, _ = run(["md5sum"], path)
    print(
        "%-32s %7d: %7.2f s, %5.1f us each, %8.0f printed lines/s, peak %5.0f MB, times md5sum of the script %6.1f"
        % (name, count, taken, taken / count * 1e6, printed / taken, peak, taken / yardstick)
    )


def refusal(program, taken):
    """Exit and words of the program after lines of `taken` bytes in all and a line of one byte too many, and that line's number."""
    with tempfile.TemporaryDirectory() as folder:
        path = os.path.join(folder, "script")
        number = 1
        with open(path, "w") as script:
            for line in long_lines(taken):
                script.write(line + "\n")
                number += 1
            assert script.tell() == taken, (script.tell(), taken)
            script.write("x" * (LINE + 1) + "\n")
        with open(path, "rb") as source:
            ended = subprocess.run([program, "run"], stdin=source, stdout=subprocess.DEVNULL, stderr=subprocess.PIPE, check=False)
    return ended.returncode, ended.stderr.decode(), number


def check_bounds(program):
    """The line is refused where its first byte too many is the input's first byte too many; one byte later in the input, the input is."""
    status, words, number = refusal(program, INPUT - LINE)
    assert (status, words) == (8, "keepd: line too long: %d\n" % number), (status, words, number)
    status, words, number = refusal(program, INPUT - LINE + 1)
    assert (status, words) == (9, "keepd: input too long\n"), (status, words, number)
    print("bounds of a line and of the input at one byte: the line is refused, and one byte later the input")


def main():
    program = sys.argv[1]
    for count in [10000, 100000]:
        measure(program, "open tasks", count, tasks(count))
    measure(program, "lines of 2^20 bytes, 2^30 in all", INPUT // (LINE + 1), long_lines(INPUT))
    check_bounds(program)
    for devices, servers in [(1, 1), (8, 1), (8, 8), (64, 1), (64, 8)]:
        for count in [10000, 100000]:
            measure(program, "puts, %d devices, %d servers" % (devices, servers), count, puts(count, devices, servers))


if __name__ == "__main__":
    main()
