#!/usr/bin/env python3
"""Times `keepd run` over scripts of puts: small blocks at two counts, and large blocks beside `md5sum` of the same bytes.

    bench/puts.py PROGRAM

PROGRAM is the built `keepd`. Scripts are made afresh. Each kind runs at one size and at twice that size (small blocks at ten times
too), so that a growth faster than the input shows. Peak memory is the child's greatest resident set."""
import os
import subprocess
import sys
import tempfile
import time

CONFIG = (
    '{"cluster":"zzzzz","ttl":1209600,"skew":1,"secret":"sesame","system_token":"sys","tokens":["alice"],'
    '"devices":[{"capacity":1099511627776}],"servers":[{"uuid":"zzzzz-bi6l4-000000000000000"}],'
    '"mounts":[{"uuid":"zzzzz-nyw5e-000000000000000","server":0,"device":0}],"versions":4,"trash_life":50}\n'
)


def write_script(path, blocks, size):
    """A script that puts so many different blocks of a size, an open and a finish line each; beside it the blocks' bytes."""
    with open(path, "w") as script, open(path + ".bytes", "wb") as plain:
        script.write(CONFIG)
        for i in range(blocks):
            bytes_ = os.urandom(size)
            plain.write(bytes_)
            at = 1700000000000000000 + i
            script.write(
                '{"open":"p%d","at":%d,"do":"put","token":"alice","server":0,"bytes":"%s"}\n{"finish":"p%d","at":%d}\n'
                % (i, at, bytes_.hex(), i, at)
            )


def run(words, path):
    """Seconds and peak megabytes of a command that reads the file."""
    with open(path, "rb") as source:
        start = time.monotonic()
        child = subprocess.Popen(words, stdin=source, stdout=subprocess.DEVNULL)
        _, status, usage = os.wait4(child.pid, 0)
        taken = time.monotonic() - start
    assert status == 0, (words, status)
    return taken, usage.ru_maxrss / 1024


def measure(program, blocks, size):
    with tempfile.TemporaryDirectory() as folder:
        path = os.path.join(folder, "script")
        write_script(path, blocks, size)
        ours, peak = run([program, "run"], path)
        yardstick, _ = run(["md5sum"], path + ".bytes")
    megabytes = blocks * size / 1e6
    print(
        "%7d blocks of %7d bytes: %6.2f s, %7.0f lines/s, %6.1f MB/s, peak %5.0f MB; md5sum of the bytes %5.2f s, ratio %5.1f"
        % (blocks, size, ours, 2 * blocks / ours, megabytes / ours, peak, yardstick, ours / yardstick)
    )
    return ours


def main():
    program = sys.argv[1]
    for blocks, size in [(10000, 16), (20000, 16), (100000, 16), (20000, 1024), (40000, 1024), (200, 262144), (400, 262144)]:
        measure(program, blocks, size)


if __name__ == "__main__":
    main()
