#!/usr/bin/env python3
"""Times packing and unpacking files beside the MD5 of their bytes.

    bench/files.py PROGRAM [MEBIBYTES]

PROGRAM is the built `keep_bench`. The files are 10,000 of 1 KiB and one of so many MiB, all of random bytes; `md5sum` reads the
same bytes. The program's own work, making the files from its input, is timed alone and taken off, and so is the input from the
peaks of memory."""
import os
import random
import subprocess
import sys
import tempfile
import time

SMALL = 10000 * 1024


def run(words, file):
    """Seconds of processor time, the peak of memory in bytes, and what a command says of the file."""
    file.seek(0)
    before = time.monotonic()
    process = subprocess.Popen(words, stdin=file, stdout=subprocess.PIPE)
    said = process.stdout.read()
    _, status, usage = os.wait4(process.pid, 0)
    process.stdout.close()
    assert status == 0, words
    return time.monotonic() - before, usage.ru_utime + usage.ru_stime, usage.ru_maxrss * 1024, said.decode().strip()


def main():
    program, size = sys.argv[1], int(sys.argv[2]) if len(sys.argv) > 2 else 200
    total = SMALL + size * 1048576
    random.seed(1)
    with tempfile.TemporaryFile() as file:
        for _ in range(total // 65536):
            file.write(random.randbytes(65536))
        file.write(random.randbytes(total % 65536))
        file.flush()
        best = {}
        for _ in range(3):
            for name, words in [
                ("md5sum", ["md5sum"]),
                ("make", [program, "make-files"]),
                ("pack", [program, "pack"]),
                ("unpack", [program, "unpack"]),
            ]:
                found = run(words, file)
                best[name] = min(best.get(name, found), found, key=lambda f: f[1])
    md5 = best["md5sum"][1]
    pack = best["pack"][1] - best["make"][1]
    unpack = best["unpack"][1] - best["pack"][1]
    print("%d bytes in 10,001 files; processor seconds, the best of three" % total)
    for name in best:
        print("%s: %.2f s, peak %.2f times the bytes: %s" % (name, best[name][1], best[name][2] / total, best[name][3]))
    print("packing: %.2f s, %.2f times md5sum; memory %.2f times the bytes" % (pack, pack / md5, best["pack"][2] / total - 1))
    print("unpacking: %.2f s, %.2f times md5sum; memory %.2f times the bytes" % (unpack, unpack / md5, best["unpack"][2] / total - 1))


if __name__ == "__main__":
    main()
