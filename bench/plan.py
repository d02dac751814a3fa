#!/usr/bin/env python3
"""Times the plan of a round: that it grows in proportion, and beside GNU sort and join on the same texts.

    bench/plan.py PROGRAM [DIGESTS]

PROGRAM is the built `keep_bench`. DIGESTS digests (1,000,000 where none is said), and a tenth of them, lie on 8 devices, two
replicas each, half of them wanted twice. `keep_bench plan` reads the 8 indexes and the wanted digests and plans them, beside
`sort -m` of the indexes and `join` of what it gives with the wanted digests. `keep_bench gather` reads them alone. The least of
three runs counts, the start of the program included."""
import hashlib
import json
import os
import subprocess
import sys
import tempfile
import time

DEVICES = 8
TIMES = 3
ENVIRONMENT = dict(os.environ, LC_ALL="C")
CONFIG = json.dumps({
    "cluster": "zzzzz", "ttl": 1209600, "skew": 5, "secret": "s", "system_token": "sys", "tokens": ["alice"],
    "devices": [{"capacity": 2 ** 40} for _ in range(DEVICES)],
    "servers": [{"uuid": "zzzzz-bi6l4-%015d" % number} for number in range(DEVICES)],
    "mounts": [{"uuid": "zzzzz-nyw5e-%015d" % number, "server": number, "device": number} for number in range(DEVICES)],
    "versions": 4, "trash_life": 50,
}, separators=(",", ":"))


def timed(command, name):
    """The least time of some runs, in seconds, the greatest peak of memory in megabytes, and what was printed."""
    best, peak, said = None, 0, None
    for _ in range(TIMES):
        with open(name, "rb") as file, tempfile.TemporaryFile() as out:
            start = time.monotonic()
            process = subprocess.Popen(command, stdin=file, stdout=out, env=ENVIRONMENT)
            _, status, usage = os.wait4(process.pid, 0)
            taken = time.monotonic() - start
            assert status == 0, command
            out.seek(0)
            said = out.read(200).decode()
        best = taken if best is None else min(best, taken)
        peak = max(peak, usage.ru_maxrss / 1024)
    return best, peak, said


def write(folder, name, text):
    path = os.path.join(folder, name)
    with open(path, "w") as file:
        file.write(text)
    return path


def texts_of(count):
    digests = sorted(hashlib.md5(b"%d" % number).hexdigest() for number in range(count))
    indexes = [[] for _ in range(DEVICES)]
    for number, digest in enumerate(digests):
        for step in range(2):
            mtime = 1600000000000000000 if number % 4 < 2 else 1699999999000000000
            indexes[(number + 3 * step) % DEVICES].append("%s+67108864 %d\n" % (digest, mtime + number))
    wanted = "".join("%s+67108864 2\n" % digest for digest in digests[::2])
    return ["".join(lines) for lines in indexes], wanted


def run(program, folder, count, before):
    indexes, wanted = texts_of(count)
    names = [write(folder, "index%d" % number, text) for number, text in enumerate(indexes)]
    wants = write(folder, "wanted", wanted)
    whole = write(folder, "whole", CONFIG + "\n" + "".join("%d\n%s\n" % (len(text) + 1, text) for text in indexes) + wanted)
    gather, _, _ = timed([program, "gather"], whole)
    ours, peak, said = timed([program, "plan"], whole)
    sort, _, _ = timed(["sort", "-m"] + names, wants)
    merged = os.path.join(folder, "merged")
    subprocess.run(["sort", "-m", "-o", merged] + names, check=True, env=ENVIRONMENT)
    join, _, _ = timed(["join", merged, wants], wants)
    print("%d digests (%s): gathered %.2f s, gathered and planned %.2f s%s, peak %d MB; sort -m %.2f s, join %.2f s: %.2f times both" % (
        count, said.strip(), gather, ours, " (%.1f times the one before)" % (ours / before) if before else "", peak, sort, join, ours / (sort + join)))
    return ours


def main():
    program, count = sys.argv[1], int(sys.argv[2]) if len(sys.argv) > 2 else 1000000
    with tempfile.TemporaryDirectory() as folder:
        before = run(program, folder, count // 10, None)
        run(program, folder, count, before)


if __name__ == "__main__":
    main()
