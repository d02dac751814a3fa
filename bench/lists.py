#!/usr/bin/env python3
"""Times the order of services, indexes and lists: that they grow in proportion, and beside coreutils on the same text.

    bench/lists.py PROGRAM [ENTRIES]

PROGRAM is the built `keep_bench`. An index of ENTRIES entries (1,000,000 where none is said) and one of a tenth are read and
written again, beside `sort -c` and `wc` of the same text; lists of as many items likewise, beside Python's json; and 64
services are ordered for 10,000 blocks, beside as many MD5s by Python's hashlib. The least of three runs counts, the start of
the program and the reading of its input included."""
import hashlib
import json
import os
import subprocess
import sys
import tempfile
import time

TIMES = 3


def timed(command, name):
    best, said = None, None
    for _ in range(TIMES):
        with open(name, "rb") as file:
            start = time.monotonic()
            said = subprocess.run(command, stdin=file, stdout=subprocess.PIPE, check=True, env=dict(os.environ, LC_ALL="C")).stdout.decode().strip()
            taken = time.monotonic() - start
        best = taken if best is None else min(best, taken)
    return best, said


def digests(count):
    return sorted(hashlib.md5(b"%d" % number).hexdigest() for number in range(count))


def config(servers, devices):
    return json.dumps({
        "cluster": "zzzzz", "ttl": 1209600, "skew": 5, "secret": "s", "system_token": "sys", "tokens": ["alice"],
        "devices": [{"capacity": 2 ** 40} for _ in range(devices)],
        "servers": [{"uuid": "zzzzz-bi6l4-%015d" % number} for number in range(servers)],
        "mounts": [{"uuid": "zzzzz-nyw5e-%015d" % number, "server": number % servers, "device": number} for number in range(devices)],
        "versions": 4, "trash_life": 50,
    }, separators=(",", ":"))


def write(folder, name, text):
    path = os.path.join(folder, name)
    with open(path, "w") as file:
        file.write(text)
    return path


def run_index(program, folder, counts):
    before = None
    for count in counts:
        name = write(folder, "index", "".join("%s+67108864 %d\n" % (digest, 1600000000000000000 + n) for n, digest in enumerate(digests(count))) + "\n")
        body = write(folder, "lines", open(name).read()[:-1])
        ours, said = timed([program, "index"], name)
        assert said == "%d entries, written again" % count, said
        read, _ = timed([program, "read-index"], name)
        check, _ = timed(["sort", "-c"], body)
        words, _ = timed(["wc"], name)
        print("index of %d: read %.2f s, read and written %.2f s (%.1f times the one before); sort -c %.2f s, wc %.2f s: read and written is %.2f times both" % (
            count, read, ours, ours / before if before else 1, check, words, ours / (check + words)))
        before = ours


def run_lists(program, folder, counts):
    before = None
    for count in counts:
        mount, other = "zzzzz-nyw5e-000000000000000", "zzzzz-nyw5e-000000000000001"
        names = digests(count)
        half = count // 2
        lists = {
            "pull": [{"locator": digest + "+3", "mount_uuid": mount, "servers": [other]} for digest in names[half:]],
            "trash": [{"block_mtime": 1600000000000000000 + n, "locator": digest + "+3", "mount_uuid": mount} for n, digest in enumerate(names[:half])],
        }
        text = json.dumps(lists, separators=(",", ":"))
        name = write(folder, "lists", config(8, 8) + "\n" + text)
        ours, said = timed([program, "lists"], name)
        assert said == "%d trash, %d pull, written again" % (half, count - half), said
        start = time.monotonic()
        assert json.dumps(json.loads(text), separators=(",", ":")) == text
        python = time.monotonic() - start
        print("lists of %d items: %.2f s (%.1f times the one before), python's json %.2f s: %.2f times" % (count, ours, ours / before if before else 1, python, ours / python))
        before = ours


def run_order(program, folder, count):
    names = digests(count)
    for servers in (16, 64):
        name = write(folder, "blocks", config(servers, 1) + "\n" + "\n".join(names) + "\n")
        ours, said = timed([program, "order"], name)
        assert said.startswith("%d blocks" % count), said
        start = time.monotonic()
        for digest in names:
            for number in range(servers):
                hashlib.md5(b"%s%015d" % (digest.encode(), number)).digest()
        python = time.monotonic() - start
        print("order of %d services: %.1f µs a block; as many MD5s by hashlib %.1f µs" % (servers, ours / count * 1e6, python / count * 1e6))


def main():
    program, count = sys.argv[1], int(sys.argv[2]) if len(sys.argv) > 2 else 1000000
    with tempfile.TemporaryDirectory() as folder:
        run_order(program, folder, 10000)
        run_index(program, folder, (count // 10, count))
        run_lists(program, folder, (count // 10, count))


if __name__ == "__main__":
    main()
