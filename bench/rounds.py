#!/usr/bin/env python3
"""Times a balance over 8 devices by script, and how it grows, beside a plain Python script of the same round.

    bench/rounds.py PROGRAM [BLOCKS]

PROGRAM is the built `keepd`. Each of 8 devices, with a server each, gets BLOCKS short blocks (100,000 where none is said), and a tenth of them
before that. Each block is put on two servers; half of all blocks are wanted twice, by collections of 20 blocks each; half are too young to be
trashed. The puts and saves come first, made and written in pieces. Then one balance is finished, and it alone is measured: the time from
writing its line to reading its end, the processor's seconds of the program meanwhile, and its peak memory, which is set back before. The
Python script does the same round on dictionaries that hold the same blocks and records: it sorts each device's page, scans in pieces, orders the
devices for each block by MD5s, and makes the lists. What both count for each device is compared."""
import hashlib
import json
import os
import subprocess
import sys
import threading
import time

DEVICES = 8
NAMED = 20
SCAN = 1000
SECOND = 1000000000
TTL = 1209600
SKEW = 5
BEFORE = 1700000000 * SECOND
STARTED = BEFORE + (TTL + 2 * SKEW + 10) * SECOND
YOUNG = STARTED - SECOND
SERVERS = ["zzzzz-bi6l4-%015d" % number for number in range(DEVICES)]
CONFIG = json.dumps(
    {
        "cluster": "zzzzz",
        "ttl": TTL,
        "skew": SKEW,
        "secret": "s",
        "system_token": "sys",
        "tokens": ["alice"],
        "devices": [{"capacity": 2**40} for _ in range(DEVICES)],
        "servers": [{"uuid": uuid} for uuid in SERVERS],
        "mounts": [{"uuid": "zzzzz-nyw5e-%015d" % number, "server": number, "device": number} for number in range(DEVICES)],
        "versions": 4,
        "trash_life": 50,
        "scan_limit": SCAN,
    },
    separators=(",", ":"),
)


def block(number):
    return b"%d" % number


def devices_of(number):
    return number % DEVICES, (number + 3) % DEVICES


def finished(name, at, rest):
    return '{"open":"%s","at":%d,%s}\n{"finish":"%s","at":%d}\n' % (name, at, rest, name, at)


def puts(number, at):
    """The two puts of a block."""
    return "".join(
        finished("p%d_%d" % (number, device), at, '"do":"put","token":"alice","server":%d,"bytes":"%s"' % (device, block(number).hex()))
        for device in devices_of(number)
    )


def save(number, blocks, at):
    """A collection of these blocks, each a file of its own."""
    locators = "".join('{"locator":"p%d_%d"}," ",' % (block, devices_of(block)[0]) for block in blocks)
    files, start = [], 0
    for name in blocks:
        files.append("%d:%d:%d" % (start, len(block(name)), name))
        start += len(block(name))
    return finished("s%d" % number, at, '"do":"save","token":"alice","manifest":[". ",%s"%s\\n"],"want":2' % (locators, " ".join(files)))


def phases(blocks):
    """Of all blocks the old ones and then the young ones, with the reading at which they are put."""
    count = blocks * DEVICES // 2
    yield [number for number in range(count) if number % 4 < 2], BEFORE
    yield [number for number in range(count) if number % 4 >= 2], YOUNG


def wanted(numbers):
    """The blocks of each collection."""
    named = [number for number in numbers if number % 2 == 0]
    return [named[at : at + NAMED] for at in range(0, len(named), NAMED)]


def lines(blocks):
    """The script up to the balance, in pieces."""
    yield CONFIG + "\n"
    saved = 0
    for numbers, at in phases(blocks):
        for number in numbers:
            yield puts(number, at)
        for named in wanted(numbers):
            yield save(saved, named, at)
            saved += 1


class Cluster:
    """The same cluster in dictionaries, with the same round."""

    def __init__(self, blocks):
        self.held = [{} for _ in range(DEVICES)]
        self.records = []
        for numbers, at in phases(blocks):
            for number in numbers:
                digest = hashlib.md5(block(number)).hexdigest()
                for device in devices_of(number):
                    self.held[device][digest] = (len(block(number)), at)
            for named in wanted(numbers):
                self.records.append((len(self.records) + 1, [hashlib.md5(block(number)).hexdigest() for number in named], 2))

    def order(self, digest):
        weights = [hashlib.md5((digest + uuid[-15:]).encode()).hexdigest() for uuid in SERVERS]
        return sorted(range(DEVICES), key=lambda device: weights[device], reverse=True)

    def scans(self):
        after = 0
        while True:
            rows = [record for record in self.records[after : after + SCAN] if record[0] > after]
            after = rows[-1][0] if rows else after
            last = after == len(self.records)
            yield rows, last
            if last:
                return

    def round(self):
        """The printed words of the round, without the name."""
        said = ["Round 1 %d" % STARTED] + ["Cleared"] * DEVICES
        holders, wants = {}, {}
        for device, held in enumerate(self.held):
            page = sorted((digest, size, mtime) for digest, (size, mtime) in held.items())
            said.append("Page %d" % len(page))
            for digest, size, mtime in page:
                holders.setdefault(digest, {})[device] = (size, mtime)
        for rows, last in self.scans():
            said.append("Rows %d %s" % (len(rows), "last" if last else "more"))
            for _, digests, want in rows:
                for digest in digests:
                    wants[digest] = max(want, wants.get(digest, 0))
        trash, pull, lost = [[] for _ in range(DEVICES)], [[] for _ in range(DEVICES)], []
        threshold = STARTED - (TTL + 2 * SKEW) * SECOND
        for digest in sorted(set(holders) | set(wants)):
            held, want = holders.get(digest, {}), wants.get(digest, 0)
            order = self.order(digest)
            sources = [device for device in order if device in held]
            for device in sources[want:]:
                if held[device][1] < threshold:
                    trash[device].append((digest,) + held[device])
            for device in order[:want]:
                if sources and device not in held:
                    pull[device].append((digest, held[sources[0]][0], sources))
            if want and not sources:
                lost.append(digest)
        said += ["Accepted %d %d" % (len(trash[device]), len(pull[device])) for device in range(DEVICES)]
        return said + ["Balanced 1 %d %d %d 0" % (sum(map(len, trash)), sum(map(len, pull)), len(lost))]


class Program:
    """The program, with its script written in pieces while its text is read."""

    def __init__(self, path):
        self.process = subprocess.Popen([path, "run"], stdin=subprocess.PIPE, stdout=subprocess.PIPE)

    def skip(self, end):
        """Reads up to the line that begins so."""
        while not self.line().startswith(end):
            pass

    def line(self):
        line = self.process.stdout.readline().decode()
        assert line, "the program's text has ended"
        return line.rstrip("\n")

    def feed(self, pieces):
        """Writes the pieces and then a put that ends at its opening, whose end is waited for."""
        reader = threading.Thread(target=self.skip, args=("fed = ",))
        reader.start()
        for piece in pieces:
            self.process.stdin.write(piece.encode())
        self.write('{"open":"fed","at":%d,"do":"put","token":"alice","server":0,"bytes":""}\n' % STARTED)
        reader.join()

    def write(self, text):
        self.process.stdin.write(text.encode())
        self.process.stdin.flush()

    def status(self, name):
        """A size of the process in megabytes, as the kernel says it."""
        with open("/proc/%d/status" % self.process.pid) as file:
            return next(int(line.split()[1]) / 1024 for line in file if line.startswith(name))

    def processor(self):
        """Seconds on a processor."""
        with open("/proc/%d/schedstat" % self.process.pid) as file:
            return int(file.read().split()[0]) / SECOND

    def balance(self):
        """What a balance prints, how long it takes, its seconds on the processor, and the memory before it and at most."""
        self.write('{"open":"b","at":%d,"do":"balance"}\n' % STARTED)
        with open("/proc/%d/clear_refs" % self.process.pid, "w") as file:
            file.write("5")
        before, spent, start = self.status("VmRSS"), self.processor(), time.monotonic()
        self.write('{"finish":"b","at":%d}\n' % STARTED)
        said = []
        while not said or not said[-1].startswith("Balanced"):
            said.append(self.line().split(" ", 2)[2])
            assert not said[-1].startswith(("Stale", "StoreFault", "Disordered")), said
        taken = time.monotonic() - start
        return said, taken, self.processor() - spent, before, self.status("VmHWM")

    def close(self):
        self.process.stdin.close()
        assert self.process.wait() == 0, self.process.returncode


def measure(path, blocks, earlier):
    cluster = Cluster(blocks)
    start = time.process_time()
    expected = cluster.round()
    plain = time.process_time() - start
    records = len(cluster.records)
    del cluster
    program = Program(path)
    program.feed(lines(blocks))
    said, taken, spent, before, peak = program.balance()
    program.close()
    assert said == expected, [pair for pair in zip(said, expected) if pair[0] != pair[1]]
    print(
        "%d devices, %7d blocks each, %6d collections, %s: %6.2f s, on the processor %6.2f s%s, Python %6.2f s, times Python %5.2f; memory before %5.0f MB, peak %5.0f MB"
        % (DEVICES, blocks, records, said[-1], taken, spent, " (%.1f times the one before)" % (spent / earlier) if earlier else "", plain, spent / plain, before, peak),
        flush=True,
    )
    return spent


def main():
    blocks = int(sys.argv[2]) if len(sys.argv) > 2 else 100000
    measure(sys.argv[1], blocks, measure(sys.argv[1], blocks // 10, None))


if __name__ == "__main__":
    main()
