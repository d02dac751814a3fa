#!/usr/bin/env python3
"""Times the calls of the table of collections: that they grow no faster than by the height of a tree, and beside SQLite in memory.

    bench/table.py PROGRAM [COLLECTIONS]
    bench/table.py PROGRAM versions

PROGRAM is the built `keep_bench`. `keep_bench table` makes so many collections (1,000, 10,000 and so on up to COLLECTIONS,
1,000,000 where none is said), updates each once, reads it, reads a version of it by its number, trashes and restores it, in a
scattered order, asks what is wanted of each one's digest, and sweeps twice: once all superseded versions, and once all
collections. The same statements run by Python's sqlite3 on a database in memory, with an index for each look-up, in one
transaction. The median of five runs counts, of three at 100,000; there is one run at 1,000,000. What is printed is microseconds
a call, a sweep's for each that went; each ratio is of the same run. The last lines say how many times as dear a call has become
from the least size to the greatest, ours and SQLite's, beside the height of a tree: a logarithm of both sizes.

`keep_bench versions` gives one collection 10, 1,000 and 100,000 versions and times 1,000 updates more: of a collection whose
versions are preserved, and of one whose versions are kept and not yet due. It reads the newest preserved version, and times one
update that drops all that were kept, for each that goes."""
import math
import sqlite3
import statistics
import struct
import subprocess
import sys
import time

STRIDE = 7919
UPDATES = 1000
READING = 1700000000000000000
LATER = 1800000000000000000
FOREVER = 2 ** 63 - 1
GRACE = (1209600 + 2 * 5) * 10 ** 9
TEXT = b". 00000000000000000000000000000000+3 0:3:foo\n"
NAMES = ["save", "update", "read", "read-version", "wanted", "trash", "restore", "sweep-versions", "trash-again", "sweep-collections"]
MASK = 2 ** 64 - 1


def digest_of(number):
    return struct.pack(">QQ", (number * 0x9e3779b97f4a7c15 & MASK) ^ (number >> 7), number)


def ours(program, task, count):
    said = subprocess.run([program, task], input=b"%d" % count, stdout=subprocess.PIPE, check=True).stdout.decode()
    figures = {}
    for line in said.split("\n"):
        if line:
            name, done, nanos = line.split()
            wanted = count if task == "table" else count + UPDATES if name == "drop-due" else UPDATES
            assert int(done) == wanted, line
            figures[name] = int(nanos) / 1000
    return figures


class Base:
    """The table as SQLite has it: a record's digest stands beside its want, the current record is the one without an end."""

    def __init__(self):
        self.base = sqlite3.connect(":memory:", isolation_level=None)
        for statement in (
            "CREATE TABLE collections (number INTEGER PRIMARY KEY, owner INTEGER, trash_at INTEGER, delete_at INTEGER)",
            "CREATE TABLE records (revision INTEGER PRIMARY KEY, collection INTEGER, version INTEGER, want INTEGER, until INTEGER, text BLOB)",
            "CREATE TABLE named (digest BLOB, want INTEGER, revision INTEGER)",
            "CREATE INDEX by_collection ON records (collection, version)",
            "CREATE INDEX by_standing ON records (collection, until)",
            "CREATE INDEX by_until ON records (until)",
            "CREATE INDEX by_digest ON named (digest, want)",
            "CREATE INDEX by_revision ON named (revision)",
            "CREATE INDEX by_delete ON collections (delete_at)",
            "BEGIN",
        ):
            self.base.execute(statement)
        self.revision = 0

    def add(self, number, version, want):
        self.revision += 1
        self.base.execute("INSERT INTO records VALUES (?, ?, ?, ?, NULL, ?)", (self.revision, number, version, want, TEXT))
        self.base.execute("INSERT INTO named VALUES (?, ?, ?)", (digest_of(number), want, self.revision))

    def save(self, number):
        self.base.execute("INSERT INTO collections VALUES (?, 0, NULL, NULL)", (number,))
        self.add(number, 1, 1)

    def update(self, number, versions=4, until=READING + GRACE, reading=READING):
        trash_at, = self.base.execute("SELECT trash_at FROM collections WHERE number = ?", (number,)).fetchone()
        assert trash_at is None
        held, = self.base.execute("SELECT count(*) FROM records WHERE collection = ? AND until >= ?", (number, reading)).fetchone()
        assert held < versions
        version, = self.base.execute("SELECT version FROM records WHERE collection = ? AND until IS NULL", (number,)).fetchone()
        self.base.execute("DELETE FROM records WHERE collection = ? AND until < ?", (number, reading))
        self.base.execute("UPDATE records SET until = ? WHERE collection = ? AND until IS NULL", (until, number))
        self.add(number, version + 1, 2)

    def read(self, number):
        self.base.execute(
            "SELECT version, want, text, trash_at FROM records JOIN collections ON number = collection WHERE collection = ? AND until IS NULL", (number,)
        ).fetchone()

    def read_version(self, number, version=2):
        row = self.base.execute(
            "SELECT version, want, text, trash_at FROM records JOIN collections ON number = collection"
            " WHERE collection = ? AND version = ? AND (until IS NULL OR until = ?)", (number, version, FOREVER)
        ).fetchone()
        assert row is not None

    def wanted(self, number):
        want, = self.base.execute("SELECT max(want) FROM named WHERE digest = ?", (digest_of(number),)).fetchone()
        assert want == 2

    def trash(self, number):
        self.base.execute("UPDATE collections SET trash_at = ?, delete_at = ? WHERE number = ?", (READING, READING + GRACE, number))

    def restore(self, number):
        self.base.execute("UPDATE collections SET trash_at = NULL, delete_at = NULL WHERE number = ?", (number,))

    def sweep_versions(self):
        self.base.execute("DELETE FROM named WHERE revision IN (SELECT revision FROM records WHERE until < ?)", (LATER,))
        self.base.execute("DELETE FROM records WHERE until < ?", (LATER,))

    def sweep_collections(self):
        self.base.execute(
            "DELETE FROM named WHERE revision IN (SELECT revision FROM records JOIN collections ON number = collection WHERE delete_at < ?)", (LATER,))
        self.base.execute("DELETE FROM records WHERE collection IN (SELECT number FROM collections WHERE delete_at < ?)", (LATER,))
        self.base.execute("DELETE FROM collections WHERE delete_at < ?", (LATER,))


def theirs(count):
    base, figures = Base(), {}
    for name in NAMES:
        start = time.monotonic()
        if name == "save":
            for number in range(1, count + 1):
                base.save(number)
        elif name.startswith("sweep"):
            getattr(base, name.replace("-", "_"))()
        else:
            call = getattr(base, name.removesuffix("-again").replace("-", "_"))
            for index in range(count):
                call(index * STRIDE % count + 1)
        figures[name] = (time.monotonic() - start) * 10 ** 6 / count
    return figures


def theirs_of_versions(count):
    figures = {}
    for name, until in (("preserved", FOREVER), ("kept", READING + GRACE)):
        base = Base()
        base.save(1)
        base.base.execute("UPDATE records SET until = ?", (until,))
        for version in range(2, count + 1):
            base.add(1, version, 2)
            base.base.execute("UPDATE records SET until = ? WHERE revision = ?", (until, base.revision))
        base.add(1, count + 1, 2)
        updates = UPDATES if count < 100000 else 20
        start = time.monotonic()
        for _ in range(updates):
            base.update(1, FOREVER, until)
        figures[name] = (time.monotonic() - start) * 10 ** 6 / updates
        start = time.monotonic()
        if name == "preserved":
            for _ in range(UPDATES):
                base.read_version(1, count)
            figures["read-version"] = (time.monotonic() - start) * 10 ** 6 / UPDATES
        else:
            base.update(1, FOREVER, LATER + GRACE, LATER)
            figures["drop-due"] = (time.monotonic() - start) * 10 ** 6 / (count + updates)
    return figures


def time_versions(program):
    for count in (10, 1000, 100000):
        runs = [(ours(program, "versions", count), theirs_of_versions(count)) for _ in range(3)]
        for name in ("preserved", "kept", "read-version", "drop-due"):
            mine, other = (statistics.median(run[side][name] for run in runs) for side in (0, 1))
            ratio = statistics.median(run[0][name] / run[1][name] for run in runs)
            print("%8d %-18s %8.2f us, sqlite3 %8.2f us: %.4f times" % (count, name, mine, other, ratio), flush=True)


def main():
    if sys.argv[2:] == ["versions"]:
        time_versions(sys.argv[1])
        return
    program, most = sys.argv[1], int(sys.argv[2]) if len(sys.argv) > 2 else 1000000
    least, count, figures = 1000, 1000, {}
    while count <= most:
        runs = [(ours(program, "table", count), theirs(count)) for _ in range(5 if count < 100000 else 3 if count < 1000000 else 1)]
        for name in NAMES:
            if name != "trash-again":
                mine, other = (statistics.median(run[side][name] for run in runs) for side in (0, 1))
                ratio = statistics.median(run[0][name] / run[1][name] for run in runs)
                figures[count, name] = mine, other
                print("%8d %-18s %8.2f us, sqlite3 %8.2f us: %.2f times" % (count, name, mine, other, ratio), flush=True)
        count *= 10
    count //= 10
    for name in NAMES if count > least else ():
        if name != "trash-again":
            mine, other = (figures[count, name][side] / max(figures[least, name][side], 0.001) for side in (0, 1))
            print("%8d %-18s %8.2f times as dear as at %d, sqlite3 %.2f times, a logarithm %.2f times" % (count, name, mine, least, other, math.log(count) / math.log(least)))


if __name__ == "__main__":
    main()
