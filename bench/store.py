#!/usr/bin/env python3
"""Measures how long the store takes for commits and loads, beside sqlite3 with the same tables, statements and durability.

It starts `ov_store_bench`, does the same work by Python's module sqlite3, and both take turns, a few commits each at each size,
so that all of them meet the same disk and the same machine. At the end the two databases are compared, row by row. Words: the
program, and how often all of it is done, 3 if left out. The files lie in a new folder beside the program, and then in memory.
"""

import os
import sqlite3
import statistics
import subprocess
import sys
import tempfile
import time

SCHEMA = '{"name":"Net","tables":{}}'
SCATTER = 0x9E37_79B9_7F4A_7C15
APART = 7919

# The sizes at which commits of one row are measured, and how many of each kind at each; how many rows a commit of a fill
# has; how many commits one side makes before the other has its turn; how many loads are measured at the last size.
SIZES = (1_000, 10_000, 100_000)
COMMITS = 500
FILLED_AT_ONCE = 1_000
TURN = 20
LOADS = 5

# Page size, pages in the cache and frames between two checkpoints are those of the kit's database, which holds its file's
# lock as long as it is open. It syncs the log once at a commit, as FULL does, and both files at a checkpoint.
SETTINGS = """
    PRAGMA page_size=4096;
    PRAGMA locking_mode=EXCLUSIVE;
    PRAGMA journal_mode=WAL;
    PRAGMA synchronous=FULL;
    PRAGMA cache_size=2000;
    PRAGMA wal_autocheckpoint=1000;
"""
TABLES = (
    "CREATE TABLE meta(k TEXT PRIMARY KEY, v BLOB)",
    "CREATE TABLE head(tbl TEXT, id BLOB, ver BLOB, PRIMARY KEY(tbl,id))",
    "CREATE TABLE cell(tbl TEXT, id BLOB, col TEXT, body BLOB, PRIMARY KEY(tbl,id,col))",
)

FOUR_CELLS = "INSERT INTO cell(tbl,id,col,body) VALUES(?1,?2,?3,?4),(?1,?2,?5,?6),(?1,?2,?7,?8),(?1,?2,?9,?10)"
CELLS_OF = "SELECT col,body FROM cell WHERE tbl=?1 AND id=?2"


def switch(number, load):
    """A row, by the number and the load of its switch, as `ov_store_bench` makes it: its head, and its cells."""
    drawn = (number * SCATTER) % 2**64
    identifier = (drawn << 64 | number).to_bytes(16, "big")
    version = (load << 64 | drawn).to_bytes(16, "big")
    bodies = ("load", "%d" % load), ("main", '["set",[]]'), ("name", '"s%d"' % number), ("ports", '["set",[]]')
    return ("Switch", identifier, version), [("Switch", identifier, column, body.encode()) for column, body in bodies]


class Store:
    """The store, by `ov_store_bench`."""

    def __init__(self, program, place):
        self.process = subprocess.Popen([program, place], stdin=subprocess.PIPE, stdout=subprocess.PIPE, text=True)

    def perform(self, word, count):
        """Does a step, and gives the nanoseconds of each commit or load."""
        self.process.stdin.write(f"{word} {count}\n")
        self.process.stdin.flush()
        lines = [self.process.stdout.readline().split() for _ in range(1 if word == "fill" else count)]
        assert all(told == word for told, _ in lines)
        return [int(nanoseconds) for _, nanoseconds in lines]

    def close(self):
        self.process.stdin.close()
        rest = self.process.stdout.read()
        if rest or self.process.wait() != 0:
            sys.exit(f"store: the program ended with status {self.process.wait()} and printed more: {rest}")


class Peer:
    """The same by sqlite3."""

    def __init__(self, place):
        self.connection = sqlite3.connect(place, isolation_level=None)
        self.connection.executescript(SETTINGS)
        self.rows = 0
        self.repeated = 0
        run = self.connection.execute
        run("BEGIN")
        for table in TABLES:
            run(table)
        run("INSERT INTO meta(k,v) VALUES(?1,?2)", ("format", b"2"))
        run("INSERT INTO meta(k,v) VALUES(?1,?2)", ("schema", SCHEMA.encode()))
        run("COMMIT")

    def commit(self, rows):
        run = self.connection.execute
        start = time.perf_counter_ns()
        run("BEGIN")
        for head, cells in rows:
            try:
                run("INSERT INTO head(tbl,id,ver) VALUES(?1,?2,?3)", head)
            except sqlite3.IntegrityError:
                self.update(head, cells)
                continue
            columns = [part for cell in cells for part in cell[2:]]
            run(FOUR_CELLS, (*head[:2], *columns))
        run("COMMIT")
        return time.perf_counter_ns() - start

    def update(self, head, cells):
        """Changes a row of the same columns in place."""
        run = self.connection.execute
        bodies = dict(run(CELLS_OF, head[:2]).fetchall())
        run("UPDATE head SET ver=?3 WHERE tbl=?1 AND id=?2", head)
        for *key, body in cells:
            if bodies[key[2]] != body:
                run("UPDATE cell SET body=?4 WHERE tbl=?1 AND id=?2 AND col=?3", (*key, body))

    def add(self, count):
        rows = [switch(number, 0) for number in range(self.rows, self.rows + count)]
        self.rows += count
        return self.commit(rows)

    def repeat(self):
        self.repeated += 1
        return self.commit([switch(self.repeated * APART % self.rows, self.repeated)])

    def load(self):
        start = time.perf_counter_ns()
        heads = self.connection.execute("SELECT tbl,id,ver FROM head").fetchall()
        self.connection.execute("SELECT tbl,id,col,body FROM cell").fetchall()
        taken = time.perf_counter_ns() - start
        assert len(heads) == self.rows
        return taken

    def perform(self, word, count):
        """Does a step, and gives the nanoseconds of each commit or load."""
        if word == "fill":
            return [self.add(count)]
        once = {"put": lambda: self.add(1), "again": self.repeat, "load": self.load}[word]
        return [once() for _ in range(count)]

    def close(self):
        self.connection.close()


class Pair:
    """Both, and what they took: for each figure the microseconds of each commit or load, of the store and of sqlite3."""

    def __init__(self, program, ours, theirs):
        self.sides = [Store(program, ours), Peer(theirs)]
        self.turns = 0
        self.taken = {}

    def step(self, name, word, count):
        """One turn of each. The one that was second goes first."""
        taken = self.taken.setdefault(name, ([], []))
        for which in (self.turns % 2, 1 - self.turns % 2):
            taken[which].extend(nanoseconds / 1e3 for nanoseconds in self.sides[which].perform(word, count))
        self.turns += 1

    def grow(self, size):
        for first in range(0, size, FILLED_AT_ONCE):
            self.step(f"growth to {size:,} rows", "fill", min(FILLED_AT_ONCE, size - first))

    def close(self):
        for side in self.sides:
            side.close()


def work(pairs):
    """All the work, by a pair for each size. What they took, by the names of the figures."""
    for pair, size in zip(pairs, SIZES):
        pair.grow(size)
    for word, what in (("put", "a new row"), ("again", "a row put again")):
        for _ in range(COMMITS // TURN):
            for pair, size in zip(pairs, SIZES):
                pair.step(f"{what}, {size:,} rows", word, TURN)
    for _ in range(LOADS):
        pairs[-1].step(f"load of {SIZES[-1] + COMMITS:,} rows", "load", 1)
    for pair in pairs:
        pair.close()
    taken = {name: lists for pair in pairs for name, lists in pair.taken.items()}
    return dict(sorted(taken.items(), key=lambda item: item[0].split(",")[0]))


def all_rows(path):
    """Each row of a database, as sqlite3 reads it."""
    connection = sqlite3.connect(path)
    rows = [connection.execute(f"SELECT * FROM {table} ORDER BY 1,2").fetchall() for table in ("meta", "head", "cell")]
    connection.close()
    return rows


def times_on_files(program, folder):
    with tempfile.TemporaryDirectory(dir=folder) as inner:
        paths = [[os.path.join(inner, f"{name}{size}.db") for name in ("ours", "theirs")] for size in SIZES]
        taken = work([Pair(program, *both) for both in paths])
        if any(all_rows(ours) != all_rows(theirs) for ours, theirs in paths):
            sys.exit("store: the two databases differ")
        return taken


def times_in_memory(program):
    return work([Pair(program, "memory", ":memory:") for _ in SIZES])


def file_system(folder):
    told = subprocess.run(["df", "--output=fstype", folder], check=True, capture_output=True, text=True).stdout
    return told.split()[-1]


def figure(name, ours, peer, unit):
    """Prints a figure as `bench/table` reads it."""
    print("figure", name, f"{ours:.6g}", f"{peer:.6g}", unit, sep="\t", flush=True)


def tell(place, runs):
    """Prints the figures of all runs: the medians, and after them the means, which have the checkpoints in them and each
    moment at which the disk or the machine stood still."""
    both = {}
    for name in runs[0]:
        # A growth counts as a whole.
        lists = [[[sum(taken)] if name.startswith("growth") else taken for taken in run[name]] for run in runs]
        both[name] = [sum((taken[side] for taken in lists), []) for side in (0, 1)]
        ours, theirs = map(statistics.median, both[name])
        means = "{:,.1f} and {:,.1f} us".format(*map(statistics.mean, both[name]))
        line = f"{ours:>11,.1f} us  sqlite3 {theirs:>11,.1f} us  {ours / theirs:>5.2f} times as long; means {means}"
        print(f"{place}, {name}".ljust(42), line, flush=True)
        unit, size = ("ms", 1_000) if name.startswith(("growth", "load")) else ("us", 1)
        figure(f"store, {place}, {name}", ours / size, theirs / size, unit)
    for what in ("a new row", "a row put again"):
        few, many = (both[f"{what}, {size:,} rows"] for size in (SIZES[0], SIZES[-1]))
        ours, theirs = (statistics.median(many[side]) / statistics.median(few[side]) for side in (0, 1))
        sizes = f"at {SIZES[-1]:,} rows than at {SIZES[0]:,}"
        print(f"{place}, {what}".ljust(42), f"{ours:>5.2f} times as long {sizes}; sqlite3 {theirs:.2f}", flush=True)
        figure(f"store, {place}, {what}, {SIZES[-1]} rows over {SIZES[0]}", ours, theirs, "times")


def main():
    if not 2 <= len(sys.argv) <= 3:
        sys.exit("store.py PROGRAM [TIMES]")
    program = os.path.abspath(sys.argv[1])
    times = int(sys.argv[2]) if len(sys.argv) == 3 else 3
    print(f"sqlite3 {sqlite3.sqlite_version}; {times} times {COMMITS} commits for a figure")
    print(f"the disk has {file_system(os.path.dirname(program))}")
    for place, folder in (("disk", os.path.dirname(program)), ("tmpfs", "/dev/shm")):
        tell(place, [times_on_files(program, folder) for _ in range(times)])
    tell("memory", [times_in_memory(program) for _ in range(times)])


main()
