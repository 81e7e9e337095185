#!/usr/bin/env python3
"""Measures what the options of the store's file cost: the pages that stay in memory, and the frames of the log between two
checkpoints. It prints two tables in Markdown: starts over closed files, and inserts with the start after a kill.

Words: the program `ov_options_bench`, a folder for the files, which are removed at the end, and the rows of the largest file,
400,000 if left out. Files are in the system's cache at each start. A start is timed from before the process is made to the line
that says it is ready; the program itself times the parts: the kit's connection, the opening of the store, and the first load.
At each start the loaded rows are counted.
"""

import os
import shutil
import statistics
import struct
import subprocess
import sys
import tempfile
import time

SIZES = (1_000, 10_000, 100_000, 400_000)
INSERTED_INTO = 100_000
CACHES = (500, 2_000, 3_072, 4_096, 8_192, 16_384, 65_536)
FRAMES = (1_000, 4_096, 16_384)

# What files are filled with, and what the store has: its largest cache, and its log.
WIDE = (65_536, 65_536)
OURS = (3_072, 1_000)

# How often a start is repeated, and after how many seconds no more.
STARTS = 3
SECONDS = 8

# The least number of commits of one row. A long log takes more, so that it is copied into the file once: its frames over
# those of a commit.
COMMITS = 500
FRAMES_OF_A_COMMIT = 5

# So many requests are under way at once where a reply waits for those before it.
DEPTH = 32

# The log is filled up to this number of frames before its end. A row has no more of them, unless several pages are split.
ROOM = 8

# The bytes of a log's header, of a frame's, and of a page.
LOG_HEADER, FRAME_HEADER, PAGE = 32, 24, 4_096

# Memory as the packaged unit gives it to the server.
MEMORY = "glibc.malloc.hugetlb=1:glibc.malloc.mmap_threshold=4194304:glibc.malloc.trim_threshold=8388608"


def say(text):
    print(f"options: {text}", file=sys.stderr, flush=True)


class Store:
    """The program over a file with this number of rows, and what it told of its start."""

    def __init__(self, program, path, rows, *options):
        environment = {"GLIBC_TUNABLES": MEMORY, **os.environ}
        words = [program, path, *map(str, options)]
        start = time.perf_counter()
        self.process = subprocess.Popen(words, stdin=subprocess.PIPE, stdout=subprocess.PIPE, text=True, env=environment)
        self.told = {}
        while "ready" not in self.told:
            word, number = self.line()
            self.told[word] = number
        self.told["start"] = (time.perf_counter() - start) * 1e6
        self.rows = self.told["rows"]
        if self.rows != rows:
            sys.exit(f"options.py: {self.rows} rows were loaded in place of {rows}")

    def line(self):
        """A word and a number that the program printed."""
        line = self.process.stdout.readline()
        if not line:
            sys.exit(f"options.py: the program ended with status {self.process.wait()}")
        word, number = line.split()
        return word, int(number)

    def perform(self, word, rows, lines):
        """Adds rows, and gives the microseconds that it took, or those of each commit."""
        self.process.stdin.write(f"{word} {rows}\n")
        self.process.stdin.flush()
        told = [self.line() for _ in range(lines)]
        assert all(told_word == word for told_word, _ in told)
        self.rows += rows
        return [microseconds for _, microseconds in told]

    def fill(self, rows):
        return self.perform("fill", rows, 1)

    def put(self, commits):
        return self.perform("put", commits, commits)

    def close(self):
        self.process.stdin.close()
        if self.process.wait() != 0:
            sys.exit("options.py: the program failed at the end")
        self.process.stdout.close()

    def kill(self):
        self.process.kill()
        self.process.wait()
        self.process.stdin.close()
        self.process.stdout.close()


def log_of(path):
    return f"{path}-wal"


def frames_in(log):
    """How many frames of a log count, which are those with the salts of its header, and how often the log was begun anew."""
    with open(log, "rb", buffering=0) as file:
        header = file.read(LOG_HEADER)
        frames = 0
        while os.pread(file.fileno(), 8, LOG_HEADER + frames * (FRAME_HEADER + PAGE) + 8) == header[16:24]:
            frames += 1
    return frames, struct.unpack(">I", header[12:16])[0]


def fill_files(program, folder, sizes):
    """A file of each size: a copy of the one before, with more rows. Their paths, by size."""
    paths, before = {}, 0
    for size in sizes:
        paths[size] = os.path.join(folder, f"{size}.db")
        if before:
            shutil.copyfile(paths[before], paths[size])
        start = time.perf_counter()
        store = Store(program, paths[size], before, *WIDE)
        store.fill(size - before)
        store.close()
        say(f"{size:,} rows after {time.perf_counter() - start:.1f} s")
        before = size
    os.sync()
    return paths


def starts(program, path, rows, options):
    """What was told of each of some starts over a closed file."""
    told, begun = [], time.perf_counter()
    while len(told) < STARTS and (not told or time.perf_counter() - begun < SECONDS):
        store = Store(program, path, rows, *options)
        store.close()
        told.append(store.told)
    return told


def ms(microseconds):
    return f"{microseconds / 1e3:,.1f}"


def mb(size):
    return f"{size / 1e6:,.1f}"


def start_line(rows, path, cache, told):
    """The line of the table of starts: medians of what was told of these."""
    median = {word: statistics.median(one[word] for one in told) for word in told[0]}
    times = [ms(median[word]) for word in ("start", "connection", "store", "load")]
    memory = [mb(median[word] * 1_024) for word in ("resident", "peak")]
    line = [f"{rows:,}", mb(os.path.getsize(path)), f"{cache:,}", f"{len(told)}", *times, *memory]
    say(" ".join(line))
    return line


def insert(store, path, frames):
    """Commits of one row each, and then larger ones until the log is full and the program is killed. The microseconds of the
    former, and how often the log was copied meanwhile."""
    log = log_of(path)
    begun = frames_in(log)[1]
    taken = store.put(max(COMMITS, frames // FRAMES_OF_A_COMMIT))
    copied = frames_in(log)[1] - begun
    while (room := frames - frames_in(log)[0]) > ROOM:
        store.fill(max(1, room // ROOM))
    store.kill()
    return taken, copied


def p99(times):
    return statistics.quantiles(times, n=100)[98]


def insert_line(program, source, rows, options):
    """The line of the table of inserts with these options, over a copy of a file, and what was told of the start before them."""
    path = f"{source}-copy"
    shutil.copyfile(source, path)
    os.sync()
    store = Store(program, path, rows, *options)
    taken, copied = insert(store, path, options[1])
    left = [mb(os.path.getsize(path)), mb(os.path.getsize(log_of(path))), f"{frames_in(log_of(path))[0]:,}"]
    again = Store(program, path, store.rows, *options)
    again.kill()
    left += [ms(again.told["start"]), ms(again.told["connection"])]
    if options[0] == OURS[0]:
        served = Store(program, path, store.rows)
        served.kill()
        left.append(ms(served.told["start"]))
    else:
        left.append("")
    os.remove(path)
    os.remove(log_of(path))
    together = [sum(taken[at:at + DEPTH]) for at in range(len(taken) - DEPTH + 1)]
    of_each = (statistics.mean(taken), statistics.median(taken), p99(taken), max(taken))
    times = [f"{it:,.0f}" for it in (*of_each, statistics.median(together), p99(together))]
    line = [*(f"{it:,}" for it in options), *times, f"{copied} in {len(taken):,}", *left]
    say(" ".join(line))
    return line, store.told


def table(head, lines):
    print(f"\n| {' | '.join(head)} |\n|{'---|' * len(head)}")
    for line in lines:
        print(f"| {' | '.join(line)} |")


def measure(program, folder, sizes):
    """The lines of the two tables. The file that is inserted into is started often enough there."""
    paths = fill_files(program, folder, sizes)
    inserted = min(INSERTED_INTO, sizes[-1])
    inserts, told = [], {cache: [] for cache in CACHES}
    for frames in FRAMES:
        for cache in CACHES:
            line, start = insert_line(program, paths[inserted], inserted, (cache, frames))
            inserts.append(line)
            told[cache].append(start)
    lines = []
    for size in sizes:
        for cache in CACHES:
            all_told = told[cache] if size == inserted else starts(program, paths[size], size, (cache, OURS[1]))
            lines.append(start_line(size, paths[size], cache, all_told))
    return lines, inserts, inserted


def main():
    if not 3 <= len(sys.argv) <= 4:
        sys.exit("options.py PROGRAM FOLDER [ROWS]")
    program = os.path.abspath(sys.argv[1])
    largest = int(sys.argv[3]) if len(sys.argv) == 4 else SIZES[-1]
    begun, load = time.perf_counter(), os.getloadavg()[0]
    with tempfile.TemporaryDirectory(dir=sys.argv[2]) as folder:
        lines, inserts, inserted = measure(program, folder, [size for size in SIZES if size <= largest])
    print(f"{os.cpu_count()} processors, load {load:.1f} before and {os.getloadavg()[0]:.1f} after")
    print("\nStarts over a closed file: medians, times in ms, memory in MB with the loaded rows.")
    table(["rows", "file, MB", "cache, pages", "starts", "start", "connection", "store", "load", "resident", "peak"], lines)
    print(f"\nInserts of one row, from {inserted:,} rows on, in us; and one start after a kill with a full log, in ms.")
    head = ["cache, pages", "log, frames", "mean", "p50", "p99", "longest", "p50 of 32", "p99 of 32", "log copied"]
    after = ["file, MB", "log, MB", "frames", "start after a kill", "connection", "with the server's look"]
    table([*head, *after], inserts)
    print(f"\nAll of it took {time.perf_counter() - begun:.0f} s.")


main()
