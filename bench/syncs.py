#!/usr/bin/env python3
"""What a durable commit costs without a server: appending so many bytes to a file, and one sync.

    bench/syncs.py FOLDER [COUNT]

181 bytes are what ovsdb-server appends for an insert of one row, and 4,120 is a page of 4,096 bytes in the log of SQLite. The
sizes take turns, one append each, COUNT turns in all, 2,000 if left out, into a file each, which are removed at the end. The
files are made as long as they get, as the log is that SQLite writes again from its beginning; the same in files that grow is
measured too. It prints median and p99 in microseconds.
"""
import os
import sys
import time

PAGE = 4_120
SIZES = (181, PAGE, 3 * PAGE, 5 * PAGE)


class File:
    """A file that is written from its beginning, in pieces of one size."""

    def __init__(self, path, size, count, grows):
        self.path, self.piece, self.times = path, os.urandom(size), []
        self.handle = os.open(path, os.O_RDWR | os.O_CREAT | os.O_EXCL)
        if not grows:
            os.write(self.handle, bytes(size * count))
            os.fsync(self.handle)
            os.lseek(self.handle, 0, os.SEEK_SET)

    def append(self):
        start = time.perf_counter_ns()
        os.write(self.handle, self.piece)
        os.fdatasync(self.handle)
        self.times.append((time.perf_counter_ns() - start) / 1e3)

    def close(self):
        os.close(self.handle)
        os.remove(self.path)


def main():
    folder = sys.argv[1]
    count = int(sys.argv[2]) if len(sys.argv) > 2 else 2_000
    for grows in (False, True):
        files = [File(f"{folder}/syncs-{size}", size, count, grows) for size in SIZES]
        for _ in range(count):
            for file in files:
                file.append()
        for file in files:
            times = sorted(file.times)
            place = "that grows" if grows else "of its length"
            print(f"{len(file.piece):,} bytes, a file {place}: {times[count // 2]:.0f} us, p99 {times[count * 99 // 100]:.0f}")
            file.close()


main()
