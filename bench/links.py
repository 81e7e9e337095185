#!/usr/bin/env python3
"""Measures how fast sessions are served by threads, in memory: echoes and inserts a second over 1 to 64 links, the time of one
echo where each waits for the one before, beside one session that is served by the thread which has the machine, and what of the
time goes to wake-ups.

It starts `ov_links_bench`, whose path is the first word. Each client waits at a bell for its answer, as one at a socket waits in
its read. A figure is the median of several runs; each run compares what was answered.
"""

import os
import statistics
import subprocess
import sys

LINKS = (1, 4, 16, 64)
RUNS = 5
# The messages of all clients together.
ECHOES = 64_000
INSERTS = 16_000


def run(program, *words):
    """The seconds of a run, those that the processors worked for it in the system and in all, and how often a thread slept."""
    process = subprocess.Popen([program, *words], stdout=subprocess.PIPE, text=True)
    nanoseconds = int(process.stdout.read())
    _, status, used = os.wait4(process.pid, 0)
    if status != 0:
        sys.exit("links.py: the program failed")
    return nanoseconds / 1e9, used.ru_stime, used.ru_utime + used.ru_stime, used.ru_nvcsw


def median(program, *words):
    runs = [run(program, *words) for _ in range(RUNS)]
    return [statistics.median(column) for column in zip(*runs)]


def figure(name, ours, unit):
    """Prints a figure as `bench/table` reads it."""
    print("figure", name, f"{ours:.6g}", "", unit, sep="\t", flush=True)


def main():
    (program,) = sys.argv[1:]
    for kind, total in (("echo", ECHOES), ("insert", INSERTS)):
        for depth in (1, 32):
            took, _, _, _ = median(program, "alone", kind, str(depth), str(total // 4))
            print(f"{kind}, alone, depth {depth}: {total // 4 / took:.0f} a second, {took / (total // 4) * 1e6:.1f} us each")
            figure(f"threads: {kind}, none, depth {depth}", total // 4 / took, "per second")
            for links in LINKS:
                took, system, all_of_it, sleeps = median(program, "threads", str(links), kind, str(depth), str(total // links))
                print(
                    f"{kind}, {links} links, depth {depth}: {total / took:.0f} a second, {took / total * 1e6:.1f} us each,"
                    f" {sleeps / total:.2f} sleeps each, {100 * system / all_of_it:.0f} % of the processors' time in the system"
                )
                figure(f"threads: {kind}, links: {links}, depth {depth}", total / took, "per second")


main()
