#!/usr/bin/env python3
"""What waking threads in turn costs on this machine, with no server: a byte goes through threads that stand in a row, over socket
pairs, after a pause. Prints the time of a round with one thread and with three, as many as an echo wakes at an address.

    bench/relay.py [ROUNDS]
"""
import socket
import sys
import threading
import time

ROUNDS = int(sys.argv[1]) if len(sys.argv) > 1 else 4000
PAUSE = 0.003


def pass_on(source, target):
    """What each thread does: it passes on what comes."""
    while byte := source.recv(1):
        target.send(byte)


def rounds(threads):
    """The seconds of each round through this number of threads, the least first."""
    pairs = [socket.socketpair() for _ in range(threads + 1)]
    for before, after in zip(pairs, pairs[1:]):
        threading.Thread(target=pass_on, args=(before[1], after[0]), daemon=True).start()
    took = []
    for _ in range(ROUNDS):
        time.sleep(PAUSE)
        began = time.perf_counter()
        pairs[0][0].send(b"x")
        pairs[-1][1].recv(1)
        took.append(time.perf_counter() - began)
    return sorted(took)


for count in (1, 3):
    times = rounds(count)
    middle, late = (times[int(len(times) * share)] * 1e6 for share in (0.5, 0.999))
    slow = sum(it > 0.001 for it in times)
    print(f"threads: {count}, p50 {middle:.0f} us, p99.9 {late:.0f} us, over 1 ms: {slow} of {ROUNDS}")
