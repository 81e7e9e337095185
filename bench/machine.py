#!/usr/bin/env python3
"""Measures the machine with many sessions, in memory and without streams: commits beside transactions that wait, locks taken and
released beside others that are held, and the memory of an idle session.

It starts `ov_machine_bench`, whose path is the first word. Messages are read as they come from a stream; each figure is the
median of several runs of many pairs, an insert and a delete or a lock and an unlock. At the end what was sent is compared.
"""

import json
import statistics
import subprocess
import sys

SESSIONS = 64
WAITS = (0, 64, 4_032)
LOCKS = (1, 255, 10_000)
# Locks that a session may hold, and transactions of it that may wait.
LOCKS_OF_ONE = 256
WAITS_OF_ONE = 64
PAIRS = 200
RUNS = 9


class Machine:
    """A machine with sessions."""

    def __init__(self, program, sessions):
        self.process = subprocess.Popen([program, "serve"], stdin=subprocess.PIPE, stdout=subprocess.PIPE, text=True)
        for _ in range(sessions):
            self.say("open")

    def say(self, line):
        self.process.stdin.write(line + "\n")

    def ask(self, line):
        self.say(line)
        self.process.stdin.flush()
        return self.process.stdout.readline().rstrip("\n")

    def take(self, session, id, method, params):
        self.say(f"take {session} {request(id, method, params)}")

    def pair(self, session, first, second):
        """The microseconds of one of the two messages."""
        nanoseconds = [int(self.ask(f"pair {session} {PAIRS} {first}\t{second}")) for _ in range(RUNS)]
        return statistics.median(nanoseconds) / 2 / PAIRS / 1000

    def resident(self):
        """In KiB, once all that was said is done."""
        self.ask("output 1")
        with open(f"/proc/{self.process.pid}/status", encoding="utf-8") as file:
            return int(next(line for line in file if line.startswith("VmRSS")).split()[1])

    def end(self):
        self.process.stdin.close()
        if self.process.wait() != 0:
            sys.exit("machine.py: the program failed")


def request(id, method, params):
    return json.dumps({"id": id, "method": method, "params": params}, separators=(",", ":"))


def insert(name):
    return request(0, "transact", ["Net", {"op": "insert", "table": "Switch", "row": {"name": name}}])


def delete(name):
    return request(1, "transact", ["Net", {"op": "delete", "table": "Switch", "where": [["name", "==", name]]}])


def wait(name):
    rows = [{"name": name}]
    where = [["name", "==", name]]
    return ["Net", {"op": "wait", "table": "Switch", "where": where, "columns": ["name"], "until": "==", "rows": rows}]


def commits(program, waits):
    """A commit beside waits that it does not meet. Then all of them are met, which shows that they were there."""
    machine = Machine(program, SESSIONS)
    for n in range(waits):
        machine.take(2 + n // WAITS_OF_ONE, n, "transact", wait(f"w{n}"))
    took = machine.pair(1, insert("x"), delete("x"))
    for n in range(waits):
        machine.say(f"take 1 {insert(f'w{n}')}")
    replies = [machine.ask(f"output {2 + n}") for n in range(-(-waits // WAITS_OF_ONE))]
    if sum(reply.count('"result":[{}]') for reply in replies) != waits:
        sys.exit("machine.py: a wait was not met")
    machine.end()
    return took


def locks(program, held):
    machine = Machine(program, SESSIONS)
    for n in range(held):
        machine.take(2 + n // LOCKS_OF_ONE, n, "lock", [f"lock_{n:05}"])
    took = machine.pair(1, request(0, "lock", ["lock_05000a"]), request(1, "unlock", ["lock_05000a"]))
    answered = [machine.ask(f"output {2 + n}").count('"locked":true') for n in range(-(-held // LOCKS_OF_ONE))]
    if sum(answered) != held:
        sys.exit("machine.py: a lock was not given")
    machine.end()
    return took


def idle(program):
    """The KiB of one session of 64, which were asked for one echo each."""
    resident = []
    for sessions in (1, SESSIONS):
        machine = Machine(program, sessions)
        for n in range(sessions):
            machine.take(n + 1, 0, "echo", [])
            machine.ask(f"output {n + 1}")
        resident.append(machine.resident())
        machine.end()
    return (resident[1] - resident[0]) / (SESSIONS - 1)


def figure(name, ours, unit):
    """Prints a figure as `bench/table` reads it."""
    print("figure", name, f"{ours:.6g}", "", unit, sep="\t", flush=True)


def main():
    (program,) = sys.argv[1:]
    for waits in WAITS:
        took = commits(program, waits)
        print(f"a commit beside {waits} waits: {took:.1f} us, {1e6 / took:.0f} a second")
        figure(f"machine: commit, waits: {waits}", took, "us")
    for held in LOCKS:
        took = locks(program, held)
        print(f"a lock or an unlock beside {held} locks: {took:.2f} us, {1e6 / took:.0f} a second")
        figure(f"machine: lock or unlock, others held: {held}", took, "us")
    print(f"an idle session: {idle(program):.1f} KiB")


main()
