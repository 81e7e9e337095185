#!/usr/bin/env python3
"""What an open `wait` with a timeout costs, and how late its timeout is answered, in this server and in ovsdb-server.

    bench/waits.py PROGRAM FOLDER

One client asks for a row that never comes, with a timeout that is far away. It prints the share of a processor that the server
uses meanwhile, and without such a wait. Then 100 waits of 50 ms, one after another: by how much each answer came after its
moment, as the client sees it. FOLDER is for the peer's file; it is removed at the end.
"""
import json
import os
import shutil
import socket
import statistics
import subprocess
import sys
import time

from northbound import ask, free_port, start, stop

SECONDS = 5
TIMEOUT = 50
WAITS = 100
TICKS = os.sysconf("SC_CLK_TCK")


def wait_for(timeout):
    """The request that waits for a row with this name, in milliseconds."""
    operation = {"op": "wait", "timeout": timeout, "table": "Switch", "where": [], "columns": ["name"], "until": "=="}
    return json.dumps({"id": 1, "method": "transact", "params": ["Net", {**operation, "rows": [{"name": "nobody"}]}]}).encode()


def processor(server):
    """The seconds of processor time that the server has used."""
    with open(f"/proc/{server.pid}/stat") as file:
        fields = file.read().rsplit(")", 1)[1].split()
    return (int(fields[11]) + int(fields[12])) / TICKS


def share(server):
    """The share of a processor that the server uses, in percent."""
    before = processor(server)
    time.sleep(SECONDS)
    return (processor(server) - before) / SECONDS * 100


def lateness(port):
    """By how many milliseconds the answer of each wait came after its timeout."""
    late = []
    with socket.create_connection(("127.0.0.1", port)) as link:
        link.setsockopt(socket.IPPROTO_TCP, socket.TCP_NODELAY, 1)
        for _ in range(WAITS):
            begun = time.perf_counter()
            link.sendall(wait_for(TIMEOUT))
            answer = link.recv(1 << 16)
            late.append((time.perf_counter() - begun) * 1e3 - TIMEOUT)
            if b"timed out" not in answer:
                sys.exit(f"no timeout: {answer}")
    return late


def measure(name, command, port):
    server = start(command, port)
    idle = share(server)
    with socket.create_connection(("127.0.0.1", port)) as link:
        link.sendall(wait_for(1_000_000))
        busy = share(server)
    late = lateness(port)
    stop(server)
    print(f"{name}: {idle:.1f} % of a processor without a wait, {busy:.1f} % with one; timeouts late by "
          f"{statistics.median(late):.2f} ms in the median and {max(late):.2f} at most, of {WAITS}", flush=True)


def main():
    program, folder = sys.argv[1:]
    os.makedirs(folder)
    ours, peer = free_port(), free_port()
    measure("ours", [program, "--listen", f"127.0.0.1:{ours}"], ours)
    server = start([program, "--listen", f"127.0.0.1:{ours}"], ours)
    with open(f"{folder}/schema", "w") as file:
        json.dump(ask(ours, "get_schema", ["Net"])["result"], file)
    stop(server)
    subprocess.run(["ovsdb-tool", "create", f"{folder}/peer.db", f"{folder}/schema"], check=True)
    remote = f"--remote=ptcp:{peer}:127.0.0.1"
    measure("ovsdb-server", ["ovsdb-server", f"--unixctl={folder}/control", remote, f"{folder}/peer.db"], peer)
    shutil.rmtree(folder)


main()
