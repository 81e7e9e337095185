#!/usr/bin/env python3
"""What rows take in memory, in this server and beside it in ovsdb-server, each with a file: wide ones, of OVN's northbound
schema, and narrow ones, of four columns.

    bench/northbound.py PROGRAM FOLDER [ROWS [NARROW]]

Each server gets switches of 100 ports, one transaction a switch, 40,000 ports if ROWS is left out. A port has a name, one
address, `up` and one pair in `external_ids`; its other columns keep their defaults. Then, over new files, it gets 100 rows of
four columns a transaction, 100,000 if NARROW is left out. It prints the resident memory, in megabytes of 10^6 bytes, of a
server with an empty database, of one that took the rows, of one that was started over them, and the most that this start took;
and of this server, by gdb (`malloc_stats`), what the C library had in use with the rows and after the start. Debian's
`ovn-common` has the schema, `openvswitch-common` the peer. FOLDER is for the files, which are removed at the end.
"""
import json
import math
import os
import shutil
import socket
import subprocess
import sys
import time

WIDE = "/usr/share/ovn/ovn-nb.ovsschema"
NARROW = {
    "name": "OVN_Northbound",
    "version": "1.0.0",
    "tables": {
        "Logical_Switch_Port": {
            "columns": {
                "name": {"type": "string"},
                "tag": {"type": {"key": "integer", "min": 0, "max": 1}},
                "up": {"type": "boolean"},
                "cost": {"type": "integer"},
            },
            "isRoot": True,
        }
    },
}
PORTS = 100
# The C library's memory, as the packaged unit sets it.
MEMORY = "glibc.malloc.hugetlb=1:glibc.malloc.mmap_threshold=4194304:glibc.malloc.trim_threshold=8388608"
# A server that has not answered by then never will.
SECONDS = 600


def free_port():
    """A port that nobody listens at."""
    with socket.socket() as it:
        it.bind(("127.0.0.1", 0))
        return it.getsockname()[1]


def ask(port, method, params):
    """What the server at the port answers to one request."""
    with socket.create_connection(("127.0.0.1", port), 5) as link:
        link.settimeout(SECONDS)
        link.sendall(json.dumps({"id": 1, "method": method, "params": params}).encode())
        text = b""
        while True:
            text += link.recv(1 << 20)
            try:
                return json.loads(text)
            except ValueError:
                pass


def switch(at):
    """The operations that make a switch with its ports."""
    operations, names = [], []
    for port in range(at * PORTS, (at + 1) * PORTS):
        row = {
            "name": f"port{port}",
            "addresses": f"0a:00:00:{port >> 16:02x}:{port >> 8 & 255:02x}:{port & 255:02x} 10.{port >> 16}.{port >> 8 & 255}.{port & 255}",
            "up": True,
            "external_ids": ["map", [["vm", f"machine{port}"]]],
        }
        operations.append({"op": "insert", "table": "Logical_Switch_Port", "uuid-name": f"p{port}", "row": row})
        names.append(["named-uuid", f"p{port}"])
    operations.append({"op": "insert", "table": "Logical_Switch", "row": {"name": f"switch{at}", "ports": ["set", names]}})
    return operations


def narrow(at):
    """The operations that insert rows of four columns."""
    ports = range(at * PORTS, (at + 1) * PORTS)
    rows = ({"name": f"port{port}", "tag": port % 4096, "up": True, "cost": port} for port in ports)
    return [{"op": "insert", "table": "Logical_Switch_Port", "row": row} for row in rows]


def resident(process, which="VmRSS"):
    """The resident memory of the process, in megabytes; of VmHWM the most that it had."""
    with open(f"/proc/{process.pid}/status") as file:
        line = next(it for it in file if it.startswith(which))
    return int(line.split()[1]) * 1024 / 1e6


def in_use(server, errors):
    """The bytes that the server has allocated, by the C library, which writes them to the server's standard error; not a number
    where gdb can't have it called, as on some virtual machines."""
    command = ["gdb", "-p", str(server.pid), "-batch", "-ex", "call (void)malloc_stats()"]
    subprocess.run(command, capture_output=True, check=False)
    with open(errors) as file:
        lines = [line for line in file if line.startswith("in use bytes")]
    return int(lines[-1].split("=")[1]) if lines else math.nan


def start(command, port, errors=os.devnull):
    """A server that answers, with its standard error in a file."""
    with open(errors, "w") as file:
        process = subprocess.Popen(command, env={**os.environ, "GLIBC_TUNABLES": MEMORY}, stderr=file,
                                   stdin=subprocess.DEVNULL, stdout=subprocess.DEVNULL)
    while process.poll() is None:
        try:
            ask(port, "list_dbs", [])
            return process
        except ConnectionRefusedError:
            time.sleep(0.05)
    sys.exit(f"{command[0]} ended")


def count(port):
    """How many ports the server at this port has."""
    find = {"op": "select", "table": "Logical_Switch_Port", "where": [], "columns": ["name"]}
    return len(ask(port, "transact", ["OVN_Northbound", find])["result"][0]["rows"])


def stop(process):
    process.terminate()
    process.wait()


def measure(command, port, rows, operations, errors):
    """The memory of an empty server, of the same with the rows, and of one that is started over them, now and at its most; and
    what is in use with the rows and after that start, if there is a file for what the server says of it."""
    used = []
    server = start(command, port, errors)
    figures = [resident(server)]
    for at in range(rows // PORTS):
        answer = ask(port, "transact", ["OVN_Northbound", *operations(at)])
        if any("error" in it for it in answer["result"]):
            sys.exit(f"refused: {answer['result'][-1]}")
    figures.append(resident(server))
    if errors != os.devnull:
        used.append(in_use(server, errors) / 1e6)
    stop(server)
    server = start(command, port, errors)
    figures += [resident(server), resident(server, "VmHWM")]
    if errors != os.devnull:
        used.append(in_use(server, errors) / 1e6)
    if count(port) != rows:
        sys.exit("rows are missing")
    stop(server)
    return figures, used


def compare(program, folder, schema, rows, operations):
    """Measures both servers, over new files in a folder that is removed at the end, and prints a line for each."""
    ours, peer = free_port(), free_port()
    subprocess.run(["ovsdb-tool", "create", f"{folder}/peer.db", schema], check=True)
    commands = {
        "ours": ([program, "--schema", schema, "--db", f"{folder}/ours.db", "--listen", f"127.0.0.1:{ours}"], ours),
        "ovsdb-server": (["ovsdb-server", f"--unixctl={folder}/control", f"--remote=ptcp:{peer}:127.0.0.1", f"{folder}/peer.db"], peer),
    }
    for name, (command, port) in commands.items():
        errors = f"{folder}/errors" if name == "ours" else os.devnull
        for figures in measure(command, port, rows, operations, errors):
            if figures:
                print(f"{name}: " + ", ".join(f"{it:.1f}" for it in figures), flush=True)
    shutil.rmtree(folder)


def main():
    program, folder, *counts = sys.argv[1:]
    wide, few = [int(it) for it in counts] + [40_000, 100_000][len(counts):]
    os.makedirs(folder)
    print(f"MB with {wide:,} ports: empty, filled, started over them, at the most of that start; in use: filled, started")
    compare(program, folder, WIDE, wide, switch)
    os.makedirs(folder)
    with open(f"{folder}/schema", "w") as file:
        json.dump(NARROW, file)
    print(f"MB with {few:,} rows of four columns: the same")
    compare(program, folder, f"{folder}/schema", few, narrow)


if __name__ == "__main__":
    main()
