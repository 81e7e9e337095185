#!/usr/bin/env python3
"""Measures how long a start takes with schemas of more and more tables, and with schemas in files: from the start of the program
to its reply to `list_dbs`, over pipes, with a database in memory.

    bench/schemas.py PROGRAM [FILE..]

Each table has eight columns: four that refer to other tables, strongly and weakly, a map, an enumeration, a set of bounded
integers and a text, which is an index. Each figure is the median of five starts. The growth stands beside it: how many times as
long as with half of the tables, so 2 where it is linear in their number, and 4 where it is quadratic.
"""

import json
import os
import statistics
import subprocess
import sys
import tempfile
import time

TABLES = (20, 40, 80, 160, 320, 640)
STARTS = 5
ASK = b'{"id":0,"method":"list_dbs","params":[]}'


def reference(table, strength, most):
    return {"type": {"key": {"type": "uuid", "refTable": table, "refType": strength}, "min": 0, "max": most}}


def table(number, count):
    """A table that refers to four others, at different distances."""
    others = [f"Table_{(number + step) % count}" for step in (1, 7, count // 2, count - 1)]
    return {
        "columns": {
            "next": reference(others[0], "strong", "unlimited"),
            "near": reference(others[1], "weak", "unlimited"),
            "far": reference(others[2], "strong", 1),
            "last": reference(others[3], "weak", 1),
            "external_ids": {"type": {"key": "string", "value": "string", "min": 0, "max": "unlimited"}},
            "mode": {"type": {"key": {"type": "string", "enum": ["set", ["access", "native", "trunk"]]}, "min": 0, "max": 1}},
            "tags": {"type": {"key": {"type": "integer", "minInteger": 0, "maxInteger": 4095}, "min": 0, "max": 4096}},
            "name": {"type": "string"},
        },
        "indexes": [["name"]],
        "isRoot": number % 2 == 0,
    }


def schema(count):
    tables = {f"Table_{number}": table(number, count) for number in range(count)}
    return {"name": "Large", "version": "1.0.0", "tables": tables}


def start(program, path, name):
    """The milliseconds of one start."""
    wanted = json.dumps({"error": None, "id": 0, "result": [name]}, separators=(",", ":")).encode()
    before = time.perf_counter()
    ran = subprocess.run([program, "--schema", path], input=ASK, capture_output=True, check=False)
    took = (time.perf_counter() - before) * 1000
    if (ran.returncode, ran.stdout) != (0, wanted):
        sys.exit(f"{path}: status {ran.returncode}, {ran.stdout!r}, {ran.stderr!r}, and should be {wanted!r}")
    return took


def name_of(path):
    with open(path, encoding="utf-8") as file:
        return json.load(file)["name"]


def median(program, path):
    name = name_of(path)
    return statistics.median(start(program, path, name) for _ in range(STARTS))


def figure(name, ours, unit):
    """Prints a figure as `bench/table` reads it."""
    print("figure", name, f"{ours:.6g}", "", unit, sep="\t", flush=True)


def main():
    if len(sys.argv) < 2:
        sys.exit(__doc__)
    program, files = sys.argv[1], sys.argv[2:]
    before = None
    with tempfile.TemporaryDirectory() as folder:
        for count in TABLES:
            path = os.path.join(folder, f"{count}.ovsschema")
            with open(path, "w", encoding="utf-8") as file:
                json.dump(schema(count), file)
            took = median(program, path)
            growth = "" if before is None else f", {took / before:.2f} times as long"
            print(f"{count} tables, {os.path.getsize(path) // 1024} KiB: {took:.1f} ms{growth}", flush=True)
            figure(f"start with a schema of {count} tables", took, "ms")
            before = took
    for path in files:
        took = median(program, path)
        print(f"{path}, {os.path.getsize(path) // 1024} KiB: {took:.1f} ms", flush=True)
        figure(f"start with the schema {name_of(path)}", took, "ms")


main()
