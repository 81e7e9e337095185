#!/usr/bin/env python3
"""What a value takes in this server's memory, by its kind.

    bench/columns.py PROGRAM FOLDER [ROWS]

For each kind a server with a file gets a table with a name and eight columns of that kind, and ROWS rows of it, 40,000 if left
out, 500 in a transaction. It asks the C library, by gdb (`malloc_stats`), how many bytes are in use, before 4,096 echoes have
taken the place of these transactions in the history and after that. It prints the bytes of a value: what is in use afterwards,
less what is with rows of a name alone, by the rows and the eight columns; then those that the history held for it. A reference
is to the row before, so it is a value and a link; each index has one column, so it is a value and an entry. FOLDER is for the
files, which are removed at the end.
"""
import json
import os
import shutil
import sys

from northbound import ask, free_port, in_use, resident, start, stop

COLUMNS = 8
AT_ONCE = 500
# The history keeps this many entries.
HISTORY = 4_096

TEXT = {"type": "string"}
OPTIONAL = {"type": {"key": "integer", "min": 0, "max": 1}}
NUMBERS = {"type": {"key": "integer", "min": 0, "max": "unlimited"}}
TEXTS = {"type": {"key": "string", "value": "string", "min": 0, "max": "unlimited"}}
STRONG = {"type": {"key": {"type": "uuid", "refTable": "T"}, "min": 0, "max": 1}}
WEAK = {"type": {"key": {"type": "uuid", "refTable": "T", "refType": "weak"}, "min": 0, "max": 1}}

# Each kind of value: its column, the value in a row of this number, and whether each column has an index.
KINDS = {
    "empty set": (OPTIONAL, None, False),
    "empty map": (TEXTS, None, False),
    "set of one number": (OPTIONAL, lambda row, at: row, False),
    "set of three numbers": (NUMBERS, lambda row, at: ["set", [row, row + 1, row + 2]], False),
    "text of 8 bytes": (TEXT, lambda row, at: f"{row:08}", False),
    "text of 40 bytes": (TEXT, lambda row, at: f"{row:040}", False),
    "map of two short texts": (TEXTS, lambda row, at: ["map", [["vm", f"m{row}"], ["zone", f"z{row}"]]], False),
    "strong reference": (STRONG, lambda row, at: ["named-uuid", f"r{row - 1}"] if row % AT_ONCE else ["set", []], False),
    "weak reference": (WEAK, lambda row, at: ["named-uuid", f"r{row - 1}"] if row % AT_ONCE else ["set", []], False),
    "text of 8 bytes with an index": (TEXT, lambda row, at: f"{row:08}", True),
}


def schema(column, has_indexes):
    """A schema whose table has eight such columns, and one whose rows have names alone if there is no column."""
    columns = {"name": TEXT}
    table = {"columns": columns, "isRoot": True}
    if column is not None:
        columns.update({f"c{at}": column for at in range(COLUMNS)})
    if has_indexes:
        table["indexes"] = [[f"c{at}"] for at in range(COLUMNS)]
    return {"name": "Columns", "version": "1.0.0", "tables": {"T": table}}


def insert(row, value):
    """The operation that inserts the row of this number."""
    values = {"name": f"row{row}"}
    if value is not None:
        values.update({f"c{at}": value(row, at) for at in range(COLUMNS)})
    return {"op": "insert", "table": "T", "uuid-name": f"r{row}", "row": values}


def measure(program, folder, rows, kind):
    """The bytes in use with these rows, with and without the history's texts, and the resident memory, in bytes."""
    column, value, has_indexes = kind
    os.makedirs(folder)
    text, errors, port = f"{folder}/schema", f"{folder}/errors", free_port()
    with open(text, "w") as file:
        json.dump(schema(column, has_indexes), file)
    server = start([program, "--schema", text, "--db", f"{folder}/db", "--listen", f"127.0.0.1:{port}"], port, errors)
    for first in range(0, rows, AT_ONCE):
        answer = ask(port, "transact", ["Columns", *(insert(row, value) for row in range(first, first + AT_ONCE))])
        if any("error" in it for it in answer["result"]):
            sys.exit(f"refused: {answer['result'][-1]}")
    with_history = in_use(server, errors)
    for _ in range(HISTORY):
        ask(port, "echo", [])
    found = with_history, in_use(server, errors), resident(server) * 1e6
    stop(server)
    shutil.rmtree(folder)
    return found


def main():
    program, folder = sys.argv[1:3]
    rows = int(sys.argv[3]) if len(sys.argv) > 3 else 40_000
    alone = measure(program, folder, rows, (None, None, False))
    print(f"bytes of a row with a name alone, and in the history: {alone[1] / rows:.0f}, {(alone[0] - alone[1]) / rows:.0f}", flush=True)
    print(f"resident beyond what is in use, MB: {(alone[2] - alone[1]) / 1e6:.1f}", flush=True)
    for name, kind in KINDS.items():
        found = measure(program, folder, rows, kind)
        values = rows * COLUMNS
        history = (found[0] - found[1]) - (alone[0] - alone[1])
        print(f"{name}: {(found[1] - alone[1]) / values:.1f}, {history / values:.1f}", flush=True)


main()
