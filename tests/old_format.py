"""Stored format 1, as older versions of the program wrote it, for the scripts beside it."""
import os
import sqlite3

META = "CREATE TABLE meta(k TEXT PRIMARY KEY, v BLOB)"
LINE = "CREATE TABLE line(tbl TEXT, id BLOB, ver BLOB, body BLOB, PRIMARY KEY(tbl,id))"


def lines_of(connection):
    """The rows of a database of format 2, each as its line of format 1."""
    cells = {}
    for table, row, column, body in connection.execute("SELECT tbl, id, col, body FROM cell ORDER BY tbl, id, col"):
        cells.setdefault((table, row), []).append(b'"%s":%s' % (column.encode(), body))
    heads = connection.execute("SELECT tbl, id, ver FROM head").fetchall()
    return [(table, row, version, b"{%s}" % b",".join(cells.get((table, row), []))) for table, row, version in heads]


def to_format_1(path):
    """Turns a file of format 2, which nobody serves, into one of format 1 with the same rows and versions. SQLite makes it, in
    log mode and without sums."""
    connection = sqlite3.connect(path)
    schema = connection.execute("SELECT v FROM meta WHERE k='schema'").fetchone()[0]
    lines = lines_of(connection)
    connection.close()
    os.remove(path)
    connection = sqlite3.connect(path, isolation_level=None)
    connection.execute("PRAGMA journal_mode=WAL")
    connection.execute(META)
    connection.execute(LINE)
    connection.executemany("INSERT INTO meta VALUES(?1,?2)", [("format", b"1"), ("schema", schema)])
    connection.executemany("INSERT INTO line VALUES(?1,?2,?3,?4)", lines)
    connection.close()


def tables_of(path):
    """The byte of a file's format, and how many rows its tables `line`, `head` and `cell` have, where there are any."""
    connection = sqlite3.connect(path)
    byte = connection.execute("SELECT v FROM meta WHERE k='format'").fetchone()[0]
    there = {name for (name,) in connection.execute("SELECT name FROM sqlite_master WHERE type='table'")}
    counts = [connection.execute(f"SELECT count(*) FROM {name}").fetchone()[0] if name in there else None
              for name in ("line", "head", "cell")]
    connection.close()
    return (byte, *counts)
