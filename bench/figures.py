"""What `bench/table` and `bench/plot` share: the figures of all runs, which stand in `bench/figures.tsv`, and how one is written.

A row of the file is one figure of one run: the date, the commit, the machine, the figure's name, ours, the peer's, and the unit.
"""

import pathlib
import re

ROOT = pathlib.Path(__file__).resolve().parent.parent
RUNS = ROOT / "bench" / "figures.tsv"
COLUMNS = ("date", "commit", "machine", "figure", "ours", "peer", "unit")


class Figure:
    """One figure of one run."""

    def __init__(self, row):
        self.row = row
        self.run = row[:3]
        self.name, ours, peer, self.unit = row[3:]
        self.ours = float(ours) if ours else None
        self.peer = float(peer) if peer else None
        if self.unit == "KiB":
            self.unit = "MB"
            self.ours, self.peer = (None if value is None else value * 1024 / 1e6 for value in (self.ours, self.peer))

    @property
    def ratio(self):
        """Ours over the peer's."""
        return None if self.ours is None or not self.peer else self.ours / self.peer


def rows():
    """All rows of the file, without its first line."""
    lines = RUNS.read_text(encoding="utf-8").splitlines() if RUNS.exists() else []
    return [line.split("\t") for line in lines[1:]]


def last():
    """The last figure of each name and unit; one with a peer goes before later ones without."""
    found = {}
    for row in rows():
        figure = Figure(row)
        former = found.get((figure.name, figure.unit))
        if former is None or figure.peer is not None or former.peer is None:
            found[figure.name, figure.unit] = figure
    return found


def plain(name):
    """A name without commas within its numbers."""
    return re.sub(r"(?<=\d),(?=\d{3})", "", name)


def with_commas(text):
    """A text with commas within its numbers."""
    return re.sub(r"\d{4,}", lambda number: f"{int(number[0]):,}", text)


def number(value):
    """A value with three digits that count, or with all that stand before the point."""
    return f"{value:,.0f}" if value >= 100 else f"{value:.3g}"


def ratio_text(value):
    """A ratio."""
    return f"{value:,.0f}" if value >= 20 else f"{value:.2f}" if value >= 0.1 else f"{value:.2g}"
