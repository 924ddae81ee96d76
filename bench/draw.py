"""Draws what `bench/run` printed, as SVG pictures:

    python3 -B bench/draw.py FIGURES FOLDER

FIGURES is a file with the tables of a whole run. Three pictures are written: how long a request
takes, how many a server answers, and how long a trial takes."""

import re
import sys
from pathlib import Path

import serving
import table
import trying
from picture import Picture

# The loads at which something grows that a request should not feel.
GROWING = {
    "large network": "zone prefixes",
    "dots and stars": "patterns with dots and stars",
    "gateways": "gateways",
    "learned prefixes": "gateways with learned prefixes",
    "open calls": "open calls",
}


def cells_of(line):
    """The cells of a line of a table, which stand at least two spaces apart; the first one is empty
    if the line begins with spaces."""
    first = [""] if line.startswith(" ") else []
    return first + re.split(r" {2,}", line.strip())


def rows_of(lines, columns):
    """The rows of the table with these columns, each with the name of its load."""
    heads = [head for head, _ in columns]
    load, inside = "", False
    for line in lines:
        if not line.strip():
            inside = False
        elif cells_of(line) == heads:
            inside = True
        elif inside:
            name, *cells = cells_of(line)
            load = name or load
            yield [load, *cells]


def number(text):
    """The number with which a cell begins."""
    return float(text.split()[0].replace(",", ""))


def draw_requests(lines, folder):
    """A request's microseconds, by how much there is of what each load has much of."""
    lasted = [head for head, _ in table.COLUMNS].index("us each")
    picture = Picture("A request's time", "how many there are", "microseconds a request")
    points = {}
    for row in rows_of(lines, table.COLUMNS):
        if row[0] in GROWING:
            points.setdefault(row[0], []).append((number(row[1]), number(row[lasted])))
    for load, what in GROWING.items():
        picture.add(what, points.get(load, []))
    picture.write(folder / "requests.svg")


def draw_sessions(lines, folder):
    """Requests a second, by the number of clients."""
    rows = list(rows_of(lines, serving.COLUMNS))
    picture = Picture("A server's pace", "clients", "thousand requests a second")
    picture.add("sent on", [(number(row[1]), number(row[4]) / 1e3) for row in rows])
    picture.add("each reply is waited for", [(number(row[1]), number(row[8]) / 1e3) for row in rows])
    picture.write(folder / "sessions.svg")


def draw_trials(lines, folder):
    """The milliseconds of a trial, by the number of workers, for each size."""
    first = [head for head, _ in trying.COLUMNS].index(f"{trying.WORKERS[0]} ms")
    picture = Picture("A trial's time, reading its file included", "workers", "milliseconds")
    for row in rows_of(lines, trying.COLUMNS):
        times = row[first : first + len(trying.WORKERS)]
        points = [(workers, number(time)) for workers, time in zip(trying.WORKERS, times)]
        picture.add(f"{row[2]} rows", points)
    picture.write(folder / "trials.svg")


def main():
    if len(sys.argv) != 3:
        sys.exit("usage: python3 -B bench/draw.py FIGURES FOLDER")
    lines = Path(sys.argv[1]).read_text().splitlines()
    folder = Path(sys.argv[2])
    for draw in (draw_requests, draw_sessions, draw_trials):
        draw(lines, folder)


main()
