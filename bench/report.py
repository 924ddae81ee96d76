"""Measures a program with each load, and prints the tables. `bench/run` calls it:

    python3 bench/report.py MEASURE PROGRAM FOLDER [--quick] [--load NAME]

MEASURE is the compiled measuring tool, and FOLDER is for what is written on the way."""

import argparse
import sys
import time

import recording
import serving
import table
import trying
from loads.catalogue import COLLIDING, COLLIDING_LOADS, LOADS
from measuring import Measure, measured

# The loads that have a table of their own.
OTHERS = (recording, trying, serving)


def show_sessions(measure, loads, quick):
    """The table of the loads that are one session each."""
    rounds, passes = (4, 2) if quick else (7, 3)
    refused = []
    table.show_head(table.COLUMNS)
    for load in loads:
        rows = measured(measure, load, quick, rounds, passes)
        table.show_load(load, rows)
        refused.append(f"{load.name}: {rows[-1]['refused']}")
    print("\nRefused, at the largest size of each load:")
    print("\n".join(refused))


def main():
    usage = "bench/run [PROGRAM] [--quick] [--load NAME]"
    words = argparse.ArgumentParser(prog="bench/run", usage=usage)
    words.add_argument("measure", help=argparse.SUPPRESS)
    words.add_argument("program", help=argparse.SUPPRESS)
    words.add_argument("folder", help=argparse.SUPPRESS)
    words.add_argument("--quick", action="store_true")
    words.add_argument("--load")
    asked = words.parse_args()
    loads = [load for load in LOADS if asked.load in (None, load.name)]
    loads += [load for load in COLLIDING_LOADS if asked.load in (COLLIDING, load.name)]
    others = [other for other in OTHERS if asked.load in (None, other.NAME)]
    if not loads and not others:
        names = [load.name for load in LOADS] + [other.NAME for other in OTHERS] + [COLLIDING]
        sys.exit(f"bench: no load is called {asked.load}; there are {', '.join(names)}")

    begun = time.monotonic()
    measure = Measure(asked.measure, asked.program, asked.folder)
    if loads:
        show_sessions(measure, loads, asked.quick)
    for place, other in enumerate(others):
        if loads or place > 0:
            print()
        other.show(measure, asked.quick, rounds=3 if asked.quick else 5)
    print(f"\nTook {time.monotonic() - begun:.0f} s.")


try:
    main()
except KeyboardInterrupt:
    sys.exit(130)
