"""The load `record`: a run that writes its calls to a file, beside the same run without."""

import filecmp
import os

import table
from loads import day

NAME = "record"
SIZES = (100000, 300000, 900000)
QUICK_SIZES = (10000, 30000, 90000)

COLUMNS = [
    ("load", 8),
    ("size", 16),
    ("rows", 8),
    ("granted", 7),
    ("run ms", 8),
    ("record ms", 9),
    ("us a row", 8),
    ("run MB", 7),
    ("record MB", 9),
    ("time", 6),
    ("memory", 6),
]


def show(measure, quick, rounds):
    table.show_head(COLUMNS)
    before = None
    for size in QUICK_SIZES if quick else SIZES:
        row = measured(measure, size, rounds)
        table.show(COLUMNS, cells(row, before))
        before = row


def measured(measure, size, rounds):
    """The figures of a day of so many requests."""
    folder = measure.make_folder("day", size)
    told = day.write(folder, size)
    in_force, requests = (os.path.join(folder, name) for name in ("in-force", "requests"))
    wanted, recorded = (os.path.join(folder, name) for name in ("calls", "recorded"))
    plain, recording = ("run", in_force), ("run", in_force, "--record", recorded)
    measure.whole(requests, words=recording)
    if not filecmp.cmp(wanted, recorded, shallow=False):
        raise SystemExit(f"bench: {NAME}: the calls of {size} requests are recorded otherwise")
    runs = [
        (measure.whole(requests, words=plain), measure.whole(requests, words=recording))
        for _ in range(rounds)
    ]
    row = {
        "size": size,
        "rows": told.rows,
        "share": told.granted / told.requests,
        "plain": min(seconds for (seconds, _), _ in runs),
        "seconds": min(seconds for _, (seconds, _) in runs),
        "plain memory": max(memory for (_, memory), _ in runs),
        "memory": max(memory for _, (_, memory) in runs),
    }
    measure.remove(folder)
    return row


def cells(row, before):
    return [
        NAME if before is None else "",
        f"{row['size']:,} requests",
        f"{row['rows']:,}",
        f"{100 * row['share']:.1f}%",
        f"{1e3 * row['plain']:.1f}",
        f"{1e3 * row['seconds']:.1f}",
        f"{1e6 * (row['seconds'] - row['plain']) / row['rows']:.2f}",
        f"{row['plain memory']:.1f}",
        f"{row['memory']:.1f}",
        table.growth(row, before, "seconds", "size"),
        table.growth(row, before, "memory", "size"),
    ]
