"""The load `trial`: a candidate is tried on a call file, by one to four workers."""

import filecmp
import os

import table
from loads import day

NAME = "trial"
SIZES = (100000, 300000, 900000)
QUICK_SIZES = (10000, 30000, 90000)
WORKERS = (1, 2, 3, 4)

COLUMNS = [
    ("load", 8),
    ("size", 16),
    ("rows", 8),
    ("changed", 7),
    ("reading ms", 10),
    *((f"{workers} ms", 8) for workers in WORKERS),
    ("gain", 5),
    ("apart", 5),
    ("1 MB", 6),
    ("4 MB", 6),
    ("time", 6),
    ("memory", 6),
]


def show(measure, quick, rounds):
    table.show_head(COLUMNS)
    before = None
    for size in QUICK_SIZES if quick else SIZES:
        row = measured(measure, size, rounds)
        table.show(COLUMNS, cells(row, before))
        before = row


class Trials:
    """The trials of a day of so many requests."""

    def __init__(self, measure, size):
        self.measure = measure
        self.folder = measure.make_folder("day", size)
        self.told = day.write(self.folder, size)

    def file(self, name):
        return os.path.join(self.folder, name)

    def words(self, calls, workers):
        files = ("--calls", self.file(calls), "--endpoints", self.file("endpoints"))
        return ("trial", self.file("candidate"), *files, "--workers", workers)

    def made(self, workers, target="/dev/null"):
        return self.measure.whole("/dev/null", target, self.words("calls", workers))

    def read(self, target="/dev/null"):
        """Reads all files, of which the last row of the last is at fault, and makes no trial."""
        words = self.words("faulty-calls", 1)
        return self.measure.whole("/dev/null", target, words, kind="fault")

    def check(self):
        """The report counts the calls as they were written, and is the same for every number of
        workers; and the last row alone of the faulty file is at fault."""
        told = self.told
        first, other = self.file("report"), self.file("other-report")
        self.made(WORKERS[0], first)
        with open(first) as report:
            *_, counts = report
        wanted = f"count,{told.same + told.changed},{told.same},{told.changed},\n"
        if counts != wanted:
            raise SystemExit(f"bench: {NAME}: {counts.strip()}, not {wanted.strip()}")
        for workers in WORKERS[1:]:
            self.made(workers, other)
            if not filecmp.cmp(first, other, shallow=False):
                raise SystemExit(f"bench: {NAME}: {workers} workers make another report")
        self.read(self.file("fault"))
        with open(self.file("fault")) as said:
            if said.read() != f"gkd: calls row {told.rows + 1}: NoCall\n":
                raise SystemExit(f"bench: {NAME}: the faulty call file has another fault")


def measured(measure, size, rounds):
    trials = Trials(measure, size)
    trials.check()
    reading = []
    runs = {workers: [] for workers in WORKERS}
    # The numbers of workers take turns, so that a slow time of the machine comes at all of them.
    for _ in range(rounds):
        reading.append(trials.read())
        for workers, of_these in runs.items():
            of_these.append(trials.made(workers))
    measure.remove(trials.folder)
    told = trials.told
    return {
        "size": size,
        "rows": told.rows,
        "share": told.changed / (told.same + told.changed),
        "reading": min(seconds for seconds, _ in reading),
        "workers": [min(seconds for seconds, _ in runs[workers]) for workers in WORKERS],
        "seconds": min(seconds for seconds, _ in runs[WORKERS[0]]),
        "memory": max(memory for _, memory in runs[WORKERS[0]]),
        "most": max(memory for _, memory in runs[WORKERS[-1]]),
    }


def cells(row, before):
    first, last = row["workers"][0], row["workers"][-1]
    reading = row["reading"]
    return [
        NAME if before is None else "",
        f"{row['size']:,} requests",
        f"{row['rows']:,}",
        f"{100 * row['share']:.1f}%",
        f"{1e3 * reading:.1f}",
        *(f"{1e3 * seconds:.1f}" for seconds in row["workers"]),
        f"{first / last:.2f}",
        f"{(first - reading) / (last - reading):.2f}" if reading < last else "-",
        f"{row['memory']:.1f}",
        f"{row['most']:.1f}",
        table.growth(row, before, "seconds", "rows"),
        table.growth(row, before, "memory", "rows"),
    ]
