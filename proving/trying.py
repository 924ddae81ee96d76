"""Tries the wrong bodies of a crate as copies of their functions, in one check over the libraries
below it, which are built."""

import dataclasses
import os
import shutil
import signal
import subprocess
import tempfile
import threading

from copies import Room, copies_of
from crates import rattle, words
from verdicts import Outcome, Result, Said, results_of


@dataclasses.dataclass(frozen=True)
class Tried:
    """What became of the edits of a crate that were tried together, how many functions were proved
    beside them without an edit, and what it took, in seconds of a processor."""

    crate: str
    results: tuple
    controls: int
    spent: float

    def failures(self):
        return [it for it in self.results if it.outcome != Outcome.REFUSED]


def try_edits(crate, edits, library=lambda crate: crate.library, jobs=1, log=None):
    """What becomes of these edits of the crate, in a check with so many jobs. The log, a file's
    path, gets what is said."""
    spent = 0.0
    copies, bad = copies_of(crate, edits)
    results = [Result(name, Outcome.BAD, why) for name, why in bad]
    controls = 0
    while any(it.edit for it in copies):
        with tempfile.TemporaryDirectory(prefix=f"wrong-bodies-{crate.name}-") as folder:
            room = Room(crate, copies, folder)
            status, text, took = check(room, library, jobs)
        spent += took
        if log:
            with open(log, "a", encoding="utf-8") as out:
                out.write(text)
        said = Said(crate, text)
        if said.verdicts and status in (0, 1):
            results += results_of(said, room.copies)
            controls = sum(it.edit is None for it in room.copies)
            break
        copies, more = without_errors(said, room.copies, status, text)
        results += more
    assert sorted(it.edit for it in results) == sorted(it.name for it in edits)
    return Tried(crate.name, tuple(results), controls, spent)


def check(room, library, jobs):
    """Checks the copies in the room, and gives the status, what was said, and what it took."""
    names = [it.path[-1] for it in room.copies]
    only = [word for name in names for word in ("--only", name)]
    whole = [rattle(), "check", *words(room.crate, jobs, library), "--allow-holes", *only]
    status, text, spent = ran(whole, room.folder)
    if status == -signal.SIGKILL and not ENDING.is_set():
        # most likely for memory, of which there may be more now
        status, text, more = ran(whole, room.folder)
        spent += more
    return status, text, spent


# The commands that run, and the folders that they run in; and whether a signal ended them.
RUNNING = {}
ENDING = threading.Event()


def end_all(number, _frame):
    """Ends this program and all that it runs, as a signal of this number asks."""
    ENDING.set()
    for process, folder in list(RUNNING.items()):
        os.killpg(process.pid, signal.SIGKILL)
        shutil.rmtree(folder, ignore_errors=True)
    os._exit(128 + number)


def ran(whole, folder):
    """Runs a command, and gives its status, what it said, and the processor's seconds it took."""
    with tempfile.TemporaryFile("w+", errors="replace") as said:
        how = {"stdin": subprocess.DEVNULL, "stdout": said, "stderr": subprocess.STDOUT}
        process = subprocess.Popen(whole, cwd=folder, process_group=0, **how)
        RUNNING[process] = folder
        _, status, used = os.wait4(process.pid, 0)
        RUNNING.pop(process, None)
        process.returncode = os.waitstatus_to_exitcode(status)
        said.seek(0)
        return process.returncode, said.read(), used.ru_utime + used.ru_stime


def without_errors(said, copies, status, text):
    """The copies that can be tried again where the check did not come to the prover, and what
    became of the others: those in which an error stands, or else all of them."""
    wrong = {it: said.errors_in(it) for it in copies if said.errors_in(it)}
    left = [it for it in copies if it not in wrong]
    if wrong and status == 1:
        found = wrong.items()
        return left, [Result(it.edit.name, Outcome.BAD, why[0]) for it, why in found if it.edit]
    how = f"the check ended with status {status}: {text[-600:].strip()}"
    return [], [Result(it.edit.name, Outcome.UNKNOWN, how) for it in copies if it.edit]
