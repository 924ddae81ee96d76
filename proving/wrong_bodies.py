"""Tries the wrong bodies of several crates side by side, each crate's in one check."""

import os
import sys
import time
from concurrent.futures import FIRST_COMPLETED, ThreadPoolExecutor, wait

from crates import crates_of
from edits import edits_in
from trying import try_edits
from verdicts import BY_ANSWER, Outcome

# More edits of one crate than these are tried in several checks, so that they run side by side.
MOST_TOGETHER = 30


def try_crates(root, edits, gate, log):
    """Tries these edits, by crates' names, says what became of them, and returns the status. Beside
    a gate it leaves the processors to that, begins with a crate once the gate has proved those
    below it, and waits for what the gate says of the edits that it tries itself."""
    crates = crates_of(root)
    tasks = [(crates[name], part) for name, all in edits.items() for part in parts_of(all)]
    tasks.sort(key=lambda task: -len(task[1]))
    tried, begun = [], time.monotonic()
    if gate:
        os.nice(19)
    with ThreadPoolExecutor(os.cpu_count() or 1) as pool:
        left, running = tasks, set()
        while left or running:
            ready = [it for it in left if are_proved(it[0], gate)]
            idle = most_at_once(gate) - len(running)
            for task in ready[: max(0, idle)]:
                left.remove(task)
                jobs = 1 if gate and not gate.has_ended() else min(4, idle // len(ready))
                running.add(pool.submit(try_edits, *task, jobs=max(1, jobs), log=log))
            if not running and not ready and (not gate or gate.has_ended()):
                break
            done = wait(running, timeout=2, return_when=FIRST_COMPLETED)[0]
            if not running:
                time.sleep(2)
            for it in done:
                running.remove(it)
                tried.append(it.result())
                tell(tried[-1])
    seconds = time.monotonic() - begun
    while gate and not gate.has_ended():
        time.sleep(2)
    return tell_all(root, tried, left, gate, seconds)


def parts_of(edits):
    """The edits in parts of much the same size, none of which is above the most."""
    count = -(-len(edits) // MOST_TOGETHER)
    return [edits[at::count] for at in range(count)]


def are_proved(crate, gate):
    """Whether the libraries below the crate are there."""
    if gate:
        return {it.name for it in crate.below()} <= gate.proved()
    return all(os.path.isdir(it.library) for it in crate.below())


def most_at_once(gate):
    """How many checks may run: beside a gate that proves, and that goes before them, one less than
    there are processors, since each takes memory too."""
    processors = len(os.sched_getaffinity(0))
    return max(1, processors - 1) if gate and not gate.has_ended() else processors


def tell(tried):
    """Says what became of the edits of a check."""
    for it in tried.failures():
        print(f"wrong bodies: {tried.crate}/{it.edit}: {it.outcome.value}: {it.why}")
    refused = [it for it in tried.results if it.outcome == Outcome.REFUSED]
    answers = sum(it.why.startswith(BY_ANSWER) for it in refused)
    print(
        f"wrong bodies: {tried.crate}: {len(refused)} of {len(tried.results)} refused ({answers} "
        f"by answers alone), {tried.controls} functions as they stand beside them, "
        f"{tried.spent:.0f} core-seconds",
        flush=True,
    )


def tell_all(root, tried, left, gate, seconds):
    """Says what became of all, and returns the status."""
    count = sum(len(it.results) for it in tried)
    failed = sum(len(it.failures()) for it in tried)
    refused, failed = count - failed, failed + sum(len(part) for _, part in left)
    for crate, part in left:
        lacking = [it.name for it in crate.below() if not os.path.isdir(it.library)]
        why = f"{lacking[0] if lacking else 'a library below it'} is not proved"
        print(f"wrong bodies: {crate.name}: {len(part)} NOT TRIED: {why}")
    spent = sum(it.spent for it in tried)
    print(f"wrong bodies: {seconds / 60:.0f} minutes, {spent:.0f} core-seconds")
    for name, edit in not_refused_by(gate, root) if gate else ():
        print(f"wrong bodies: {name}/{edit}: rt ci does not say that it is refused")
        failed += 1
    if not count:
        print("wrong bodies: none was tried")
        failed += 1
    print(f"{refused} passed, {failed} failed", flush=True)
    return 1 if failed else 0


def not_refused_by(gate, root):
    """The edits that the gate tries itself, and of which it does not say that they are refused.
    Those that this script tries too are refused by both, or one of them has failed."""
    crates = crates_of(root).values()
    every = {(it.name, edit.name) for it in crates for edit in edits_in(f"{it.folder}/must-fail")}
    return sorted(every - gate.refused())
