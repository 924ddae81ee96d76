"""Writes a load at its sizes and runs the measuring tool on each."""

import os
import shutil
import subprocess

# In a load that measures something, so many of a hundred requests are granted.
LEAST_GRANTED = 80


class Measure:
    """The measuring tool with its program, and a folder for the loads."""

    def __init__(self, tool, program, folder):
        self.tool = tool
        self.program = program
        self.folder = folder

    def path(self, *words):
        return os.path.join(self.folder, "-".join(map(str, words)))

    def make_folder(self, *words):
        folder = self.path(*words)
        os.mkdir(folder)
        return folder

    def remove(self, folder):
        """Removes a folder of a load, with what is in it."""
        shutil.rmtree(folder)

    def say(self, *words):
        """What the tool prints, as lists of words."""
        done = subprocess.run([self.tool, *map(str, words)], stdout=subprocess.PIPE, text=True)
        if done.returncode != 0:
            # The tool has said why.
            raise SystemExit(f"bench: {words[0]} failed")
        return [line.split() for line in done.stdout.splitlines()]

    def whole(self, source, target="/dev/null", words=(), kind="whole"):
        """The seconds and the megabytes of a run with these words; it may be one of kind `fault`,
        which goes to the target."""
        said = dict(self.say(kind, self.program, source, target, *words))
        return float(said["seconds"]), int(said["peak_kb"]) / 1024

    def serve(self, configuration, way, opening, inputs):
        """What a server and its clients say at their end: words with their numbers."""
        said = self.say("serve", self.program, configuration, way, opening, *inputs)
        words = [word for line in said for word in line]
        return {word: float(number) for word, number in zip(words[::2], words[1::2])}

    def check(self, source, granted):
        """Runs the program once to see that it answers as the load means it to: the counts of
        what it was asked, and why it refused."""
        replies = self.path("replies")
        self.whole(source, replies)
        said = self.say("check", source, replies)
        counts = {words[0]: int(words[1]) for words in said if words[0] != "refused"}
        if counts["granted"] != granted:
            raise SystemExit(f"bench: {counts['granted']} requests are granted, not {granted}")
        if granted * 100 < counts["requests"] * LEAST_GRANTED:
            raise SystemExit(f"bench: only {granted} of {counts['requests']} are granted")
        refused = [f"{words[-1]} {' '.join(words[1:-1])}" for words in said if len(words) > 2]
        return counts, ", ".join(refused)

    def single(self, source, passes):
        """The slowest request and the slowest reload: milliseconds, and which request it is."""
        said = self.say("single", self.program, source, passes)
        return {words[0]: (float(words[1]), words[2]) for words in said}


def copy_opening(source, target, count):
    """What comes before that which is measured: the configuration at least."""
    with open(source, "rb") as whole, open(target, "wb") as copy:
        copy.write(whole.read(count))


def measured(measure, load, quick, rounds, passes):
    """The figures of a load, a dictionary for each size."""
    rows = []
    for size in load.sizes_of(quick):
        source, start = measure.path("load", size), measure.path("start", size)
        with open(source, "w") as file:
            written = load.write_to(file, size, quick)
        opening_bytes, opening_requests = written.opening
        copy_opening(source, start, opening_bytes)
        counts, refused = measure.check(source, written.granted)
        row = {"size": size, "source": source, "start": start, "refused": refused}
        row["share"] = counts["granted"] / counts["requests"]
        row["requests"] = counts["requests"] - opening_requests
        row["lines"] = counts["lines"] - opening_requests
        rows.append(row)
    # The sizes take turns, so that a slow time of the machine does not come at one of them alone.
    runs = [[] for _ in rows]
    for _ in range(rounds):
        for row, of_row in zip(rows, runs):
            of_row.append((measure.whole(row["start"]), measure.whole(row["source"])))
    for row, of_row in zip(rows, runs):
        row["opening"] = min(seconds for (seconds, _), _ in of_row)
        row["seconds"] = min(seconds for _, (seconds, _) in of_row) - row["opening"]
        row["memory"] = max(memory for _, (_, memory) in of_row)
        row.update(measure.single(row["source"], passes))
        os.remove(row["source"])
        os.remove(row["start"])
    return rows
