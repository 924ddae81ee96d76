"""Writes the configuration and the requests of a load to a file, and keeps what the load has to
know of them: which calls are open, and how many requests should be granted."""

import random

SEED = 18


class Writer:
    def __init__(self, file, seed=SEED):
        self.file = file
        self.random = random.Random(seed)
        self.bytes = 0
        self.count = 0
        self.granted = 0
        self.calls = 0
        self.open = []
        # the bytes and the requests before what is measured
        self.opening = (0, 0)

    # Of Python's random numbers only those of random() are the same in every version.

    def below(self, bound):
        return int(self.random.random() * bound)

    def chance(self, percent):
        return self.random.random() * 100 < percent

    def pick(self, items):
        return items[self.below(len(items))]

    def digits(self, count):
        return f"{self.below(10**count):0{count}d}"

    def put(self, line):
        self.bytes += self.file.write(f"{line}\n")

    def configure(self, lines):
        """The opening configuration."""
        for line in lines:
            self.put(line)
        self.put("end")
        self.begin()

    def begin(self):
        """What is measured begins here."""
        self.opening = (self.bytes, self.count)

    def ask(self, word, rest, granted=True):
        self.put(f"{word} {self.count % 65535 + 1} {rest}")
        self.count += 1
        self.granted += granted

    def register(self, kind, name, zone, address, options, granted=True):
        self.ask("RRQ", f"{kind} {name} {zone} {address} {options}", granted)

    def admit(self, owner, digits, units, granted=True, note=None):
        """Asks for a call, which is open from then on if it should be granted. Answers with its
        number."""
        self.calls += 1
        # Each number comes once, and in no order, as endpoints choose them.
        call = self.calls * 2654435761 % 2**32
        self.ask("ARQ", f"{owner} {call} {digits} {units}", granted)
        if granted:
            self.open.append((owner, call, note))
        return call

    def change(self, units):
        """Changes the bandwidth of an open call, any of them, and gives its number."""
        owner, call, _ = self.pick(self.open)
        self.ask("BRQ", f"{owner} {call} {units}")
        return call

    def release(self):
        """Releases one of the open calls, any of them, and gives the note on it."""
        place = self.below(len(self.open))
        self.open[place], self.open[-1] = self.open[-1], self.open[place]
        owner, call, note = self.open.pop()
        self.ask("DRQ", f"{owner} {call}")
        return note

    def reload(self, lines, granted=True):
        self.ask("CFG", len(lines), granted)
        for line in lines:
            self.put(line)

    def talk(self, until, most_open, admit, release=None, other=None):
        """Calls until `until` requests are written, the last of which release what is open. About
        `most_open` calls are open most of the time, and one request in ten is another one, if
        there is one."""
        release = release or self.release
        while self.count + len(self.open) < until - 1:
            if other and self.open and self.chance(10):
                other()
            elif len(self.open) < most_open and self.chance(90):
                admit()
            elif self.open:
                release()
        while self.open:
            release()
        while self.count < until:
            self.admit("stranger", "2000", 1280, granted=False)
