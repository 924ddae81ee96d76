"""A day of calls in a network of many zones: what a run is asked, what it should record of it, and
a candidate configuration, which moves some of the prefixes to other zones."""

import os
from dataclasses import dataclass

from loads.writer import Writer

LOCAL = [f"site-{place:03d}" for place in range(100)]
REMOTE = [f"peer-{place:02d}" for place in range(40)]
ZONES = LOCAL + REMOTE
ADDRESSES = {zone: f"192.0.2.{1 + place}" for place, zone in enumerate(REMOTE)}
GATEWAYS = {zone: f"gw-{zone} 10.{place}.1.1:1720" for place, zone in enumerate(LOCAL)}
PREFIXES = 5000
LITERALS = range(4, 9)
PHONES = 9
MOST_OPEN = 5000
TOO_WIDE = 10000

HEADER = "number,event,call,zone,digits,units,granted,route"
# A release of a call that is not open: as the last row it makes a call file faulty.
FAULT = "DRQ,4294967295,,,,,"


@dataclass
class Day:
    """What the writer knows of a day."""

    requests: int = 0
    granted: int = 0
    rows: int = 0
    # of the admissions that have a row, those that the candidate sends where they went, and others
    same: int = 0
    changed: int = 0


class Plan:
    """Where the prefixes of a configuration lead."""

    def __init__(self, zones, phones):
        # the zone of each prefix, by its literals
        self.zones = zones
        # the name and address of each telephone, by its zone and number
        self.phones = phones

    def route(self, digits):
        """The destination of a call, or why it has none, as call files and reports say it."""
        for length in reversed(LITERALS):
            zone = self.zones.get(digits[:length])
            if zone is not None:
                return self.destination(zone, digits)
        return "unknown-prefix"

    def destination(self, zone, digits):
        if zone in ADDRESSES:
            return f"ZONE {zone} {ADDRESSES[zone]}:1719"
        phone = self.phones.get((zone, digits))
        return f"TERM {phone}" if phone else f"GW {GATEWAYS[zone]}"

    def lines(self):
        yield "gatekeeper"
        yield from (f" zone local {zone} example.com" for zone in LOCAL)
        yield from (f" zone remote {zone} example.net {ADDRESSES[zone]}" for zone in REMOTE)
        yield from (f" zone prefix {zone} {literals}*" for literals, zone in self.zones.items())
        yield " gw-type-prefix 1# default-technology"
        yield " arq reject-unknown-prefix"
        yield " bandwidth session default 768"
        yield "end"


def write(folder, requests):
    """Writes a day of so many requests into this folder: the files `in-force`, `candidate`,
    `endpoints`, `requests`, `calls`, and `faulty-calls`, with the same rows and one more, at fault.
    """

    def opened(name):
        return open(os.path.join(folder, name), "w")

    day = Day()
    with opened("requests") as asking, opened("endpoints") as endpoints, opened("calls") as calls:
        out = Writer(asking)
        in_force, candidate, callers = plans(out, Writer(endpoints))
        calls.write(f"{HEADER}\n")
        talk(out, day, requests, in_force, candidate, callers, calls)
        day.requests, day.granted = out.count, out.granted
    with opened("faulty-calls") as faulty, open(os.path.join(folder, "calls")) as calls:
        faulty.writelines(calls)
        faulty.write(f"{out.count + 1},{FAULT}\n")
    for name, plan in [("in-force", in_force), ("candidate", candidate)]:
        with opened(name) as file:
            file.writelines(f"{line}\n" for line in plan.lines())
    return day


def literal(out):
    """Digits of which the first is none of those that lead nowhere here."""
    length = LITERALS[out.below(len(LITERALS))]
    return str(2 + out.below(8)) + out.digits(length - 1)


def plans(out, endpoints):
    """The configuration in force, the candidate, and the callers with their zones. The endpoints
    are registered, and are written to the endpoint file too."""
    zones = {}
    while len(zones) < PREFIXES:
        zones.setdefault(literal(out), ZONES[len(zones) % len(ZONES)])
    # A tenth of the prefixes moves: 77 zones further on, and so to another one.
    moved = {
        literals: ZONES[(place + 77 * (place % 10 == 0)) % len(ZONES)]
        for place, literals in enumerate(zones)
    }
    phones = {}
    callers = []
    homes = {zone: [] for zone in ZONES}
    for literals, zone in zones.items():
        homes[zone].append(literals)

    def register(*words):
        out.register(*words)
        endpoints.register(*words)

    taken = set()
    for place, zone in enumerate(LOCAL):
        register("GW", f"gw-{zone}", zone, f"10.{place}.1.1", "tech=1#")
        for phone in range(PHONES):
            name, address = f"t{place:03d}{phone}", f"10.{place}.2.{phone}"
            while (number := dial(out, out.pick(homes[zone]))) in taken:
                pass
            taken.add(number)
            phones[zone, number] = f"{name} {address}:1720"
            callers.append((name, zone))
            register("TERM", name, zone, address, f"e164={number}")
    return Plan(zones, phones), Plan(moved, phones), callers


def dial(out, literals):
    return literals + out.digits(max(1, 10 - len(literals)))


def talk(out, day, requests, in_force, candidate, callers, calls):
    """The requests, and the row of each that should have one. Every request here is recorded, so
    the number of its entry is the count of requests."""
    prefixes = list(in_force.zones)
    numbers = [number for _, number in in_force.phones]

    def row(event, call, fields):
        day.rows += 1
        calls.write(f"{out.count},{event},{call},{fields}\n")

    def admission(digits, units, granted):
        caller, zone = out.pick(callers)
        # The number of the call is known once it is asked for.
        note = []
        call = out.admit(caller, digits, units, granted, note)
        note.append(call)
        route = in_force.route(digits)
        if route == candidate.route(digits):
            day.same += 1
        else:
            day.changed += 1
        row("ARQ", call, f"{zone},{digits},{units},{'yes' if granted else 'no'},{route}")

    def admit():
        kind = out.below(100)
        if kind < 3:
            admission(f"1{out.digits(9)}", 1280, False)
        elif kind < 4:
            admission(dial(out, out.pick(prefixes)), TOO_WIDE, False)
        elif kind < 5:
            # A caller that is not registered is not routed, and has no row.
            out.admit("stranger", out.pick(numbers), 1280, granted=False)
        elif kind < 30:
            admission(out.pick(numbers), 1280, True)
        else:
            admission(dial(out, out.pick(prefixes)), 1280, True)

    def release():
        (call,) = out.release()
        row("DRQ", call, ",,,,")

    def change():
        units = out.pick([640, 1280, 3840])
        row("BRQ", out.change(units), f",,{units},,")

    out.begin()
    out.talk(requests, MOST_OPEN, admit, release, change)
