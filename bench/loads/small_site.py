"""A company with three sites and a carrier, whose limits are often met."""

SITES = {"hq": ("2", 80), "plant": ("3", 40), "depot": ("4", 20)}

CONFIGURATION = """\
gatekeeper
 zone local hq example.com 10.0.0.2
 zone local plant example.com
 zone local depot example.com
 zone remote carrier example.net 192.0.2.1 1719 cost 10 priority 90
 zone prefix hq 2...
 zone prefix plant 3...
 zone prefix depot 4...
 zone prefix carrier 0*
 gw-type-prefix 9# hopoff hq
 arq reject-unknown-prefix
 bandwidth total zone hq 12800
 bandwidth total zone plant 6400
 bandwidth total zone depot 3200
 bandwidth interzone default 5120
 bandwidth session default 768
 bandwidth remote 2560
 no shutdown"""

# In units of 100 bit/s, ten to a kbit/s.
LIMITS = {
    ("total", "hq"): 128000,
    ("total", "plant"): 64000,
    ("total", "depot"): 32000,
    ("interzone", "hq"): 51200,
    ("interzone", "plant"): 51200,
    ("interzone", "depot"): 51200,
    "remote": 25600,
}
VOICE, VIDEO, TOO_WIDE = 1280, 7680, 10000


class Bandwidth:
    """The sums that the limits are for, so that a call that was refused is not released."""

    def __init__(self):
        self.sums = dict.fromkeys(LIMITS, 0)

    def take(self, sums, units):
        """Adds `units`, which may be negative, to these sums if none would pass its limit."""
        if units > 0 and any(self.sums[name] + units > LIMITS[name] for name in sums):
            return False
        for name in sums:
            self.sums[name] += units
        return True


def sums_of(source, target):
    """The sums in which a call between these zones counts."""
    sums = [("total", source)]
    if target == "carrier":
        return sums + [("interzone", source), "remote"]
    if target != source:
        sums += [("total", target), ("interzone", source), ("interzone", target)]
    return sums


def write(out, requests):
    out.configure(CONFIGURATION.splitlines())
    bandwidth = Bandwidth()
    phones = []
    for zone, (first, count) in SITES.items():
        for phone in range(count):
            # Every tenth has a longer name, as people give them.
            number = f"{first}{phone:03d}"
            name = f"meeting-room-{number}@{zone}.example.com" if phone % 10 == 0 else f"t{number}"
            phones.append((name, zone, number))
    registrations = [
        ("TERM", name, zone, f"10.1.{number[0]}.{int(number[1:])}", f"e164={number}")
        for name, zone, number in phones
    ] + [("GW", f"gw-{place}", "hq", f"10.0.0.{place}", "tech=9#") for place in range(10, 14)]
    for registration in registrations:
        out.register(*registration)

    def admit():
        name, source, _ = out.pick(phones)
        units = VIDEO if out.chance(10) else VOICE
        kind = out.below(100)
        if kind < 2:
            # an extension that nobody has, and a number that leads nowhere
            out.admit(name, out.pick(["2999", "7123"]), units, granted=False)
        elif kind < 3:
            out.admit(name, "2000", TOO_WIDE, granted=False)
        else:
            if kind < 20:
                target, digits = "carrier", f"0{out.digits(9)}"
            elif kind < 30:
                target, digits = "hq", f"9#{out.digits(9)}"
            else:
                _, target, digits = out.pick(phones)
            sums = sums_of(source, target)
            fits = bandwidth.take(sums, units)
            out.admit(name, digits, units, fits, note=[sums, units])

    def release():
        sums, units = out.release()
        bandwidth.take(sums, -units)

    def other():
        if out.chance(20):
            out.register(*out.pick(registrations))
            return
        owner, call, note = out.pick(out.open)
        sums, former = note
        units = out.pick([VOICE // 2, VOICE, VIDEO])
        fits = bandwidth.take(sums, units - former)
        if fits:
            note[1] = units
        out.ask("BRQ", f"{owner} {call} {units}", fits)

    out.talk(requests, 50, admit, release, other)
