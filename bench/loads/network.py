"""A large network: many zones, with literal prefixes or with patterns of dots and stars."""

LOCAL = [f"site-{place:03d}" for place in range(240)]
REMOTE = [f"peer-{place:02d}" for place in range(60)]
ZONES = LOCAL + REMOTE
TOO_WIDE = 10000


def zone_lines():
    for place, zone in enumerate(LOCAL):
        yield f" zone local {zone} example.com 10.{place}.0.2"
    for place, zone in enumerate(REMOTE):
        cost, priority = 10 + place % 20, 1 + place
        address = f"192.0.2.{1 + place} 1719"
        yield f" zone remote {zone} example.net {address} cost {cost} priority {priority}"


def literal(out, length):
    """Digits of which the first is none of those that lead nowhere here."""
    return str(2 + out.below(8)) + out.digits(length - 1)


def different(count, make):
    """So many different texts, in the order in which they were made."""
    texts = {}
    while len(texts) < count:
        texts[make()] = None
    return list(texts)


def dial(out, pattern):
    """A number that the pattern matches; a longer pattern may match it too."""
    number = "".join(out.pick("0123456789#*") if c == "." else c for c in pattern.rstrip("*"))
    if pattern.endswith("*"):
        number += out.digits(max(1, 10 - len(number)))
    return number


def write_prefixes(out, prefixes, requests):
    write(out, different(prefixes, lambda: literal(out, 4 + out.below(5)) + "*"), requests)


def write_patterns(out, patterns, requests):
    # Several patterns have the same beginning, so that the longest has to be found among them.
    beginnings = different(patterns // 8, lambda: literal(out, 2 + out.below(5)))

    def pattern():
        return out.pick(beginnings) + "." * (1 + out.below(7)) + out.pick(["", "*"])

    write(out, different(patterns, pattern), requests)


def write(out, patterns, requests):
    zones = dict((pattern, ZONES[place % 300]) for place, pattern in enumerate(patterns))
    lines = ["gatekeeper", *zone_lines()]
    for place, (pattern, zone) in enumerate(zones.items()):
        gateway = f" gw-priority 8 gw-{zone}" if zone in LOCAL and place % 7 == 0 else ""
        lines.append(f" zone prefix {zone} {pattern}{gateway}")
    lines += [
        " gw-type-prefix 1# default-technology",
        " arq reject-unknown-prefix",
        " bandwidth total default 10000000",
        " bandwidth interzone default 10000000",
        " bandwidth session default 768",
        " bandwidth remote 10000000",
    ]
    out.configure(lines)

    phones = []
    numbers = {}
    homes = [pattern for pattern, zone in zones.items() if zone in LOCAL]
    for place, zone in enumerate(LOCAL):
        out.register("GW", f"gw-{zone}", zone, f"10.{place}.1.1", "tech=1#")
        for phone in range(4):
            name = f"t{place:03d}{phone}"
            while (number := dial(out, homes[place + 240 * (phone % 3)])) in numbers:
                pass
            numbers[number] = name
            phones.append(name)
            out.register("TERM", name, zone, f"10.{place}.2.{phone}", f"e164={number}")
    numbers = list(numbers)

    def admit():
        caller = out.pick(phones)
        kind = out.below(100)
        if kind < 3:
            out.admit(caller, f"1{out.digits(9)}", 1280, granted=False)
        elif kind < 4:
            out.admit(caller, out.pick(numbers), TOO_WIDE, granted=False)
        elif kind < 5:
            out.admit("stranger", out.pick(numbers), 1280, granted=False)
        elif kind < 25:
            out.admit(caller, out.pick(numbers), 1280)
        elif kind < 30:
            out.admit(caller, f"1#{dial(out, out.pick(patterns))}", 1280)
        else:
            out.admit(caller, dial(out, out.pick(patterns)), 1280)

    def other():
        out.change(out.pick([640, 1280, 3840]))

    out.talk(requests, 2000, admit, other=other)
