"""Reloads of the whole configuration, with calls open and endpoints registered."""

SITES = [f"site-{place:03d}" for place in range(200)]
PEERS = [f"peer-{place:02d}" for place in range(40)]
# Each configuration lacks one of these zones, whose endpoints go with it.
BRANCHES = [f"branch-{place}" for place in range(4)]
BETWEEN = 100
ENDS = ["*", "...", "..*", "......"]


def literal(version, place):
    """Six digits; 37 has no divisor in common with 700000, so they come once in a version."""
    return str(200000 + (place + 5000 * (version % 4)) * 37 % 700000)


def configuration(length, version):
    """So many lines, which differ from version to version."""
    away = BRANCHES[version % 4]
    lines = ["gatekeeper"]
    lines += [f" zone local {zone} example.com" for zone in SITES + BRANCHES if zone != away]
    lines += [
        f" zone remote {zone} example.net 192.0.2.{1 + place} cost {10 + place}"
        for place, zone in enumerate(PEERS)
    ]
    lines += [" gw-type-prefix 1# default-technology", " bandwidth session default 768"]
    zones = SITES + PEERS
    for place in range(length - len(lines) - 1):
        end = ENDS[place % 4]
        lines.append(f" zone prefix {zones[place % 240]} {literal(version, place)}{end}")
    return [*lines, " no shutdown"]


def write_many(out, reloads):
    write(out, reloads, 20000)


def write_long(out, length, reloads):
    write(out, reloads, length)


def write(out, reloads, length):
    versions = [configuration(length, version) for version in range(4)]
    faulty = [*versions[0][:-1], " zone prefix site-000 12.34"]
    # Its line `end` counts too, so the last line gives way to it.
    out.configure(versions[0][:-1])
    phones = []
    for place, zone in enumerate(SITES):
        out.register("GW", f"gw-{zone}", zone, f"10.1.{place}.1", "tech=1#")
        phones.append(f"t{place:03d}")
        out.register("TERM", phones[-1], zone, f"10.1.{place}.2", f"e164=90{place:03d}")

    def register_branch(branch, granted=True):
        for phone in range(5 if granted else 1):
            number = f"{branch}{phone}"
            address = f"10.2.{branch}.{phone}"
            zone = BRANCHES[branch]
            out.register("TERM", f"b{number}", zone, address, f"e164=91{number}", granted)

    def admit(version):
        # With as many digits as this, most patterns match, and else the caller's zone is tried.
        number = literal(version, out.below(length - 300))
        out.admit(out.pick(phones), number + out.digits(out.pick([3, 6])), 1280)

    for branch in (1, 2, 3):
        register_branch(branch)
    for version in range(1, reloads + 1):
        if version % 10 == 0:
            # An operator's mistake in the last line: the reload is refused, and nothing changes.
            out.reload(faulty, granted=False)
        away = version % 4
        out.reload(versions[away])
        register_branch((version - 1) % 4)
        register_branch(away, granted=False)
        for _ in range(BETWEEN):
            if len(out.open) < 50 or (len(out.open) < 100 and out.chance(50)):
                admit(version)
            else:
                out.release()
    while out.open:
        out.release()
