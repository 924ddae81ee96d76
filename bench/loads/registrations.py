"""Endpoints that register, register again with other options, and leave."""

ENDPOINTS = 8000
ZONES = 20


def write(out, requests):
    lines = [f"zone local zone-{zone:02d} example.com" for zone in range(ZONES)]
    out.configure([*lines, "zone remote elsewhere example.net 192.0.2.1", "gw-type-prefix 1#"])
    present = []
    absent = [*range(ENDPOINTS)]

    def take(places):
        """Takes one of these endpoints out, any of them."""
        place = out.below(len(places))
        places[place], places[-1] = places[-1], places[place]
        return places.pop()

    def register(place, owner=None, zone=None, port=1720, granted=True):
        """Registers an endpoint; `owner` is the one whose alias it asks for beside its own."""
        kind = "GW" if place % 8 == 0 else "TERM"
        # Most have few options, and some as many as there may be.
        count = 15 if place % 50 == 0 else 1 + out.below(3)
        words = [f"e164=6{place:04d}{alias:02d}" for alias in range(count)]
        if owner is not None:
            words.append(f"e164=6{owner:04d}00")
        if kind == "GW":
            words += [f"tech={20 + (place + more) % 70}#" for more in range(1 + out.below(4))]
        zone = zone or f"zone-{out.below(ZONES):02d}"
        address = f"10.0.{place // 250}.{place % 250}:{port}"
        out.register(kind, f"ep-{place:04d}", zone, address, " ".join(words), granted)

    for _ in range(ENDPOINTS // 2):
        present.append(take(absent))
        register(present[-1])
    while out.count < requests:
        kind = out.below(100)
        if kind < 1:
            register(out.below(ENDPOINTS), zone="elsewhere", granted=False)
        elif kind < 2 and absent:
            out.ask("URQ", f"ep-{out.pick(absent):04d}", granted=False)
        elif kind < 3 and present:
            register(out.pick(present), port=1721, granted=False)
        elif kind < 4 and present and absent:
            register(out.pick(absent), owner=out.pick(present), granted=False)
        elif kind < 36 and present:
            register(out.pick(present))
        elif kind < 68 and present:
            absent.append(take(present))
            out.ask("URQ", f"ep-{absent[-1]:04d}")
        elif absent:
            present.append(take(absent))
            register(present[-1])
