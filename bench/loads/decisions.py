"""Calls of a busy day: every request is recorded, up to the most that a record may have, or as
many calls are open as there may be."""

ZONES = 10
PHONES = 2000


def write_open(out, most_open, requests):
    write(out, requests, most_open)


def write(out, requests, most_open=2000):
    lines = [f"zone local zone-{zone} example.com" for zone in range(ZONES)]
    lines += [f"zone prefix zone-{zone} 5{zone}*" for zone in range(ZONES)]
    out.configure(
        [
            *lines,
            "zone remote carrier-a example.net 192.0.2.1 cost 20",
            "zone remote carrier-b example.net 192.0.2.2 cost 10",
            "zone prefix carrier-a 00*",
            "zone prefix carrier-b 00*",
            "gw-type-prefix 1# default-technology",
            "arq reject-unknown-prefix",
            "bandwidth session default 768",
            "bandwidth total default 10000000",
        ]
    )

    def register(phone):
        zone = phone % ZONES
        address = f"10.1.{phone // 250}.{phone % 250}"
        out.register("TERM", f"t{phone:04d}", f"zone-{zone}", address, f"e164=5{zone}{phone:04d}")

    for zone in range(ZONES):
        out.register("GW", f"gw-{zone}", f"zone-{zone}", f"10.0.0.{zone}", "tech=1#")
    for phone in range(PHONES):
        register(phone)

    def admit():
        caller = f"t{out.below(PHONES):04d}"
        kind = out.below(100)
        if kind < 3:
            out.admit(caller, f"7{out.digits(6)}", 1280, granted=False)
        elif kind < 4:
            out.admit(caller, "500000", 10000, granted=False)
        elif kind < 30:
            out.admit(caller, f"00{out.digits(10)}", 1280)
        elif kind < 50:
            out.admit(caller, f"5{out.digits(7)}", 1280)
        else:
            callee = out.below(PHONES)
            out.admit(caller, f"5{callee % ZONES}{callee:04d}", 1280)

    def other():
        if out.chance(20):
            register(out.below(PHONES))
        else:
            out.change(out.pick([640, 1280, 3840]))

    out.talk(requests, most_open, admit, other=other)
