"""Clients of one server, each with telephones of its own in zones that are everybody's. What each
is answered does not depend on what the others have asked before it."""

from loads.writer import SEED, Writer

ZONES = 10
PHONES = 200
# of each client; those of all together are far below the most that a server may have
MOST_OPEN = 500
# so that no two clients give a call the same number
CALLS = 1000000


def write_configuration(file):
    lines = [f"zone local zone-{zone} example.com" for zone in range(ZONES)]
    lines += [f"zone prefix zone-{zone} 5{zone}*" for zone in range(ZONES)]
    lines += [
        "zone remote carrier-a example.net 192.0.2.1 cost 20",
        "zone remote carrier-b example.net 192.0.2.2 cost 10",
        "zone prefix carrier-a 00*",
        "zone prefix carrier-b 00*",
        "gw-type-prefix 1# default-technology",
        "arq reject-unknown-prefix",
        "bandwidth session default 768",
        "bandwidth total default 10000000",
        "bandwidth remote 10000000",
        "end",
    ]
    file.writelines(f"{line}\n" for line in lines)


def write(file, client, requests):
    """So many requests of a client, registrations included, which come before what is measured.
    Answers with what the writer knows of them."""
    out = Writer(file, SEED + client)
    out.calls = client * CALLS

    def number(phone):
        return f"5{phone % ZONES}{client}{phone:04d}"

    for zone in range(ZONES):
        name, address = f"gw-{client}-{zone}", f"10.0.{client}.{zone}"
        out.register("GW", name, f"zone-{zone}", address, "tech=1#")
    for phone in range(PHONES):
        name, address = f"t{client}-{phone:04d}", f"10.{1 + client}.0.{phone}"
        out.register("TERM", name, f"zone-{phone % ZONES}", address, f"e164={number(phone)}")
    out.begin()

    def admit():
        caller = f"t{client}-{out.below(PHONES):04d}"
        kind = out.below(100)
        if kind < 3:
            out.admit(caller, f"7{out.digits(6)}", 1280, granted=False)
        elif kind < 4:
            out.admit(caller, "500000", 10000, granted=False)
        elif kind < 30:
            out.admit(caller, f"00{out.digits(10)}", 1280)
        elif kind < 50:
            out.admit(caller, f"5{out.digits(9)}", 1280)
        else:
            out.admit(caller, number(out.below(PHONES)), 1280)

    def other():
        out.change(out.pick([640, 1280, 3840]))

    out.talk(requests, MOST_OPEN, admit, other=other)
    return out
