"""Gateways of one zone that each give eight technology prefixes of their own, which no line
declares."""

MOST = 10000
EACH = 8
CALLERS = 100


def write(out, gateways, requests):
    out.configure(["gatekeeper", " zone local trunks example.com", " zone prefix trunks 7*"])
    # As many first digits begin a prefix, whatever the number of gateways.
    apart = MOST // gateways

    def prefix(place, which):
        return f"{(place * EACH + which) * apart:05d}#"

    def register(place):
        words = " ".join(f"tech={prefix(place, which)}" for which in range(EACH))
        address = f"10.{place // 250}.{place % 250}.1"
        out.register("GW", f"gw-{place:05d}", "trunks", address, words)

    for place in range(gateways):
        register(place)
    # The calls alone are measured, which are as many whatever the number of gateways.
    out.begin()

    def admit():
        caller = f"gw-{out.below(min(gateways, CALLERS)):05d}"
        if out.chance(20):
            # No prefix is learned for these: nobody has them as an alias, and no default is set.
            out.admit(caller, "7" + out.digits(9), 1280, False)
        else:
            learned = prefix(out.below(gateways), out.below(EACH))
            out.admit(caller, learned + "7" + out.digits(6), 1280)

    out.talk(requests + gateways, 2000, admit)
