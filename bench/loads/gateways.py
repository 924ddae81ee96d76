"""One zone of very many gateways, which are chosen by technology prefix and priority."""

TECHNOLOGIES = [f"{number}#" for number in range(20, 60)]
UNSERVED = "99#"
PATTERNS = [f"7{number:03d}*" for number in range(200)]
CALLERS = 100


def write(out, gateways, requests):
    names = [f"gw-{place:05d}" for place in range(gateways)]
    technologies = [[out.pick(TECHNOLOGIES), out.pick(TECHNOLOGIES)] for _ in names]
    lines = ["gatekeeper", " zone local trunks example.com"]
    named = []
    for pattern in PATTERNS:
        # Priority 0 keeps a gateway out, and 5 is what gateways have that are not named.
        for priority in (9, 3, 0):
            some = [out.below(gateways) for _ in range(6)]
            words = " ".join(names[place] for place in some)
            lines.append(f" zone prefix trunks {pattern} gw-priority {priority} {words}")
            named.append((pattern, some))
    for place, technology in enumerate([*TECHNOLOGIES, UNSERVED]):
        # To every fourth one calls go straight to the zone, and no pattern is looked for.
        hopoff = " hopoff trunks" if place % 4 == 0 else ""
        lines.append(f" gw-type-prefix {technology}{hopoff}")
    lines.append(" bandwidth session default 768")
    out.configure(lines)

    def register(place):
        words = " ".join(f"tech={technology}" for technology in technologies[place])
        address = f"10.{place // 250}.{place % 250}.1"
        out.register("GW", names[place], "trunks", address, words)

    for place in range(gateways):
        register(place)
    # The calls alone are measured, which are as many whatever the number of gateways.
    out.begin()

    def admit():
        caller = names[out.below(CALLERS)]
        if out.chance(3):
            out.admit(caller, UNSERVED + out.pick(PATTERNS)[:4] + out.digits(6), 1280, False)
            return
        # Half of the calls have a technology of a gateway that their pattern names.
        pattern, some = out.pick(named)
        technology = out.pick(technologies[out.pick(some)])
        if out.chance(50):
            technology = out.pick(TECHNOLOGIES)
        out.admit(caller, technology + pattern[:4] + out.digits(6), 1280)

    def other():
        """A gateway that places no calls leaves, and comes again as the last one of all."""
        place = CALLERS + out.below(gateways - CALLERS)
        out.ask("URQ", names[place])
        register(place)

    out.talk(requests + gateways, 2000, admit, other=other)
