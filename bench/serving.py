"""The load `serve`: a server with 1, 2, 4 and 8 clients, which send on or wait for each reply."""

import table
from loads import sessions

NAME = "serve"
CLIENTS = (1, 2, 4, 8)
# of all clients together
SENT_ON = 400000
QUICK_SENT_ON = 40000
WAITED_FOR = 100000
QUICK_WAITED_FOR = 10000

COLUMNS = [
    ("load", 8),
    ("clients", 9),
    ("granted", 7),
    ("sent on", 7),
    ("a second", 9),
    ("times", 5),
    ("MB", 6),
    ("waited for", 10),
    ("a second", 9),
    ("times", 5),
    ("half us", 7),
    ("99% us", 7),
]


def show(measure, quick, rounds):
    table.show_head(COLUMNS)
    sent_on = QUICK_SENT_ON if quick else SENT_ON
    waited_for = QUICK_WAITED_FOR if quick else WAITED_FOR
    first = None
    for clients in CLIENTS:
        on = measured(measure, clients, "on", sent_on, rounds)
        each = measured(measure, clients, "each", waited_for, rounds)
        first = first or (on, each)
        table.show(COLUMNS, cells(clients, on, each, *first))


def measured(measure, clients, way, requests, rounds):
    """The figures of so many clients, whose requests are so many in all."""
    folder = measure.make_folder("serve", clients, way)
    with open(f"{folder}/configuration", "w") as file:
        sessions.write_configuration(file)
    told = []
    for client in range(clients):
        with open(f"{folder}/{client}", "w") as file:
            told.append(sessions.write(file, client, requests // clients))
    _, opening = told[0].opening
    inputs = [f"{folder}/{client}" for client in range(clients)]
    runs = [
        measure.serve(f"{folder}/configuration", way, opening, inputs) for _ in range(rounds)
    ]
    measure.remove(folder)
    granted = sum(out.granted for out in told)
    # Each of these requests is recorded.
    records = sum(out.count for out in told)
    for run in runs:
        if (run["sessions"], run["records"]) != (clients, records):
            raise SystemExit(f"bench: {NAME}: sessions {run['sessions']} records {run['records']}")
        if run["granted"] != granted:
            raise SystemExit(f"bench: {NAME}: {run['granted']} requests are granted, not {granted}")
    best = min(runs, key=lambda run: run["seconds"])
    asked = records - clients * opening
    return {
        "asked": asked,
        "share": granted / records,
        "rate": asked / best["seconds"],
        "half": best.get("half_us"),
        "most": best.get("most_us"),
        "memory": max(run["peak_kb"] for run in runs) / 1024,
    }


def cells(clients, on, each, first_on, first_each):
    return [
        NAME if clients == CLIENTS[0] else "",
        f"{clients} client{'s' if clients > 1 else ''}",
        f"{100 * on['share']:.1f}%",
        f"{on['asked']:,}",
        f"{on['rate']:,.0f}",
        f"{on['rate'] / first_on['rate']:.2f}",
        f"{on['memory']:.1f}",
        f"{each['asked']:,}",
        f"{each['rate']:,.0f}",
        f"{each['rate'] / first_each['rate']:.2f}",
        f"{each['half']:.1f}",
        f"{each['most']:.1f}",
    ]
