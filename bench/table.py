"""A table: its columns, and a row for each size of a load. Those of the loads of one session stand
here, and those of the others beside what measures them."""

# A growth has to be a tenth faster than the input to be told from chance.
FASTER = 1.1

COLUMNS = [
    ("load", 14),
    ("size", 17),
    ("requests", 9),
    ("granted", 7),
    ("start ms", 8),
    ("a second", 9),
    ("us each", 7),
    ("slowest ms", 10),
    ("reload ms", 9),
    ("MB", 6),
    ("time", 6),
    ("memory", 6),
]


def growth(row, before, figure, size):
    """How many times as much this figure is, divided by how many times the size grew."""
    if before is None:
        return " "
    times = (row[figure] / before[figure]) / (row[size] / before[size])
    return f"{times:.2f}{'!' if times > FASTER else ' '}"


def cells(load, row, before):
    slowest, kind = row["slowest"]
    reload, _ = row.get("slowest_reload", (None, None))
    return [
        load.name if before is None else "",
        f"{row['size']:,} {load.unit}",
        f"{row['requests']:,}",
        f"{100 * row['share']:.1f}%",
        f"{1e3 * row['opening']:.1f}",
        f"{row['requests'] / row['seconds']:,.0f}",
        f"{1e6 * row['seconds'] / row['requests']:.2f}",
        f"{kind} {slowest:.2f}",
        f"{reload:.1f}" if reload else "-",
        f"{row['memory']:.1f}",
        growth(row, before, "seconds", "lines"),
        growth(row, before, "memory", "size"),
    ]


def show(columns, texts):
    """Prints a line of a table: the first column from the left, the others from the right."""
    widths = [width for _, width in columns]
    padded = [texts[0].ljust(widths[0])]
    padded += [text.rjust(width) for text, width in zip(texts[1:], widths[1:])]
    print("  ".join(padded).rstrip(), flush=True)


def show_head(columns):
    show(columns, [head for head, _ in columns])


def show_load(load, rows):
    for row, before in zip(rows, [None, *rows]):
        show(COLUMNS, cells(load, row, before))
