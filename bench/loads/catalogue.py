"""The loads, and the sizes at which each is measured."""

from dataclasses import dataclass
from functools import partial
from typing import Callable

from loads import (
    colliding,
    decisions,
    gateways,
    learned,
    network,
    registrations,
    reloads,
    small_site,
)
from loads.writer import Writer

REQUESTS = (30000, 100000, 300000)
FEWER_REQUESTS = (3000, 10000, 30000)


@dataclass
class Load:
    name: str
    # what its sizes count
    unit: str
    write: Callable
    sizes: tuple
    quick_sizes: tuple
    # how many requests or reloads there are, if the sizes count something else
    requests: tuple = ()
    quick_requests: tuple = ()

    def sizes_of(self, quick):
        return self.quick_sizes if quick else self.sizes

    def write_to(self, file, size, quick):
        """Writes the load, and answers with what the writer knows of it."""
        out = Writer(file)
        self.write(out, size, *(self.quick_requests if quick else self.requests))
        return out


LOADS = [
    Load("small site", "requests", small_site.write, REQUESTS, FEWER_REQUESTS),
    Load(
        "large network",
        "prefixes",
        network.write_prefixes,
        (2000, 6000, 18000),
        (2000, 6000, 18000),
        (100000,),
        (20000,),
    ),
    Load(
        "dots and stars",
        "patterns",
        network.write_patterns,
        (2000, 6000, 19000),
        (2000, 6000, 19000),
        (100000,),
        (20000,),
    ),
    Load(
        "gateways",
        "gateways",
        gateways.write,
        (1000, 3000, 10000),
        (1000, 3000, 10000),
        (100000,),
        (20000,),
    ),
    Load(
        "learned prefixes",
        "gateways",
        learned.write,
        (100, 1000, 10000),
        (100, 1000, 10000),
        (100000,),
        (20000,),
    ),
    Load("registrations", "requests", registrations.write, REQUESTS, (10000, 20000, 40000)),
    Load("reloads", "reloads", reloads.write_many, (10, 30, 100), (2, 5, 10)),
    Load(
        "long reloads",
        "lines",
        reloads.write_long,
        (2000, 6000, 20000),
        (2000, 6000, 20000),
        (20,),
        (8,),
    ),
    Load(
        "open calls",
        "calls",
        decisions.write_open,
        (5000, 15000, 50000),
        (1000, 3000, 10000),
        (150000,),
        (30000,),
    ),
    Load(
        "decisions",
        "records",
        decisions.write,
        (100000, 300000, 1000000),
        (10000, 30000, 60000),
    ),
]


def of_plain_and_alike(name, ask, owning=False):
    """A load of plain IDs, and the same of IDs that all have one hash."""
    return [
        Load(
            f"{kind} {name}",
            "IDs",
            partial(colliding.write, name_of=name_of, ask=ask, owning=owning),
            (1000, 3000, 10000),
            (300, 1000, 3000),
            (20000,),
            (4000,),
        )
        for kind, name_of in (("plain", colliding.plain), ("alike", colliding.alike))
    ]


# These are measured only if one of them, or all by this name, is asked for.
COLLIDING = "colliding IDs"
COLLIDING_LOADS = [
    *of_plain_and_alike("again", colliding.again),
    *of_plain_and_alike("leaving", colliding.leave),
    *of_plain_and_alike("calling", colliding.call),
    *of_plain_and_alike("owning", colliding.call, owning=True),
]
