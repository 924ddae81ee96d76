"""Endpoints whose IDs are chosen so that all have one hash, and as many with plain IDs of the same
length, which ask for the same.

The maps hash with a seed that the library fixes. A text of 32 bytes is four numbers of 8 bytes, the
lowest byte first. The first is joined by xor with the sum of the seed and the length, the second
with another constant, the two are multiplied, and the halves of the product, of 64 bits each, are
joined by xor. Then the same is done with the third and the fourth, with what came of the first two
in the place of the sum. So if the third number is just what came of the first two, one factor is 0,
and the hash is 0 whatever the last 8 bytes are."""

import functools
import itertools

LENGTH = 32
WORD = 8
LOW = 2**64 - 1
# 64 bits of the fractions of pi and of the golden ratio
SEED = 0x243F6A8885A308D3
CONSTANT = 0x9E3779B97F4A7C15


def came_of(front):
    """What comes of the first 16 of 32 bytes, as 8 bytes."""
    first, second = (int.from_bytes(front[at : at + WORD], "little") for at in (0, WORD))
    product = (first ^ (SEED + LENGTH)) * (second ^ CONSTANT)
    return ((product & LOW) ^ (product >> 64)).to_bytes(WORD, "little")


@functools.cache
def alike_front():
    """The first 24 bytes of the IDs: an ID has visible characters alone, as one front in 3,000
    goes on with."""
    for number in itertools.count():
        front = f"endpoint{number:08d}".encode()
        more = came_of(front)
        if all(0x21 <= byte <= 0x7E for byte in more):
            return (front + more).decode()


def alike(place):
    return f"{alike_front()}{place:08d}"


def plain(place):
    return f"endpoint{place:024d}"


def register(out, name):
    out.register("TERM", name, "offices", "10.0.0.1:1720", "")


def again(out, names):
    """An endpoint registers again."""
    register(out, out.pick(names))


def leave(out, names):
    """An endpoint leaves, and another one comes."""
    name = out.pick(names)
    out.ask("URQ", name)
    register(out, name)


def call(out, names):
    """An endpoint calls another gatekeeper's zone, and releases the call."""
    out.admit(out.pick(names), "7" + out.digits(6), 1280)
    owner, number, _ = out.open.pop()
    out.ask("DRQ", f"{owner} {number}")


def write(out, count, requests, name_of, ask, owning=False):
    """So many endpoints register, and then ask. Each owns a call from the beginning, or none."""
    out.configure(
        [
            "zone local offices example.com",
            "zone remote elsewhere example.net 192.0.2.1",
            "zone prefix elsewhere 7*",
        ]
    )
    names = [name_of(place) for place in range(count)]
    for name in names:
        register(out, name)
    if owning:
        for name in names:
            out.admit(name, "7" + out.digits(6), 0)
    # What they ask then is measured, which is as much whatever the number of endpoints.
    out.begin()
    until = out.count + requests
    while out.count < until:
        ask(out, names)
