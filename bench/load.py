#!/usr/bin/env python3
"""Prints a load of events of a given size, the same each time.

    python3 bench/load.py asks|mixed|turnover|malformed [BYTES]      BYTES is 16,777,216 where it is not given
"""

import random
import sys

SIZE = 16_777_216
CLIENTS = 256
FRAMES = 4096


def admit(chance, client):
    return "A %d %d %d %d %d" % (client, chance.randint(1, 1_000_000), chance.randrange(10), client % 4, FRAMES)


def opening(chance):
    """A pool of full size with all its clients; the first asks fill it."""
    yield "S 7 %d" % FRAMES
    for client in range(1, CLIENTS + 1):
        yield admit(chance, client)
    for turn in range(FRAMES):
        yield "Q %d" % (1 + turn * 7 % CLIENTS)


def asks(chance):
    """Mostly asks at a full pool. Now and then a client leaves, another takes what it held, and it returns with other
    shares, so that frames keep moving under every price."""
    yield from opening(chance)
    tick = 0
    while True:
        client = chance.randint(1, CLIENTS)
        taker = chance.randint(1, CLIENTS)
        tick += 1
        yield "L %d" % client
        yield from 40 * ["Q %d" % taker]
        yield admit(chance, client)
        yield "E %d %d %d" % (taker, chance.randint(0, 40), tick + chance.randint(1, 100))
        yield "T %d" % tick
        for _ in range(100):
            yield "Q %d" % chance.choice((client, chance.randint(1, CLIENTS)))


def mixed(chance):
    """All events."""
    yield from opening(chance)
    tick = 0
    while True:
        client = chance.randint(1, CLIENTS)
        kind = chance.randrange(1000)
        if kind < 550:
            yield "Q %d" % client
        elif kind < 680:
            yield "H %d" % client
        elif kind < 850:
            yield "E %d %d %d" % (client, chance.randint(0, 60), tick + chance.randint(0, 100))
        elif kind < 930:
            tick += chance.randint(0, 1)
            yield "T %d" % tick
        elif kind < 934:
            yield "L %d" % client
        elif kind < 990:
            yield admit(chance, client)
        else:
            yield chance.choice(("Q", "Q 0", "Q 257", "S 7 4096", "T 0", "x"))


def turnover(chance):
    """Clients leave and return under other terms, and estimates are set and end. Nobody asks."""
    yield from opening(chance)
    tick = 0
    while True:
        client = chance.randint(1, CLIENTS)
        tick += 1
        yield "L %d" % client
        yield admit(chance, client)
        yield "E %d %d %d" % (chance.randint(1, CLIENTS), chance.randint(0, 60), tick + chance.randint(1, 100))
        yield "T %d" % tick


def malformed(chance):
    """Lines with a fault of every kind, short and long."""
    faults = ["", "q 1", "Q", "Q1", "Q  1", "Q 01", "Q 4294967296", "Q 1 ", "A 1 2 3 4", "A 1 2 3 4 05", "E 1 2 3x",
              "A 4294967295 4294967295 4294967295 4294967295 4294967295x", "T 1\r", "Q 1" + 200 * " ", 300 * "9"]
    while True:
        yield chance.choice(faults)


LOADS = {"asks": asks, "mixed": mixed, "turnover": turnover, "malformed": malformed}


def load(name, size=SIZE):
    lines = []
    length = 0
    for line in LOADS[name](random.Random(name)):
        lines.append(line)
        length += len(line) + 1
        if length >= size:
            break
    return ("\n".join(lines) + "\n").encode()[:size]


if __name__ == "__main__":
    if len(sys.argv) not in (2, 3) or sys.argv[1] not in LOADS:
        sys.exit("usage: load.py %s [BYTES]" % "|".join(LOADS))
    sys.stdout.buffer.write(load(sys.argv[1], *map(int, sys.argv[2:])))
