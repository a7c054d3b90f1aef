#!/usr/bin/env python3
"""Writes the event files that are too long, or too odd, to type, and what both programs must print for every event file.

    python3 cases/make.py
"""

import pathlib
import random
import sys

sys.dont_write_bytecode = True
import model

HERE = pathlib.Path(__file__).resolve().parent
FULL_LINES = [b"S 7 3", b"A 1 300 0 0 3", b"Q 1", b"H 1", b"L 1", b"E 1 2 10", b"T 10"]
LARGEST = b"4294967295"


def text(lines):
    return b"".join(line + b"\n" for line in lines)


def documented_faults():
    """The lines of the table of faults in docs/FORMATS.md, in its order."""
    return text([
        b"Q 3", b"Q 0", b"Q 4294967295", b"", b"q 3", b" Q 3", b"Q", b"Q3", b"S 1", b"S 1x2", b"A 1 300 0 0", b"Q\t3",
        b"Q ", b"Q  3", b"Q -1", b"Q 00", b"Q 03", b"Q 4294967296", b"Q 4294967296x", b"S 7  3", b"Q 3 ", b"Q 0x",
        b"Q 1\r", b"A" + 5 * (b" " + LARGEST) + b"x",
    ])


def faults_in_every_place():
    """Each kind of line, cut after every byte, and with one byte put in, or changed, at every place."""
    lines = []
    for line in FULL_LINES:
        for place in range(len(line) + 1):
            lines.append(line[:place])
            for byte in (b"x", b" ", b"0", b"/", b":", b"\r"):
                lines.append(line[:place] + byte + line[place:])
                lines.append(line[:place] + byte + line[place + 1:])
    return text(lines)


def numbers_at_their_limit():
    lines = []
    for number in (LARGEST, b"4294967296", b"4294967299", b"4294967300", b"5000000000", b"9999999999", b"10000000000",
                   b"18446744073709551615", b"18446744073709551616", b"18446744073709551617", b"04294967295", b"000",
                   b"1" + 76 * b"0", b"1" + 77 * b"0", b"1" + 78 * b"0", 100 * b"9", 100 * b"0"):
        for before in (b"T ", b"E 1 ", b"A 1 2 3 4 "):
            for after in (b"", b" ", b"x"):
                lines.append(before + number + after)
    return text(lines)


def every_byte():
    """Each byte but the newline as a first byte, where a space is due, where a number is due, and behind a number."""
    lines = []
    for byte in range(256):
        if byte != 10:
            one = bytes([byte])
            lines += [one, one + b" 1", b"Q" + one + b"1", b"Q " + one, b"Q 1" + one, b"E 1" + one + b"2 3"]
    return text(lines)


def arbitrary_bytes():
    chance = random.Random(1)
    return bytes(chance.choice(b"\x00\r\n\xff\x80 SAQHLET0123456789\t\n") for _ in range(6000))


def long_lines():
    """Lines around the 80 bytes that decide, and far beyond; each is one line."""
    lines = [b"S 7 3", b"A 1 300 0 0 3"]
    for length in (56, 57, 79, 80, 81, 82, 159, 160, 161, 4095, 4096, 4097, 9000):
        lines += [
            b"Q 1".ljust(length, b" "),
            b"Q 1".ljust(length, b"0"),
            b"x".ljust(length, b"Q"),
            b"T 0".ljust(length, b"\x00"),
            (b"A" + 5 * (b" " + LARGEST)).ljust(length, b"x"),
            # what stands behind the 80th byte would be an event of its own
            b"Q 1".ljust(length, b" ") + b"Q 1",
            b"Q".ljust(length, b" ") + b"\rQ 1",
        ]
    return text(lines + [b"Q 1"])


def long_last_line():
    return b"S 7 3\nA 1 300 0 0 3\nQ 1\n" + b"Q 1".ljust(500, b" ")


def frames_4096():
    """One client takes all 4,096 frames; others then take of them."""
    lines = ["S 1 4096", "A 1 2 0 0 4096", "A 2 1 0 1 2", "A 256 3 9 0 4096"] + 4096 * ["Q 1"]
    lines += ["Q 1", "Q 2", "Q 2", "Q 2"] + 20 * ["Q 256"] + 5 * ["H 1"] + ["E 256 4096 9", "Q 2"] + 7 * ["Q 256"]
    lines += ["L 256", "Q 1", "L 1", "Q 2"]
    return text(line.encode() for line in lines)


def large_products():
    """Tops and bottoms whose cross products need more than 32 bits, and fractions that differ by little."""
    lines = ["S 7 600", "A 1 1000000 0 0 600", "A 2 999999 0 0 600", "A 3 999998 0 0 600", "E 1 0 9", "E 2 0 9", "E 3 1 9"]
    lines += 600 * ["Q 1"] + 305 * ["Q 2"] + 205 * ["Q 3"] + ["Q 1", "Q 2", "Q 3", "T 9"] + 3 * ["Q 1", "Q 2", "Q 3"]
    return text(line.encode() for line in lines)


def close_fractions():
    """906,150/151 is above 900,149/150 by one in cross products of nine digits."""
    lines = ["S 7 300", "A 1 900149 0 0 300", "A 2 906150 0 0 300"] + 150 * ["Q 1", "Q 2"] + ["Q 2", "Q 1", "Q 2"]
    return text(line.encode() for line in lines)


def clients_256():
    """All 256 clients, more of them than frames; then each asks twice again, and every other leaves."""
    chance = random.Random(2)
    lines = ["S 999 200"]
    for client in range(256, 0, -1):
        lines.append("A %d %d %d %d %d" % (client, chance.choice((1, 2, 3, 1000000)), client % 3, client % 5 == 0, 1 + client % 7))
    lines += ["A 256 1 0 0 1", "A 257 1 0 0 1"]
    lines += ["E %d %d %d" % (client, client % 4, 1 + client) for client in range(1, 257, 3)]
    for _ in range(3):
        lines += ["Q %d" % client for client in range(1, 257)]
    lines.append("T 128")
    lines += ["Q %d" % client for client in range(256, 0, -1)]
    lines.append("T 300")
    lines += ["L %d" % client for client in range(1, 257, 2)]
    lines += ["Q %d" % client for client in range(1, 257)]
    return text(line.encode() for line in lines)


def mixed_line(chance, clients, frames, ticks):
    """A line of any kind, most often good, for a pool of about so many clients and frames."""
    client = chance.randint(1, clients)
    kind = chance.randrange(100)
    if kind < 55:
        return "Q %d" % client
    if kind < 63:
        return "H %d" % client
    if kind < 67:
        return "L %d" % client
    if kind < 81:
        minimum = chance.choice((0, 0, 0, 1, 2))
        return "A %d %d %d %d %d" % (client, chance.choice((1, 2, 3, 4, 6, 12, 100, 333334)), chance.choice((0, 0, 1, 9)),
                                     minimum, minimum + chance.randint(0, frames))
    if kind < 92:
        return "E %d %d %d" % (client, chance.randint(0, frames + 1), next(ticks) + chance.randint(0, 40) - 5)
    if kind < 97:
        return "T %d" % (next(ticks) - chance.choice((0, 0, 0, 3)))
    return chance.choice(("", "Q", "Q 0", "Q 257", "H 01", "S 0 1", "S 1 2", "T 4294967296", "L 1 ", "A 1 1 10 0 1"))


def mixed(seed, count, clients, frames):
    chance = random.Random(seed)

    def rising():
        tick = 10
        while True:
            tick += chance.randint(0, 2)
            yield tick

    ticks = rising()
    lines = ["S 7 %d" % frames] + [mixed_line(chance, clients, frames, ticks) for _ in range(count)]
    return text(line.encode() for line in lines)


WRITTEN = {
    "documented-faults": documented_faults,
    "faults-in-every-place": faults_in_every_place,
    "numbers-at-their-limit": numbers_at_their_limit,
    "every-byte": every_byte,
    "arbitrary-bytes": arbitrary_bytes,
    "long-lines": long_lines,
    "long-last-line": long_last_line,
    "frames-4096": frames_4096,
    "large-products": large_products,
    "close-fractions": close_fractions,
    "clients-256": clients_256,
    "mixed-few-clients": lambda: mixed(3, 3000, 4, 5),
    "mixed-some-clients": lambda: mixed(4, 3000, 12, 9),
    "mixed-many-clients": lambda: mixed(5, 3500, 120, 60),
}


def main():
    for name, data in WRITTEN.items():
        (HERE / (name + ".events")).write_bytes(data())
    for events in sorted(HERE.glob("*.events")):
        for price in model.PRICES:
            events.with_suffix("." + price).write_bytes(model.run(price, events.read_bytes()))


if __name__ == "__main__":
    main()
