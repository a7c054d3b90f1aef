#!/usr/bin/env python3
"""A small model of the two broker programs, written from docs/RULES.md, docs/REFUSALS.md and docs/FORMATS.md alone.

    python3 cases/model.py share|class < events

It keeps plain lists and looks through all clients for the lowest payer; it is meant to be read, not to be fast.
"""

import sys

INPUT_LIMIT = 16_777_216
LINE_LIMIT = 80
LARGEST_NUMBER = 4_294_967_295
TAX_RATE = 75

FIELDS = {b"S": 2, b"A": 5, b"Q": 1, b"H": 1, b"L": 1, b"E": 3, b"T": 1}


class Refused(Exception):
    """A call that meets the refusal of this number."""


class Malformed(Exception):
    """A line with a fault of this kind at this column."""


def refuse(number, met):
    if met:
        raise Refused(number)


# Lines


def lines_of(data):
    lines = data[:INPUT_LIMIT].split(b"\n")
    if lines[-1] == b"":
        lines.pop()
    return lines


def read_event(line):
    """The letter and the numbers of a line."""
    line = line[:LINE_LIMIT]
    letter = line[:1]
    if letter not in FIELDS:
        raise Malformed(1, 1)
    place = 1
    numbers = []
    for _ in range(FIELDS[letter]):
        if line[place:place + 1] != b" ":
            raise Malformed(2, place + 1)
        place += 1
        end = place
        while end < len(line) and ord("0") <= line[end] <= ord("9"):
            end += 1
        digits = line[place:end]
        leading_zero = len(digits) > 1 and digits[0] == ord("0")
        if digits == b"" or leading_zero or int(digits) > LARGEST_NUMBER:
            raise Malformed(3, place + 1)
        numbers.append(int(digits))
        place = end
    if place < len(line):
        raise Malformed(4, place + 1)
    return letter, numbers


# Prices: from shares, class, active count or None, and k to (class, top, bottom)


def share_price(shares, class_, active, k):
    return 0, shares, k


def taxed_price(shares, class_, active, k):
    u = k if active is None else min(k, active)
    return 0, shares * (100 - TAX_RATE), (100 - TAX_RATE) * u + 100 * (k - u)


def class_price(shares, class_, active, k):
    _, top, bottom = taxed_price(shares, class_, active, k)
    return class_, top, bottom


PRICES = {"share": share_price, "class": class_price}


def printed(quote):
    return "%d:%d/%d" % quote


# The broker


class Client:
    def __init__(self, number, shares, class_, minimum, maximum):
        self.number = number
        self.shares = shares
        self.class_ = class_
        self.minimum = minimum
        self.maximum = maximum
        self.active = None
        self.end = None
        self.stack = []  # the last frame is the top

    def holding(self):
        return len(self.stack)


class Bid:
    def __init__(self, price, client, k):
        self.quote = price(client.shares, client.class_, client.active, k)
        self.within_minimum = k <= client.minimum
        self.client = client.number
        self.k = k

    def ranks_above(self, other):
        class_, top, bottom = self.quote
        other_class, other_top, other_bottom = other.quote
        if self.within_minimum != other.within_minimum:
            return self.within_minimum
        if class_ != other_class:
            return class_ > other_class
        if top * other_bottom != other_top * bottom:
            return top * other_bottom > other_top * bottom
        if self.client != other.client:
            return self.client < other.client
        return self.k < other.k


class Broker:
    def __init__(self, price):
        self.price = price
        self.frames = 0
        self.tick = 0
        self.free = []  # the last frame is the top
        self.clients = {}

    def bid(self, client, k):
        return Bid(self.price, client, k)

    def admitted(self, number):
        refuse(2, not 1 <= number <= 256)
        refuse(14, number not in self.clients)
        return self.clients[number]

    def lowest_payer(self):
        lowest = None
        for client in self.clients.values():
            if client.holding() > client.minimum:
                bid = self.bid(client, client.holding())
                if lowest is None or lowest.ranks_above(bid):
                    lowest = bid
        return lowest

    def start(self, unit, frames):
        refuse(1, not 1 <= frames <= 4096 or not 1 <= unit <= 999)
        refuse(11, self.frames > 0)
        self.frames = frames
        self.free = list(range(frames, 0, -1))
        return "pool %d frames %d" % (unit, frames)

    def admit(self, number, shares, class_, minimum, maximum):
        refuse(2, not 1 <= number <= 256)
        refuse(3, not 1 <= shares <= 1_000_000)
        refuse(4, class_ > 9)
        refuse(5, maximum == 0 or maximum < minimum)
        refuse(13, number in self.clients)
        refuse(15, maximum > self.frames)
        refuse(16, minimum + sum(c.minimum for c in self.clients.values()) > self.frames)
        self.clients[number] = Client(number, shares, class_, minimum, maximum)
        return "admit %d" % number

    def ask(self, number):
        client = self.admitted(number)
        refuse(17, client.holding() == client.maximum)
        bid = self.bid(client, client.holding() + 1)
        if self.free:
            frame = self.free.pop()
            owner = 0
            over = ""
        else:
            lowest = self.lowest_payer()
            refuse(18, lowest is None)
            refuse(18, client.holding() >= client.minimum and not bid.ranks_above(lowest))
            frame = self.clients[lowest.client].stack.pop()
            owner = lowest.client
            over = " over " + printed(lowest.quote)
        client.stack.append(frame)
        return "grant %d frame %d from %d paying %s%s" % (number, frame, owner, printed(bid.quote), over)

    def hand_back(self, number):
        client = self.admitted(number)
        refuse(19, client.holding() == 0)
        frame = client.stack.pop()
        self.free.append(frame)
        return "back %d frame %d" % (number, frame)

    def leave(self, number):
        client = self.admitted(number)
        count = client.holding()
        while client.stack:
            self.free.append(client.stack.pop())
        del self.clients[number]
        return "leave %d frames %d" % (number, count)

    def estimate(self, number, active, end):
        client = self.admitted(number)
        refuse(20, active > self.frames)
        refuse(21, end <= self.tick)
        client.active = active
        client.end = end
        return "estimate %d" % number

    def clock(self, tick):
        refuse(22, tick < self.tick)
        self.tick = tick
        ended = 0
        for client in self.clients.values():
            if client.end is not None and client.end <= tick:
                client.active = None
                client.end = None
                ended += 1
        return "clock %d ended %d" % (tick, ended)

    def end_report(self):
        yield "end free %d" % len(self.free)
        for number, client in sorted(self.clients.items()):
            holding = client.holding()
            price = printed(self.bid(client, holding).quote) if holding > 0 else "-"
            yield "client %d holds %d price %s" % (number, holding, price)


CALLS = {
    b"S": Broker.start,
    b"A": Broker.admit,
    b"Q": Broker.ask,
    b"H": Broker.hand_back,
    b"L": Broker.leave,
    b"E": Broker.estimate,
    b"T": Broker.clock,
}


def run(price, data):
    """What the program prints, as bytes."""
    broker = Broker(PRICES[price])
    out = []
    for number, line in enumerate(lines_of(data), 1):
        try:
            letter, numbers = read_event(line)
            out.append(CALLS[letter](broker, *numbers))
        except Malformed as fault:
            out.append("line %d text %d at %d" % (number, *fault.args))
        except Refused as refusal:
            out.append("line %d refused %d" % (number, *refusal.args))
    out.extend(broker.end_report())
    return "".join(line + "\n" for line in out).encode()


if __name__ == "__main__":
    if len(sys.argv) != 2 or sys.argv[1] not in PRICES:
        sys.exit("usage: model.py share|class < events")
    sys.stdout.buffer.write(run(sys.argv[1], sys.stdin.buffer.read(INPUT_LIMIT)))
