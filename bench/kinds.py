"""Scenarios of one site by kinds, each named for what is long in it: rows of few objects, or a set of many ids.

    python3 bench/kinds.py hot-set > hot_set.json

Each goes by no chance. A kind whose name ends in `-ticks` is the one before it with a Tick at each 100th event, at which the site
may fold its rows.
"""

import json
import struct
import sys
from collections import namedtuple

from generator import COMMIT, START
from spelled import READ, SET_ADD, SET_DEL, SET_READ, SET_READ_ID, frame, on_set, write

EVERY = 100
REGULAR, SETS = 1, 2
CONTAINERS = [[REGULAR, "regular", 0], [SETS, "cset", 0]]
MOST_IDS = 4_095
# A transaction has at most 256 updates.
IDS_AT_ONCE = 255


def at_one_site(containers, sent, steps):
    """A scenario of one site, with what each client sends as hex."""
    return {"sites": 1, "f": 0, "containers": containers, "clients": [[0, frames] for frames in sent], "steps": steps}


def text_of(made):
    return json.dumps(made, separators=(",", ":"))


class Maker:
    """What some clients of one site send, and the steps, each a turn or a Tick."""

    def __init__(self, clients, every=None):
        self.sent, self.steps, self.every = [[] for _ in range(clients)], [], every

    def call(self, client, *bodies):
        """The client sends these, and has its turns; and the site ticks where it is to."""
        for body in bodies:
            self.sent[client].append(frame(body))
            self.steps.append(["call", client])
            # The site's first entry is that of its first restart.
            if self.every and (len(self.steps) + 2) % self.every == 0:
                self.steps.append(["tick", 0])

    def transaction(self, client, *bodies):
        self.call(client, START, *bodies, COMMIT)

    def made(self):
        return at_one_site(CONTAINERS, [b"".join(frames).hex() for frames in self.sent], self.steps)


def read_of(oid):
    return bytes([READ if oid[0] == REGULAR else SET_READ]) + struct.pack(">IQ", *oid)


def change_of(oid, number, ids):
    """A write of a number; or, of a set, by turns three adds of an id and two dels, so that its counts grow."""
    if oid[0] == REGULAR:
        return write(oid, struct.pack(">Q", number))
    return on_set(SET_ADD if number % 5 < 3 else SET_DEL, oid, number // 5 * 7 % ids)


def hot_set(every=None, commits=16_000):
    """One set of eight ids is changed by one client again and again; behind each commit another reads it, or one id of it."""
    maker, oid = Maker(2, every), (SETS, 1)
    for number in range(commits):
        maker.transaction(0, change_of(oid, number, 8))
        maker.transaction(1, read_of(oid) if number % 2 else on_set(SET_READ_ID, oid, number % 8))
    return maker.made()


def wide_set(every=None, rounds=12_000):
    """A set of as many ids as may be read at once: one of them is changed, and others are read, each alone; now and then all."""
    maker, oid = Maker(2, every), (SETS, 1)
    for first in range(0, MOST_IDS, IDS_AT_ONCE):
        ids = range(first, min(first + IDS_AT_ONCE, MOST_IDS))
        maker.transaction(0, *(on_set(SET_ADD, oid, number) for number in ids))
    for number in range(rounds):
        # No count comes to 0: each id is added before it is taken away.
        maker.transaction(0, on_set(SET_DEL if number % 2 else SET_ADD, oid, number // 2 * 13 % MOST_IDS))
        reads = [read_of(oid)] if number % 250 == 249 else [on_set(SET_READ_ID, oid, number * 17 % MOST_IDS)] * 2
        maker.transaction(1, *reads)
    return maker.made()


def long_rows(every=None, commits=20_000):
    """Four objects, two of each kind, are changed by turns. Behind the first hundredth of the commits one client starts, and
    reads them until the end; behind every other commit another reads one of them by a transaction of its own."""
    maker = Maker(3, every)
    objects = [(container, local) for container in (REGULAR, SETS) for local in (1, 2)]
    for number in range(commits):
        oid = objects[number % len(objects)]
        maker.transaction(0, change_of(oid, number, 8))
        if number == commits // 100:
            maker.call(2, START)
        if number > commits // 100 and number % 4 == 2:
            maker.call(2, read_of(objects[number // 4 % len(objects)]))
        if number % 2:
            maker.transaction(1, read_of(objects[number // 2 % len(objects)]))
    maker.call(2, COMMIT)
    return maker.made()


# Many events, for the memory that they take

OBJECTS = [(container, local) for local in range(50) for container in (REGULAR, SETS)]


def many_objects(events, end=COMMIT):
    """A site with so many events: transactions of one change over a hundred objects of both kinds, and Ticks. Where they end by
    an abort in the place of a commit, the entries are alike but for the record, and nothing is kept but these."""
    maker, number = Maker(2, EVERY), 0
    while len(maker.steps) < events - 1:
        maker.call(0, START, change_of(OBJECTS[number % len(OBJECTS)], number, 8), end)
        number += 1
    return quiet_behind(maker.made(), events)


def quiet_behind(made, events):
    """The scenario with so many events, and as many steps as before: those behind are turns of a client without calls."""
    steps = made["steps"]
    return {**made, "steps": steps[: events - 1] + [["call", 1]] * (len(steps) - events + 1)}


# The kinds

# How many times a plain program's processor time each may take at most, and its memory.
Kind = namedtuple("Kind", "make times memory", defaults=(3, None))
MAKERS = {"hot-set": hot_set, "wide-set": wide_set, "long-rows": long_rows}
KINDS = {**{name: Kind(make) for name, make in MAKERS.items()},
         **{f"{name}-ticks": Kind(lambda make=make: make(EVERY)) for name, make in MAKERS.items()}}


def main(some=KINDS):
    """Writes the scenario of the kind, among these, that the word names."""
    if sys.argv[1:2] and sys.argv[1] in some:
        print(text_of(some[sys.argv[1]].make()))
    else:
        sys.exit("wants one of " + ", ".join(some))


if __name__ == "__main__":
    main()
