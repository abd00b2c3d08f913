"""Scenarios of common runs, each with how many times a plain program's processor time and memory it may take at most.

    python3 bench/common.py three-sites > three_sites.json

Each goes by no chance, and has some thousands to some ten thousands of calls, as many as fit into a scenario.
"""

import functools

import growth
import kinds
import loads
import workloads
from generator import COMMIT, START
from kinds import CONTAINERS, REGULAR, Kind, Maker, at_one_site, read_of
from spelled import frame, write

VALUE = bytes(range(256)) * 16
MOST_SESSIONS, WIDE = 256, 120
# A scenario has at most 16 MiB, and clients at most 1,024 at a site.
CLIENTS_OF_BYTES, BYTES_OF_EACH = 1_000, 8_300


def write_of(local, number):
    return write((REGULAR, local), b"%08d" % number)


def older_reads(objects=4_000, reads=7_000):
    """Objects are written once each, and then read by two in transactions without updates."""
    maker = Maker(2)
    for number in range(objects):
        maker.transaction(0, write_of(number, number))
    for number in range(reads):
        maker.transaction(1, *(read_of((REGULAR, number * step % objects)) for step in (7, 13)))
    return maker.made()


def few_hot(transactions=10_000):
    """One client writes one of four objects by turns, and reads it."""
    maker = Maker(1)
    for number in range(transactions):
        maker.transaction(0, write_of(number % 4, number), read_of((REGULAR, number % 4)))
    return maker.made()


def at_once(clients, rounds, *bodies_of):
    """In each round all clients make their first call, then all make their second, and so on."""
    maker = Maker(clients)
    for number in range(rounds):
        for body_of in bodies_of:
            for client in range(clients):
                maker.call(client, body_of(client, number))
    return maker.made()


def ten_at_once(rounds=1_000):
    """Ten clients have a transaction each at once, over four objects: of those that write one object one commits."""
    return at_once(10, rounds, lambda *_: START, lambda client, _: read_of((REGULAR, client % 4)),
                   lambda client, number: write_of(client % 4, number), lambda *_: COMMIT)


def sessions(rounds=40):
    """As many clients as may have a transaction have one each at once, over an object of their own."""
    return at_once(MOST_SESSIONS, rounds, lambda *_: START, write_of, lambda *_: COMMIT)


def wide_transactions(transactions=300):
    maker = Maker(1)
    for number in range(transactions):
        maker.transaction(0, *(write_of(WIDE * number + each, each) for each in range(WIDE)))
    return maker.made()


def large_writes(transactions=1_900):
    maker = Maker(1)
    for number in range(transactions):
        maker.transaction(0, write((REGULAR, number), VALUE))
    return maker.made()


def large_reads(reads=5_000):
    maker = Maker(2)
    maker.transaction(0, write((REGULAR, 1), VALUE))
    for _ in range(reads):
        maker.transaction(1, read_of((REGULAR, 1)))
    return maker.made()


def no_steps():
    """As many bytes as a scenario may have, nearly all of them what clients send, and no steps."""
    sent = (frame(write((REGULAR, 1), VALUE[:90])) * BYTES_OF_EACH)[:BYTES_OF_EACH].hex()
    return at_one_site(CONTAINERS, [sent] * CLIENTS_OF_BYTES, [])


KINDS = {
    "spread": Kind(lambda: growth.scenario(40_000), 2, 1.8),
    "older-reads": Kind(older_reads, 2, 1.8),
    "few-hot": Kind(few_hot, 2, 1.8),
    "ten-at-once": Kind(ten_at_once, 2, 1.8),
    "sessions": Kind(sessions, 2, 1.8),
    "wide-writes": Kind(wide_transactions, 2, 1.8),
    "large-writes": Kind(large_writes, 2, 1.8),
    "stops": Kind(lambda: growth.stops_behind(200, 2_000), 1.5, 1.8),
    "large-reads": Kind(large_reads, 2, 2),
    "three-sites": Kind(lambda: growth.Spread(5_000).made(), 2, 1.8),
    "load": Kind(lambda: loads.made(7, loads.MOST_CALLS), 2, 1.8),
    "no-steps": Kind(no_steps, 1.5, 1.5),
}
# What people do, at three sites and at eight. They are made by playing them in the model, which takes some seconds each.
WORKLOADS = {
    "social": Kind(functools.partial(workloads.made, "social", 3, 5_000), 2, 1.8),
    "social-8": Kind(functools.partial(workloads.made, "social", 8, 3_000, clients=16), 2, 1.8),
    "shop": Kind(functools.partial(workloads.made, "shop", 3, 5_000), 2, 1.8),
    "shop-8": Kind(functools.partial(workloads.made, "shop", 8, 3_000, clients=16), 2, 1.8),
}


if __name__ == "__main__":
    kinds.main({**KINDS, **WORKLOADS})
