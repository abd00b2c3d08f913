#!/usr/bin/env python3
"""How fast threads drive clients that have nothing to do with each other: `run` over 1, 2 and 4 sites, with as many threads.

At each site a client commits transactions that write an object of its own, preferred there, and no link loses, repeats or
swaps: so two events at different sites have nothing in common but the packets that go from one to the other. There is no tick
but one for each site, by which it says again what a full lane has dropped.

What is measured is the time that passes while the whole program runs, less the least of a run that only reads the same scenario
and refuses its last step; of several runs the one with the most events a second counts. How many events there are depends on how
the threads go, but not what an event takes, so runs are compared by events a second. The trails and the report are made in
this time too, by one thread; the column `together` tells how long there was more than one, and the last line compares the
events a second in that time too. `play` plays the same calls by steps: a turn of each client, and then so many pumps of each
site that nothing is left in the end.

    python3 bench/threads.py
    python3 bench/threads.py --program PATH --transactions 2000 --runs 3

The ratio wants four processors that have nothing else to do.
"""

import argparse
import json
import os
import subprocess
import sys
import tempfile
import time
from collections import namedtuple

from compare import built
from growth import COMMIT, START, write
from measured import events_of

SITES, RUNS, TRANSACTIONS = (1, 2, 4), 5, 16_000
TICKS = 1
# Each trail has its memory from the start: all threads wait where the system makes a long one longer.
ROOM = 100_000
# No run takes less, however the times of two runs differ.
LEAST = 0.001
# How many pumps of each other site follow a transaction of each client: those of five packets and of the commit.
PUMPS = 6
# A run: how long it took, how long it had more than one thread, and its events.
Run = namedtuple("Run", "seconds together events")


def scenario(sites, transactions, steps=()):
    """At each site a client commits so many transactions, each of which writes an object of its own."""
    clients = [[site, "".join(START + write(site + 1, number) + COMMIT for number in range(transactions))]
               for site in range(sites)]
    return {"sites": sites, "f": 0, "containers": [[site + 1, "regular", site] for site in range(sites)],
            "clients": clients, "threads": sites, "ticks": TICKS, "room": ROOM, "steps": list(steps)}


def steps_of(sites, transactions):
    """The same calls, one client after another, with pumps between them."""
    turns = [["call", client] for client in range(sites)] * 3
    pumps = [["pump", site] for site in range(sites)] * (PUMPS * (sites - 1))
    return (turns + pumps) * transactions + pumps * TICKS


def has_threads(process):
    """Whether a process has more than one thread just now."""
    try:
        return len(os.listdir(f"/proc/{process}/task")) > 1
    except OSError:
        return False


def together(process):
    """How long a process had more than one thread, by looking again and again until it ends."""
    first = last = None
    while process.poll() is None:
        if has_threads(process.pid):
            last = time.perf_counter()
            first = first or last
        time.sleep(0.0005)
    return last - first if first else 0.0


def timed(words, made, wanted):
    """A run of a command on a scenario, which is to end with this status."""
    with tempfile.TemporaryFile("w+") as source, tempfile.TemporaryFile("w+") as written:
        json.dump(made, source)
        source.seek(0)
        begun = time.perf_counter()
        with subprocess.Popen(words, stdin=source, stdout=written, stderr=subprocess.DEVNULL) as process:
            lasted = together(process)
        seconds = time.perf_counter() - begun
        written.seek(0)
        if process.returncode != wanted:
            sys.exit(f"{' '.join(words)} ended with status {process.returncode}")
        return Run(seconds, lasted, events_of(written.read()))


def rate(run):
    return run.events / run.seconds


def driven(run):
    """The events a second of the time in which threads drove."""
    return run.events / max(run.together, LEAST)


def best(words, made, runs):
    """The best of so many runs of a command on a scenario, without the least time in which it reads."""
    refused = {**made, "steps": [*made["steps"], "none"]}
    reading = min(timed(words, refused, 2).seconds for _ in range(runs))
    whole = [timed(words, made, 0) for _ in range(runs)]
    return max((run._replace(seconds=max(run.seconds - reading, LEAST)) for run in whole), key=rate)


def line(word, sites, transactions, run):
    return (f"{word} {sites:>2} sites: {3 * sites * transactions:>9,} calls {run.events:>9,} events {run.seconds:7.3f} s"
            f" {run.together:7.3f} s together {rate(run):>11,.0f} events a second")


def lines(program, transactions, runs):
    """A line for each measure, and the ratios."""
    rates, driving = {}, {}
    for sites in SITES:
        # As many calls in all, so that the runs are about as long.
        each = transactions // sites
        for word, steps in ("run", ()), ("play", steps_of(sites, each)):
            run = best([program, word], scenario(sites, each, steps), runs)
            rates[word, sites], driving[word, sites] = rate(run), driven(run)
            yield line(word, sites, each, run)
    least, most = SITES[0], SITES[-1]
    yield (f"{most} threads to {least}: {rates['run', most] / rates['run', least]:.2f} times the events a second, "
           f"{driving['run', most] / driving['run', least]:.2f} times while threads drive; to play of the same calls: "
           f"{rates['run', most] / rates['play', most]:.2f} times")


def main():
    parser = argparse.ArgumentParser(description=__doc__, formatter_class=argparse.RawDescriptionHelpFormatter)
    parser.add_argument("--program", metavar="PATH", help="the program; without it that of this repository, which ./walter "
                        "proves and builds first where that isn't done yet")
    parser.add_argument("--transactions", type=int, default=TRANSACTIONS, metavar="N",
                        help=f"how many transactions all clients have together; {TRANSACTIONS} without it")
    parser.add_argument("--runs", type=int, default=RUNS, metavar="K", help=f"how often each runs; {RUNS} without it")
    words = parser.parse_args()
    if words.runs < 1 or words.transactions < SITES[-1]:
        parser.error(f"wants a run at least, and {SITES[-1]} transactions")
    for told in lines(words.program or built(), words.transactions, words.runs):
        print(told, flush=True)


if __name__ == "__main__":
    main()
