"""Made scenarios of many calls, each by its seed, and the summary of a run, as docs/FORMATS.md has them.

    python3 bench/model.py load --seed 7 --calls 2000

Three sites with six containers have six clients, each of which begins transactions, reads, changes two objects and commits.
Behind each call each site is pumped once, by a link that loses, repeats and swaps.
"""

import struct
from collections import Counter

from link import Words
from spelled import *

SITES, CONTAINERS, CLIENTS, LOCALS, IDS = 3, 6, 6, 4, 8
MOST_CALLS, MOST_SEED = 20_000, (1 << 64) - 1
RATES = {"lose": 50, "repeat": 50, "swap": 100}
TICKS, THREADS, CAPACITY = 10_000, 8, 16_777_216
# The calls of a client, in their turn.
CALLS = ("start", "read", "change", "change", "commit")
# What the replies are counted as, in the order of the summary; Value, Set and Count are all reads.
COUNTED = ("started", "ended", "done", "read", "committed", "aborted", "deciding", "level", "unsure", "refused")
COUNTED_AS = {STARTED: "started", ENDED: "ended", DONE: "done", VALUE: "read", SET: "read", COUNT: "read",
              COMMITTED: "committed", ABORTED: "aborted", DECIDING: "deciding", LEVEL_IS: "level", UNSURE: "unsure",
              REFUSED: "refused"}


def object_of(words):
    container = 1 + words.draw() % CONTAINERS
    return container, words.draw() % LOCALS


def read_of(words):
    oid = object_of(words)
    return bytes([READ if oid[0] % 2 else SET_READ]) + struct.pack(">IQ", *oid)


def change_of(words):
    oid, word = object_of(words), words.draw()
    if oid[0] % 2:
        return write(oid, struct.pack(">I", word))
    return on_set(SET_DEL if word % 2 else SET_ADD, oid, word // 2 % IDS)


def body_of(words, turn):
    """The body of a client's call, by how many it had before."""
    call = CALLS[turn % len(CALLS)]
    if call in ("read", "change"):
        return (read_of if call == "read" else change_of)(words)
    return bytes([START if call == "start" else COMMIT])


def made(seed, calls):
    """The scenario of a seed with so many calls."""
    words, sent, turns, steps = Words(seed, 0), [[] for _ in range(CLIENTS)], Counter(), []
    for _ in range(calls):
        client = words.draw() % CLIENTS
        sent[client].append(frame(body_of(words, turns[client])))
        turns[client] += 1
        steps += [["call", client], *(["pump", site] for site in range(SITES))]
    return {
        "sites": SITES,
        "f": 1,
        "containers": [[number, "regular" if number % 2 else "cset", (number - 1) % SITES]
                       for number in range(1, CONTAINERS + 1)],
        "clients": [[client % SITES, b"".join(frames).hex()] for client, frames in enumerate(sent)],
        "capacity": CAPACITY,
        "link": {"seed": seed, **RATES},
        "ticks": TICKS,
        "threads": THREADS,
        "steps": steps,
    }


def load_words(command, seed, calls):
    """The command that plays the scenario of a seed with so many calls."""
    return [*command, "load", "--seed", str(seed), "--calls", str(calls)]


def summary(seed, calls, run):
    """The summary of the run of that scenario."""
    met = Counter(COUNTED_AS[reply[4]] for replies in run.replies for reply in replies)
    lines = [f"load seed {seed} calls {calls}", "replies " + " ".join(f"{what} {met[what]}" for what in COUNTED)]
    for site in run.sites:
        log = sum(record[0] in (OWN, SEEN) for record in site.records)
        lines.append(f"site {site.me} {'up' if site.up else 'down'} epoch {site.last_epoch()} events {len(site.entries)} "
                     f"records {len(site.records)} log {log}")
    return "\n".join(lines) + "\n"
