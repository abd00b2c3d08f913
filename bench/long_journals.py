"""Journals of sixteen sites, as long as is asked for, that tell a legal history: by them audits are measured.

In each round every site commits once, receives what the others have committed, and then sees it. Each eighth commit of
a site is slow: it writes an object of the next site too, which has a lock on it from then on until it sees the commit.
Behind each round a site marks how far its own commits have come; marks fill up what is left at the end.
"""

import json

import journals
from model import Tx
from spelled import BOOT, GOT, MARKS, OWN, PREPARED, SEEN, SET_ADD, SLOW_BEGIN, WRITE, record_of

SITES, FORM, EVERY = 16, 2, 8
# The container of sets, behind one of regular objects for each site; what a slow commit writes elsewhere stands behind
# what the sites there write.
SETS, OBJECTS, REMOTE = SITES, 100, 1000


def scenario():
    containers = [*([site, "regular", site] for site in range(SITES)), [SETS, "cset", 0]]
    return {"sites": SITES, "f": 0, "containers": containers, "clients": [], "steps": [], "format": FORM}


class Rounds:
    """What the sites have journaled so far, as bodies."""

    def __init__(self):
        self.bodies = [[record_of((BOOT, 1))] for _ in range(SITES)]
        self.commits = 0

    def put(self, site, *record):
        self.bodies[site].append(record_of(record, FORM))

    def transaction(self, site, is_slow):
        """The next of a site, which has seen all that was committed before this round."""
        updates = [(WRITE, (site, self.commits % OBJECTS), b"value"), (SET_ADD, (SETS, self.commits % OBJECTS), site)]
        if is_slow:
            updates.append((WRITE, ((site + 1) % SITES, REMOTE + site), b"value"))
        slow = self.commits // EVERY + 1 if is_slow else 0
        return Tx((site, 1, self.commits + 1), slow, (self.commits,) * SITES, tuple(updates))

    def begin(self, site, transaction):
        self.put(site, SLOW_BEGIN, transaction.slow, transaction)
        asked = (site + 1) % SITES
        self.put(asked, PREPARED, site, transaction.slow, transaction.tid, ((asked, REMOTE + site),))

    def add(self):
        number, is_slow = self.commits + 1, self.commits % EVERY == 0
        made = [self.transaction(site, is_slow) for site in range(SITES)]
        for site, transaction in enumerate(made) if is_slow else ():
            self.begin(site, transaction)
        # All that is of this round is spelled once.
        received = [record_of((GOT, site, number, made[site]), FORM) for site in range(SITES)]
        seen = [record_of((SEEN, site, number), FORM) for site in range(SITES)]
        for site in range(SITES):
            self.put(site, OWN, number, made[site])
            for of_others in received, seen:
                self.bodies[site] += of_others[:site] + of_others[site + 1 :]
            self.put(site, MARKS, number, self.commits)
        self.commits = number

    def fill(self, records):
        for bodies in self.bodies:
            bodies += [record_of((MARKS, self.commits, self.commits), FORM)] * (records - len(bodies))


# How many records a round may have at a site.
MOST_OF_ROUND = 2 + 1 + 2 * (SITES - 1) + 1


def contents(records):
    """The contents of all sites, each of so many records."""
    made = Rounds()
    while len(made.bodies[0]) + MOST_OF_ROUND <= records:
        made.add()
    made.fill(records)
    return [journals.Content(FORM, bodies) for bodies in made.bodies]


def unreadable_at_the_end(many):
    """The same, but for the last record of the last site: it can't be read, so an audit ends there."""
    *others, last = many
    return [*others, last._replace(bodies=[*last.bodies[:-1], journals.FORMAT])]


def text():
    return json.dumps(scenario())
