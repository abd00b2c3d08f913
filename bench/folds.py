"""What folds would have to keep in a run, counted beside the plain model, which folds nothing.

At each Tick a site may fold its rows: what the *floor* sees of a row is kept as one value, or as one count of each id. The floor
is, place by place, the least of what is committed at the site and of the snapshots of its open transactions. No answer may
change by it, so the model doesn't do it; here is counted how often a run came to where a wrong fold would answer otherwise.
"""

from collections import Counter

import model
from spelled import *

TICKS = ["tick that may fold", "tick beside an old snapshot", "tick before a commit that is received",
         "tick where what the floor sees stands behind what it doesn't"]
READERS = [f"read behind a fold by {whom}" for whom in ("a new snapshot", "an old snapshot", "an old snapshot with updates")]
FOLDS = [*TICKS, *READERS, "SetReadId behind a fold by an old snapshot", "commit of an old snapshot behind a fold",
         "abort of an old snapshot behind a fold", "PREPARE that conflicts with what is folded", "restart behind a fold"]


def floor_of(site):
    """What each snapshot has seen that is open, or may be begun from now on."""
    starts = [session.start for session in site.sessions.values()]
    return [min(numbers) for numbers in zip(site.committed, *starts)]


def is_mixed(row, floor):
    """Whether a row has a version that the floor sees behind one that it doesn't."""
    seen = [model.sees(floor, site, number) for site, number, _ in row]
    return any(later and not before for before, later in zip(seen, seen[1:]))


class Site(model.Site):
    """A site of the model, which counts what folds at its ticks meet."""

    floor_before_stop = ()

    def forget(self):
        super().forget()
        # The floor at the last tick, and what was committed there then.
        self.floor, self.ticked = [0] * self.count, [0] * self.count

    def has_folded(self, row):
        """Whether the last tick may have folded some of a row."""
        return any(model.sees(self.floor, site, number) for site, number, _ in row)

    def has_newer(self, row, start):
        """Whether a row had a version at the last tick that a snapshot doesn't see."""
        return any(model.sees(self.ticked, site, number) and not model.sees(start, site, number) for site, number, _ in row)

    def tick(self):
        if self.up:
            self.meet_tick()
        super().tick()

    def meet_tick(self):
        floor, rows = floor_of(self), self.rows.values()
        met = [any(model.sees(floor, site, number) and not model.sees(self.floor, site, number)
                   for row in rows for site, number, _ in row),
               floor != self.committed, self.got != self.committed, any(is_mixed(row, floor) for row in rows)]
        self.met.update(what for what, is_so in zip(TICKS, met) if is_so)
        self.floor, self.ticked = floor, list(self.committed)

    def use(self, session, operation, oid, what=None):
        if operation in (READ, SET_READ, SET_READ_ID) and oid in self.rows:
            self.meet_read(session, operation, oid)
        return super().use(session, operation, oid, what)

    def meet_read(self, session, operation, oid):
        row = self.rows[oid]
        is_old, has_updates = self.has_newer(row, session.start), any(update[1] == oid for update in session.updates)
        if is_old:
            self.met[READERS[1 + has_updates]] += 1
            self.met["SetReadId behind a fold by an old snapshot"] += operation == SET_READ_ID
        elif self.has_folded(row):
            self.met[READERS[0]] += 1

    def commit(self, client, session):
        plan = super().commit(client, session)
        rows = [self.rows[update[1]] for update in session.updates if update[1] in self.rows]
        if not session.slow and any(self.has_newer(row, session.start) for row in rows):
            if plan.outcome[0] == COMMITTED:
                self.met["commit of an old snapshot behind a fold"] += 1
            elif plan.outcome[:2] == bytes([ABORTED, MODIFIED]):
                self.met["abort of an old snapshot behind a fold"] += 1
        return plan

    def hear_prepare(self, j, number, tid, start, objects):
        plan = super().hear_prepare(j, number, tid, start, objects)
        for _, (_, _, *answer) in plan.sends():
            if answer and answer[0][0] == MODIFIED and model.sees(self.floor, *answer[0][2]):
                self.met["PREPARE that conflicts with what is folded"] += 1
        return plan

    def restart(self):
        was_down, folded = not self.up, any(self.floor_before_stop)
        super().restart()
        self.met["restart behind a fold"] += was_down and self.up and folded

    def fall(self):
        self.floor_before_stop = self.floor
        super().fall()


def played(scenario, met):
    """The run of the scenario by the model. Counts in `met` the limits that it came to, and what folds met."""
    return model.played(scenario, met, Site)
