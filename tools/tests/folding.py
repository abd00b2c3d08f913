"""A site that folds its rows at each tick, rightly, and wrong ones: random scenarios are to tell each of these by what it answers.

Of a regular object it keeps the value that the floor sees, the versions of all writes, and the writes behind the floor. Of a set
it keeps the counts of what is committed here, and the steps behind the floor, by which an older snapshot goes back from these.
"""

from collections import Counter, defaultdict

import folds
import model
from model import covers, sees
from spelled import *


def sign(update):
    return 1 if update[0] == SET_ADD else -1


class Right(model.Site):
    """Answers as the plain model does."""

    def forget(self):
        self.floor = [0] * self.count
        self.values, self.versions = {}, defaultdict(list)
        self.totals = defaultdict(Counter)
        # Of each object what isn't folded yet, in the order of arrival: (site, number, update).
        self.kept = defaultdict(list)
        super().forget()

    def keep(self, site, number, tx):
        super().keep(site, number, tx)
        for update in tx.updates:
            self.kept[update[1]].append((site, number, update))
            if update[0] == WRITE:
                self.versions[update[1]].append((site, number))
        if site == self.me:
            self.count_in(tx)

    def learn(self, record):
        super().learn(record)
        if record[0] == SEEN:
            self.count_in(self.log[record[1], record[2]])

    def count_in(self, tx):
        for update in tx.updates:
            if update[0] != WRITE:
                self.totals[update[1]][update[2]] += sign(update)

    def new_floor(self):
        return folds.floor_of(self)

    def tick(self):
        super().tick()
        if self.up:
            floor = self.new_floor()
            for oid in self.kept:
                self.fold(oid, floor)
            self.floor = floor

    def fold(self, oid, floor):
        row = self.kept[oid]
        for at in row:
            if at[2][0] == WRITE and sees(floor, *at[:2]):
                self.values[oid] = at[2][2]
        self.kept[oid] = [at for at in row if not sees(floor, *at[:2])]

    def conflict(self, objects, start):
        for oid in objects:
            for version in self.versions[oid]:
                if not sees(start, *version):
                    return MODIFIED, oid, version
            for owner, locked in self.locks.values():
                if oid in locked:
                    return LOCKED, oid, owner
        return None

    def use(self, session, operation, oid, what=None):
        """The answer over a row that has what this snapshot is to see, and nothing else."""
        if operation in (READ, SET_READ, SET_READ_ID) and oid[0] in self.containers:
            before, self.rows = self.rows, {oid: self.seen_by_snapshot(session.start, operation, oid)}
            try:
                return super().use(session, operation, oid, what)
            finally:
                self.rows = before
        return super().use(session, operation, oid, what)

    def seen_by_snapshot(self, start, operation, oid):
        if operation == READ:
            updates = [(WRITE, oid, self.values[oid])] if oid in self.values else []
            updates += [update for site, number, update in self.kept[oid] if sees(start, site, number)]
        else:
            updates = [(SET_ADD if count > 0 else SET_DEL, oid, number) for number, count in self.counts(start, oid).items()
                       for _ in range(abs(count))]
        return [(self.me, 0, update) for update in updates]

    def counts(self, start, oid):
        counts = Counter(self.totals[oid])
        for site, number, update in self.kept[oid]:
            if sees(self.committed, site, number) and not sees(start, site, number):
                counts[update[2]] -= sign(update)
        return counts


# The wrong ones


class ForgetsSnapshots(Right):
    """The floor is what is committed, whoever has a transaction open."""

    def new_floor(self):
        return list(self.committed)


class FoldsWhatIsReceived(Right):
    """The floor reaches beyond what is committed."""

    def new_floor(self):
        return [min(numbers) for numbers in zip(self.got, *(session.start for session in self.sessions.values()))]


class TakesTheNewestSnapshot(Right):
    def new_floor(self):
        return list(list(self.sessions.values())[-1].start) if self.sessions else list(self.committed)


class FoldsByPlace(Right):
    """All in front of the last that the floor sees goes with it."""

    def fold(self, oid, floor):
        row = self.kept[oid]
        seen = [place for place, at in enumerate(row) if sees(floor, *at[:2])]
        for at in row[: seen[-1] + 1 if seen else 0]:
            if at[2][0] == WRITE:
                self.values[oid] = at[2][2]
        self.kept[oid] = row[seen[-1] + 1 if seen else 0 :]


class KeepsTheFirstValue(Right):
    def fold(self, oid, floor):
        before = dict(self.values)
        super().fold(oid, floor)
        self.values.update({oid: before[oid]} if oid in before else {})


class DropsVersions(Right):
    """Who is older than the floor, as a PREPARE may be, meets no conflict over what is folded."""

    def fold(self, oid, floor):
        super().fold(oid, floor)
        self.versions[oid] = [version for version in self.versions[oid] if not sees(floor, *version)]


class KeepsTheLastVersion(Right):
    """The first version outside a snapshot may be folded, and another is named."""

    def fold(self, oid, floor):
        super().fold(oid, floor)
        folded = [version for version in self.versions[oid] if sees(floor, *version)]
        self.versions[oid] = folded[-1:] + [version for version in self.versions[oid] if not sees(floor, *version)]


class CountsWhatIsReceived(Right):
    def keep(self, site, number, tx):
        super().keep(site, number, tx)
        if site != self.me:
            self.count_in(tx)

    def learn(self, record):
        model.Site.learn(self, record)


class CountsTwiceBehindARestart(Right):
    def forget(self):
        before = getattr(self, "totals", {})
        super().forget()
        for oid in before:
            self.totals[oid].update(before[oid])


class ReadsCountsAsTheyAreKept(Right):
    """An older snapshot doesn't go back to what it saw."""

    def counts(self, start, oid):
        return Counter(self.totals[oid])


class GoesBackOverOneSite(Right):
    """Of what is committed behind a snapshot only the own ones are taken off."""

    def counts(self, start, oid):
        return super().counts([start[self.me] if site == self.me else self.committed[site] for site in range(self.count)], oid)


class GoesBackOverWhatIsReceived(Right):
    """What isn't committed here is taken off too, though it was never counted."""

    def counts(self, start, oid):
        counts = Counter(self.totals[oid])
        for site, number, update in self.kept[oid]:
            if not sees(start, site, number):
                counts[update[2]] -= sign(update)
        return counts


class ForgetsTheFoldedValue(Right):
    """Where a row has nothing behind the floor there seems to be no value."""

    def seen_by_snapshot(self, start, operation, oid):
        if operation == READ and not self.kept[oid]:
            return []
        return super().seen_by_snapshot(start, operation, oid)


class DropsWhatGoesBelowZero(Right):
    def counts(self, start, oid):
        return Counter({number: count for number, count in super().counts(start, oid).items() if count > 0})


class ForgetsOwnUpdatesOverAFold(Right):
    def use(self, session, operation, oid, what=None):
        if operation in (READ, SET_READ, SET_READ_ID) and oid in self.kept and not self.kept[oid]:
            updates, session.updates = session.updates, []
            try:
                return super().use(session, operation, oid, what)
            finally:
                session.updates = updates
        return super().use(session, operation, oid, what)


WRONG = [ForgetsSnapshots, FoldsWhatIsReceived, TakesTheNewestSnapshot, FoldsByPlace, KeepsTheFirstValue, DropsVersions,
         KeepsTheLastVersion, CountsWhatIsReceived, CountsTwiceBehindARestart, ReadsCountsAsTheyAreKept, GoesBackOverOneSite,
         GoesBackOverWhatIsReceived, ForgetsTheFoldedValue, DropsWhatGoesBelowZero, ForgetsOwnUpdatesOverAFold]


def answers(made, make):
    """The report and the trace, where sites of this class play; or what went wrong."""
    run = model.Run(made, Counter(), make)
    try:
        for step in made["steps"]:
            run.step(*step)
    except (KeyError, IndexError) as wrong:
        return repr(wrong)
    return run.text()
