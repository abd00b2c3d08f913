"""Random scenarios come to where a wrong fold of rows would answer otherwise; and what is counted of it is so."""

import json
import os
import sys
import unittest
from collections import Counter
from unittest import mock

from played import TOP, file_text, random_scenario
import folding
import folds
import generator
import model
import readings
import scripts

EXAMPLE = os.path.join(TOP, "examples", "fold_keeps_snapshots.script")
# A site receives what another commits to a set, and changes the set itself before that is committed here.
MIXED = """sites 2 tolerated 0
container 3 set at 0
client ann at 0
client bob at 1
ann: start
ann: setadd 3:1 9
ann: commit
deliver to 1 from 0 PROPAGATE
bob: start
bob: setadd 3:1 8
bob: commit
tick 1
bob: start
bob: setread 3:1
"""
# A slow commit with an old snapshot comes behind two commits, which its site may have folded.
PREPARED = """sites 2 tolerated 0
container 1 regular at 0
client ann at 0
client bob at 1
bob: start
bob: write 1:1 "b"
ann: start
ann: write 1:1 "a"
ann: commit
tick 0
stop 0
restart 0
tick 0
bob: commit
deliver to 0 from 1 PREPARE
"""


def met_in(script):
    met = Counter()
    folds.played(scripts.read(script), met)
    return {what: met[what] for what in folds.FOLDS if met[what]}


def folded_seeds(count):
    return [seed for seed in range(count) if generator.kind_of(seed) in generator.FOLDED]


def old_reads(run):
    """How many reads are answered of an object that was committed behind the start of who reads, and before a tick."""
    calls = [model.calls_of(bytes.fromhex(sent), Counter()) for _, sent in run.clients]
    # At which entry each transaction was started, each object was committed last, and the same before the last tick.
    started, committed, ticked, found = {}, {}, {}, 0
    for at, entry in enumerate(run.sites[0].entries):
        word, *rest = entry.event.split(":")
        if word == "tick":
            ticked = dict(committed)
        if word != "call":
            continue
        client, reply, request = int(rest[0]), bytes.fromhex(entry.outcome[len("reply:") :])[4], next(calls[int(rest[0])])
        if reply == model.STARTED:
            started[client] = at
        if reply in (model.VALUE, model.SET, model.COUNT):
            found += ticked.get(request[1], -1) > started[client]
        if entry.wrote:
            committed.update((oid, at) for _, oid, _ in entry.wrote[2].updates)
    return found


class Folds(unittest.TestCase):
    def test_the_worked_run_is_counted(self):
        """The first tick is beside ann's snapshot, which sees nothing yet; the second may fold all."""
        self.assertEqual(met_in(file_text(EXAMPLE)), {
            "tick beside an old snapshot": 1, "read behind a fold by an old snapshot": 1,
            "abort of an old snapshot behind a fold": 1, "tick that may fold": 1, "read behind a fold by a new snapshot": 1})

    def test_what_is_received_and_not_committed_is_counted(self):
        self.assertEqual(met_in(MIXED), {
            "tick before a commit that is received": 1, "tick that may fold": 1, "read behind a fold by a new snapshot": 1,
            "tick where what the floor sees stands behind what it doesn't": 1})

    def test_a_prepare_behind_a_fold_and_a_restart_are_counted(self):
        self.assertEqual(met_in(PREPARED), {
            "tick that may fold": 2, "restart behind a fold": 1, "PREPARE that conflicts with what is folded": 1})

    def test_old_transactions_read_what_was_committed_before_a_tick(self):
        """Told by the trails of one site alone: that a transaction which is answered a read was started before another committed
        the same object, and this before a tick."""
        runs = [model.played(random_scenario(seed), Counter()) for seed in folded_seeds(600)]
        self.assertGreater(sum(old_reads(run) for run in runs if len(run.sites) == 1), 50)

    def test_random_scenarios_come_to_all_of_it(self):
        met, kinds = Counter(), Counter()
        for seed in folded_seeds(600):
            made = random_scenario(seed)
            readings.read(json.dumps(made).encode())
            folds.played(made, met)
            kinds[generator.kind_of(seed)] += 1
        self.assertEqual([what for what in folds.FOLDS if met[what] < 5], [])
        self.assertEqual(set(kinds), set(generator.FOLDED))
        self.assertGreater(min(kinds.values()), 15)

    def test_a_right_fold_answers_as_the_model(self):
        for seed in [*folded_seeds(330), *range(60)]:
            made = random_scenario(seed)
            self.assertEqual(folding.answers(made, folding.Right), folding.answers(made, model.Site), seed)

    def test_each_wrong_fold_is_told_by_a_scenario(self):
        for wrong in folding.WRONG:
            told = (seed for seed in folded_seeds(1000) if folding.answers(random_scenario(seed), wrong)
                    != folding.answers(random_scenario(seed), model.Site))
            self.assertIsNotNone(next(told, None), wrong.__name__)

    def test_the_other_seeds_make_what_they_made(self):
        """With no kind of folds each seed makes what its place in the other kinds has."""
        with mock.patch.object(generator, "FOLDED_EVERY", sys.maxsize):
            others = [generator.scenario(seed) for seed in range(40)]
        same = [seed for seed in range(40) if others[seed] == random_scenario(seed)]
        self.assertEqual(same, sorted(set(range(40)) - set(folded_seeds(40))))

    def test_counting_changes_no_answer(self):
        for seed in [*range(12), *folded_seeds(60)]:
            made = random_scenario(seed)
            self.assertEqual(folds.played(made, Counter()).text(), model.played(made, Counter()).text(), seed)


if __name__ == "__main__":
    unittest.main()
