"""tools/workload makes runs whose transactions end, that the plain model plays as they were made, and that are what they promise."""

import json
import re
import types
import unittest
from collections import Counter
from unittest import mock

from played import InFolder, run_tool
import anomalies
import common
import model
import observed
import readings
import runs
import scripts
import speed
import workloads

# So many runs of each kind are small; with these of bench/ there are a thousand.
SMALL = 200
LOSSY = {"lose": 60, "repeat": 60, "swap": 120}
FORMS = ({}, {"pumped": True}, {**LOSSY, "stops": 1}, {"sites": 8, "clients": 9}, {"sites": 16, "clients": 18}, {"remote": 60, **LOSSY})


def maker_of(kind, **more):
    maker = workloads.Maker(workloads.Asked(kind, **more))
    return maker, maker.made()


def transactions_of(maker):
    """What the clients of a maker's run were told, as of a report without a trace."""
    turns, steps = Counter(), []
    calls = [runs.calls_of(bytes(sent))[0] for sent in maker.sent]
    for place, step in enumerate(maker.steps):
        if step[0] == "call":
            client, turn = step[1], turns[step[1]]
            turns[client] += 1
            steps.append(runs.Step(place, None, step, call=(client, calls[client][turn]), reply=maker.run.replies[client][turn]))
    scenario = types.SimpleNamespace(names=[f"client{number}" for number in range(len(maker.clients))])
    return observed.of_run(types.SimpleNamespace(scenario=scenario, steps=steps, moments=[]))


class Workload(InFolder):
    def test_the_model_plays_what_was_made_as_it_was_made(self):
        for kind in workloads.KINDS:
            for form in FORMS:
                with self.subTest(kind=kind, form=form):
                    maker, made = maker_of(kind, transactions=30, **form)
                    self.assertEqual(readings.read(scripts.text_of(made).encode()), made)
                    self.assertEqual(model.played(made, Counter()).text(), maker.run.text())
            self.assertNotEqual(maker_of(kind, transactions=30, seed=1)[1], maker_of(kind, transactions=30)[1])

    def test_transactions_end_and_come_to_all_sites(self):
        for kind in workloads.KINDS:
            for form in FORMS:
                with self.subTest(kind=kind, form=form):
                    maker, _ = maker_of(kind, transactions=60, seed=5, **form)
                    counts = maker.counts
                    self.assertGreaterEqual(counts["committed"] + counts["ended"] + counts["aborted"], 54)
                    self.assertGreaterEqual(counts["committed"], 20)
                    self.assertEqual((maker.open, counts["refused"]), (0, 0))
                    self.assertTrue(maker.is_everywhere())

    def test_a_thousand_runs_are_of_parallel_snapshot_isolation(self):
        """These are eight hundred of them; the others are the random runs that test_check.py looks at."""
        found = Counter()
        for kind in workloads.KINDS:
            for seed in range(SMALL):
                maker, _ = maker_of(kind, transactions=10, seed=seed, remote=30, **FORMS[seed % 3])
                transactions = transactions_of(maker)
                self.assertTrue(anomalies.check(transactions, "psi").fits, (kind, seed))
                found.update(one.name for one in anomalies.check(transactions, "serializable").found)
        self.assertGreater(found["write skew"] + found["long fork"], 0)

    def test_nobody_finds_money_lost_and_no_more_is_sold_than_there_is(self):
        maker, _ = maker_of("bank", transactions=160, remote=30, **LOSSY)
        self.assertGreater(maker.kind.met["added up"], 20)
        self.assertEqual(maker.kind.met["right"], maker.kind.met["added up"])
        maker, _ = maker_of("shop", transactions=250, sites=2, clients=8, remote=30)
        self.assertGreater(maker.kind.met["sold out"], 0)
        left = [int(update[2].split()[0]) for site in maker.run.sites for tx in site.log.values() for update in tx.updates
                if update[1][0] // 10 == 1]
        self.assertEqual(min(left), 0)

    def test_slow_commits_are_as_many_as_are_asked_for(self):
        slow = {}
        for remote in 0, 50:
            maker, _ = maker_of("social", transactions=200, remote=remote)
            slow[remote] = sum(tx.slow > 0 for site in maker.run.sites for (home, _), tx in site.log.items() if home == site.me)
        self.assertEqual(slow[0], 0)
        self.assertGreater(slow[50], 20)

    def test_a_script_with_its_words(self):
        status, script, wrong = run_tool("workload", "social", "--transactions", "30", "--seed", "3", "--lose", "100")
        self.assertEqual((status, wrong), (0, ""))
        self.assertEqual(script.splitlines()[0].split(",")[0], "# social: 30 transactions of 6 clients at 3 sites")
        status, summary, _ = run_tool("workload", "social", "--transactions", "30", "--seed", "3", "--lose", "100", "--summary")
        self.assertEqual([f"# {line}" for line in summary.splitlines()], script.split("\n\n")[0].splitlines())
        self.assertRegex(summary, r"ended: \d+, of which \d+ committed, and \d+ had nothing to commit\naborted: \d+.*\n")
        self.assertRegex(summary, "visible everywhere behind so many events: [0-9]+ in the middle")
        status, scenario, told = run_tool("workload", "social", "--transactions", "30", "--seed", "3", "--lose", "100", "--scenario")
        self.assertEqual((status, told), (0, summary))
        path = self.write("a.script", script)
        self.assertEqual(json.loads(run_tool("scenario", path)[1]), json.loads(scenario))
        self.assertEqual(run_tool("check", path)[0], 0)

    def test_aborts_are_told_by_what_stood_in_the_way(self):
        told = run_tool("workload", "bank", "--transactions", "200", "--clients", "12", "--summary")[1]
        self.assertRegex(told, r"aborted: \d+; \d+ over a later version of accounts")

    def test_wrong_words(self):
        for words in ["none"], ["shop", "--sites", "17"], ["shop", "--sites", "0"], ["shop", "--clients", "0"], ["shop", "--remote", "101"], \
                ["shop", "--transactions", "20001"], ["shop", "--scenario", "--summary"], []:
            self.assertEqual(run_tool("workload", *words)[:2], (1, ""))
        with mock.patch.object(workloads, "MOST_EVENTS", 50):
            status, told, wrong = run_tool("workload", "shop")
        self.assertEqual((status, told), (1, ""))
        self.assertIn("more events than its trail takes", wrong)

    def test_speed_has_workloads_too(self):
        self.assertEqual([re.sub("-8", "", name) for name in common.WORKLOADS], ["social", "social", "shop", "shop"])
        self.assertTrue(set(common.WORKLOADS) <= set(speed.KINDS))
        self.assertEqual([(made.func, made.args[:2]) for made in (kind.make for kind in common.WORKLOADS.values())],
                         [(workloads.made, (name, sites)) for name in ("social", "shop") for sites in (3, 8)])
        made = workloads.made("shop", 8, 40, clients=16)
        self.assertEqual((made["sites"], len(made["clients"])), (8, 16))


if __name__ == "__main__":
    unittest.main()
