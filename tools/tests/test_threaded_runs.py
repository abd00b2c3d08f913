"""What bench/threaded_runs.py has run, and what bench/threads.py measures, by programs that are scripts here."""

import json
import os
import sys
import unittest
from collections import Counter
from unittest import mock

from played import InFolder, TOP, run_bench
import model
import readings
import threaded_runs
from generator import AMPLE
import threads

TESTS = os.path.join(TOP, "tools", "tests")
# Runs a scenario by the model, in some order of its turns and pumps; and takes whatever it is to play.
MODEL = f"""#!{sys.executable}
import json, sys
if sys.argv[1:] == ["play"]:
    sys.exit()
sys.path.insert(0, {TESTS!r})
from test_threaded import worked
assert sys.argv[1:] == ["run", "--trace"]
text = worked(json.load(sys.stdin), 1).text()
"""
ACCEPTED = "print(text, end='')\n"
PLAYS = "#!/bin/sh\n[ $1 = play ] && exit\n"
# Refuses a last step that is no list, and has an event for each byte.
EVENTS = """#!/bin/sh
read -r line
case $line in *none*) exit 2 ;; esac
sleep 0.05
echo "site 0 up epoch 1 events ${#line} records 1 got 0 committed 0 log $1"
"""


class Scenarios(unittest.TestCase):
    def test_they_are_right_and_of_all_kinds(self):
        made = [threaded_runs.scenario(seed) for seed in range(200)]
        self.assertEqual(made, [threaded_runs.scenario(seed) for seed in range(200)])
        for one in made:
            self.assertEqual(readings.read(json.dumps(one).encode())["steps"], [])
        self.assertTrue({*range(1, 10), 16} <= {one["sites"] for one in made})
        self.assertTrue({1, 2, 8, 32} <= {one["threads"] for one in made})
        for some in (lambda one: "link" in one, lambda one: "arms" in one, lambda one: not one["clients"],
                     lambda one: one["clients"] and len(one["clients"]) * 8 <= one["threads"],
                     lambda one: len(one["clients"]) > one["threads"]):
            self.assertGreater(len(list(filter(some, made))), 10)

    def test_areas_are_those_that_are_asked_for(self):
        self.assertEqual({threaded_runs.scenario(seed).get("areas") for seed in range(200)}, {None, 1, 2})
        self.assertFalse(any("areas" in threaded_runs.scenario(seed, False) for seed in range(200)))

    def test_formats_are_those_that_are_asked_for(self):
        self.assertEqual({threaded_runs.scenario(seed).get("format") for seed in range(200)}, {None, 1, 2})
        for seed in range(200):
            made, alone = threaded_runs.scenario(seed), threaded_runs.scenario(seed, True, False)
            self.assertFalse("format" in alone or alone["sites"] > 8)
            self.assertEqual({**made, "sites": alone["sites"], "format": None}, {**alone, "format": None})

    def test_a_full_journal_is_none_of_several_sites_but_where_a_trail_is_to_be_spent(self):
        """There a site might try again and again, which takes long."""
        short = [seed for seed in range(300) if threaded_runs.scenario(seed).get("capacity", AMPLE) < AMPLE
                 and (threaded_runs.scenario(seed)["sites"] > 1 or "arms" in threaded_runs.scenario(seed))]
        self.assertEqual(short, [99, 199, 299])


class Runs(InFolder):
    def program(self, text):
        return self.write("program", text, is_program=True)

    def test_right_runs_are_accepted(self):
        status, told = run_bench(threaded_runs, "--program", self.program(MODEL + ACCEPTED), "--scenarios", "3", "--seed", "4")
        met, not_met, last = told.splitlines()
        self.assertEqual(status, 0, told)
        self.assertRegex(met, r"^met: sites \d: .*; restart taken: ")
        self.assertRegex(not_met, "^not met: ")
        self.assertRegex(last, r"^3 scenarios from seed 4, each with its threads and with one: 6 of 6 runs accepted, "
                         r"with [\d,]+ entries and 0 spent trails$")

    def test_a_program_that_refuses_areas_and_formats_has_none(self):
        program = self.program((MODEL + ACCEPTED).replace("sys.exit()", "sys.exit(2)"))
        status, told = run_bench(threaded_runs, "--program", program, "--scenarios", "1", "--seed", "4")
        self.assertEqual((status, told.splitlines()[:2]), (0, [f"the program refuses the key {key}: no scenario has it"
                                                               for key in ("areas", "format")]))

    def test_runs_of_sixteen_sites_are_accepted(self):
        seed = next(seed for seed in range(200) if threaded_runs.scenario(seed)["sites"] > 12 and threaded_runs.scenario(seed)["clients"])
        status, told = run_bench(threaded_runs, "--program", self.program(MODEL + ACCEPTED), "--scenarios", "1", "--seed", str(seed))
        self.assertEqual(status, 0, told)
        self.assertIn("2 of 2 runs accepted", told)

    def test_wrong_runs_are_told(self):
        for text, wanted in [
            (MODEL + "print(text.replace(' taken ', ' passed ', 1), end='')\n", r"line \d+: the model makes of it: e 1 0 restart"),
            (MODEL + ACCEPTED + "sys.exit('no memory')\n", "status 1, no memory"),
            (PLAYS + "exec sleep 9\n", "it hasn't ended in 0.2 s"),
        ]:
            with mock.patch.object(threaded_runs, "LONGEST", 0.2 if "sleep" in text else 60):
                status, told = run_bench(threaded_runs, "--program", self.program(text), "--scenarios", "1")
            self.assertEqual(status, 1)
            first, second, *_, last = told.splitlines()
            threads_of = threaded_runs.scenario(0)["threads"]
            self.assertRegex(first, f"^seed 0 with {threads_of} threads: {wanted}")
            self.assertRegex(second, f"^seed 0 with 1 threads: {wanted}")
            self.assertIn("0 of 2 runs accepted", last)

    def test_want_of_memory_is_an_end(self):
        for text, came in (("exit 5", "2 of 2 runs accepted"), ("exit 4", "0 of 2 runs accepted")):
            program = self.program(PLAYS + f"[ $(ulimit -v) = 50000 ] && {text}\n")
            told = run_bench(threaded_runs, "--program", program, "--scenarios", "1", "--kilobytes", "50000")[1]
            self.assertIn(came, told)
            self.assertIn("; 2 were without memory" if "5" in text else "; 0 were without memory", told)

    def test_a_scenario_is_written(self):
        status, told = run_bench(threaded_runs, "--scenario", "--seed", "7")
        self.assertEqual((status, json.loads(told)), (None, threaded_runs.scenario(7)))


class Speed(InFolder):
    def test_threads_are_measured(self):
        program = self.write("program", EVENTS, is_program=True)
        status, told = run_bench(threads, "--program", program, "--transactions", "8", "--runs", "1")
        self.assertIsNone(status, told)
        *lines, last = told.splitlines()
        self.assertEqual(len(lines), 6)
        for line, (word, sites) in zip(lines, [(word, sites) for sites in (1, 2, 4) for word in ("run", "play")]):
            self.assertRegex(line, rf"^{word} +{sites} sites: +24 calls +[\d,]+ events +0\.\d{{3}} s +0\.\d{{3}} s together +[\d,]+ "
                             "events a second$")
        self.assertRegex(last, r"^4 threads to 1: \d+\.\d\d times the events a second, \d+\.\d\d times while threads drive; "
                         r"to play of the same calls: \d+\.\d\d times$")

    def test_a_program_that_fails_is_told(self):
        program = self.write("program", "#!/bin/sh\nexit 5\n", is_program=True)
        self.assertEqual(run_bench(threads, "--program", program, "--runs", "1"), (f"{program} run ended with status 5", ""))

    def test_a_play_of_the_calls_leaves_nothing(self):
        for sites in threads.SITES:
            run = model.played(threads.scenario(sites, 5, threads.steps_of(sites, 5)), Counter())
            for site in run.sites:
                self.assertEqual(site.committed, [5] * sites)
                self.assertEqual(site.marks(), (5, 5))
            self.assertEqual(threads.scenario(sites, 5)["steps"], [])


if __name__ == "__main__":
    unittest.main()
