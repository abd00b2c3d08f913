"""The made scenarios of the command `load`, their summaries, and what the tools say of these."""

import json
import os
import subprocess
import sys
import unittest
from collections import Counter

from played import InFolder, TOP, run_tool
import compare
import loads
import model
import plays
import reports
import runs
import scripts

MODEL = [sys.executable, os.path.join(TOP, "bench", "model.py")]
EMPTY = """\
load seed 7 calls 0
replies started 0 ended 0 done 0 read 0 committed 0 aborted 0 deciding 0 level 0 unsure 0 refused 0
site 0 up epoch 1 events 1 records 1 log 0
site 1 up epoch 1 events 1 records 1 log 0
site 2 up epoch 1 events 1 records 1 log 0
"""
# As a program that shares nothing with the model has it.
MADE = """\
load seed 7 calls 2000
replies started 30 ended 0 done 59 read 30 committed 14 aborted 10 deciding 373 level 0 unsure 0 refused 1484
site 0 up epoch 1 events 2673 records 27 log 4
site 1 up epoch 1 events 2657 records 39 log 9
site 2 up epoch 1 events 2673 records 28 log 7
"""
TOLD = """\
the load of seed 7: 2,000 calls
started: 30
done: 59
read: 30
committed: 14
aborted: 10
deciding: 373
refused: 1,484
site 0 is up in epoch 1: 2,673 events, 27 records, 4 commits
site 1 is up in epoch 1: 2,657 events, 39 records, 9 commits
site 2 is up in epoch 1: 2,673 events, 28 records, 7 commits
"""


def run_model(*words):
    ended = subprocess.run([*MODEL, "load", *words], capture_output=True, text=True)
    return ended.returncode, ended.stdout, ended.stderr


class Loads(unittest.TestCase):
    def test_the_model_writes_the_summary(self):
        self.assertEqual(run_model("--seed", "7", "--calls", "0"), (0, EMPTY, ""))
        self.assertEqual(run_model("--calls", "2000", "--seed", "7"), (0, MADE, ""))

    def test_wrong_words_are_told(self):
        for words, said in [
            ([], "the following arguments are required: --seed, --calls"),
            (["--seed", "1", "--calls", "20001"], "argument --calls: '20001': wants a whole number to 20000"),
            (["--seed", "18446744073709551616", "--calls", "1"], "argument --seed: '18446744073709551616': wants a whole number"),
            (["--seed", "-1", "--calls", "1"], "argument --seed: "),
        ]:
            status, told, wrong = run_model(*words)
            self.assertEqual((status, told), (1, ""))
            self.assertIn(said, wrong)

    def test_the_scenario_is_what_it_is_to_be(self):
        made = loads.made(5, 200)
        self.assertEqual((made["sites"], made["f"], made["capacity"]), (3, 1, 16_777_216))
        self.assertEqual((made["ticks"], made["threads"]), (10_000, 8))
        self.assertEqual(made["link"], {"seed": 5, "lose": 50, "repeat": 50, "swap": 100})
        self.assertEqual(made["containers"], [[1, "regular", 0], [2, "cset", 1], [3, "regular", 2], [4, "cset", 0],
                                              [5, "regular", 1], [6, "cset", 2]])
        self.assertEqual([site for site, _ in made["clients"]], [0, 1, 2, 0, 1, 2])
        self.assertEqual(made["steps"][1::4], [["pump", 0]] * 200)
        self.assertEqual({tuple(step) for step in made["steps"][2::4] + made["steps"][3::4]}, {("pump", 1), ("pump", 2)})

    def test_the_calls_come_in_their_turn(self):
        made = loads.made(5, 300)
        turns = Counter(client for _, client in made["steps"][::4])
        for client, (_, sent) in enumerate(made["clients"]):
            calls, rest = runs.calls_of(bytes.fromhex(sent))
            self.assertEqual((len(calls), rest), (turns[client], b""))
            words = [scripts.words_of(call).split()[0] for call in calls]
            for at, wanted in enumerate([{"start"}, {"read", "setread"}, {"write", "setadd", "setdel"},
                                         {"write", "setadd", "setdel"}, {"commit"}]):
                self.assertLessEqual(set(words[at::5]), wanted)

    def test_it_is_a_script_too(self):
        made = json.loads(run_model("--seed", "3", "--calls", "40", "--scenario")[1])
        self.assertEqual(made, loads.made(3, 40))
        self.assertEqual(scripts.read(scripts.write(made)), made)
        run = runs.Run(runs.Scenario(json.dumps(made)), reports.read(plays.report_of(made)))
        self.assertEqual(sum(step.moment is None for step in run.steps), 0)

    def test_the_summary_is_that_of_the_report(self):
        made = loads.made(11, 500)
        run = model.played(made, Counter())
        summary, report = reports.read_summary(loads.summary(11, 500, run)), reports.read(run.text())
        for told, line in zip(summary.lines, report.lines):
            self.assertEqual(told._replace(place=line.place), line._replace(got=None, committed=None, log=len(line.log)))
        kinds = Counter(reports.reply_of(frame).kind for client in report.clients for frame in client.replies)
        reads = sum(kinds.pop(kind, 0) for kind in ("value", "set", "count"))
        self.assertEqual(summary.replies, {kind: reads if kind == "read" else kinds[kind] for kind in reports.COUNTED})

    def test_some_are_compared(self):
        some = compare.loads_from(0, 12)
        self.assertEqual(len(set(some)), 12)
        self.assertEqual(compare.loads_from(0, 12), some)
        self.assertTrue(all(0 <= seed < 1 << 64 and calls <= loads.MOST_CALLS for seed, calls in some))


class Told(InFolder):
    def test_a_summary_is_explained(self):
        path = self.write("summary", MADE)
        self.assertEqual(run_tool("explain", "load", path), (0, TOLD, ""))
        self.assertEqual(run_tool("explain", "load", path, "--expect", self.write("expect", TOLD)), (0, "", ""))
        self.assertEqual(run_tool("explain", "load", self.write("empty", EMPTY))[1].splitlines(),
                         ["the load of seed 7: 0 calls",
                          *(f"site {site} is up in epoch 1: 1 event, 1 record, 0 commits" for site in range(3))])

    def test_a_wrong_summary_is_refused_at_its_line(self):
        for old, new, line, wants in [
            ("load seed 7 calls 2000", "loads", 1, "load seed N calls N"),
            ("calls 2000", "calls 20001", 1, "a seed below 2^64, and at most 20000 calls"),
            ("seed 7", "seed 18446744073709551616", 1, "a seed below 2^64"),
            ("done 59", "done 60", 2, "a reply to each of 2000 calls, and not 2001"),
            (" unsure 0", "", 2, "replies started N ended N"),
            ("site 1", "site 2", 4, "site 1 up or down, epoch E events N records N log N"),
            ("records 39 log 9", "records 39 log 40", 4, "no more commits than records"),
            ("site 2 up epoch 1 events 2673 records 28 log 7\n", "", 5, "site 2 up or down"),
            ("log 7\n", "log 7\nmore\n", 6, "nothing there"),
            ("log 7\n", "log 7", 5, "a line feed at the end of the report"),
        ]:
            path = self.write("summary", MADE.replace(old, new))
            status, told, said = run_tool("explain", "load", path)
            self.assertEqual((status, told), (2, ""), new)
            self.assertTrue(said.startswith(f"explain: {path}, line {line}: wants {wants}"), said)

    def test_a_summary_is_no_report(self):
        path, script = self.write("summary", MADE), os.path.join(TOP, "examples", "slow_commit.script")
        for name in "explain", "draw":
            status, told, said = run_tool(name, script, path)
            self.assertEqual((status, told), (2, ""))
            self.assertIn("it is the summary of a load, which has no replies and no trace", said)

    def test_other_forms_want_a_scenario(self):
        for word in "--packets", "--history", "--set-history", "--shiviz":
            status, told, said = run_tool("explain", "load", self.write("summary", MADE), word)
            self.assertEqual((status, told), (1, ""))
            self.assertIn("a load is explained without", said)


if __name__ == "__main__":
    unittest.main()
