"""The checker of threaded runs: what the plain model has played by turns and pumps alone, to its end, is one; what is spoiled
is none. And the tools tell such a run, whose events stand in its trace alone."""

import contextlib
import io
import json
import os
import random
import subprocess
import sys
import unittest
from collections import Counter
from unittest import mock

from played import InFolder, TOP, built_program, file_text, random_scenario, run_tool, without_trace
import ends
import model
import reports
import runs
import scripts
import threaded

SEEDS = [seed for seed in range(60) if random_scenario(seed).get("ticks", 0) <= 10][:15]
# Two sites commit to one object each; a third client has nothing to say.
SCRIPT = """sites 3 tolerated 1
link seed 5 lose 200 repeat 200 swap 300
ticks 4
container 1 regular at 0
container 2 set at 1
client ann at 0
client bob at 1
client cat at 2
ann: start
ann: write 1:5 "a"
ann: commit
bob: start
bob: setadd 2:5 7
bob: write 1:6 "b"
bob: commit
bob: commit
cat: bytes 00
"""


def quiet(made, **more):
    """The scenario as a threaded run has it: it has no steps."""
    return {**made, "steps": [], **more}


SMALL = quiet(scripts.read(SCRIPT))


def commits(count):
    """What a client sends to commit so often to a set."""
    one = [bytes([model.START]), model.on_set(model.SET_ADD, (2, 1), 3), bytes([model.COMMIT])]
    return b"".join(map(model.frame, one * count)).hex()


def entries_of(run):
    return sum(len(site.entries) for site in run.sites)


def worked(made, seed):
    """A run of the model by turns and pumps in an order of the seed, until none of them does anything."""
    run, rng = model.Run(made, Counter()), random.Random(seed)
    pumps = [("pump", site) for site in range(made["sites"])]
    # A client's bytes are fewer calls than one for each five of them.
    steps = [("call", client) for client, (_, sent) in enumerate(made["clients"]) for _ in range(len(sent) // 10 + 1)]
    steps += pumps * (2 * len(steps) // len(pumps))
    rng.shuffle(steps)
    for step in steps:
        run.step(*step)
    before, entries = 0, entries_of(run)
    while before < entries:
        for pump in pumps:
            run.step(*pump)
        before, entries = entries, entries_of(run)
    return run


def played(made, *steps):
    """What the model writes of a scenario that is played by these steps."""
    run = model.Run(made, Counter())
    for step in steps:
        run.step(*step)
    return run.text()


def run_threaded(*words):
    """The status of the command, and what it wrote."""
    out, wrong, given = io.StringIO(), io.StringIO(), ["threaded.py", *words]
    with mock.patch.object(sys, "argv", given), contextlib.redirect_stdout(out), contextlib.redirect_stderr(wrong):
        try:
            ends.run(threaded.main)
        except SystemExit as end:
            return end.code, out.getvalue(), wrong.getvalue()


class Worked(unittest.TestCase):
    def check_wrong(self, made, text, wanted, is_whole=True):
        with self.assertRaises(threaded.Wrong) as wrong:
            threaded.check(made, text, is_whole)
        self.assertRegex(str(wrong.exception), wanted)

    def test_what_the_model_works_is_a_threaded_run(self):
        met = Counter()
        for seed in SEEDS:
            # A site whose journal is too short to come up again would be restarted until its trail is spent.
            made = quiet(random_scenario(seed), ticks=random_scenario(seed).get("ticks", 10), capacity=1 << 24)
            run = worked(made, seed)
            self.assertEqual(threaded.check(made, run.text()), entries_of(run), seed)
            for site in run.sites:
                met.update(entry.event.split(":")[0] for entry in site.entries)
                met.update("fault" for entry in site.entries if entry.flight)
        for what in "call", "deliver", "advance", "tick", "restart", "fault":
            self.assertGreater(met[what], 0, what)

    def test_a_trace_goes_on_from_any_order(self):
        texts = {worked(SMALL, seed).text() for seed in range(20)}
        self.assertGreater(len(texts), 10)
        for text in texts:
            threaded.check(SMALL, text)

    def test_a_full_lane_drops_packets(self):
        made = quiet({"sites": 2, "f": 0, "containers": [[2, "cset", 0]], "clients": [[0, commits(40)]]}, ticks=60)
        steps = [("call", 0)] * 120 + [("pump", 0)] * 60
        ended = steps + [("pump", 1), ("pump", 0)] * 1_500
        text = played(made, *ended)
        self.assertRegex(text, r"1:propagate [1-9]")
        threaded.check(made, text)
        early = text.replace(" 1:propagate,1:dsmark 0\n", " 1:propagate 1\n", 1)
        self.check_wrong(made, early, "packets to site 1 are dropped, and fewer than 1,024 were put out to it")

    def test_a_trail_may_be_spent(self):
        one = scripts.read("sites 1 tolerated 0\ncapacity 145\ncontainer 1 regular at 0\nclient ann at 0\n"
                           'armed 0 call 3 choice 1\nann: start\nann: write 1:5 "hello"\nann: commit\nann: start\n')
        made, calls = quiet(one), [("call", 0)] * 3
        # The commit fills the journal, which has no place for another epoch.
        texts = [played(made, *calls, *[("pump", 0)] * pumps) for pumps in (15, 16, 17)]
        self.assertIn(" 0 restart full:10:3 ", texts[0])
        with mock.patch.object(threaded, "MOST_ENTRIES", 20):
            self.check_wrong(made, texts[0], "line 3: site 0 isn't at its end: client 0 has calls left")
            self.assertEqual(threaded.check(made, texts[1]), 20)
            self.check_wrong(made, texts[2], "line 24: restart at site 0: its trail is spent")

    def test_an_event_that_is_not_worked_is_refused(self):
        down = {**SMALL, "arms": [[0, 1, 0]]}
        calls = [("call", 0)] * 3
        for made, steps, wanted in [
            (SMALL, [("stop", 0)], "stop at site 0: no threaded run has such an event"),
            (SMALL, [("upgrade", 0)], "upgrade at site 0: no threaded run has such an event"),
            (SMALL, [("restart", 0)], "restart at site 0: the site is up"),
            (SMALL, [("tick", 0)] * 5, "line 15: tick at site 0: it has made its 4 ticks"),
            (SMALL, [("advance", 0, 1)], "the least that may be committed there is of none"),
            (down, [*calls, ("tick", 0)], "tick at site 0: the site is down"),
            (down, [*calls, ("call", 1), ("call", 1), ("call", 1), ("call", 1), ("tick", 1), ("deliver", 0, 1, 1)],
             "deliver:1:1:prepare at site 0: the site is down"),
        ]:
            self.check_wrong(made, played(made, *steps), wanted, False)

    def test_a_delivery_comes_as_often_as_the_link_copies_it(self):
        for rates, copies in ({"lose": 1000}, 0), ({}, 1), ({"repeat": 1000}, 2):
            made = {**SMALL, "link": {"seed": 1, "lose": 0, "repeat": 0, "swap": 0, **rates}}
            steps = [("call", 0)] * 3 + [("deliver", 1, 0, 1)] * copies
            threaded.check(made, played(made, *steps), False)
            self.check_wrong(made, played(made, *steps, ("deliver", 1, 0, 1)), f"the link has {copies} of this packet", False)

    def test_the_least_advance_comes_first_and_before_a_tick(self):
        made = {**SMALL, "f": 0, "link": {"seed": 1, "lose": 0, "repeat": 0, "swap": 0}}
        made["containers"], made["clients"] = [[2, "cset", 0]], [[0, commits(1)], [1, commits(1)]]
        steps = [("call", 0)] * 3 + [("call", 1)] * 3
        # The commits of site 1 are durable once site 0, where the container is preferred, has them.
        steps += [("deliver", 2, 0, 1), ("deliver", 2, 0, 2), ("deliver", 2, 1, 1), ("deliver", 0, 1, 1), ("deliver", 1, 0, 3),
                  ("deliver", 2, 1, 2)]
        threaded.check(made, played(made, *steps, ("advance", 2, 0), ("advance", 2, 1)), False)
        self.check_wrong(made, played(made, *steps, ("advance", 2, 1)), "the least that may be committed there is of 0", False)
        self.check_wrong(made, played(made, *steps, ("tick", 2)), "tick at site 2: the next commit of 0 may be", False)

    def test_a_run_that_is_not_at_its_end_is_refused(self):
        text = worked(SMALL, 1).text()
        for made, wanted in [
            ({**SMALL, "ticks": 5}, "line 5: site 0 isn't at its end: it has made 4 ticks of 5"),
            ({**SMALL, "ticks": 3}, "tick at site .: it has made its 3 ticks"),
            ({**SMALL, "link": {**SMALL["link"], "lose": 1000}}, "the link has 0 of this packet"),
            ({**SMALL, "link": {**SMALL["link"], "lose": 0, "repeat": 1000}}, "isn't at its end: packet 1 of"),
            ({**SMALL, "clients": [[0, SMALL["clients"][0][1] + "0000000101"], *SMALL["clients"][1:]]},
             "client 0 has calls left"),
        ]:
            self.check_wrong(made, text, wanted)
        self.check_wrong(SMALL, played(SMALL), "client 0 has calls left")
        threaded.check(SMALL, played(SMALL), False)

    def test_a_spoiled_report_is_refused(self):
        text = worked(SMALL, 2).text()
        lines = text.split("\n")
        head = next(place for place, line in enumerate(lines) if line.startswith("e "))

        def spoiled(place, line=None):
            return "\n".join(lines[:place] + ([] if line is None else [line]) + lines[place + 1 :])

        for spoil, wanted in [
            (spoiled(0, lines[0].replace("clients 3", "clients 4")), "line 1: wants sites 3 f 1 clients 3"),
            (spoiled(1, lines[1].replace("00000182", "00000189")), "line 2: wants client 0"),
            (spoiled(head - 1, lines[head - 1].replace("up", "down")), f"line {head}: wants site 2 up"),
            (spoiled(head + 4, lines[head + 4].replace("e ", "e 1", 1)), f"line {head + 5}: the model makes of it: e "),
            (spoiled(head), "the first entry of site 0 is its restart"),
            (spoiled(head + 3), "line"),
            (text + lines[-2] + "\n", "line"),
            (text[:-1], "line"),
            (text.replace(" taken ", " passed ", 7), "the model makes of it"),
            (without_trace(text), "line 8: wants the trace"),
            (text + "e\n", "wants e STAMP SITE EVENT"),
        ]:
            with self.subTest(wanted):
                self.check_wrong(SMALL, spoil, wanted)


class Command(InFolder):
    def test_it_says_what_is_wrong_and_where(self):
        text = worked(SMALL, 3).text()
        made, report = self.write("a.json", json.dumps(SMALL)), self.write("a.report", text)
        said = f"{text.count(chr(10) + 'e ')} entries: each is right, and the trails are worked to their end\n"
        self.assertEqual(run_threaded(made, report), (0, said, ""))
        self.write("a.report", played(SMALL, ("call", 0)))
        self.assertEqual(run_threaded(made, report, "--unfinished")[0], 0)
        status, out, wrong = run_threaded(made, report)
        self.assertEqual((status, out), (ends.NOT_AS_ASKED, ""))
        self.assertIn(f"{report}, line 5: site 0 isn't at its end: client 0 has calls left", wrong)
        self.assertEqual(run_threaded(self.write("b.json", "{}"), report)[0], ends.NO_SCENARIO)


class Told(InFolder):
    """The events of a threaded run stand in its trace alone."""

    def test_each_event_is_told(self):
        text = worked(SMALL, 4).text()
        path, report = self.write("a.json", json.dumps(SMALL)), self.write("a.report", text)
        status, told, wrong = run_tool("explain", path, report)
        self.assertEqual((status, wrong), (0, ""))
        run = runs.Run(runs.Scenario(json.dumps(SMALL)), reports.read(text))
        self.assertEqual([step.moment for step in run.steps], [moment for moment in run.moments if moment.entry.stamp > 1])
        self.assertEqual(len(run.steps), text.count("\ne ") - 3)
        self.assertIn('client0 write 1:5 "a" -> done', told)
        self.assertIn("tick 2 -> ", told)
        lost = sum(copies == 0 for inbox in worked(SMALL, 4).inboxes for copies in inbox.copies.values())
        self.assertEqual(told.count("lost by the link: "), lost)
        self.assertNotIn("never delivered", told)

    def test_replies_are_told_without_a_trace(self):
        text = without_trace(worked(SMALL, 4).text())
        path, report = self.write("a.json", json.dumps(SMALL)), self.write("a.report", text)
        status, told, _ = run_tool("explain", path, report)
        self.assertEqual(status, 0)
        self.assertEqual(told.splitlines()[:3], ["client0 start -> started 0.1.1", 'client0 write 1:5 "a" -> done',
                                                 "client0 commit -> committed 0@1"])

    def test_steps_are_ignored_where_it_is_said(self):
        made = {**SMALL, "steps": [["stop", 0], ["call", 1]]}
        path, report = self.write("a.json", json.dumps(made)), self.write("a.report", worked(SMALL, 4).text())
        without = run_tool("explain", self.write("b.json", json.dumps(SMALL)), report)
        self.assertEqual(run_tool("explain", path, report, "--run"), without)
        self.assertEqual(without[0], 0)
        status, _, wrong = run_tool("explain", path, report)
        self.assertEqual(status, ends.NO_SCENARIO)
        self.assertIn("wants stop 0 to be played next at site 0", wrong)
        self.assertEqual(run_tool("draw", path, report, "--run")[0], 0)
        self.assertEqual(run_tool("explain", "load", report, "--run")[0], 1)

    def test_the_program_of_this_repository_runs_the_example(self):
        program = built_program()
        if program is None:
            self.skipTest("the program isn't proved and built here")
        text = file_text(os.path.join(TOP, "examples", "threaded_run.json"))
        for threads in 1, 6, 32:
            made = {**json.loads(text), "threads": threads}
            ran = subprocess.run([program, "run", "--trace"], input=json.dumps(made), capture_output=True, text=True, timeout=60)
            self.assertEqual((ran.returncode, ran.stderr), (0, ""))
            threaded.check(made, ran.stdout)

    def test_it_is_drawn(self):
        path, report = self.write("a.json", json.dumps(SMALL)), self.write("a.report", worked(SMALL, 4).text())
        for words, front in ([], "<svg"), (["--html"], "<!doctype html>"):
            status, drawn, wrong = run_tool("draw", path, report, *words)
            self.assertEqual((status, wrong), (0, ""))
            self.assertTrue(drawn.lower().startswith(front), drawn[:40])


if __name__ == "__main__":
    unittest.main()
