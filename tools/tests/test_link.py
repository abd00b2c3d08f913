"""The link and the pump: what the model does with them, and what scripts and the tools say of them."""

import json
import unittest
from collections import Counter

from played import InFolder, RANDOM, by_model, random_run, random_scenario, run_tool
import link
import plays
import reports
import runs
import scripts
import words

HEAD = "sites 2 tolerated 0\ncontainer 1 regular at 0\nclient ann at 0\nclient bob at 1\n"
LINK = "link seed 3 lose 300 repeat 200 swap 300\nticks 2\n"
SLOW = 'bob: start\nbob: write 1:5 "s"\nbob: commit\n'
# A run by a link that loses two packets: what each step came to, as docs/FORMATS.md has it.
PUMPED = HEAD + LINK + SLOW + "pump 0\npump 1\npump 0\npump 1\nbob: commit\npump 0\npump 1\npump 1\nstop 1\npump 1\npump 0\npump 0\npump 0\n"
TOLD = """\
bob start -> started 1.1.1
bob write 1:5 "s" -> done
bob commit -> deciding 1.1.1; the slow commit 1 begins
pump 0: 0 <- 1 packet 1 PREPARE 1 of 1.1.1 for 1:5: locks 1:5, votes YES
pump 1: tick 1 -> to 0: PREPARE 1 of 1.1.1 for 1:5 as packet 2
pump 0: 0 <- 1 packet 2 PREPARE 1 of 1.1.1 for 1:5: votes YES again
pump 1: 1 <- 0 packet 2 VOTE 1 YES: committed 1@1
bob commit -> committed 1@1
pump 0: 0 <- 1 packet 3 PROPAGATE 1 of 1.1.1 (write 1:5 "s"): received 1@1
pump 1: 1 <- 0 packet 3 ACK 1: durable mark 1
pump 1: 1 <- 0 packet 3 ACK 1: nothing new: 1 was said before
stop 1 -> site 1 is down
pump 1: restart 1 -> site 1 is up in epoch 2
pump 0: tick 0 -> to 1: ACK 1 as packet 4
pump 0: tick 0 -> to 1: ACK 1 as packet 5
not played: pump 0 in line 22: site 0 has nothing to do, and its pump has made all of its ticks
lost by the link: 1 <- 0 packet 1 VOTE 1 YES
never delivered: 1 <- 0 packet 4 ACK 1
never delivered: 1 <- 0 packet 5 ACK 1
lost by the link: 0 <- 1 packet 4 DSMARK 1
"""
# What stands behind HEAD, the line that is wrong, the word that is quoted, what is wanted there, and the form.
LINK_FORM, PUMP_FORM = "link seed N lose N repeat N swap N", "pump all or pump until idle or pump SITE"
WRONG = [
    ("link seed 18446744073709551616 lose 0 repeat 0 swap 0", '"18446744073709551616": wants a seed below 2^64', LINK_FORM),
    ("link seed 0 lose 1001 repeat 0 swap 0", '"1001": wants of 1000 packets so many, to 1000', LINK_FORM),
    ("link seed 0 lose 0 repeat -1 swap 0", '"-1": wants of 1000 packets so many, to 1000', LINK_FORM),
    ("link seed 0 lose 0 swap 0", '"swap": wants repeat', LINK_FORM),
    ("link", 'behind "link": wants seed', LINK_FORM),
    ("ticks 10001", '"10001": wants a number of ticks to 10000', "ticks N"),
    ("threads 33", '"33": wants a number of threads from 1 to 32', "threads N"),
    ("pump 2", '"2": wants a site below 2', PUMP_FORM),
    ("pump", 'behind "pump": wants all or until or SITE', PUMP_FORM),
    ("pump 0 1", '"1": wants nothing there', PUMP_FORM),
]


def told_of(text):
    scenario = runs.Scenario(text)
    report = plays.report_of(scenario.script.scenario())
    return runs.Run(scenario, reports.read(report))


def entries_of(text):
    """The events of each site behind its opening, by the model."""
    return [[entry.event for entry in site.entries[1:]] for site in by_model(json.dumps(scripts.read(text))).sites]


class Words(unittest.TestCase):
    def test_the_generators_first_words(self):
        """Those that the generator's own publication has of the state 42 and the stream 54."""
        drawn = link.Words(42, 54)
        self.assertEqual([drawn.draw() for _ in range(6)],
                         [0xA15C02B7, 0x7B47F409, 0xBA1D3330, 0x83D2F293, 0xBFA4784B, 0xCBED606E])

    def test_each_packet_has_three_words_whatever_they_say(self):
        rates, drawn = link.Rates(9, 500, 500, 500), link.Words(9, 16 * 2 + 1)
        inbox = link.Inbox(rates, 2, [0, 1], Counter())
        for _ in range(200):
            lost, again, first = (drawn.draw() % 1000 < 500 for _ in range(3))
            wanted = link.Choice(0, False) if lost else link.Choice(1 + again, first)
            self.assertEqual(inbox.choice(1), wanted)

    def test_a_queue_is_filled_in_order_of_sender_and_number(self):
        for rates, wanted in [
            ((0, 0, 0, 0), [(0, 1), (0, 2), (2, 1)]),
            ((5, 0, 0, 1000), [(2, 1), (0, 2), (0, 1)]),
            ((5, 0, 1000, 0), [(0, 1), (0, 1), (0, 2), (0, 2), (2, 1), (2, 1)]),
            ((5, 0, 1000, 1000), [(2, 1), (0, 2), (0, 1), (0, 1), (0, 2), (2, 1)]),
            ((5, 1000, 1000, 1000), []),
        ]:
            inbox = link.Inbox(link.Rates(*rates), 1, [2, 0], Counter())
            inbox.take({0: 2, 2: 1})
            inbox.take({0: 2, 2: 1})
            self.assertEqual(list(inbox.queue), wanted)
            self.assertEqual({copies for copies in inbox.copies.values()}, {0 if rates[1] else 1 + (rates[2] == 1000)})


class Pump(unittest.TestCase):
    def test_a_pump_does_the_first_that_can_be_done(self):
        commit = HEAD + 'ann: start\nann: write 1:1 "a"\nann: commit\n'
        self.assertEqual(entries_of(commit + "stop 1\npump 1\npump 1\npump 1\npump 1\npump 1\n")[1],
                         ["stop", "restart", "deliver:0:1:propagate", "deliver:0:2:dsmark", "advance:0", "tick"])

    def test_a_pump_makes_so_many_ticks(self):
        for line, ticks in [("ticks 0\n", 0), ("ticks 3\n", 3), ("", 100)]:
            text = HEAD + line + "tick 0\n" + "pump 0\n" * 101 + "stop 0\n" + "pump 0\n" * 2 + "pump 1\n"
            self.assertEqual(entries_of(text), [["tick"] * (ticks + 1) + ["stop", "restart"], ["tick"] * min(ticks, 1)])

    def test_a_delivered_packet_waits_for_the_pump_all_the_same(self):
        text = HEAD + 'ann: start\nann: write 1:1 "a"\nann: commit\ndeliver to 1 from 0 packet 2\npump 1\npump 1\npump 1\n'
        self.assertEqual(entries_of(text)[1], ["deliver:0:2:dsmark", "deliver:0:1:propagate", "deliver:0:2:dsmark", "advance:0"])

    def test_a_step_by_name_passes_over_what_a_pump_delivered(self):
        text = HEAD + 'ann: start\nann: write 1:1 "a"\nann: commit\npump 1\n'
        self.assertEqual(entries_of(text + "settle 1\n")[1], ["deliver:0:1:propagate", "deliver:0:2:dsmark", "advance:0"])
        self.assertEqual(scripts.read(text + "deliver to 1 from 0 PROPAGATE again\n")["steps"][-1], ["deliver", 1, 0, 1])
        with self.assertRaises(scripts.Wrong) as wrong:
            scripts.read(text + "deliver to 1 from 0 PROPAGATE\n")
        self.assertIn("there are packet 2 DSMARK 1", str(wrong.exception))

    def test_random_scenarios_have_links(self):
        some = [random_run(seed)[0] for seed in RANDOM if "link" in random_scenario(seed)]
        self.assertGreater(len(some), len(RANDOM) / 6)
        met = sum((Counter(run.met) for run in some), Counter())
        for what in ["pump restart", "pump deliver", "pump advance", "pump tick", "pump idle",
                     "link loses", "link hands over once", "link hands over twice", "link swaps"]:
            self.assertGreater(met[what], 0, what)


class Scripts(unittest.TestCase):
    def test_a_link_goes_to_scripts_and_back(self):
        made = scripts.read(PUMPED)
        self.assertEqual(made["link"], {"seed": 3, "lose": 300, "repeat": 200, "swap": 300})
        self.assertEqual((made["ticks"], made["steps"][3], len(made["steps"])), (2, ["pump", 0], 16))
        self.assertNotIn("threads", made)
        back = scripts.write(made)
        self.assertIn("\nlink seed 3 lose 300 repeat 200 swap 300\nticks 2\ncontainer 1", back)
        self.assertEqual(scripts.read(back), made)
        self.assertEqual(scripts.read(scripts.script_of(json.dumps(made))), made)

    def test_wrong_lines_are_told(self):
        for line, wanted, form in WRONG:
            with self.subTest(line), self.assertRaises(scripts.Wrong) as wrong:
                scripts.read(HEAD + line + "\n")
            self.assertEqual(str(wrong.exception), f"line 5: {wanted}; the form is {form}")

    def test_json_with_another_link_is_no_scenario(self):
        made = scripts.read(PUMPED)
        for wrong in [{"link": {"seed": 1}}, {"link": 5}, {"link": {**made["link"], "swap": 1001}}, {"ticks": "a"}]:
            with self.assertRaises(scripts.NoScenario):
                runs.Scenario(json.dumps({**made, **wrong}))


class Told(InFolder):
    def test_what_a_pump_brings_is_told(self):
        path = self.write("pumped.script", PUMPED)
        self.assertEqual(run_tool("play", path), (0, TOLD, ""))
        status, told, _ = run_tool("play", path, "--packets")
        self.assertEqual((status, told.splitlines()[3]), (0, TOLD.splitlines()[3] + " | to 1: VOTE 1 YES as packet 1"))
        self.assertEqual(told.splitlines()[4], TOLD.splitlines()[4])

    def test_a_report_is_explained_and_drawn(self):
        path = self.write("pumped.script", PUMPED)
        report = self.write("report", plays.report_of(scripts.read(PUMPED)))
        self.assertEqual(run_tool("explain", path, report), (0, TOLD, ""))
        for words_more in [], ["--html"]:
            status, drawn, said = run_tool("draw", path, report, *words_more)
            self.assertEqual((status, said), (0, ""))
            self.assertIn("pump 1: restart 1", drawn)
        status, log, _ = run_tool("explain", path, report, "--shiviz")
        self.assertEqual((status, log.count("pump 0: ")), (0, 5))

    def test_a_report_of_another_link_is_refused(self):
        report = self.write("report", plays.report_of(scripts.read(PUMPED)))
        for line in ("link seed 3 lose 0 repeat 200 swap 300", "link seed 3 lose 300 repeat 0 swap 300",
                     "link seed 4 lose 300 repeat 200 swap 300"):
            path = self.write("other.script", PUMPED.replace(LINK.split("\n")[0], line))
            status, told, said = run_tool("explain", path, report)
            self.assertEqual((status, told), (2, ""))
            self.assertIn("pump 1 to be played next at site 1", said)
        path = self.write("other.script", PUMPED.replace("ticks 2", "ticks 1"))
        self.assertEqual(run_tool("explain", path, report)[0], 2)

    def test_only_the_advances_of_a_pump_are_its_own(self):
        """Behind an idle pump stands an Advance that changes nothing, and behind one that commits, another."""
        text = HEAD + 'ticks 0\nann: start\nann: write 1:1 "a"\nann: commit\npump 1\npump 1\npump 1\npump 1\nadvance 1 from 0\n'
        lines = [*words.lines(told_of(text)), *words.left_over(told_of(text))]
        self.assertEqual(lines[5:8], [
            "pump 1: advance 1 from 0 -> committed 0@1",
            "advance 1 from 0 -> nothing is committed: 0@2 isn't received here",
            "not played: pump 1 in line 12: site 1 has nothing to do, and its pump has made all of its ticks"])

    def test_without_a_trace_the_replies_are_told(self):
        path = self.write("pumped.script", PUMPED)
        report = self.write("report", plays.report_of(scripts.read(PUMPED), trace=False))
        wanted = "".join(line + "\n" for line in TOLD.splitlines() if line.startswith("bob "))
        self.assertEqual(run_tool("explain", path, report), (0, wanted.replace("; the slow commit 1 begins", ""), ""))

    def test_pumps_give_way_to_a_random_link(self):
        path = self.write("pumped.script", PUMPED + "settle\n")
        status, told, said = run_tool("vary", path, "--seeds", "0..20", "--lose", "100", "--jobs", "1")
        self.assertEqual((status, said), (0, ""))
        self.assertIn("# 21 runs of", told)

    def test_steps_of_random_runs_are_those_of_the_model(self):
        """Each entry of a pump is found as one, and each packet that the link lost as lost."""
        for seed in RANDOM:
            played, run = random_run(seed)
            pumped = sum(played.met[f"pump {word}"] for word in ("restart", "deliver", "advance", "tick"))
            steps = [step for step in run.steps if step.made[0] == "pump"]
            self.assertEqual(sum(step.moment is not None for step in steps), pumped, seed)
            self.assertEqual(sum(moment.is_pumped for moment in run.moments), pumped, seed)
            lost = {(sender, receiver, one.number) for (sender, receiver), lane in run.lanes.items() for one in lane if one.is_lost}
            self.assertEqual(lost, {(peer, me, number) for me, inbox in enumerate(played.inboxes)
                                    for (peer, number), copies in inbox.copies.items() if copies == 0}, seed)


if __name__ == "__main__":
    unittest.main()
