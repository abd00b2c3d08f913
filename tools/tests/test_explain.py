"""Reports and traces are read as they are, refused where they are wrong, and told in words."""

import json
import os
import random
import re
import subprocess
import sys
import tempfile
import unittest
from collections import Counter

from played import TOP, RANDOM, by_model, example_run, examples, file_text, random_run, source_of, without_trace
import clocks
import edn
import histories
import model
import reports
import runs
import scripts
import words

SCRIPT = """sites 2 tolerated 0
container 1 regular at 0
client ann at 0
client bob at 1
client cat at 1
armed 0 call 30 choice 0
armed 0 call 7 choice 1

bob: start
bob: write 1:5 "s" # it is preferred at site 0
bob: commit
deliver to 0 from 1 packet 1
deliver to 0 from 1 packet 2
ann: start
ann: write 1:5 hex 00ff
ann: commit
deliver to 1 from 0 packet 1
tick 1
deliver to 0 from 1 packet 2
ann: level 0.1.1
restart 0
arm 1 call 5 choice 1
advance 1 from 0
ann: abort
ann: again
cat: bytes 00000001
stop 1
bob: bytes 0000000108
"""
FAULT = '0 <- 1 packet 2 PROPAGATE 1 of 1.1.1 (write 1:5 "s"): the disk failed; Got 1@1 is in flight, site 0 is down'
LINES = f"""armed 0 call 30 choice 0 -> never comes: a later one takes its place
armed 0 call 7 choice 1 -> comes at: {FAULT}
bob start -> started 1.1.1
bob write 1:5 "s" -> done
bob commit -> deciding 1.1.1; the slow commit 1 begins
0 <- 1 packet 1 PREPARE 1 of 1.1.1 for 1:5: locks 1:5, votes YES
ann start -> started 0.1.1
ann write 1:5 hex 00ff -> done
ann commit -> aborted: 1:5 is locked by 1.1.1
1 <- 0 packet 1 VOTE 1 YES: committed 1@1
tick 1 -> to 0: PROPAGATE 1 of 1.1.1 (write 1:5 "s") as packet 3
{FAULT}
ann level 0.1.1 -> refused: the site is down
restart 0 -> site 0 is up in epoch 2; found Got 1@1
arm 1 call 5 choice 1 -> never comes
advance 1 from 0 -> nothing is committed: 0@1 isn't received here
ann abort -> refused: no transaction is open
stop 1 -> site 1 is down
not played: bob commit: it had no turn
not played: cat bytes 00000001: they end inside a frame
not played: deliver to 0 from 1 packet 2 in line 13: no such packet was put out: site 1 had put out 1 to it
not played: ann again in line 25: all calls are made
never delivered: 0 <- 1 packet 3 PROPAGATE 1 of 1.1.1 (write 1:5 "s")
"""
WITHOUT_TRACE = """bob start -> started 1.1.1
bob write 1:5 "s" -> done
bob commit -> deciding 1.1.1; the slow commit 1 begins
ann start -> started 0.1.1
ann write 1:5 hex 00ff -> done
ann commit -> aborted: 1:5 is locked by 1.1.1
ann level 0.1.1 -> refused: the site is down
ann abort -> refused: no transaction is open
not played: bob commit: it had no turn
not played: cat bytes 00000001: they end inside a frame
not played: ann again in line 25: all calls are made
""".replace("; the slow commit 1 begins", "")

# Who asks for the lock of a transaction that its snapshot has is asked to ask again.
LOCK_OF_A_CAUSE = """sites 2 tolerated 0
container 1 regular at 0
client ann at 1
ann: start
ann: write 1:5 "s"
ann: commit
deliver to 0 from 1 packet 1
deliver to 1 from 0 packet 1
ann: commit
ann: start
ann: write 1:5 "u"
ann: commit
deliver to 0 from 1 packet 3
deliver to 0 from 1 packet 2
deliver to 0 from 1 packet 3
deliver to 1 from 0 packet 2
"""
LATER = [
    "0 <- 1 packet 3 PREPARE 2 of 1.1.2 for 1:5: votes LATER: 1:5 is locked by 1.1.1, and not all that the snapshot sees is "
    "received here",
    '0 <- 1 packet 2 PROPAGATE 1 of 1.1.1 (write 1:5 "s"): received 1@1',
    "0 <- 1 packet 3 PREPARE 2 of 1.1.2 for 1:5: votes LATER: 1:5 is locked by 1.1.1, which the snapshot sees",
    "1 <- 0 packet 2 VOTE 2 LATER, 1:5 is locked by 1.1.1, and not all that the snapshot sees is received here: "
    "nothing new: site 0 is to be asked again at a tick",
]

SLOW = os.path.join(TOP, "examples", "slow_commit.json")
# What is written for what in the report and the trace of that example, the line that is wrong then, and what is wanted.
WRONG = [
    ("sites 2 f 0", "sites 2 f 2", 1, "1 to 16 sites"),
    ("clients 2\n", "clients 02\n", 1, "sites N f F clients N"),
    ("client 1 site 1", "client 1 site 0", 9, "a call at its client's site"),
    ("replies 3 ", "replies 4 ", 2, "as many replies as it says"),
    ("0000000182", "0000000192", 2, "replies as docs/FORMATS.md has them"),
    ("site 1 up", "site 1 down", 5, "what the entries of the site say"),
    ("events 5 ", "events 6 ", 4, "what the entries of the site say"),
    ("committed 0,1 log 1:1", "committed 0,1 log 0:1", 5, "what the entries of the site say"),
    ("got 0,0 committed 0,0", "got 0 committed 0,0", 4, "2 numbers in got"),
    ("e 1 0 restart taken", "e 1 0 restart given", 6, "an outcome"),
    ("e 1 1 restart", "e 1 2 restart", 7, "a site below 2"),
    ("e 2 0 call:0:start", "e 2 0 call:7:start", 8, "a client of the report"),
    ("e 2 0 call:0:start", "e 2 0 call:0:commit", 8, "the next call of ann"),
    ("e 3 1 call", "e 2 1 call", 11, "entries by stamp, and then by site"),
    ("e 2 1 call:1", "e 2 1 call:0", 9, "a call at its client's site"),
    ("deliver:1:1:prepare", "deliver:1:2:prepare", 13, "a packet that was put out before"),
    ("deliver:1:1:prepare", "deliver:0:1:prepare", 13, "another site"),
    (" 0:prepare 0\n", " 1:prepare 0\n", 12, "other sites below 2"),
    (" 0:prepare 0\n", " 0:prepare\n", 12, "e STAMP SITE EVENT OUTCOME"),
    ("taken - 0100000001 - - 0\ne 2", "taken - 010000000100 - - 0\ne 2", 7, "records as docs/FORMATS.md has them"),
]


EDN = re.compile(r'[{}\[\]]|:[a-z]+|nil|-?[0-9]+|"(?:[^"\\]|\\.)*"')


def read_edn(text):
    """A value of EDN, keywords as their words."""
    tokens = EDN.findall(text)
    assert set(EDN.sub("", text)) <= set(" ,"), text

    def read(token):
        if token in ("{", "["):
            parts = []
            while tokens[0] not in ("}", "]"):
                parts.append(read(tokens.pop(0)))
            tokens.pop(0)
            return dict(zip(parts[::2], parts[1::2])) if token == "{" else parts
        if token[0] == '"':
            return json.loads(token).encode("latin-1")
        return token[1:] if token[0] == ":" else None if token == "nil" else int(token)

    return read(tokens.pop(0))


def plain(value):
    """A value as it is read back: texts are bytes, but for keywords."""
    if isinstance(value, dict):
        return {plain(key): plain(one) for key, one in value.items()}
    if isinstance(value, list):
        return [plain(one) for one in value]
    return value.encode() if type(value) is str else str(value) if isinstance(value, str) else value


class Explain(unittest.TestCase):
    def read(self, script):
        text = by_model(json.dumps(scripts.read(script))).text()
        return text, runs.Run(runs.Scenario(script), reports.read(text))

    def explained(self, run, packets=False):
        return [*words.lines(run, packets), *words.left_over(run)]

    def test_a_run_is_told_line_by_line(self):
        text, run = self.read(SCRIPT)
        self.assertEqual(self.explained(run), LINES.splitlines())
        replies = runs.Run(runs.Scenario(SCRIPT), reports.read(without_trace(text)))
        self.assertEqual(self.explained(replies), WITHOUT_TRACE.splitlines())

    def test_each_example_is_played_and_told(self):
        for path in examples("json"):
            with self.subTest(os.path.basename(path)):
                run = example_run(path)
                self.assertTrue(self.explained(run))
                # Three turns of that one are to find no call.
                idle = 3 if "bad_frames" in path else 0
                self.assertEqual(sum(step.why is not None for step in run.steps), idle)

    def test_what_the_examples_show(self):
        for name, line in [
            ("long_fork", "ann read 20:1 -> no value"),
            ("slow_commit", "ann commit -> aborted: 10:5 is locked by 1.1.1"),
            ("crossed_slow_commits", "0 <- 3 packet 1 PREPARE 1 of 3.1.1 for 10:1: votes NO, it is over"),
            ("locks_outlive_a_stop", "bob commit -> aborted: 10:1 is locked by 2.1.1"),
            ("durable_and_visible", "0 <- 2 packet 1 ACK 1: durable mark 1"),
            ("stop_at_the_gate", "restart 0 -> site 0 is up in epoch 2; found Own 0@1"),
            ("two_writers", "bob commit -> aborted: 10:5 was modified by 0@1"),
            ("pumped_link", "pump 1: tick 1 -> to 0: PREPARE 1 of 1.1.1 for 10:5 as packet 3"),
            ("pumped_link", "lost by the link: 1 <- 0 packet 1 VOTE 1 YES"),
            ("upgraded_in_place", "upgrade 1 -> site 1 journals in the second format from now on"),
            ("upgraded_in_place", "pump 1: 1 <- 0 packet 2 VOTE 1 YES: committed 1@2"),
            ("sixteen_sites", "hal commit -> aborted: 7:1 is locked by 0.1.1"),
            ("sixteen_sites", "0 <- 15 packet 1 VOTE 1 YES: committed 0@1"),
        ]:
            self.assertIn(line, self.explained(example_run(os.path.join(TOP, "examples", name + ".json"))))

    def test_random_runs_are_told(self):
        for seed in RANDOM:
            played, run = random_run(seed)
            told = self.explained(run, True)
            self.assertTrue(all(line and "\n" not in line for line in told))
            self.assertEqual(sum(step.moment is not None and step.made[0] != "arm" for step in run.steps),
                             len(run.moments) - len(played.sites))
            short = runs.Run(run.scenario, reports.read(without_trace(played.text())))
            calls = [line for line in self.explained(short) if " -> " in line]
            self.assertEqual(len(calls), sum(map(len, played.replies)))

    def test_why_a_site_is_to_be_asked_again(self):
        _, run = self.read(LOCK_OF_A_CAUSE)
        self.assertEqual(self.explained(run)[9:13], LATER)
        told, met = Counter(), Counter()
        for seed in RANDOM:
            played, run = random_run(seed)
            said = [packet.says.against for lane in run.lanes.values() for packet in lane if packet.kind == "vote"]
            told.update(against[3] for against in said if against and against[0] == "later")
            met.update(played.sites[0].met)
        self.assertEqual((told["missing"], told["seen"]),
                         (met["LATER before all is received"], met["LATER over the lock of a cause"]))
        self.assertTrue(all(told.values()), told)

    def test_what_comes_into_a_window(self):
        """An ACK of the second of 66 commits brings the last two; the window has 64."""
        adds = "ann: start\nann: setadd 1:1 9\nann: commit\n" * 66
        _, run = self.read("sites 2 tolerated 0\ncontainer 1 set at 0\nclient ann at 0\n" + adds +
                           "deliver to 1 from 0 packet 1\ndeliver to 1 from 0 packet 3\ndeliver to 0 from 1 packet 2\ntick 0\n")
        lane = [packet.says.number for packet in run.lanes[0, 1] if packet.kind == "propagate"]
        self.assertEqual(lane, [*range(1, 65), 65, 66, *range(3, 67)])

    def test_what_packets_say_is_what_they_said(self):
        causes = {model.MODIFIED: "modified", model.LOCKED: "locked", model.DEAD: "over", model.LATER: "later"}
        for seed in RANDOM:
            played, run = random_run(seed)
            for (sender, receiver), lane in run.lanes.items():
                put_out = [packet for _, packet in played.sites[sender].put_out[receiver]]
                self.assertEqual([(one.kind, one.says.number) for one in lane],
                                 [(model.PACKETS[packet[0] - 1], packet[1]) for packet in put_out], seed)
                for one, packet in zip(lane, put_out):
                    if one.kind == "vote":
                        against = (causes[packet[2][0]], *packet[2][1:]) if len(packet) > 2 else None
                        # A LATER doesn't say over what.
                        told = one.says.against
                        self.assertEqual(told[:1] if told and told[0] == "later" else told, against)
                    elif one.kind in ("propagate", "prepare"):
                        self.assertEqual(one.says.transaction.name, packet[2].tid if one.kind == "propagate" else packet[2])

    def test_a_report_that_does_not_fit_is_refused_with_its_line(self):
        right, scenario = by_model(file_text(SLOW)).text(), runs.Scenario(file_text(source_of(SLOW)))
        runs.Run(scenario, reports.read(right))
        for old, new, place, wanted in WRONG:
            self.assertIn(old, right)
            self.is_refused(scenario, right.replace(old, new, 1), place, wanted)
        self.is_refused(scenario, right[:-1], right.count("\n"), "a line feed at the end")
        self.is_refused(scenario, right.replace("client 0", "client 1", 1), 2, "client 0 at a site below 2")
        self.is_refused(scenario, without_trace(right).replace("client 1 site 1", "client 1 site 0"), 3, "the client's site")

    def is_refused(self, scenario, text, place, wanted):
        with self.subTest(wanted), self.assertRaises(reports.Wrong) as wrong:
            runs.Run(scenario, reports.read(text))
        self.assertTrue(str(wrong.exception).startswith(f"line {place}: wants {wanted}"), str(wrong.exception))

    def test_a_report_of_another_scenario_is_refused(self):
        text = by_model(file_text(SLOW)).text()
        script = file_text(source_of(SLOW))
        for old, new, wanted in [
            ("deliver to 0 from 1 packet 1 #", "#", "bob to be played next|no such entry|to be played next"),
            ("bob: commit\n", "bob: abort\n", "the next call of bob"),
            ("client bob at 1", "client bob at 1\nclient cat at 0", "the sites and the clients"),
            ('bob: write 10:5 "s"', 'bob: write 10:5 "S"', "of what bob has done since its start"),
            ('bob: write 10:5 "s"', 'bob: write 10:6 "s"', "of what bob has done since its start"),
        ]:
            self.assertIn(old, script)
            with self.assertRaisesRegex(reports.Wrong, wanted):
                runs.Run(runs.Scenario(script.replace(old, new)), reports.read(text))
        with self.assertRaisesRegex(reports.Wrong, "line 3: wants an answer to bob: read"):
            runs.Run(runs.Scenario(script.replace('bob: write 10:5 "s"', "bob: read 10:5")), reports.read(without_trace(text)))

    def test_records_that_are_of_another_run_are_refused(self):
        """The trace of a lost commit with a record in flight, of which the restart finds another, and so on."""
        gate = os.path.join(TOP, "examples", "stop_at_the_gate.json")
        scenario, right = runs.Scenario(file_text(source_of(gate))), by_model(file_text(gate)).text()
        lines = right.splitlines(keepends=True)
        kept = next(line for line in lines if line.startswith("e 6 0 restart taken"))
        record = kept.split()[5]
        changed = right.replace(kept, kept.replace(record, record[:-2] + "62"))
        with self.assertRaisesRegex(reports.Wrong, "wants the record that was in flight"):
            runs.Run(scenario, reports.read(changed))
        slow, scenario = by_model(file_text(SLOW)).text(), runs.Scenario(file_text(source_of(SLOW)))
        decided = next(line for line in slow.splitlines() if line.startswith("e 6 1 deliver"))
        record = decided.split()[6]
        with self.assertRaisesRegex(reports.Wrong, "wants the transaction of the slow commit"):
            runs.Run(scenario, reports.read(slow.replace(record, record[:-2] + "62")))

    def test_changed_reports_are_read_or_refused(self):
        for seed in range(1, 60):
            played, run = random_run(seed)
            if len(run.moments) > 400:
                continue
            rng, lines = random.Random(seed), played.text().split("\n")
            for _ in range(5):
                place, other = rng.randrange(len(lines) - 1), rng.randrange(len(lines) - 1)
                fields, others = lines[place].split(" "), lines[other].split(" ")
                at = rng.randrange(min(len(fields), len(others)))
                changed = " ".join(fields[:at] + [rng.choice([others[at], "-", "1", "0:vote", "tick"])] + fields[at + 1 :])
                try:
                    text = "\n".join(lines[:place] + [changed] + lines[place + 1 :])
                    self.explained(runs.Run(run.scenario, reports.read(text)))
                except reports.Wrong:
                    pass

    def test_the_trail_that_is_spent(self):
        """At 100,000 entries turns do nothing; the report alone tells it here."""
        script = "sites 1 tolerated 0\nclient ann at 0\nann: start\nann: commit\n"
        report = ("sites 1 f 0 clients 1\nclient 0 site 0 replies 1 0000000e80000000000100000000" "00000001\n"
                  "site 0 up epoch 1 events 100000 records 1 got 0 committed 0 log -\n")
        told = self.explained(runs.Run(runs.Scenario(script), reports.read(report)))
        self.assertEqual(told, [
            "ann start -> started 0.1.1",
            "not played: ann commit: it had no turn",
            "not played: ann again in line 4: the trail of site 0 is spent",
            "spent: the trail of site 0 has 100,000 entries",
        ])

    def test_a_scenario_that_is_none_is_refused(self):
        for text, said in [
            ("{}", "wants a scenario"),
            ('{"sites":1,"f":0,"containers":[[1,"regular",7]],"clients":[],"steps":[]}', "wants a scenario"),
            ("sites 1 tolerated 0\ntick 1", 'line 2: "1": wants a site below 1'),
        ]:
            with self.assertRaisesRegex(scripts.Wrong, said):
                runs.Scenario(text)

    def test_a_history(self):
        _, run = self.read("""sites 1 tolerated 0
container 1 regular at 0
client ann at 0
client bob at 0
ann: start
ann: write 1:5 "a"
ann: write 3:5 "b" # refused
ann: read 1:5
bob: start
bob: read 1:5
ann: commit
bob: write 1:5 hex 00ff22
bob: commit
ann: start
ann: read 1:5
stop 0
restart 0
ann: commit
ann: start
ann: commit
ann: start
ann: read 1:5
ann: commit
""")
        self.assertEqual(histories.History(run).text().splitlines(), [
            '{:type :invoke, :f :txn, :value [[:w "1:5" "a"] [:r "1:5" nil]], :process 0, :index 0}',
            '{:type :invoke, :f :txn, :value [[:r "1:5" nil] [:w "1:5" "\\u0000\\u00ff\\""]], :process 1, :index 1}',
            '{:type :ok, :f :txn, :value [[:w "1:5" "a"] [:r "1:5" "a"]], :process 0, :index 2}',
            '{:type :fail, :f :txn, :value [[:r "1:5" nil] [:w "1:5" "\\u0000\\u00ff\\""]], :process 1, :index 3}',
            '{:type :invoke, :f :txn, :value [[:r "1:5" nil]], :process 0, :index 4}',
            '{:type :info, :f :txn, :value [[:r "1:5" "a"]], :process 0, :index 5}',
            '{:type :invoke, :f :txn, :value [[:r "1:5" nil]], :process 2, :index 6}',
            '{:type :ok, :f :txn, :value [[:r "1:5" "a"]], :process 2, :index 7}',
        ])

    def test_a_history_of_sets(self):
        run = example_run(os.path.join(TOP, "examples", "friend_list.json"))
        lines = histories.History(run, histories.SETS).text().splitlines()
        self.assertEqual(lines[0], '{:type :invoke, :f :sets, :value [[:add "30:1" 5] [:add "30:1" 7]], :process 0, :index 0}')
        reads = '{:type :invoke, :f :sets, :value [[:r "30:1" nil] [:count "30:1" 5 nil]], :process 0, :index 4}'
        self.assertEqual(lines[-2], reads)
        self.assertEqual(histories.History(run).text(), "")
        self.assertEqual(edn.edn({7: 2, 9: -1}), "{7 2, 9 -1}")

    def test_a_value_is_written_to_an_object_once(self):
        """Elle tells writes apart by their values; one transaction may write a value twice."""
        head = "sites 1 tolerated 0\ncontainer 1 regular at 0\nclient ann at 0\n"
        turn = 'ann: start\nann: write 1:5 "a"\nann: write 1:5 "a"\nann: commit\n'
        self.assertEqual(histories.History(self.read(head + turn)[1]).text().count("\n"), 2)
        with self.assertRaisesRegex(histories.NotDistinct, '0.1.1 and 0.1.2 write "a" to 1:5: each transaction'):
            histories.History(self.read(head + turn + turn)[1]).text()

    def test_random_histories(self):
        """Each invoke has one end, no process goes on where it has an info, and each line is EDN of just these keys."""
        for seed in RANDOM:
            for kind in (histories.REGISTERS, histories.SETS):
                open_at, ended, operations = {}, set(), histories.History(random_run(seed)[1], kind).operations()
                self.assertEqual([one["index"] for one in operations], list(range(len(operations))))
                for one in operations:
                    process = one["process"]
                    self.assertNotIn(process, ended)
                    self.assertEqual(one["type"] != "invoke", process in open_at)
                    if one["type"] == "invoke":
                        open_at[process] = one
                    else:
                        self.assertEqual(len(open_at.pop(process)["value"]), len(one["value"]))
                        ended |= {process} if one["type"] == "info" else set()
                self.assertEqual(open_at, {})
                for one in operations[:20]:
                    self.assertEqual(read_edn(edn.edn(one)), plain(one))

    def test_clocks(self):
        """A log is read back by the expression in its first line; a clock says just which entries one comes behind."""
        for path in examples("json")[:5] + [SLOW]:
            run = example_run(path)
            if len(run.moments) > 500:
                continue
            expression, empty, *lines = clocks.log(run).split("\n")
            found = list(re.finditer(expression.replace("(?<", "(?P<"), "\n".join(lines)))
            self.assertEqual((empty, len(found)), ("", len(run.moments)))
            self.assertEqual([one["event"] for one in found], [words.moment_line(run.scenario, one) for one in run.moments])
            told = [json.loads(one["clock"]) for one in found]
            for one, clock, moment in zip(found, told, run.moments):
                before = [other["host"] for other in found[: found.index(one) + 1]].count(one["host"])
                self.assertEqual((one["host"], clock[one["host"]]), (f"site{moment.site}", before))
            self.check_order(run, told)

    def check_order(self, run, told):
        behind = {}
        for place, moment in enumerate(run.moments):
            causes = [one for one in run.moments[:place] if one.site == moment.site][-1:]
            causes += [moment.packet.put_out] if moment.packet else []
            behind[moment] = set(causes).union(*(behind[one] for one in causes))
        for moment, clock in zip(run.moments, told):
            for other, earlier in zip(run.moments, told):
                is_behind = other is moment or all(clock.get(site, 0) >= count for site, count in earlier.items())
                self.assertEqual(is_behind, other is moment or other in behind[moment])

    def test_the_tool(self):
        tool = [sys.executable, os.path.join(TOP, "tools", "explain"), source_of(SLOW)]
        text = by_model(file_text(SLOW)).text()
        told = subprocess.run(tool, input=text, capture_output=True, text=True)
        self.assertEqual((told.returncode, told.stderr), (0, ""))
        self.assertIn("1 <- 0 packet 1 VOTE 1 YES: committed 1@1\n", told.stdout)
        with tempfile.TemporaryDirectory() as folder:
            wanted, report = os.path.join(folder, "wanted"), os.path.join(folder, "report")
            for path, content in [(wanted, told.stdout), (report, text)]:
                with open(path, "w", encoding="utf-8") as file:
                    file.write(content)
            same = subprocess.run(tool + [report, "--expect", wanted], capture_output=True, text=True)
            self.assertEqual((same.returncode, same.stdout, same.stderr), (0, "", ""))
            with open(wanted, "w", encoding="utf-8") as file:
                file.write(told.stdout.replace("locks 10:5", "locks 10:6"))
            other = subprocess.run(tool + [report, "--expect", wanted], capture_output=True, text=True)
            self.assertEqual((other.returncode, other.stdout), (1, ""))
            self.assertTrue(other.stderr.startswith(f"explain: {wanted}: line 6 differs\nwanted: 0 <- 1 packet 1 PREPARE"))
        for word, first in [("--history", '{:type :invoke, :f :txn, :value [[:w "10:5" "s"]], :process 1, :index 0}'),
                            ("--shiviz", clocks.EXPRESSION)]:
            made = subprocess.run(tool + [word], input=text, capture_output=True, text=True)
            self.assertEqual((made.returncode, made.stdout.split("\n")[0]), (0, first))

    def test_what_is_wrong_is_told_in_a_line(self):
        tool, text = [sys.executable, os.path.join(TOP, "tools", "explain")], by_model(file_text(SLOW)).text()
        for given, report, status, said in [
            ([SLOW], "sites\n", 2, "standard input, line 1: wants sites N f F clients N; it has: sites"),
            ([SLOW], "", 2, "standard input, line 1: wants sites N f F clients N; it is empty"),
            ([SLOW], text[:-40], 2, "standard input, line 16: wants a line feed at the end of the report; it has: e 7 1 call"),
            ([SLOW, "no such file"], "", 3, "no such file: No such file or directory"),
            ([SLOW, "--shiviz"], without_trace(text), 2, "standard input: it has no trace, which --trace writes"),
            ([source_of(SLOW) + "x"], text, 3, source_of(SLOW) + "x: No such file or directory"),
            ([__file__], text, 2, __file__ + ', line 1: '),
            (["/dev/null"], text, 2, "/dev/null: it is empty: wants a script or a scenario"),
            ([SLOW, "--fly"], text, 1, "unrecognized arguments: --fly"),
        ]:
            wrong = subprocess.run(tool + given, input=report, capture_output=True, text=True)
            self.assertEqual((wrong.returncode, wrong.stdout), (status, ""))
            self.assertTrue(wrong.stderr.startswith("explain: " + said), wrong.stderr)
            self.assertNotIn("Traceback", wrong.stderr)

    @unittest.skipUnless(os.path.exists("/dev/full"), "there is no /dev/full")
    def test_an_output_that_fails_is_told(self):
        tool = [sys.executable, os.path.join(TOP, "tools", "explain"), SLOW]
        with open("/dev/full", "w", encoding="utf-8") as full:
            made = subprocess.run(tool, input=by_model(file_text(SLOW)).text(), stdout=full, stderr=subprocess.PIPE, text=True)
        self.assertEqual((made.returncode, made.stderr.count("\n")), (4, 1))
        reader, writer = os.pipe()
        os.close(reader)
        made = subprocess.run(tool, input=by_model(file_text(SLOW)).text(), stdout=writer, stderr=subprocess.PIPE, text=True)
        os.close(writer)
        self.assertEqual((made.returncode, made.stderr), (4, ""))


if __name__ == "__main__":
    unittest.main()
