"""The scenarios that bench/growth.py makes are what it says, and the big examples are those that it makes."""

import json
import os
import re
import sys
import unittest
from collections import Counter
from unittest import mock

from played import InFolder, TOP, by_model, file_text, run_bench
import audit
import disks
import growth
import journals
import long_journals
import model
import scripts
from spelled import GOT, MARKS, OWN, PREPARED, SEEN, SLOW_BEGIN

# Plays by the model, and leaves the journals where it is asked to.
PROGRAM = f"""#!{sys.executable}
import json, os, sys
sys.path.insert(0, {os.path.join(TOP, "bench")!r})
import model
run = model.played(json.load(sys.stdin), model.Counter())
for site in run.sites if "--disks" in sys.argv else []:
    with open(os.path.join(sys.argv[-1], f"site-{{site.me}}.journal"), "wb") as file:
        file.write(site.disk.reads)
"""
# Audits by the plain audit.
AUDITING = f"""#!{sys.executable}
import sys
sys.path.insert(0, {os.path.join(TOP, "bench")!r})
import command
command.ends.run(command.main)
"""
LINE = (r"10 commits, (one area|two areas): -?\d+\.\d{3} ms a restart, in the second half -?\d+\.\d{3} ms; journal of ([\d,]+) "
        r"bytes, of which ([\d,]+) count; ([\d,]+) written")


class Growth(unittest.TestCase):
    def test_each_transaction_reaches_every_site(self):
        run = by_model(growth.spread(60))
        self.assertEqual(growth.strays(run.text(), 60), [])
        self.assertEqual(growth.strays(run.text(), 61), [0, 1, 2])
        for site in run.sites:
            self.assertEqual(site.marks(), (20, 20))
            heard = [entry for entry in site.entries if entry.event.startswith(("deliver", "advance"))]
            self.assertEqual({entry.outcome for entry in heard}, {"taken"})
            self.assertEqual([len(site.put_out[peer]) for peer in site.peers], [80, 80])

    def test_peers_that_hear_nothing_first_have_all_in_the_end(self):
        for transactions in (1, 63, 64, 65, 128, 200):
            with self.subTest(transactions):
                run = by_model(growth.behind(transactions))
                self.assertEqual(growth.strays(run.text(), transactions), [])
                self.assertEqual(run.sites[0].marks()[0], transactions)
                for site in run.sites[1:]:
                    heard = [entry for entry in site.entries if entry.event.startswith(("deliver", "advance"))]
                    self.assertEqual({entry.outcome for entry in heard}, {"taken"})

    def test_the_big_examples_are_those_that_it_makes(self):
        for name, make in growth.EXAMPLES.items():
            text, path = make() + "\n", os.path.join(TOP, "examples", name)
            self.assertEqual(file_text(path + ".json"), text)
            self.assertEqual(file_text(path + ".script"), scripts.write(json.loads(text)))

    def test_the_five_thousand_are_visible_everywhere(self):
        run = by_model(growth.spread(5_000) + "\n")
        self.assertEqual([site.marks() for site in run.sites], [(1667, 1667), (1667, 1667), (1666, 1666)])
        self.assertEqual([site.committed for site in run.sites], [[1667, 1667, 1666]] * 3)

    def test_the_scenario_is_within_its_bounds(self):
        text = growth.spread(5_000)
        self.assertLess(len(text), growth.MOST_BYTES)
        made = json.loads(text)
        sites = [made["clients"][step[1]][0] if step[0] == "call" else step[1] for step in made["steps"]]
        self.assertLess(max(Counter(sites).values()) + 1, growth.MOST_ENTRIES)


class Restarts(InFolder):
    def test_the_model_and_a_program_tell_the_same_sizes(self):
        program = self.write("program", PROGRAM, is_program=True)
        told = []
        with mock.patch.object(growth, "COMMITS", (10,)):
            for words in ["--model"], [program]:
                status, out = run_bench(growth, "--restarts", "--count", "4", *words)
                self.assertIsNone(status)
                first, *lines = out.splitlines()
                self.assertEqual(first, "4 stops and restarts of a site")
                told.append([self.numbers(line) for line in lines])
        # A pack of all but the last Boot leaves 56 bytes out of each commit.
        size, pack = 9 + 5 * 10 + 10 * 119, 8 + 4 * 10 + 10 * 63
        self.assertEqual(told[0], told[1])
        self.assertEqual(told[0][0], ("one area", size, size - 8, size - 9))
        self.assertEqual(told[0][1][2], pack + 10 + 1)

    def numbers(self, line):
        self.assertRegex(line, f"^{LINE}$")
        areas, *numbers = re.fullmatch(LINE, line).groups()
        return (areas, *(int(number.replace(",", "")) for number in numbers))

    def test_what_was_ever_written_is_counted(self):
        """But for the gates, the switch byte, and the zeros of a new journal."""
        for areas in 1, 2:
            made, lengths, write = growth.restarted(areas, 7, 5, 5), [], disks.Disk.write

            def noted(disk, at, data):
                lengths.append(len(data))
                write(disk, at, data)

            with mock.patch.object(disks.Disk, "write", noted):
                site = model.played(made, Counter()).sites[0]
            bodies = journals.bodies_of(journals.read(bytes(site.disk.reads), made["capacity"], 1))
            self.assertEqual(len(bodies), 1 + 7 + 5)
            self.assertEqual(growth.ever_written(bodies, areas, 5), sum(size for size in lengths[1:] if size > 1))

    def test_wrong_words(self):
        for words in ["--model"], ["--restarts", "--model", "--count", "1"]:
            with mock.patch("sys.stderr"):
                self.assertEqual(run_bench(growth, *words)[0], 2)


class Audits(InFolder):
    def test_long_journals_tell_a_legal_history(self):
        made, many = long_journals.scenario(), long_journals.contents(300)
        self.assertEqual({len(content.bodies) for content in many}, {300})
        reason, order = audit.found(made, many)
        self.assertIsNone(reason)
        commits = sum(item[0] == "commit" for _, item in order)
        self.assertEqual(sum(item[0] == "arrive" for _, item in order), 15 * commits)
        kinds = Counter(body[0] for content in many for body in content.bodies)
        self.assertTrue(all(kinds[kind] for kind in (OWN, GOT, SEEN, PREPARED, SLOW_BEGIN, MARKS)), kinds)
        ended = audit.found(made, long_journals.unreadable_at_the_end(many))
        self.assertEqual(ended, ("unreadable", ((15, 299), (15, 299))))

    def test_what_audits_take_is_told(self):
        program = self.write("program", AUDITING, is_program=True)
        with mock.patch.object(growth, "RECORDS", (40, 80)), mock.patch.object(growth, "AUDITS", 1):
            status, told = run_bench(growth, program, "--audit")
        self.assertIsNone(status)
        first, second = told.splitlines()
        measured = (r"\d\.\d{3} s, [\d.]+ us a record%s; read and replayed alone \d\.\d{3} s, of which the audit takes "
                    r"[\d.]+ times: (within|above) 3$")
        self.assertRegex(first, "^16 sites with 40 records each: " + measured % "")
        self.assertRegex(second, "^16 sites with 80 records each: " + measured % r"; ratio [\d.]+")


if __name__ == "__main__":
    unittest.main()
