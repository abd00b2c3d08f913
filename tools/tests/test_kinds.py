"""The scenarios of bench/kinds.py are what they are named for, and those by which memory is measured are alike."""

import json
import os
import shutil
import subprocess
import sys
import unittest
from collections import Counter
from unittest import mock

from played import InFolder, TOP, run_bench
from generator import ABORT, COMMIT
import common
import growth
import kinds
import measured
import model
import pieces
import readings
import spelled

PLAYS = f'#!/bin/sh\nexec {sys.executable} {os.path.join(TOP, "bench", "model.py")}\n'


def played(made):
    return model.played(made, Counter()).sites[0]


def events_of(site):
    return [entry.event.split(":")[-1] for entry in site.entries]


def replies_to(site, *names):
    """The replies to calls of these names, by client."""
    for entry in site.entries:
        word, *rest = entry.event.split(":")
        if word == "call" and rest[1] in names:
            yield int(rest[0]), bytes.fromhex(entry.outcome[len("reply:") :])[4:]


class Kinds(unittest.TestCase):
    def test_each_is_a_scenario_whose_calls_are_all_made(self):
        for name, kind in {**kinds.KINDS, **common.KINDS}.items():
            with self.subTest(name):
                made = kind.make()
                text = kinds.text_of(made)
                self.assertLess(len(text), growth.MOST_BYTES)
                self.assertIsNotNone(readings.read(text.encode()))
                self.assertLess(len(made["steps"]) + 1, growth.MOST_ENTRIES)
                if not made["steps"]:
                    continue
                turns = Counter(step[1] for step in made["steps"] if step[0] == "call")
                for number, (_, sent) in enumerate(made["clients"]):
                    self.assertEqual(sum(1 for _ in model.calls_of(bytes.fromhex(sent), Counter())), turns[number])
                ticks = {place + 2 for place, step in enumerate(made["steps"]) if step[0] == "tick"}
                last = len(made["steps"]) + 1
                self.assertEqual(ticks, set(range(100, last + 1, 100)) if name.endswith("-ticks") else set())

    def test_a_hot_set_is_read_behind_each_commit(self):
        site = played(kinds.hot_set(commits=200))
        self.assertEqual(events_of(site)[1:13], ["start", "setadd", "commit", "start", "setreadid", "commit",
                                                 "start", "setadd", "commit", "start", "setread", "commit"])
        self.assertEqual(Counter(events_of(site))["setdel"], 80)
        self.assertEqual((site.own(), len(site.rows)), (200, 1))
        self.assertGreater(len(set(replies_to(site, "setread"))), 20)

    def test_a_wide_set_stays_wide(self):
        site = played(kinds.wide_set(rounds=250))
        (_, whole), = replies_to(site, "setread")
        self.assertEqual(whole[:5], spelled.struct.pack(">BI", spelled.SET, kinds.MOST_IDS))
        self.assertEqual(Counter(events_of(site))["setreadid"], 2 * 249)
        self.assertEqual(site.own(), 17 + 250)
        self.assertEqual({reply[0] for _, reply in replies_to(site, "setadd", "setdel")}, {spelled.DONE})

    def test_long_rows_have_an_old_reader(self):
        site = played(kinds.long_rows(10, 1000))
        self.assertEqual((site.own(), sorted(len(row) for row in site.rows.values())), (1000, [250] * 4))
        old = Counter(reply for client, reply in replies_to(site, "read", "setread") if client == 2)
        self.assertEqual((len(old), sum(old.values())), (4, 247))
        self.assertGreater(len({reply for client, reply in replies_to(site, "read", "setread") if client == 1}), 300)

    def test_runs_for_the_memory_are_alike(self):
        committing, aborting = (played(kinds.many_objects(1000, end)) for end in (COMMIT, ABORT))
        for site in committing, aborting:
            self.assertEqual(len(site.entries), 1000)
            self.assertEqual(sum(event == "tick" for event in events_of(site)), 10)
        self.assertEqual([event.replace("abort", "commit") for event in events_of(aborting)], events_of(committing))
        self.assertEqual((len(aborting.records), len(committing.records)), (1, 1 + Counter(events_of(committing))["commit"]))
        self.assertEqual(len(committing.rows), 100)

    def test_an_input_is_as_long_with_fewer_events(self):
        made = kinds.many_objects(1000)
        fewer = kinds.quiet_behind(made, 300)
        self.assertEqual(len(kinds.text_of(fewer)), len(kinds.text_of(made)))
        self.assertEqual(len(played(fewer).entries), 300)
        self.assertEqual(played(fewer).entries, played(made).entries[:300])


class Memory(InFolder):
    """A program that takes 12 MB for the input, and 1,000 bytes for each event, and more for each commit. Entries own 200 bytes,
    and those of commits 120 more."""

    def told(self, for_commit, for_event=1000):
        def run(words, text):
            self.assertEqual(words, ["program", "--fast", "play"])
            made = json.loads(text)
            site = played(made)
            taken = for_event * len(site.entries) + for_commit * site.own()
            report = f"site 0 up epoch 1 events {len(site.entries)} records {len(site.records)} got "
            return measured.Measured(report + "x" * 10 * len(site.entries), 0.1, 12 + taken / 1_000_000)

        def owned(words, text):
            self.assertEqual(words, ["program", "--fast", "play"])
            site = played(json.loads(text))
            return (5_000 + 200 * len(site.entries) + 120 * site.own(),
                    7_000_000 + for_event * len(site.entries) + for_commit * site.own())

        with mock.patch.object(growth, "measured_of", run), mock.patch.object(growth, "taken_by", owned):
            return list(growth.memory_lines(["program", "--fast"], 3000))

    def test_the_growth_beside_the_trail_is_told(self):
        lines = self.told(900)
        self.assertEqual(lines[0], "one site, 3,000 events over 100 objects, 989 commits, a Tick at each 100th event")
        self.assertEqual(lines[1:4], [
            "the input alone: 12.0 MB", "the run: 15.9 MB, 1297 bytes for each event of its second half",
            "with aborts in the place of commits: 15.0 MB, 1000 bytes for each, of which 8 are where a reply lies and 200 what "
            "entries own"])
        self.assertEqual(lines[4:], ["what the entries of the run own: 240 bytes for each",
                                     "so the trail takes 1032 bytes for each, and the run 1.26 times that: within 1.5"])
        self.assertRegex(self.told(2000)[5], "1.61 times that: above 1.5$")

    def test_what_is_too_little_is_told(self):
        self.assertIn("isn't told", self.told(0, 200)[-1])

    @unittest.skipUnless(shutil.which("gcc"), "there is no gcc")
    def test_it_is_a_command(self):
        program = self.write("program", PLAYS, is_program=True)
        with mock.patch.object(growth, "EVENTS", 400):
            status, told = run_bench(growth, "--memory", program)
        self.assertEqual((status, told.splitlines()[0]),
                         (None, "one site, 400 events over 100 objects, 131 commits, a Tick at each 100th event"))
        with mock.patch("sys.stderr"):
            self.assertEqual(run_bench(growth, "--memory", "--loads", program)[0], 2)


# It reads into 48 MB and lets go of them. Then, of 4,000 pieces of 1,000 bytes each second one is let go of, and one grows; a large
# piece isn't counted, but its 8 MB are touched. The C library gives 1,000 bytes for 1,000, with a word of 8 before them, and 2,008
# for 2,000.
GROWS = """
#include <stdlib.h>
#include <string.h>
#include <unistd.h>
int main(void)
{
    static void *pieces[48000], *large;
    for (int i = 0; i < 48000; i++)
        memset(pieces[i] = malloc(1000), 1, 1000);
    for (int i = 0; i < 48000; i++)
        free(pieces[i]);
    memset(large = malloc(8 << 20), 1, 8 << 20);
    for (int i = 0; i < 4000; i++)
        memset(pieces[i] = malloc(1000), 1, 1000);
    for (int i = 0; i < 4000; i += 2)
        free(pieces[i]);
    pieces[1] = realloc(pieces[1], 2000);
    write(1, "x", 1);
    return large == 0 || pieces[1] == 0;
}
"""


class Pieces(InFolder):
    @unittest.skipUnless(shutil.which("gcc"), "there is no gcc")
    def test_small_pieces_are_counted(self):
        program = os.path.join(self.folder, "grows")
        subprocess.run(["gcc", "-fno-builtin", "-w", "-o", program, "-x", "c", "-"], input=GROWS, text=True, check=True)
        owned, most = pieces.taken_by([program], "")
        self.assertEqual(owned, 1999 * 1008 + 2016)
        # The large piece, the 3,072 pieces that there are at the last look, and what each process has.
        self.assertTrue(11_000_000 < most < 16_000_000, most)


if __name__ == "__main__":
    unittest.main()
