"""What bench/refusals.py says of runs in which memory is wanting, by programs that are scripts here; and what its library refuses."""

import json
import os
import shutil
import subprocess
import tempfile
import unittest
from unittest import mock

from played import run_bench
import refusals
from spelled import FORMAT


class Program:
    """Has eight allocations, and plays by the model, where the Nth entry of site 0 wants memory; at the first refusal it ends
    with status 5. `change` makes something else of a run with the Nth refused."""

    most = 8

    def __init__(self, change):
        self.change = change

    def run(self, words, text, nth=0, lasting=False):
        made = json.loads(text)
        wants = [{nth: "-"}, *({} for _ in range(made["sites"] - 1))]
        written = refusals.played(made, wants, iter([True])).text()
        come = (refusals.NO_MEMORY, "", refusals.SAID) if nth == 1 else self.change(nth, (0, written, ""))
        return refusals.Ended(*come, self.most, int(0 < nth <= self.most), [16 * nth])

    def names(self, callers):
        return f"the function at {callers[0]}"


def right(_, come):
    return come


CALLER = """
#include <stdlib.h>
#include <stdio.h>
#include <string.h>
int main(void)
{
    void *aligned = 0, *first = malloc(8), *second = calloc(2, 8), *third = realloc(second, 100);
    int failed = posix_memalign(&aligned, 64, 64);
    char *last = aligned_alloc(64, 64);
    printf("%d%d%d%d%d\\n", first != 0, second != 0, third != 0, failed == 0, last != 0);
    return strdup("text") == 0;
}
"""


class Runs(unittest.TestCase):
    def refuse(self, change, *words):
        with mock.patch.object(refusals, "library_in", lambda folder: ""), \
             mock.patch.object(refusals, "Program", lambda *_: Program(change)):
            return run_bench(refusals, "--program", "program", *words)

    def test_right_runs_are_counted(self):
        status, told = self.refuse(right, "a slow commit", "locks outlive a stop", "--each", "2")
        self.assertEqual((status, told), (False, "a slow commit: 8 allocations; of 4 runs with a refusal 1 status 5, 1 told by "
                         "entries, 2 as without refusals, 0 wrong\nlocks outlive a stop: 8 allocations; of 4 runs with a refusal "
                         "1 status 5, 3 told by entries, 0 as without refusals, 0 wrong\n"))

    def test_wrong_runs_are_told(self):
        for change, wanted in [
            (lambda come: (6, "", ""), "status 6, said '', wrote ''"),
            (lambda come: (0, come[1].replace("0182", "0183"), ""), "came "),
            (lambda come: (0, come[1] + "e 9 0 tick memory - - - - 0\n", ""), "came "),
            (lambda come: (0, come[1], "walter: out of memory\n"), "status 0, said 'walter: out of memory"),
        ]:
            status, told = self.refuse(lambda nth, come, change=change: change(come) if nth == 3 else come, "a set cancels out",
                                       "--each", "2")
            first, second, *_, last = told.splitlines()
            self.assertEqual(status, True)
            self.assertTrue(first.endswith("1 wrong"), first)
            self.assertTrue(second.startswith("  allocation 3: " + wanted), second)
            self.assertEqual(last, "    refused in the function at 48")

    def test_a_disk_that_is_not_taken_is_an_end_over_files_alone(self):
        over_files = refusals.scenarios(False)["a slow commit over files"]
        with tempfile.TemporaryDirectory() as folder:
            self.assertEqual(over_files.given(folder)[-2:], ["--disks", over_files.folder])
        untaken = refusals.Ended(6, "", refusals.UNTAKEN.format(over_files.folder, 1), 8, 1, [])
        self.assertEqual(refusals.end_of(over_files, untaken), ("status 6", None))
        for one, ended in [(over_files, untaken._replace(said=refusals.UNTAKEN.format(over_files.folder, 2))),
                           (refusals.scenarios(False)["a slow commit"], untaken)]:
            self.assertEqual(refusals.end_of(one, ended)[0], "wrong")

    def test_a_program_that_never_plays_is_told(self):
        status, told = self.refuse(lambda nth, come: (1, "", "no"), "a slow commit")
        self.assertEqual(status, True)
        self.assertIn("\n  without refusals: status 1, said 'no'", told)

    def test_wrong_words(self):
        with mock.patch("sys.stderr"):
            for words in ["another"], ["--each", "0"]:
                self.assertEqual(self.refuse(right, *words)[0], 2)


class Wants(unittest.TestCase):
    def test_what_a_call_and_a_restart_leave(self):
        one = refusals.Played(refusals.rows.a_stop_at_the_gate(1, 3).made)
        report = refusals.played(one.scenario, [{1: "-", 4: "-"}], iter([True])).text()
        self.assertIn("\ne 2 0 call:0:start reply:00000002e00d - - - - 0\n", report)
        self.assertIsNone(one.wrong(report))
        self.assertIsNotNone(one.wrong(report.replace("e00d", "e009")))

    def test_a_kept_record_is_kept(self):
        one = refusals.Played(refusals.rows.a_stop_at_the_gate(1, 3).made)
        found = next(line.split()[5] for line in one.whole.splitlines() if " restart taken 02" in line)
        report = refusals.played(one.scenario, [{5: found}]).text()
        self.assertIn(f"\ne 6 0 restart memory {found} - - - 0\n", report)
        self.assertIn("site 0 down epoch 1 events 7 records 2 got 1,0 committed 1,0 log 0:1\n", report)
        self.assertIsNone(one.wrong(report))

    def test_calls_that_take_no_memory_never_want_it(self):
        one = refusals.Played(refusals.example("packed_on_restart"))
        abort = next(at for at, line in enumerate(one.whole.splitlines()[3:]) if ":abort " in line)
        self.assertEqual(refusals.played(one.scenario, [{abort: "-"}]).text(), one.whole)

    def test_an_upgrade_that_wants_memory_is_none(self):
        """The next one brings the record then, and from it on the second format is in force."""
        one = refusals.scenarios(False)["upgraded in place"]
        at = next(place for place, entry in enumerate(self.upgraded_site(one, {}).entries) if entry.event == "upgrade")
        site = self.upgraded_site(one, {at: "-"})
        entries = site.entries[at : at + 2]
        self.assertEqual([(entry.outcome, entry.wrote, entry.form) for entry in entries], [("memory", None, 1), ("taken", (FORMAT,), 2)])
        report = refusals.played(one.scenario, [{}, {at: "-"}, {}]).text()
        self.assertIn(" 1 upgrade memory - - - - 0\n", report)
        self.assertIsNone(one.wrong(report))
        self.assertIsNotNone(one.wrong(report.replace(" 1 upgrade taken - 0a02 ", " 1 upgrade taken - - ")))

    def upgraded_site(self, one, wants):
        return refusals.played(one.scenario, [{}, wants, {}]).sites[1]

    def test_runs_by_threads_are_checked_with_their_wants(self):
        from test_threaded import worked

        one = refusals.scenarios(False)["a run of two sites"]
        report = worked(one.scenario, 1).text()
        self.assertIsNone(one.wrong(report))
        self.assertTrue(one.is_whole(report))
        wanting = report.replace(":prepare taken ", f":prepare {refusals.WANT} ", 1)
        self.assertFalse(one.is_whole(wanting))
        self.assertRegex(one.wrong(wanting), r"^line \d+: the model makes of it: e \d+ 0 deliver:1:\d+:prepare memory - - - - 0$")

    def test_a_summary_is_that_of_one_want_at_most(self):
        one = refusals.Load(7, 5)
        self.assertIsNone(one.wrong(one.whole))
        self.assertIsNone(one.wrong(one.summary([{2: "-"}, {}, {}])))
        self.assertIn("no single event", one.wrong(one.whole.replace("refused 0", "refused 9")))


@unittest.skipUnless(shutil.which("gcc"), "there is no gcc")
class Library(unittest.TestCase):
    def test_calls_of_the_program_alone_are_counted(self):
        with tempfile.TemporaryDirectory() as folder:
            library, caller = refusals.library_in(folder), os.path.join(folder, "caller")
            subprocess.run(["gcc", "-fno-builtin", "-o", caller, "-x", "c", "-"], input=CALLER, text=True, check=True)
            program = refusals.Program(caller, folder, library)
            self.assertEqual(program.run([], "")[:5], (0, "11111\n", "", 5, 0))
            for nth in range(1, 6):
                wanted = "".join("0" if at == nth else "1" for at in range(1, 6)) + "\n"
                ended = program.run([], "", nth)
                self.assertEqual(ended[:5], (0, wanted, "", 5, 1))
                self.assertRegex(program.names(ended.callers), "^(main|0x)")
            self.assertEqual(program.run([], "", 3, True)[:5], (0, "11000\n", "", 5, 3))


if __name__ == "__main__":
    unittest.main()
