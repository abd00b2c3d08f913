"""tools/vary plays a script by random links and stops, counts how the runs come out, and finds a small one that shouldn't."""

import os
import pty
import shutil
import stat
import subprocess
import sys
import tempfile
import unittest
from collections import Counter

from played import TOP, by_model, file_text, run_tool, tool
import scripts
import smaller
import varied

EXAMPLES = os.path.join(TOP, "examples")
SLOW, FRIENDS = (os.path.join(EXAMPLES, name) for name in ("slow_commit.script", "friends_everywhere.script"))
MODEL = f'#!/bin/sh\nshift\nexec {sys.executable} {os.path.join(TOP, "bench", "model.py")} "$@"\n'
SKEW = os.path.join(EXAMPLES, "write_skew.script")
ONE = ["--jobs", "1"]


def steps_of(run, word):
    return sum(step[0] == word for step in run.steps)


class Vary(unittest.TestCase):
    def setUp(self):
        self.folder = tempfile.mkdtemp()
        self.addCleanup(shutil.rmtree, self.folder)

    def test_each_seed_is_a_run_of_its_own(self):
        script = scripts.read_script(file_text(FRIENDS))
        made = set()
        for seed in range(20):
            run = varied.Varied(script, seed, varied.Link(100, 100, 300, 2))
            run.play()
            again = varied.Varied(script, seed, varied.Link(100, 100, 300, 2))
            again.play()
            self.assertEqual(run.steps, again.steps)
            made.add(str(run.steps))
            self.assertEqual((steps_of(run, "stop"), steps_of(run, "call")), (2, 12))
            self.assertTrue(all(site.up for site in run.run.sites))
        self.assertEqual(len(made), 20)

    def test_a_varied_run_is_a_script(self):
        """What the link did stands in lines that come to the same steps, and the model plays these to the same answers."""
        for path in FRIENDS, SLOW, os.path.join(EXAMPLES, "locks_outlive_a_stop.script"):
            script = scripts.read_script(file_text(path))
            for seed in range(20):
                run = varied.Varied(script, seed, varied.Link(200, 200, 200, 1))
                run.play()
                back = scripts.read_script(varied.script_text(run.laid_out()))
                self.assertEqual(back.steps, run.steps)
                self.assertEqual(by_model(scripts.text_of(back.scenario())).replies, run.run.replies)

    def test_the_link_loses_and_repeats(self):
        script = scripts.read_script(file_text(FRIENDS))
        for link, ticks in (varied.Link(), 0), (varied.Link(lose=300), 1):
            run = varied.Varied(script, 1, link)
            run.play()
            self.assertGreaterEqual(steps_of(run, "tick"), ticks)
            self.assertEqual(run.answers()[-1][1], "bob setread 30:1 -> {7: 1}")
        twice = varied.Varied(script, 1, varied.Link(repeat=1000))
        twice.play()
        delivered = [tuple(step) for step in twice.steps if step[0] == "deliver"]
        self.assertGreater(len(delivered), len(set(delivered)))

    def test_all_runs_come_out_the_same(self):
        words = [FRIENDS, "--seeds", "3..42", "--lose", "100", "--repeat", "100", "--swap", "300"]
        wanted = f"# 40 runs of {FRIENDS}, seeds 3 to 42\n# 40: all the same\n"
        self.assertEqual(run_tool("vary", *words, *ONE), (0, wanted, ""))
        expected = run_tool("vary", *words, *ONE, "--expect", FRIENDS.replace(".script", ".expect"))
        self.assertEqual(expected, (0, wanted.replace("42\n", "42: 40 as expected, 0 not\n", 1), ""))

    def test_many_processes_tell_the_same_as_one(self):
        words = [SLOW, "--seeds", "0..49", "--lose", "200"]
        self.assertEqual(run_tool("vary", *words, "--jobs", "3"), run_tool("vary", *words, *ONE))

    def test_runs_that_come_out_otherwise_are_counted(self):
        status, told, _ = run_tool("vary", SLOW, "--lose", "200", *ONE)
        counts = [int(line.split(":")[0][2:]) for line in told.splitlines()[1:]]
        self.assertEqual((status, sum(counts)), (0, 100))
        self.assertEqual(counts, sorted(counts, reverse=True))
        self.assertTrue(all("line 13: ann commit -> " in line and "bob commit -> " in line for line in told.splitlines()[1:]))

    def test_of_many_answers_that_differ_the_first_are_told(self):
        counts = Counter({tuple((at, f"a {at} {way}") for at in range(5)): 9 - way for way in range(2)})
        self.assertEqual(list(tool("vary").ways(counts)), [
            "9: line 0: a 0 0; line 1: a 1 0; line 2: a 2 0", "8: line 0: a 0 1; line 1: a 1 1; line 2: a 2 1",
            "they differ in 2 answers more, behind these"])

    def test_the_smallest_script_with_an_anomaly(self):
        status, told, _ = run_tool("vary", SKEW, "--check", "serializable", "--seeds", "0..9", *ONE)
        self.assertEqual((status, told.splitlines()[0]), (1, "# Write skew (what is left of: Two doctors are on call, and each goes home "
                                                             "where the other stays: both read the same state, and both go.)"))
        self.assertIn("# wanted: serializable\n# came:   write skew, a cycle of 2 transactions:\n", told)
        self.assertLessEqual(told.split("\n\n")[2].count("\n"), 8)
        path = os.path.join(self.folder, "skew.script")
        with open(path, "w", encoding="utf-8") as file:
            file.write(told)
        self.assertEqual(run_tool("check", path, "--model", "si")[0], 0)
        self.assertIn("write skew, a cycle of 2 transactions:\n", run_tool("check", path, "--model", "serializable")[1])
        self.assertEqual(run_tool("vary", SKEW, "--check", "psi", "--lose", "200", "--stops", "1", "--seeds", "0..9", *ONE)[0], 0)

    def test_the_smallest_script_still_breaks_the_expectation(self):
        status, told, _ = run_tool("vary", SLOW, "--lose", "200", *ONE, "--expect", SLOW.replace(".script", ".expect"))
        self.assertEqual(status, 1)
        came = next(line for line in told.splitlines() if line.startswith("# came: "))[len("# came:   ") :]
        # All of it is a script, which comes to that.
        script = scripts.read_script(told)
        run = smaller.played(script, script.items)
        self.assertIn(came, [words for _, words in run.answers()])
        # None of what the link did can be left out of it.
        for item in script.items:
            if not smaller.is_of_client(item):
                less = smaller.played(script, [one for one in script.items if one is not item])
                self.assertNotIn(came, [words for _, words in less.answers()])

    def test_clients_that_have_no_part_in_it_are_left_out(self):
        more = file_text(FRIENDS).replace("client cat", "client dan at 2\nclient cat").replace("settle", "dan: start\nsettle")
        path = os.path.join(self.folder, "more.script")
        with open(path, "w", encoding="utf-8") as file:
            file.write(more)
        status, told, _ = run_tool("vary", path, "--stops", "1", *ONE, "--seeds", "0..30",
                                   "--check", 'grep -q "bob setread 30:1 -> {7: 1}"')
        self.assertEqual(status, 1)
        script = scripts.read_script(told)
        self.assertNotIn("dan", script.numbers)
        self.assertIn("came:   another status", told)
        run = smaller.played(script, script.items)
        self.assertNotIn("bob setread 30:1 -> {7: 1}", [words for _, words in run.answers()])

    def test_areas_that_have_no_part_in_it_are_left_out(self):
        script = scripts.read_script(file_text(os.path.join(EXAMPLES, "packed_on_restart.script")))
        for broken, areas in ("-> refused: the journal needs 123 bytes", 2), ("ann commit -> committed 0@1", None):
            search = smaller.Search(script, smaller.played(script, script.items),
                                    lambda run: any(broken in words for _, words in run.answers()), lambda run: True)
            found = search.smallest()
            self.assertEqual(found.areas, areas)
            self.assertEqual("areas" in varied.script_text(found), areas == 2)
            self.assertNotIn("stop 0", varied.script_text(found))
        path = os.path.join(self.folder, "slow.script")
        with open(path, "w", encoding="utf-8") as file:
            file.write(file_text(SLOW).replace("sites 2 tolerated 0", "sites 2 tolerated 0\ncapacity 9999\nareas 2\nroom 7"))
        status, told, _ = run_tool("vary", path, "--lose", "200", *ONE, "--expect", SLOW.replace(".script", ".expect"))
        self.assertEqual((status, "\ncapacity 9999\n" in told, "areas" in told, "room" in told), (1, True, False, False))

    def test_by_the_program(self):
        program = os.path.join(self.folder, "program")
        with open(program, "w", encoding="utf-8") as file:
            file.write(MODEL)
        os.chmod(program, os.stat(program).st_mode | stat.S_IXUSR)
        words = [SLOW, "--seeds", "0..1", *ONE]
        self.assertEqual(run_tool("vary", *words, "--program", program), run_tool("vary", *words))
        with open(program, "w", encoding="utf-8") as file:
            file.write("#!/bin/sh\nexit 5\n")
        self.assertEqual(run_tool("vary", *words, "--program", program)[:2], (5, ""))

    def test_a_bar_stands_where_standard_error_is_a_terminal(self):
        bar = tool("vary").with_bar
        self.assertEqual(list(bar(iter("abc"), 3)), list("abc"))
        here, there = pty.openpty()
        words = [sys.executable, os.path.join(TOP, "tools", "vary"), FRIENDS, "--seeds", "1..3"]
        ended = subprocess.run(words, stdout=subprocess.PIPE, stderr=there, text=True)
        os.close(there)
        self.assertEqual(ended.returncode, 0)
        self.assertIn("] 2 of 3", os.read(here, 4096).decode())
        os.close(here)

    def test_wrong_words_are_told(self):
        for words, status, said in [
            ([], 1, "vary: wants the path of what is to be played; --help tells the words\n"),
            ([SLOW, "--seeds", "9..3"], 1, "vary: argument --seeds: '9..3': wants A..B"),
            ([SLOW, "--lose", "1001"], 1, "vary: argument --lose: '1001': wants a whole number to 1000"),
            ([SLOW, "--expect", "a", "--check", "b"], 1, "vary: argument --check: not allowed with argument --expect"),
            ([SLOW, "--expect", "none"], 3, "vary: none: No such file or directory\n"),
            (["none.script"], 3, "vary: none.script: No such file or directory\n"),
            ([os.path.join(TOP, "README.md")], 2, f"vary: {TOP}/README.md, line 3: "),
            ([SLOW, "--seeds", "1", "--check", "no-such-command-here"], 1, "vary: seed 1: --check: the command can't be run"),
        ]:
            found = run_tool("vary", *words)
            self.assertEqual((found[0], found[1], found[2][: len(said)]), (status, "", said))


if __name__ == "__main__":
    unittest.main()
