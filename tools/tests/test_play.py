"""tools/play plays a script or a scenario, by the model or by a program, and says what happened; and a folder of them."""

import os
import re
import shutil
import signal
import subprocess
import sys
import unittest
import unittest.mock

from played import InFolder, RANDOM, TOP, built_program, by_model, examples, file_text, random_run, run_tool, seconds_of_commands, tool, \
    without_trace

EXAMPLES = os.path.join(TOP, "examples")
SLOW = os.path.join(EXAMPLES, "slow_commit.script")
# A program that plays by the model, and one that ends with a status of its own.
MODEL = f'#!/bin/sh\nshift\nexec {sys.executable} {os.path.join(TOP, "bench", "model.py")} "$@"\n'
ENDS = "#!/bin/sh\nexit 5\n"
# Packets and advances that do nothing, and what is wanting where they come.
WANTING = """sites 3 tolerated 0
container 1 regular at 0
container 2 regular at 1
client ann at 0
client bob at 1
ann: start
ann: write 1:1 "a"
ann: commit
ann: start
ann: write 1:1 "b"
ann: commit
deliver to 1 from 0 packet 3
advance 1 from 0
deliver to 1 from 0 packet 1
advance 1 from 0
deliver to 1 from 0 packet 4
deliver to 1 from 0 packet 2
advance 1 from 0
bob: start
bob: write 2:1 "c"
bob: commit
deliver to 2 from 1 PROPAGATE
deliver to 2 from 1 DSMARK
advance 2 from 1
deliver to 2 from 0 PROPAGATE 1
deliver to 2 from 1 PROPAGATE again
advance 2 from 1
deliver to 2 from 0 PROPAGATE 1 again
stop 2
deliver to 2 from 0 PROPAGATE 2
"""
WANTED = [
    '1 <- 0 packet 3 PROPAGATE 2 of 0.1.2 (write 1:1 "b"): not received: 0@1 isn\'t received here',
    "advance 1 from 0 -> nothing is committed: 0@1 isn't received here",
    "advance 1 from 0 -> nothing is committed: 0@1 isn't durable by the word of site 0",
    "1 <- 0 packet 2 DSMARK 1: nothing new: 2 was said before",
    '2 <- 1 packet 1 PROPAGATE 1 of 1.1.1 (write 2:1 "c"): not received: its cause 0@1 isn\'t received here',
    "advance 2 from 1 -> nothing is committed: 1@1 isn't received here",
    "advance 2 from 1 -> nothing is committed: its cause 0@1 isn't committed here",
    '2 <- 0 packet 1 PROPAGATE 1 of 0.1.1 (write 1:1 "a"): received already',
    '2 <- 0 packet 3 PROPAGATE 2 of 0.1.2 (write 1:1 "b"): site 2 is down',
]


class Play(InFolder):
    def test_a_script_and_a_scenario_are_told_in_words(self):
        expected = file_text(SLOW.replace(".script", ".expect"))
        self.assertEqual(run_tool("play", SLOW), (0, expected, ""))
        names = expected.replace("ann", "client0").replace("bob", "client1")
        self.assertEqual(run_tool("play", SLOW.replace(".script", ".json")), (0, names, ""))
        status, told, _ = run_tool("play", SLOW, "--packets")
        self.assertEqual((status, told.count(" | to ")), (0, 3))

    def test_it_is_a_command(self):
        begun = seconds_of_commands()
        played = subprocess.run([sys.executable, os.path.join(TOP, "tools", "play"), "-"], input=file_text(SLOW),
                                capture_output=True, text=True)
        self.assertEqual((played.returncode, played.stdout), (0, file_text(SLOW.replace(".script", ".expect"))))
        # Half a second where nothing else runs: processor time is more where processors are shared.
        self.assertLess(seconds_of_commands() - begun, 5)

    def test_the_report_and_a_picture(self):
        report = without_trace(by_model(file_text(SLOW.replace(".script", ".json"))).text())
        self.assertEqual(run_tool("play", SLOW, "--report"), (0, report, ""))
        picture = os.path.join(self.folder, "slow.svg")
        self.assertEqual(run_tool("play", SLOW, "--draw", picture)[0], 0)
        self.assertTrue(file_text(picture).startswith("<svg "))
        status, _, wrong = run_tool("play", SLOW, "--draw", os.path.join(self.folder, "none", "slow.svg"))
        self.assertEqual((status, wrong), (4, f"play: {self.folder}/none/slow.svg: No such file or directory\n"))
        status, _, wrong = run_tool("play", os.path.join(EXAMPLES, "ten_thousand_calls.json"), "--draw", picture)
        self.assertIn("where a picture has at most 500", wrong)
        self.assertEqual(status, 2)

    def test_lines_that_are_expected(self):
        expect = SLOW.replace(".script", ".expect")
        self.assertEqual(run_tool("play", SLOW, "--expect", expect), (0, "", ""))
        other = self.write("other.expect", file_text(expect).replace("locks 10:5", "locks 10:6"))
        status, told, wrong = run_tool("play", SLOW, "--expect", other)
        self.assertEqual((status, told), (1, ""))
        self.assertTrue(wrong.startswith(f"play: {SLOW}: line 6 differs\nwanted: 0 <- 1 packet 1 PREPARE"), wrong)

    def test_by_the_program(self):
        program = self.write("program", MODEL, True)
        expected = file_text(SLOW.replace(".script", ".expect"))
        for words in ["--program", program, SLOW], [SLOW, "--program=" + program]:
            self.assertEqual(run_tool("play", *words), (0, expected, ""))
        failing = self.write("failing", ENDS, True)
        self.assertEqual(run_tool("play", SLOW, "--program", failing)[:2], (5, ""))
        self.assertEqual(run_tool("play", SLOW, "--program", "/none")[::2], (9, "play: /none: No such file or directory\n"))
        empty = self.write("empty", "#!/bin/sh\n", True)
        self.assertEqual(run_tool("play", SLOW, "--program", empty)[0], 2)

    def test_the_program_of_this_repository_tells_the_same(self):
        program = built_program()
        if program is None:
            self.skipTest("the program isn't proved and built here")
        for path in examples("expect"):
            self.assertEqual(run_tool("play", path.replace(".expect", ".script"), "--program", program, "--expect", path)[0], 0)

    def test_the_word_behind_program_is_what_is_played(self):
        with unittest.mock.patch.object(tool("play"), "play", lambda given: self.assertEqual(
                (given.file, given.program), (SLOW, os.path.join(TOP, "walter")))):
            run_tool("play", "--program", SLOW)

    def test_a_folder_is_played_as_a_test_runner_does(self):
        status, told, wrong = run_tool("play", EXAMPLES)
        count = len(examples("expect"))
        self.assertEqual((status, told.splitlines()[-1], wrong), (0, f"{count} passed, 0 failed", ""))
        missing = {os.path.basename(path)[:-7] for path in examples("script")} - {
            os.path.basename(path)[:-7] for path in examples("expect")}
        self.assertEqual(missing, {"ten_thousand_calls", "five_thousand_transactions"})

    def test_a_script_of_a_folder_that_fails_is_told(self):
        shutil.copy(SLOW, self.folder)
        self.write("slow_commit.expect", file_text(SLOW.replace(".script", ".expect")).replace("deciding", "dreaming"))
        self.write("wrong.script", "fly\n")
        self.write("wrong.expect", "")
        self.write("none.expect", "")
        shutil.copy(os.path.join(EXAMPLES, "first_run.json"), self.folder)
        self.write("first_run.expect", file_text(os.path.join(EXAMPLES, "first_run.expect")).replace("ann", "client0"))
        status, told, _ = run_tool("play", self.folder)
        self.assertEqual((status, told.splitlines()[-1]), (1, "1 passed, 3 failed"))
        for line in ("first_run.json: passed", "slow_commit.script: failed", "wrong.script: failed", "none.script: failed"):
            self.assertIn(f"{self.folder}/{line}\n", told)
        self.assertIn("line 3 differs\nwanted: bob commit -> dreaming 1.1.1", told)
        self.assertIn('wrong.script, line 1: "fly": wants sites N tolerated F first', told)

    def test_what_is_wrong_is_told_with_its_status(self):
        script = self.write("wrong.script", 'sites 1 tolerated 0\nclient ann at 0\nann: write 1:5 "a\nfly\n')
        for words, status, said in [
            ([script], 2, f'play: {script}, line 3: "a: wants a text that ends: "..."\n{script}, line 4: "fly": wants one of '),
            ([self.write("empty.script", "")], 2, f"play: {self.folder}/empty.script: it is empty: wants a script or a scenario\n"),
            ([self.write("wrong.json", '{"sites":9}')], 2, f"play: {self.folder}/wrong.json: the keys: wants sites, f"),
            ([self.write("broken.json", "{")], 2, f"play: {self.folder}/broken.json: the text is no JSON: line 1, column 1\n"),
            (["none.script"], 3, "play: none.script: No such file or directory\n"),
            ([self.folder], 0, None),
            ([], 1, "play: wants the path of what is to be played; --help tells the words\n"),
            (["--fly"], 1, "play: unrecognized arguments: --fly; --help tells the words\n"),
            ([EXAMPLES, "--packets"], 1, "play: a folder is played without --packets; --help tells the words\n"),
            ([SLOW, "--expect", "none.expect"], 3, "play: none.expect: No such file or directory\n"),
        ]:
            if said:
                found = run_tool("play", *words)
                self.assertEqual((found[0], found[2][: len(said)]), (status, said))
        self.assertEqual(run_tool("play", self.folder)[0], 3)

    def test_a_full_output_and_a_closed_one_are_no_traceback(self):
        words = [sys.executable, os.path.join(TOP, "tools", "play"), SLOW]
        with open("/dev/full", "w", encoding="utf-8") as full:
            ended = subprocess.run(words, stdout=full, stderr=subprocess.PIPE, text=True)
        self.assertEqual((ended.returncode, ended.stderr),
                         (4, "play: standard output could not be written to its end: No space left on device\n"))
        ended = subprocess.run(["sh", "-c", 'exec "$@" >&- 2>&-', "sh", *words])
        self.assertEqual(ended.returncode, 4)

    def test_what_does_nothing_says_what_is_wanting(self):
        told = run_tool("play", self.write("wanting.script", WANTING))[1].splitlines()
        self.assertEqual([line for line in told if line in WANTED], WANTED)

    def test_whatever_does_nothing_says_what_is_wanting(self):
        """Of random runs: each advance, and each packet that isn't answered; and no cause is told that isn't one."""
        for seed in RANDOM[:100]:
            for moment in random_run(seed)[1].moments:
                word = moment.entry.event[0]
                if moment.entry.outcome[0] == "passed" and (word == "advance" or word == "deliver" and not moment.sends):
                    self.assertNotIn(moment.wanting, (None, "the catalog lacks what it changes"))

    def test_a_file_that_changes_is_played_again(self):
        script = self.write("again.script", file_text(SLOW))
        words = [sys.executable, "-u", os.path.join(TOP, "tools", "play"), "--watch", script]
        # A shell that runs the tests in the background has them ignore interrupts.
        with subprocess.Popen(words, stdout=subprocess.PIPE, stderr=subprocess.PIPE, text=True,
                              preexec_fn=lambda: signal.signal(signal.SIGINT, signal.SIG_DFL)) as watching:
            first = [watching.stdout.readline() for _ in range(10)]
            self.assertEqual("".join(first), file_text(SLOW.replace(".script", ".expect")))
            self.write("again.script", file_text(SLOW) + "fly\n")
            self.assertEqual(watching.stdout.readline(), f"-- {script} has changed\n")
            self.assertTrue(re.match(r'play: .*again.script, line 16: "fly": wants ', watching.stderr.readline()))
            watching.send_signal(signal.SIGINT)
            self.assertEqual((watching.wait(60), watching.stderr.read()), (0, ""))


if __name__ == "__main__":
    unittest.main()
