"""tools/play --shell takes lines one by one, says what comes of each, and takes them back."""

import contextlib
import io
import os
import subprocess
import sys
import unittest
from unittest import mock

from played import InFolder, TOP, file_text, run_tool
import shell

SLOW = os.path.join(TOP, "examples", "slow_commit.script")
HEAD = ["sites 2 tolerated 0", "container 10 regular at 0", "client ann at 0", "client bob at 1"]
BEGUN = [*HEAD, "bob: start", 'bob: write 10:5 "s"', "bob: commit"]
TOLD = ["bob start -> started 1.1.1", 'bob write 10:5 "s" -> done', "bob commit -> deciding 1.1.1; the slow commit 1 begins"]


class Shell(InFolder):
    def typed(self, *lines, words=()):
        """What the shell says of lines, and on standard error, line by line."""
        with mock.patch.object(sys, "stdin", io.StringIO("".join(line + "\n" for line in lines))):
            status, told, wrong = run_tool("play", "--shell", *words)
        self.assertEqual(status, 0)
        return told.splitlines(), wrong.splitlines()

    def test_each_line_says_what_comes_of_it(self):
        self.assertEqual(self.typed(*BEGUN), (TOLD, []))
        told, wrong = self.typed(*BEGUN, "deliver to 0 from 1 PREPARE", "ann: start", "ann: start", "ann: start", "tick 1", "bob: again")
        self.assertEqual(told[3:], [
            "0 <- 1 packet 1 PREPARE 1 of 1.1.1 for 10:5: locks 10:5, votes YES", "ann start -> started 0.1.1",
            "ann start -> refused: one is open", "ann start -> refused: one is open",
            "tick 1 -> to 0: PREPARE 1 of 1.1.1 for 10:5 as packet 2", "not played: bob again in line 13: all calls are made"])
        self.assertEqual(wrong, [])

    def test_a_wrong_line_is_told_and_not_kept(self):
        told, wrong = self.typed("bob: start", *BEGUN[:-1], "bob: comit", "bob: commit", "deliver to 0 from 1 VOTE", "show")
        self.assertEqual(told, [*TOLD, *(f"{place:4} {line}" for place, line in enumerate(BEGUN, 1))])
        self.assertEqual([line[: line.index("wants")] for line in wrong], ['line 1: "bob": ', 'line 7: "comit": ',
                                                                           'line 8: "VOTE": '])

    def test_a_line_is_taken_back(self):
        told, _ = self.typed(*BEGUN, "undo", "bob: abort", "left", "undo", "undo", "undo", *["undo"] * 4, "undo")
        self.assertEqual(told[3:6], ["taken back: bob: commit", "bob abort -> aborted: it was asked for", "nothing is left"])
        self.assertEqual(told[-1], "taken back: sites 2 tolerated 0")
        self.assertEqual(self.typed("undo")[1], ["there is no line to take back"])

    def test_files_are_written(self):
        picture, script = (os.path.join(self.folder, name) for name in ("a.svg", "a.script"))
        told, wrong = self.typed("draw", *BEGUN, f"draw {picture}", f"save {script}", "save", "draw /none/a.svg", "quit", "fly")
        self.assertEqual(told[3:], [f"written: {picture}", f"written: {script}"])
        self.assertEqual(wrong, ["there is nothing to draw yet", "save wants the name of a file", "/none/a.svg: No such file or directory"])
        self.assertTrue(file_text(picture).startswith("<svg"))
        self.assertEqual(file_text(script).splitlines(), BEGUN)
        self.assertEqual(run_tool("play", script)[1].splitlines()[:3], TOLD)

    def test_a_script_stands_in_front(self):
        told, _ = self.typed("ann: start", words=[SLOW])
        self.assertEqual(told[:2], ["bob start -> started 1.1.1", 'bob write 10:5 "s" -> done'])
        self.assertEqual(told[-1], "ann start -> started 0.1.2")
        with mock.patch.object(sys, "stdin", io.StringIO("")):
            self.assertEqual(run_tool("play", "--shell", self.write("a.script", "fly\n"))[0], 2)
            self.assertEqual(run_tool("play", "--shell", "none.script")[0], 3)
            self.assertEqual(run_tool("play", "--shell", SLOW, "--packets")[0], 1)

    def test_names_are_completed(self):
        with contextlib.redirect_stdout(io.StringIO()):
            one = shell.Shell([*BEGUN[:-2], 'bob: write 10:77 "s"'])
        self.assertLessEqual({"ann:", "bob:", "deliver", "undo", "settle"}, set(one.words_for("")))
        self.assertLessEqual({"start", "write", "again", "10:77"}, set(one.words_for("bob: ")))
        self.assertEqual(one.words_for("bob: write "), ["10:77", "10:"])
        self.assertLessEqual({"to", "from", "packet", "PREPARE", "again"}, set(one.words_for("deliver to 0 from 1 ")))
        self.assertEqual(shell.Shell().words_for("fly "), list(shell.scripts.PACKETS))

    def test_help_names_each_command(self):
        told, _ = self.typed("help")
        for command in shell.COMMANDS:
            if command != "help":
                self.assertIn(command, " ".join(told))

    def test_a_script_may_be_piped_in(self):
        ended = subprocess.run([os.path.join(TOP, "tools", "play"), "--shell"], input="\n".join(BEGUN), capture_output=True, text=True)
        self.assertEqual((ended.returncode, ended.stdout.splitlines(), ended.stderr), (0, TOLD, ""))


if __name__ == "__main__":
    unittest.main()
