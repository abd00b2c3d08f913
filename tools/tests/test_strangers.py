"""What is given where something else is wanted is named, and so is the part of a scenario that is wrong: each in one line."""

import json
import os
import unittest

from played import InFolder, TOP, run_tool
import strangers

SLOW = os.path.join(TOP, "examples", "slow_commit.script")
MADE = {"sites": 2, "f": 0, "containers": [], "clients": [[0, "0000000101"]], "steps": []}


def without(key):
    return {name: value for name, value in MADE.items() if name != key}


class Strangers(InFolder):
    def wrong(self, tool, *words):
        """The one line that a tool writes where its words or its files are wrong."""
        status, told, wrong = run_tool(tool, *words)
        self.assertIn(status, (1, 2), (tool, words, wrong))
        self.assertEqual((told, wrong.count("\n")), ("", 1), (tool, words, wrong))
        return wrong[:-1]

    def test_a_file_of_another_kind_is_named(self):
        report = self.write("a.report", run_tool("play", SLOW, "--report")[1])
        history = self.write("a.edn", run_tool("explain", SLOW, report, "--history")[1])
        summary = self.write("a.summary", "load seed 7 calls 3\n")
        empty = self.write("a.script", "\n")
        for path, what in (report, strangers.IS_REPORT), (history, strangers.IS_HISTORY), (summary, strangers.IS_SUMMARY), \
                (empty, strangers.IS_EMPTY), ("/dev/null", strangers.IS_EMPTY):
            for tool, *more in ["play"], ["scenario"], ["scenario", "--back"], ["vary"], ["explain"], ["draw"]:
                self.assertEqual(self.wrong(tool, *more, path), f"{tool}: {path}: {what}")
        scenario = self.write("a.json", json.dumps(MADE))
        self.assertEqual(self.wrong("scenario", scenario), f"scenario: {scenario}: {strangers.IS_SCENARIO}")
        self.assertEqual(self.wrong("scenario", "--back", SLOW), f"scenario: {SLOW}: {strangers.IS_SCRIPT}")
        self.assertIn(": this is no report, but what one may be of", self.wrong("explain", SLOW, SLOW))
        self.assertIn(": this is no report, but what one may be of", self.wrong("draw", SLOW, scenario))

    def test_the_part_of_a_scenario_that_is_wrong_is_named(self):
        for made, part in [
            (without("f"), "it has no f"),
            (without("steps"), "it has no steps"),
            ({"sites": 1}, "it has no f and no containers and no clients and no steps"),
            ({**MADE, "clients": [[2, ""]]}, "its site is 2"),
            ({**MADE, "clients": [["0", ""]]}, 'its site is "0"'),
            ({**MADE, "clients": [[0, ""], [1]]}, "it isn't a list of a site and bytes"),
            ({**MADE, "clients": [[0, 7]]}, "its bytes aren't a text"),
            ({**MADE, "clients": [[0, "000"]]}, "its bytes have 3 digits"),
            ({**MADE, "clients": [[0, "000g"]]}, 'digit 3 of its bytes is "g"'),
            ({**MADE, "clients": [[1, ""]] * 1025}, "site 1 has too many"),
        ]:
            path = self.write("wrong.json", json.dumps(made))
            for tool, *more in ["play"], ["scenario", "--back"]:
                self.assertTrue(self.wrong(tool, *more, path).endswith("; " + part), (part, self.wrong(tool, *more, path)))
        # Of other places the program's own text is enough.
        path = self.write("wrong.json", json.dumps({**MADE, "f": 2}))
        self.assertEqual(self.wrong("play", path), f"play: {path}: f: wants a whole number below sites")

    def test_words_that_are_wrong_are_told_in_a_line(self):
        for tool, *words in [["draw", SLOW, "--from", "x"], ["vary", SLOW, "--jobs", "0"], ["vary", SLOW, "--seeds", "5.."],
                             ["play", "--fly"], ["check", SLOW, "--model", "none"], ["workload"], ["scenario", "--forth"]]:
            self.assertTrue(self.wrong(tool, *words).endswith("; --help tells the words"), words)
        self.assertEqual(run_tool("vary", SLOW, "--seeds", "5", "--jobs", "1")[1].splitlines()[0], f"# 1 runs of {SLOW}, seeds 5 to 5")
        self.assertIn("docs/TOOLS.md", run_tool("scenario", "--help")[1])


if __name__ == "__main__":
    unittest.main()
