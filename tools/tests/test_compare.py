"""What bench/compare.py plays: of several sites alone those that their seeds make, without the others; and loads, by a program."""

import contextlib
import io
import os
import sys
import unittest
from collections import Counter
from unittest import mock

from played import InFolder, TOP, random_scenario, run_bench
import audit
import changes
import compare
import ends
import model

MODEL = f'#!/bin/sh\nexec {sys.executable} {os.path.join(TOP, "bench", "model.py")} "$@"\n'
# Refuses a scenario with areas, room or a format, and hands on any other.
REFUSING = """read -r line
case $line in *'"areas"'* | *'"room"'* | *'"format"'*) exit 2 ;; esac
echo "$line" |"""


def run_compare(*words):
    """The status or the fault of bench/compare.py, and the last line that it wrote."""
    out = io.StringIO()
    with mock.patch.object(sys, "argv", ["compare.py", *words]), contextlib.redirect_stdout(out):
        try:
            return compare.main(), out.getvalue().splitlines()[-1]
        except SystemExit as end:
            return end.code, out.getvalue()


class Compare(InFolder):
    def test_of_several_sites_alone(self):
        made = list(compare.made_from(3, 30, True))
        self.assertEqual(len(made), 30)
        seeds = range(3, made[-1][0] + 1)
        self.assertEqual(made, [(seed, random_scenario(seed)) for seed in seeds if random_scenario(seed)["sites"] > 1])

    def test_a_program_that_refuses_keys_is_compared_without_them(self):
        playing = MODEL.replace("exec", "shift\nexec")
        newer = self.write("program", playing, is_program=True)
        older = self.write("older", playing.replace("exec", REFUSING), is_program=True)
        for key in "areas", "room", "format":
            self.assertEqual([compare.knows(program, key) for program in (newer, older)], [True, False])
        out = run_bench(compare, "--program", older, "--scenarios", "2", "--seed", "1", "--loads", "0")[1].splitlines()
        self.assertEqual([*out[:3], out[-1]], ["the program refuses the key areas: no scenario has it",
                                               "the program refuses the key room: no scenario has it",
                                               "the program refuses the key format: no scenario has it",
                                               "2 scenarios from seed 1: the same"])
        out = run_bench(compare, "--model", "--one-area", "--scenarios", "2", "--loads", "0")[1]
        self.assertNotIn("pack into", out)

    def test_random_scenarios_have_a_room_unless_none_is_asked_for(self):
        some, alone = ([made for _, made in compare.made_from(0, 60, False, True, room)] for room in (True, False))
        self.assertEqual({made.get("room") for made in some}, {None, 0, 1, 20, 100000})
        self.assertFalse(any("room" in made for made in alone))
        self.assertEqual([{key: value for key, value in made.items() if key != "room"} for made in some], alone)

    def test_random_scenarios_have_formats_unless_none_are_asked_for(self):
        some, alone = ([made for _, made in compare.made_from(0, 60, False, True, True, formats)] for formats in (True, False))
        self.assertEqual({made.get("format") for made in some}, {None, 1, 2})
        self.assertTrue(any(step[0] == "upgrade" for made in some for step in made["steps"]))
        self.assertFalse(any("format" in made or ["upgrade", 0] in made["steps"] for made in alone))
        met = Counter()
        for made in some:
            compare.count_met(model.played(made, met), met)
        self.assertTrue(all(met[what] for what in compare.FORMATS if what.startswith("upgrade")), met)

    def test_of_any_number_of_sites(self):
        self.assertEqual(list(compare.made_from(3, 5, False)), [(seed, random_scenario(seed)) for seed in range(3, 8)])

    def test_loads_are_played_by_the_program(self):
        program = self.write("program", MODEL, is_program=True)
        self.assertEqual(run_compare("--program", program, "--scenarios", "0", "--loads", "4"),
                         (None, "0 scenarios from seed 0 and 4 loads: the same"))
        self.assertEqual(run_compare("--model", "--scenarios", "2", "--loads", "0"),
                         (None, "2 scenarios from seed 0: played by the model"))

    def test_a_load_that_differs_is_told(self):
        program = self.write("program", MODEL.replace('"$@"', '"$@" | sed s/records/recorded/'), is_program=True)
        status, told = run_compare("--program", program, "--scenarios", "0", "--loads", "1")
        self.assertRegex(status, r"^load of seed \d+ with \d+ calls, status 0\nplayed: site 0 .* recorded .*\nmodel:  site 0 .* records ")
        self.assertEqual(told, "")


class Audits(unittest.TestCase):
    def audited(self, changed, program=None):
        audits = compare.Audits(program, changed)
        for seed in range(8):
            made = random_scenario(seed)
            audits.of(f"seed {seed}", made, model.played(made, Counter()))
        return audits

    def test_of_each_kind_of_change_it_is_said_what_came_of_it(self):
        audits = self.audited(4)
        first, *lines = audits.lines()
        self.assertEqual(first, "audits: 8 runs left journals of a legal history")
        for kind, line in zip(changes.CHANGES, lines, strict=True):
            self.assertRegex(line, rf"^with {kind}: \d+ yes, \d+ no( \((\w+ [1-9]\d*(, )?)+\))?$")
        self.assertEqual(sum(audits.met.values()), 8 * 4)
        self.assertGreater(audits.met["a byte changed", "unreadable"], 0)

    def test_another_answer_of_the_program_is_told(self):
        text = "audit yes sites 1 lines 0"
        played = compare.Audits(None, 0).played
        for come, said in [((ends.DONE, "", f"{text}\n"), f"status 0, {text}"),
                           ((ends.NO_MEMORY, "out of memory", ""), "status 5, out of memory")]:
            with mock.patch.object(audit, "of_program", lambda *words, come=come: come), \
                 mock.patch.object(compare.Audits, "played", lambda audits, *words: played(*words)), \
                 self.assertRaises(SystemExit) as end:
                self.audited(1, "program")
            self.assertTrue(end.exception.code.startswith(f"seed 0, what it left\naudit: {said}\nmodel: status 0, "))

    def test_a_program_without_audits_is_asked_for_none(self):
        program = os.path.join(TOP, "bench", "model.py")
        with mock.patch("subprocess.run", lambda *words, **more: mock.Mock(returncode=ends.NOT_AS_ASKED)):
            self.assertFalse(compare.knows_audits(program))
        with mock.patch("subprocess.run", lambda *words, **more: mock.Mock(returncode=ends.NO_JOURNAL)):
            self.assertTrue(compare.knows_audits(program))


if __name__ == "__main__":
    unittest.main()
