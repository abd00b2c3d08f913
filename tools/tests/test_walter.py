"""The wrapper ./walter, over a folder with a program of its own and a stand-in for rt: nothing is proved here."""

import os
import shutil
import subprocess
import unittest

from played import InFolder, TOP, file_text, seconds_of_commands

USAGE = ("walter: usage: walter play|run [--trace] [--disks DIR] or walter audit [--disks DIR], with a scenario on "
         "standard input; or walter load --seed N --calls M\n")
SCENARIO = os.path.join(TOP, "examples", "first_run.json")
SCRIPT = os.path.join(TOP, "examples", "first_run.script")
IS_SCRIPT = "walter: this is a script: tools/scenario makes a scenario of it, and tools/play plays it\n"
# Writes its words, and then what it reads.
PROGRAM = '#!/bin/sh\necho "$@"\nexec cat\n'
# Says that it was called. `run` builds that program, and `try` writes what it is given.
RT = """#!/bin/sh
echo "$@" >>"$FOLDER/calls"
case $1 in
  run) mkdir -p out && cp "$FOLDER/program" out/walter ;;
  try) cat "$FOLDER/output" && cat "$FOLDER/said" >&2 ;;
esac
"""
ENDED = "checked: ended status={0}\nraces: not looked for\nrun=ended status={0} runners=1 races=unchecked proved=no\n"
# What the program says of a number that is too large, among the lines of rt.
TOO_LARGE = "error: 20001 is not in 0..=20000\n\nFor more information, try '--help'.\n"
HELP = ("usage: walter [--unproved] play [--trace] [--disks DIR] [FILE]\n       walter [--unproved] run [--trace] [--disks DIR] [FILE]\n"
        "       walter [--unproved] audit [--disks DIR] [FILE]\n       walter [--unproved] load --seed N --calls M\n")
FIRST = "walter: running without a proof, by rt try: this takes about a minute, and so does the next run\n"
# Words of a load in any order and form, and some that are none.
LOADS = [["--seed", "7", "--calls", "20001"], ["--calls", "5", "--seed", "7"], ["--seed=7", "--calls=5"],
         ["--calls=5", "--seed", "18446744073709551616"], ["--seed", "7", "--calls=+05"]]
NO_LOADS = [[], ["--seed", "7"], ["--seed", "7", "--calls"], ["--calls", "7", "--calls", "5"],
            ["--seed", "--calls", "5"], ["--seed", "-7", "--calls", "5"], ["--seed", "7", "--calls", "many"], ["--seed", "7", "--calls", ""],
            ["--seed=7", "--calls=5", "--seed=7"], ["--seed=7=7", "--calls=5"], ["--seed 7", "--calls 5"],
            ["7", "5"], ["--seed", "7", "--calls", "5", "--trace"], ["--seed", "7", "--calls", "5", "a"],
            ["--seed", "7", "--calls", "5\n6"]]
WRONG_WORDS = [[], ["runs"], *([word, *words] for word in ("play", "run")
                              for words in (["--fast"], ["--trace", "--trace"], ["a", "b"], [""], ["--disks"], ["--disks="],
                                            ["--disks", "--trace"], ["--disks", "a", "--disks=b"])),
               ["--help", "play"], ["--unproved"], ["--unproved", "run", "--fast"], ["--trace", "play"],
               ["audit", "--trace"], ["audit", "a", "b"], ["audit", "--disks"], ["audit", "--disks", "a", "--disks=b"],
               ["loads", "--seed", "7", "--calls", "5"], *(["load", *words] for words in NO_LOADS),
               *(["--unproved", "load", *words] for words in NO_LOADS)]
TOO_MUCH = "checked: no-answer: it wrote too much\nrun=no-answer proved=no\n"


class Walter(InFolder):
    def setUp(self):
        super().setUp()
        os.makedirs(os.path.join(self.folder, "crates", "walter", "src"))
        shutil.copy(os.path.join(TOP, "walter"), self.folder)
        self.write("crates.txt", "walter:\n")
        self.write("crates/walter/src/main.rt", "fn main() {}\n")
        self.write("program", PROGRAM, True)
        self.write("rt", RT, True)
        self.environment = {**os.environ, "FOLDER": self.folder, "PATH": self.folder + ":" + os.environ["PATH"], "LC_ALL": "C"}

    def answers(self, output, said):
        self.write("output", output)
        self.write("said", said)

    def run_it(self, *words, **more):
        more = {"stdin": subprocess.DEVNULL, "stdout": subprocess.PIPE, **more}
        if "input" in more:
            del more["stdin"]
        ended = subprocess.run([os.path.join(self.folder, "walter"), *words], stderr=subprocess.PIPE, encoding="utf-8",
                               env=self.environment, timeout=900, **more)
        return ended.returncode, ended.stdout, ended.stderr

    def calls(self):
        path = os.path.join(self.folder, "calls")
        return file_text(path) if os.path.exists(path) else ""

    def test_what_asks_for_no_run_is_answered_at_once(self):
        for words in WRONG_WORDS:
            with self.subTest(words):
                self.assertEqual(self.run_it(*words), (1, "", USAGE))
        self.assertEqual(self.calls(), "")

    def test_help_and_the_version_are_said_at_once(self):
        for words, begins in [(["--help"], HELP), (["play", "--help"], HELP), (["run", "--help"], HELP),
                              (["audit", "--help"], HELP), (["load", "--help"], HELP), (["--unproved", "--help"], HELP),
                              (["--version"], "walter of the sources ")]:
            begun = seconds_of_commands()
            status, said, wrong = self.run_it(*words)
            self.assertEqual((status, wrong, said[: len(begins)]), (0, "", begins))
            self.assertLess(seconds_of_commands() - begun, 5)
        self.assertTrue(all(len(line) <= 120 for line in self.run_it("--help")[1].splitlines()))
        with open("/dev/full", "w", encoding="utf-8") as full:
            self.assertEqual(self.run_it("--help", stdout=full)[::2],
                             (4, "walter: the text could not be written to its end\n"))
        self.assertEqual(self.calls(), "")

    def test_a_file_that_is_not_there_is_named(self):
        for path, why in ("none.json", "No such file or directory"), (self.folder, "Is a directory"):
            for words in (["play", path], ["play", "--trace", path], ["--unproved", "play", path], ["run", path],
                          ["audit", path]):
                self.assertEqual(self.run_it(*words), (3, "", f"walter: {path}: {why}\n"))
        self.assertEqual(self.calls(), "")

    def test_a_script_is_told_what_plays_it(self):
        with open(SCRIPT, encoding="utf-8") as script:
            self.assertEqual(self.run_it("play", stdin=script), (2, "", IS_SCRIPT))
        self.assertEqual(self.run_it("play", SCRIPT), (2, "", IS_SCRIPT))
        self.assertEqual(self.run_it("run", SCRIPT), (2, "", IS_SCRIPT))
        self.assertEqual(self.run_it("audit", SCRIPT), (2, "", IS_SCRIPT))
        self.assertEqual(self.run_it("--unproved", "play", "--trace", input=file_text(SCRIPT)), (2, "", IS_SCRIPT))
        self.assertEqual(self.run_it("play", input="\n\n  sites 1 tolerated 0\n"), (2, "", IS_SCRIPT))
        self.assertEqual(self.calls(), "")

    def test_a_file_is_played_as_standard_input_is(self):
        status, played, said = self.run_it("play", SCENARIO)
        self.assertEqual((status, played), (0, "play\n" + file_text(SCENARIO)))
        self.assertIn("about half an hour to an hour on four processors", said)
        with open(SCENARIO, encoding="utf-8") as scenario:
            self.assertEqual(self.run_it("play", stdin=scenario), (0, played, ""))
        self.assertEqual(self.run_it("play", input=file_text(SCENARIO)), (0, played, ""))
        self.assertEqual(self.run_it("play", SCENARIO, "--trace"), (0, "play --trace\n" + file_text(SCENARIO), ""))
        self.assertEqual(self.run_it("run", SCENARIO), (0, "run\n" + file_text(SCENARIO), ""))
        self.assertEqual(self.run_it("run", "--trace", input=file_text(SCENARIO)),
                         (0, "run --trace\n" + file_text(SCENARIO), ""))
        self.assertEqual(self.run_it("audit", SCENARIO, "--disks", "a b"),
                         (0, "audit --disks=a b\n" + file_text(SCENARIO), ""))
        self.assertEqual(self.calls(), "run\n")
        self.assertIn("proved and built here", self.run_it("--version")[1])

    def test_a_load_goes_to_the_program_as_it_is(self):
        self.run_it("play", SCENARIO)
        for words in LOADS:
            for stdin in subprocess.DEVNULL, None:
                closing = {"preexec_fn": lambda: os.close(0)} if stdin is None else {}
                came = self.run_it("load", *words, stdin=stdin, **closing)
                self.assertEqual(came, (0, f"load {' '.join(words)}\n", ""))
        self.assertEqual(self.calls(), "run\n")

    def test_a_load_is_proved_first_too(self):
        status, played, said = self.run_it("load", *LOADS[1])
        self.assertEqual((status, played), (0, "load --calls 5 --seed 7\n"))
        self.assertIn("the program is proved and built first", said)
        self.assertEqual(self.calls(), "run\n")

    def test_a_load_leaves_standard_input_as_it_is(self):
        self.answers("the summary\n", ENDED.format(0))
        for words in ["load", *LOADS[0]], ["--unproved", "load", *LOADS[0]]:
            with open(SCENARIO, encoding="utf-8") as scenario:
                self.assertEqual(self.run_it(*words, stdin=scenario)[0], 0)
                self.assertEqual(os.lseek(scenario.fileno(), 0, os.SEEK_CUR), 0)
            read, written = os.pipe()
            os.write(written, b"left")
            self.assertEqual(self.run_it(*words, stdin=read)[0], 0)
            self.assertEqual(os.read(read, 9), b"left")
            os.close(read)
            os.close(written)

    def test_an_unproved_load_ends_as_the_program_did(self):
        self.answers("the summary\n", ENDED.format(0))
        self.assertEqual(self.run_it("--unproved", "load", *LOADS[2]), (0, "the summary\n", FIRST))
        self.assertEqual(self.calls(), "try -- load --seed=7 --calls=5\n")
        closed = self.run_it("--unproved", "load", *LOADS[2], stdin=None, preexec_fn=lambda: os.close(0))
        self.assertEqual(closed, (0, "the summary\n", FIRST))
        self.answers("", "rt: chose --jobs 2 for walter\n" + TOO_LARGE + ENDED.format(1))
        self.assertEqual(self.run_it("--unproved", "load", *LOADS[0]), (1, "", FIRST + TOO_LARGE))
        self.answers("", "walter: out of memory\n" + ENDED.format(5))
        self.assertEqual(self.run_it("--unproved", "load", *LOADS[0]), (5, "", FIRST + "walter: out of memory\n"))

    def test_where_nothing_can_be_proved_the_status_says_so(self):
        self.write("rt", "#!/bin/sh\nexit 1\n", True)
        self.assertEqual(self.run_it("play", SCENARIO)[:2], (9, ""))
        os.remove(os.path.join(self.folder, "rt"))
        self.environment["PATH"] = os.pathsep.join(part for part in os.environ["PATH"].split(os.pathsep)
                                                   if not os.path.exists(os.path.join(part, "rt")))
        for words, status in (["play", SCENARIO], 9), (["--unproved", "play", SCENARIO], 10):
            found = self.run_it(*words)
            self.assertEqual(found[:2], (status, ""))
            self.assertIn("the command rt is not on the path", found[2])

    def test_unproved_ends_as_the_program_did(self):
        self.answers("the report\n", ENDED.format(0))
        self.assertEqual(self.run_it("--unproved", "play", SCENARIO), (0, "the report\n", FIRST))
        self.assertEqual(self.run_it("--unproved", "run", SCENARIO), (0, "the report\n", FIRST))
        self.assertEqual(self.calls(), "try -- play\ntry -- run\n")
        self.answers("", "walter: the scenario is none\n" + ENDED.format(2))
        self.assertEqual(self.run_it("--unproved", "play", SCENARIO), (2, "", FIRST + "walter: the scenario is none\n"))

    def test_unproved_has_a_status_where_there_is_no_answer(self):
        self.answers("half a report", TOO_MUCH)
        status, played, said = self.run_it("--unproved", "play", "--trace", SCENARIO)
        self.assertEqual((status, played, said.splitlines()[1:]), (10, "", ["walter: no answer: it wrote too much"]))
        self.answers("the report\n", ENDED.format(0))
        closed = self.run_it("--unproved", "play", stdin=None, preexec_fn=lambda: os.close(0))
        self.assertEqual((closed[0], closed[2].splitlines()[1:]), (10, ["walter: no answer: standard input is closed"]))
        with open("/dev/full", "w", encoding="utf-8") as full:
            status, _, said = self.run_it("--unproved", "play", SCENARIO, stdout=full)
        self.assertEqual((status, said.splitlines()[1:]),
                         (10, ["walter: no answer: the output could not be written to its end"]))
        self.answers("", "error: the crate is refused\nrun=none proved=no\n")
        status, _, said = self.run_it("--unproved", "play", SCENARIO)
        self.assertEqual((status, said.splitlines()[1:]), (10, ["walter: no answer: error: the crate is refused"]))

    def test_the_wrapper_of_this_repository_answers_at_once(self):
        begun = seconds_of_commands()
        for word in "--help", "--version":
            self.assertEqual(subprocess.run([os.path.join(TOP, "walter"), word], capture_output=True).returncode, 0)
        self.assertLess(seconds_of_commands() - begun, 10)


if __name__ == "__main__":
    unittest.main()
