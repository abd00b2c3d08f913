"""README.md and docs/ say what is so: commands that need no proof come to the lines beside them, and pictures are as they are drawn."""

import glob
import os
import re
import subprocess
import tempfile
import unittest

from played import TOP, example_run, file_text
import pictures
import reports
import words

README = file_text(os.path.join(TOP, "README.md"))
BLOCK = re.compile(r"^```\n(.*?)^```\n", re.DOTALL | re.MULTILINE)
COMMAND = re.compile(r"^    ((?:tools|bench|python3 bench)/.*)$", re.MULTILINE)
PACKET_ROW = re.compile(r"^\| ([A-Z]+) n \|", re.MULTILINE)


def run(command, folder):
    """What a command writes and its status, in a folder that has the repository's own beside it."""
    made = subprocess.run(["bash", "-c", command], cwd=folder, capture_output=True, text=True, timeout=900)
    return made.returncode, made.stdout, made.stderr


def with_folders(folder):
    """The parts of the repository that commands name."""
    for name in ("tools", "bench", "examples", "docs", "walter"):
        os.symlink(os.path.join(TOP, name), os.path.join(folder, name))


class Readme(unittest.TestCase):
    def test_it_is_short(self):
        self.assertLessEqual(README.count("\n"), 200)

    def test_its_commands_come_to_its_lines(self):
        lines, script = BLOCK.findall(README)
        one_minute, *kept = COMMAND.findall(README)
        if "proved and built" not in run("./walter --version", TOP)[1]:
            # Between a change of the sources and the next dist/ the model says the same.
            one_minute = one_minute.replace(" --program", "")
        with tempfile.TemporaryDirectory() as folder:
            with_folders(folder)
            self.assertEqual(run(one_minute, folder), (0, lines, ""))
            with open(os.path.join(folder, one_minute.split()[-1]), encoding="utf-8") as drawn:
                self.assertEqual(drawn.read(), file_text(os.path.join(TOP, "docs", "pictures", "slow_commit.svg")))
            os.mkdir(os.path.join(folder, "mine"))
            with open(os.path.join(folder, "mine", "first.script"), "w", encoding="utf-8") as file:
                file.write(script)
            self.assertEqual([run("set -o pipefail; " + command, folder)[::2] for command in kept], [(0, "")] * 3)
            self.assertEqual(run(kept[0], folder)[1].splitlines()[0], "the load of seed 7: 2,000 calls")
            self.assertEqual(run(kept[-1], folder)[1], "mine/first.script: passed\n1 passed, 0 failed\n")
            self.check_first_script(file_text(os.path.join(folder, "mine", "first.expect")))

    def check_first_script(self, lines):
        """It has a slow commit, a lost packet and its repair, and comes to what its comments say."""
        for line in ["bob commit -> deciding 1.1.1", "tick 1 -> to 0: PREPARE 1 of 1.1.1 for 10:5 as packet 2",
                     "1 <- 0 packet 1 VOTE 1 YES: committed 1@1", 'ann read 10:5 -> "s"', "bob level 1.1.1 -> level 5: visible",
                     "never delivered: 0 <- 1 packet 1 PREPARE 1 of 1.1.1 for 10:5"]:
            self.assertIn(line, lines.splitlines())

    def test_its_words_are_those_of_the_wrapper(self):
        known = run("./walter --help", TOP)[1]
        commands = re.findall(r"\./walter ((?:--unproved )?(?:play|run|load)[^`\n]*?)(?:`|\n|  | \|)", README)
        self.assertTrue({"play examples/first_run.json", "--unproved play X", "run --trace examples/threaded_run.json", "load --seed 7 --calls 20000"} <= set(commands))
        for word in set(re.findall(r"--[a-z]+", " ".join(commands))):
            self.assertIn(word, known)

    def test_the_table_of_packets_is_whole(self):
        self.assertEqual([kind.lower() for kind in PACKET_ROW.findall(README)], list(reports.PACKETS))
        self.assertEqual(set(words.PACKETS), set(reports.PACKETS))

    def test_each_example_has_a_line(self):
        named = set(re.findall(r"`([a-z_]+)`", README.split("\n## Examples\n")[1].split("\n## ")[0]))
        there = {os.path.basename(path)[: -len(".script")] for path in glob.glob(os.path.join(TOP, "examples", "*.script"))}
        self.assertEqual(there - named, set())

    def test_what_it_names_is_there(self):
        for page in ["README.md", *(f"docs/{name}.md" for name in ("TOOLS", "PROMISES"))]:
            for path in re.findall(r"\b((?:docs|tools|bench|examples|crates)/[A-Za-z_./-]+[A-Za-z_])", file_text(os.path.join(TOP, page))):
                self.assertTrue(os.path.exists(os.path.join(TOP, path)), f"{page}: {path}")

    def test_the_pages_name_words_that_the_tools_have(self):
        page = file_text(os.path.join(TOP, "docs", "TOOLS.md"))
        for tool in ("play", "explain", "draw", "vary", "check", "workload"):
            section = page.split(f"\n## {tool.capitalize()}{'s' * (tool == 'workload')}\n")[1].split("\n## ")[0]
            # Commands of other tools stand in lines of their own.
            said = re.sub(r"(?m)^    .*$", "", section) + " ".join(re.findall(rf"tools/{tool} [^`]*", README))
            _, known, _ = run(f"tools/{tool} --help", TOP)
            for word in set(re.findall(r"(?<![\w-])--[a-z][a-z-]*", said)) - {"--trace", "--help"}:
                self.assertIn(word, known, tool)

    def test_the_commands_of_the_page_of_tools_run(self):
        page = file_text(os.path.join(TOP, "docs", "TOOLS.md"))
        commands = [one for one in COMMAND.findall(page)
                    if not re.search("tools/(vary|check|make-dist)", one) and one != "tools/play examples"]
        self.assertEqual(len(commands), 9)
        with tempfile.TemporaryDirectory() as folder:
            with_folders(folder)
            for command in commands:
                self.assertEqual(run("set -o pipefail; " + command, folder)[::2], (0, ""), command)

    def test_a_workload_is_told_as_the_page_has_it(self):
        section = file_text(os.path.join(TOP, "docs", "TOOLS.md")).split("\n## Workloads\n")[1].split("\n## ")[0]
        self.assertEqual(run(COMMAND.findall(section)[1], TOP), (0, BLOCK.findall(section)[0], ""))

    def test_a_run_that_fits_no_order_is_told_as_the_page_has_it(self):
        page = file_text(os.path.join(TOP, "docs", "TOOLS.md"))
        section = page.split("\n## Check\n")[1].split("\n## ")[0]
        self.assertEqual(run(COMMAND.findall(section)[0], TOP), (1, BLOCK.findall(section)[0], ""))

    def test_the_report_in_bytes(self):
        page = file_text(os.path.join(TOP, "docs", "TOOLS.md"))
        report = next(block for block in BLOCK.findall(page) if block.startswith("sites 1 f 0 clients 1\n"))
        self.assertEqual(run("tools/play examples/first_run.json --report", TOP), (0, report, ""))

    def test_the_pictures_are_as_they_are_drawn(self):
        for path in glob.glob(os.path.join(TOP, "docs", "pictures", "*.svg")):
            name = os.path.basename(path)[: -len(".svg")]
            with self.subTest(name):
                picture = pictures.Picture(example_run(os.path.join(TOP, "examples", name + ".json")))
                self.assertEqual(file_text(path), picture.svg())


if __name__ == "__main__":
    unittest.main()
