"""The made parts of docs/ are as tools/make-pages makes them, and these follow what the sources say."""

import os
import re
import shutil
import subprocess
import unittest

from played import InFolder, TOP, file_text, tool

CRATES = """# All crates of a small repository.

# The rules. They know
# each other alone.
walter_base: thiserror
walter_rules: walter_base

# The program.
walter: walter_base walter_rules clap
"""
PAGE = """# The map

## The crates

| crate | stands on | has |
|---|---|---|
| `walter_base` | - | by hand |

Behind it.
"""
MADE = """**The rules. They know each other alone.**

| crate | stands on | what it is |
|---|---|---|
| `walter_base` | - | The values: two lines, and a \\| in them. |
| `walter_rules` | base | The rules. |

**The program.**

| crate | stands on | what it is |
|---|---|---|
| `walter` | base, rules | The program. |
"""


class Small(InFolder):
    def setUp(self):
        super().setUp()
        for name in "tools", "docs", *(f"crates/{crate}/src" for crate in ("walter", "walter_base", "walter_rules")):
            os.makedirs(os.path.join(self.folder, name))
        for name in "make-pages", "ends.py":
            shutil.copy(os.path.join(TOP, "tools", name), os.path.join(self.folder, "tools"))
        self.write("crates.txt", CRATES)
        self.write("docs/ARCHITECTURE.md", PAGE)
        self.write("crates/walter_base/src/lib.rt", "//! The values: two lines,\n//! and a | in them.\n#![tactic(auto)]\n//! No more.\n")
        self.write("crates/walter_rules/src/lib.rt", "//! The rules.\nmod rules;\n")
        self.write("crates/walter/src/main.rt", "//! The program.\n")

    def run_it(self, *words):
        ended = subprocess.run([os.path.join(self.folder, "tools", "make-pages"), *words], capture_output=True, text=True)
        return ended.returncode, ended.stdout + ended.stderr

    def page(self):
        return file_text(os.path.join(self.folder, "docs", "ARCHITECTURE.md"))

    def test_the_chapter_takes_the_place_of_the_table(self):
        self.assertEqual(self.run_it(), (0, ""))
        begins, ends = (getattr(tool("make-pages"), name) for name in ("BEGINS", "ENDS"))
        self.assertEqual(self.page(), f"# The map\n\n## The crates\n\n{begins}\n{MADE}{ends}\n\nBehind it.\n")
        self.assertEqual(self.run_it("--check"), (0, ""))
        before = self.page()
        self.assertEqual((self.run_it(), self.page()), ((0, ""), before))

    def test_it_says_where_the_page_is_another_one(self):
        said = (1, "make-pages: docs/ARCHITECTURE.md isn't as it is made: tools/make-pages makes it\n")
        self.assertEqual(self.run_it("--check"), said)
        self.assertEqual(self.page(), PAGE)
        self.run_it()
        self.write("crates/walter_rules/src/lib.rt", "//! Other rules.\n")
        self.assertEqual(self.run_it("--check"), said)
        self.assertEqual(self.run_it(), (0, ""))
        self.assertIn("| `walter_rules` | base | Other rules. |\n", self.page())
        self.write("crates.txt", CRATES.replace("walter: walter_base walter_rules", "walter: walter_rules"))
        self.assertEqual(self.run_it("--check"), said)

    def test_what_it_cannot_make_is_told(self):
        self.write("crates/walter_rules/src/lib.rt", "mod rules;\n")
        self.assertEqual(self.run_it(), (2, "make-pages: crates/walter_rules/src/lib.rt, line 1: wants a text behind //!\n"))
        self.write("docs/ARCHITECTURE.md", "# The map\n")
        self.assertEqual(self.run_it()[0], 2)


    def test_names_of_promises_are_looked_for_in_the_crate(self):
        self.run_it()
        os.makedirs(os.path.join(self.folder, "crates", "walter_rules", "specs"))
        self.write("crates/walter_rules/specs/Rules.antt", "def IsRight : Rule\n")
        page = ("# Promises\n\n| what | `outside` |\n\n## Crate by crate\n\n**`walter_rules`** Rules.\n\n"
                "| promise | clause |\n|---|---|\n| It is `not` looked at | `IsRight`, as %s |\n\n"
                "## Behind\n\n| what | `behind` |\n")
        self.write("docs/PROMISES.md", page % "`IsRight`")
        self.assertEqual(self.run_it("--check"), (0, ""))
        self.write("docs/PROMISES.md", page % "`IsWrong of IsRight`")
        where = "docs/PROMISES.md, line 11"
        said = f"make-pages: {where}: IsWrong isn't in walter_rules\n{where}: of isn't in walter_rules\n"
        self.assertEqual(self.run_it("--check"), (1, said))


class ThisRepository(unittest.TestCase):
    def test_the_promises_name_what_is_there(self):
        self.assertEqual(list(tool("make-pages").strangers(file_text(os.path.join(TOP, "docs", "PROMISES.md")))), [])

    def test_each_crate_is_told(self):
        chapter = tool("make-pages").chapter()
        told = re.findall(r"^\| `(walter\w*)` \|", chapter, re.M)
        self.assertEqual(sorted(told), sorted(os.listdir(os.path.join(TOP, "crates"))))
        self.assertEqual(chapter.count("**") // 2, len(tool("make-pages").groups_of(file_text(os.path.join(TOP, "crates.txt")))))

    def test_the_pages_are_as_they_are_made(self):
        page = file_text(os.path.join(TOP, "docs", "ARCHITECTURE.md"))
        if tool("make-pages").BEGINS not in page:
            self.skipTest("the chapter of crates is told by hand still")
        self.assertEqual(tool("make-pages").made(page), page)


if __name__ == "__main__":
    unittest.main()
