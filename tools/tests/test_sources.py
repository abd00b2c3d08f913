"""The wrapper's sum of the sources, over this repository's crates.txt, and dist/: all with a stand-in for rt."""

import hashlib
import os
import platform
import re
import shutil
import subprocess
import unittest

from played import InFolder, TOP, file_text
import ends

RT = """#!/bin/sh
echo "$@" >>"$FOLDER/calls"
case $1 in
  run) mkdir -p out && cp "$FOLDER/program" out/walter; echo "rt: chose --jobs 2 for walter_faults" >&2 ;;
  version) echo "the kit of this test" ;;
esac
"""
PROGRAM = '#!/bin/sh\necho "$@"\nexec cat\n'
VERDICT = "walter: 7 functions, all of them proved"
SCENARIO = os.path.join(TOP, "examples", "first_run.json")
# Of each kind of file that rt reads for the program, one that is there: a test's by its name, which is none, among them.
READ = ("crates.txt", "HANDLES", "crates/walter/src/main.rt", "crates/walter/specs/Lib.antt", "crates/walter_objects/src/tests.rt",
        "crates/walter_objects/specs/Preferred.antt", "crates/walter_objects/proofs/Placed.antt")
# What rt reads for a test, for a must-fail edit or for a run that it compares, and crates that the program hasn't.
NOT_READ = ("crates/walter_faults/src/tests.rt", "crates/walter_objects/must-fail/a_set_is_lockable.edit", "crates/walter/stdin",
            "crates/walter/stdout", "crates/walter/args", "crates/walter_tests_sites/src/lib.rt", "README.md")

# The crates whose files are there. The other ones of crates.txt have none here, which makes the tests fast.
CRATES = ("walter", "walter_objects", "walter_faults", "walter_base", "walter_tests_sites")


def crates_of(text):
    """The crates that a crates.txt says the program stands on, and itself."""
    lines = dict(re.findall(r"^([a-z_0-9]+):(.*)$", text, re.M))
    found, waiting = set(), ["walter"]
    while waiting:
        name = waiting.pop()
        if name in lines and name not in found:
            found.add(name)
            waiting += lines[name].split()
    return found


class Repository(InFolder):
    """A copy of this repository's sources, with a stand-in for rt in front of the path."""

    def setUp(self):
        super().setUp()
        for name in "walter", "crates.txt", "HANDLES", "README.md":
            shutil.copy(os.path.join(TOP, name), self.folder)
        for name in CRATES:
            shutil.copytree(os.path.join(TOP, "crates", name), os.path.join(self.folder, "crates", name),
                            ignore=shutil.ignore_patterns("out"))
        os.mkdir(os.path.join(self.folder, "tools"))
        for name in "make-dist", "ends.py":
            shutil.copy(os.path.join(TOP, "tools", name), os.path.join(self.folder, "tools"))
        self.write("program", PROGRAM, True)
        self.write("rt", RT, True)
        self.environment = {**os.environ, "FOLDER": self.folder, "PATH": self.folder + ":" + os.environ["PATH"], "LC_ALL": "C"}

    def run_it(self, command, *words):
        ended = subprocess.run([os.path.join(self.folder, command), *words], stdin=subprocess.DEVNULL, capture_output=True,
                               text=True, env=self.environment, timeout=600)
        return ended.returncode, ended.stdout, ended.stderr

    def walter(self, *words):
        return self.run_it("walter", *words)

    def sources(self):
        status, said, wrong = self.walter("--sources")
        self.assertEqual((status, wrong), (0, ""))
        return said.strip()

    def version(self):
        status, said, wrong = self.walter("--version")
        self.assertEqual((status, wrong), (0, ""))
        return said

    def calls(self):
        path = os.path.join(self.folder, "calls")
        return file_text(path).splitlines() if os.path.exists(path) else []

    def change(self, name):
        with open(os.path.join(self.folder, name), "a", encoding="utf-8") as file:
            file.write("\n")


class Sources(Repository):
    def test_a_change_of_each_kind_of_file_that_rt_reads_is_seen(self):
        before = self.sources()
        for name in READ:
            self.change(name)
            now = self.sources()
            self.assertNotEqual(now, before, name)
            before = now
        for name, text in ("crates/walter_base/src/more.rt", ""), ("crates/walter_base/proofs/More.antt", ""):
            self.write(name, text)
            now = self.sources()
            self.assertNotEqual(now, before, name)
            before = now
        os.makedirs(os.path.join(self.folder, "crates", "walter_base", "c"))
        self.write("crates/walter_base/c/more.h", "")
        self.assertNotEqual(self.sources(), before)

    def test_what_rt_does_not_read_for_the_program_changes_nothing(self):
        before = self.sources()
        for name in NOT_READ:
            self.change(name)
            self.assertEqual(self.sources(), before, name)
        os.makedirs(os.path.join(self.folder, "crates", "walter", "out"))
        self.write("crates/walter/out/kept.rt", "")
        self.assertEqual(self.sources(), before)

    def test_a_module_is_of_tests_by_what_stands_before_it(self):
        root = os.path.join(self.folder, "crates", "walter_objects", "src", "lib.rt")
        text = file_text(root)
        self.write(root, text.replace("mod tests;", "#[cfg(test)]\n// These are tests.\nmod tests;"))
        before = self.sources()
        self.change("crates/walter_objects/src/tests.rt")
        self.assertEqual(self.sources(), before)
        self.write(root, text.replace("mod objects;", "#[cfg(test)]\npub(crate) mod objects;"))
        before = self.sources()
        self.change("crates/walter_objects/src/objects.rt")
        self.assertEqual(self.sources(), before)
        self.change("crates/walter_objects/src/tests.rt")
        self.assertNotEqual(self.sources(), before)

    def test_a_change_is_proved_again_and_the_old_program_is_not_run(self):
        self.assertIn("not proved here yet", self.version())
        self.assertEqual(self.walter("play", SCENARIO)[:2], (0, "play\n" + file_text(SCENARIO)))
        self.assertIn("proved and built here", self.version())
        self.change("crates/walter_objects/src/tests.rt")
        self.assertIn("not proved here yet", self.version())
        self.write("program", "#!/bin/sh\necho another\n", True)
        self.assertEqual(self.walter("play", SCENARIO)[:2], (0, "another\n"))
        self.assertEqual(self.calls(), ["run", "run"])

    def test_the_crates_are_counted_as_they_are_and_nothing_else_is_said(self):
        status, _, said = self.walter("play", SCENARIO)
        self.assertEqual(status, 0)
        count = len(crates_of(file_text(os.path.join(TOP, "crates.txt"))))
        self.assertRegex(said.splitlines()[1], rf"^walter: proving [0-9]+ of {count}: walter_faults$")
        self.assertEqual(len(said.splitlines()), 2)
        self.assertEqual(self.walter("play", SCENARIO)[2], "")


class ThisRepository(unittest.TestCase):
    def test_the_sum_is_of_the_files_that_are_there(self):
        files = [("crates.txt", "crates.txt"), ("HANDLES", "HANDLES")]
        for crate in crates_of(file_text(os.path.join(TOP, "crates.txt"))):
            for part in "src", "specs", "proofs", "c":
                for folder, _, names in os.walk(os.path.join(TOP, "crates", crate, part)):
                    paths = [os.path.relpath(os.path.join(folder, name), os.path.join(TOP, "crates")) for name in names]
                    files += [("./" + path, os.path.join("crates", path)) for path in paths if not is_of_tests(path)]
        files[2:] = sorted(files[2:])
        sums = [hashlib.sha256(ends.bytes_of(os.path.join(TOP, path))).hexdigest() for _, path in files]
        lines = "".join(f"{one}  {name}\n" for one, (name, _) in zip(sums, files))
        told = subprocess.run([os.path.join(TOP, "walter"), "--sources"], capture_output=True, text=True,
                              env={**os.environ, "LC_ALL": "C"})
        self.assertEqual((told.stdout, told.stderr), (hashlib.sha256(lines.encode()).hexdigest() + "\n", ""))


def is_of_tests(path):
    """Whether this source is the file of tests of its crate, by what stands before its module."""
    if not path.endswith("/src/tests.rt"):
        return False
    return "#[cfg(test)]\nmod tests;" in file_text(os.path.join(TOP, "crates", os.path.dirname(path), "lib.rt"))


class Dist(Repository):
    def made(self):
        status, path, _ = self.walter("--where")
        self.assertEqual((status, path), (0, os.path.join(self.folder, "crates", "walter", "out", "walter") + "\n"))
        made = self.run_it("tools/make-dist", "--verdict", VERDICT)
        self.assertEqual((made[0], made[2]), (0, ""))
        return file_text(os.path.join(self.folder, "dist", "manifest"))

    def forget(self):
        """Nothing is built here, and there is no rt."""
        shutil.rmtree(os.path.join(self.folder, "crates", "walter", "out"))
        os.remove(os.path.join(self.folder, "rt"))
        self.environment["PATH"] = os.pathsep.join(part for part in self.environment["PATH"].split(os.pathsep)
                                                   if not os.path.exists(os.path.join(part, "rt")))

    def test_the_manifest_says_what_the_program_was_made_of(self):
        self.assertEqual(self.made().splitlines(), [
            f"sources {self.sources()}", f"program {hashlib.sha256(PROGRAM.encode()).hexdigest()}",
            f"system {platform.system()} {platform.machine()}", "kit the kit of this test", f"verdict {VERDICT}"])

    def test_the_given_program_plays_at_once_and_without_rt(self):
        self.made()
        self.forget()
        self.assertEqual(self.version(), f"walter of the sources {self.sources()[:12]}, proved and built before: {VERDICT}\n")
        self.assertEqual(self.walter("play", SCENARIO), (0, "play\n" + file_text(SCENARIO), ""))
        self.assertEqual(self.walter("--where"), (0, os.path.join(self.folder, "dist", "walter") + "\n", ""))

    def test_another_source_another_program_and_another_system_are_not_taken_for_it(self):
        manifest = self.made()
        self.forget()
        given = os.path.join(self.folder, "dist", "walter")
        for change in (lambda: self.write(given, PROGRAM + "# another\n", True),
                       lambda: self.write("dist/manifest", re.sub("system .*", "system Other m68k", manifest)),
                       lambda: self.change("crates/walter_objects/src/tests.rt")):
            self.write(given, PROGRAM, True)
            self.write("dist/manifest", manifest)
            change()
            self.assertIn("not proved here yet", self.version())
            status, _, said = self.walter("play", SCENARIO)
            self.assertEqual(status, 9)
            self.assertIn("the command rt is not on the path", said)

    def test_it_is_compared(self):
        compared = "nothing is compared\n"
        self.assertEqual(self.run_it("tools/make-dist", "--compare"), (0, "dist/ has no manifest: " + compared, ""))
        self.made()
        same = (0, "dist/walter is byte for byte the program that was built here\n", "")
        self.assertEqual(self.run_it("tools/make-dist", "--compare"), same)
        other = self.write("other", PROGRAM + "# another\n", True)
        status, _, said = self.run_it("tools/make-dist", "--compare", other)
        self.assertEqual((status, said), (1, f"make-dist: dist/walter differs from {other}, which is built of the same sources\n"))
        manifest = file_text(os.path.join(self.folder, "dist", "manifest"))
        self.write("dist/manifest", re.sub("kit .*", "kit another", manifest))
        self.assertEqual(self.run_it("tools/make-dist", "--compare", other),
                         (0, "dist/ was built by another, and this is the kit of this test: " + compared, ""))
        self.write("dist/manifest", manifest)
        shutil.rmtree(os.path.join(self.folder, "crates", "walter", "out"))
        self.assertEqual(self.run_it("tools/make-dist", "--compare"),
                         (0, "dist/ is of these sources, and no program was built of them here: " + compared, ""))
        before = self.sources()
        self.change("HANDLES")
        status, said, wrong = self.run_it("tools/make-dist", "--compare", other)
        self.assertEqual((status, said, wrong),
                         (0, f"dist/ is of the sources {before[:12]}, and these are {self.sources()[:12]}: {compared}", ""))

    def test_nothing_is_made_of_a_program_of_other_sources(self):
        self.made()
        self.change("HANDLES")
        status, said, wrong = self.run_it("tools/make-dist", "--verdict", VERDICT)
        self.assertEqual((status, said), (9, ""))
        self.assertIn("no program of the sources as they are", wrong)
        for words in [], ["--verdict", ""], ["--verdict", "a\nb"], ["--compare", "--verdict", "a"]:
            self.assertEqual(self.run_it("tools/make-dist", *words)[:2], (1, ""))


if __name__ == "__main__":
    unittest.main()
