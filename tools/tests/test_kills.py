"""What bench/kills.py says of the files that killed programs leave, and bench/file_commits.py of commits, by programs that are
scripts here."""

import json
import os
import sys
import unittest
from collections import Counter
from unittest import mock

from played import InFolder, run_bench
import audit
import file_commits
import journals
import kills
import model
import readings
from spelled import FORMAT, OWN, WRITE, frame, record_of

# Appends ten records to the file of each of two sites, with a pause before each: LENGTH says how long they are. The closed gate
# behind the last one becomes the open one of the next.
PROGRAM = f"""#!{sys.executable} -SE
import os, sys, time
folder = sys.argv[sys.argv.index("--disks") + 1] if "--disks" in sys.argv else None
for number in range(10 if folder else 0):
    for site in (0, 1):
        time.sleep(0.004)
        record = bytes(LENGTH)
        with open(os.path.join(folder, f"site-{{site}}.journal"), "r+b" if number else "w+b") as file:
            file.write(b"" if number else {journals.HEADER!r} + b"\\0")
            end = file.seek(0, 2)
            file.write(len(record).to_bytes(4, "big") + record + b"\\0")
            file.flush()
            file.seek(end - 1)
            file.write(b"\\1")
sys.exit(STATUS)
"""
SCENARIO = json.dumps({"sites": 2, "f": 0, "containers": [], "clients": [], "steps": []})


class Kills(InFolder):
    def program(self, length="3", status="0"):
        return self.write("program", PROGRAM.replace("LENGTH", length).replace("STATUS", status), is_program=True)

    def kill(self, program, *words):
        return run_bench(kills, self.write("scenario.json", SCENARIO), "--program", program, "--kills", "4", *words)

    def test_fronts_of_one_play_are_right(self):
        status, told = self.kill(self.program())
        self.assertEqual(status, 0)
        self.assertRegex(told, r"^4 plays, [1-4] of them killed at work; files: \d+ with nothing, \d+ with a front of the records, "
                               r"\d+ with all; 0 wrong\n$")

    def test_other_records_are_wrong(self):
        status, told = self.kill(self.program("os.getpid() % 1000"), "--kills", "8")
        self.assertEqual(status, 1)
        self.assertRegex(told, r"(?m)^kill \d+, \d\.\d{4} s: site 0: \d+ records, and not the first ones of the whole play$")

    def test_what_cannot_be_read_is_wrong_of_threads_too(self):
        program = self.write("program", PROGRAM.replace("LENGTH", "1").replace("STATUS", "0").replace("WALTERJ1", "WALTERX1"), True)
        status, told = self.kill(program, "--run")
        self.assertTrue(status.startswith("the whole play left a journal that can't be read: foreign at 0: "), (status, told))

    def test_a_program_that_fails_is_told(self):
        self.assertEqual(self.kill(self.program(status="6"))[0], "the program ended with status 6\n")

    def test_what_is_left_is_audited(self):
        """By both: another answer is wrong, and a history that isn't legal; a file with nothing in it is none."""
        made = kills.Scenario(SCENARIO)
        transaction = model.Tx((0, 1, 1), 0, (0, 0), ((WRITE, (1, 5), b""),))
        empty, own = journals.empty(1, 100), record_of((OWN, 1, transaction))
        for records, files, met, wrong in [
            ([], [empty, empty], {"audited": 1}, None),
            ([], [b"", empty], {"not audited": 1}, None),
            ([own], [empty, empty], {}, "audit no unreadable 0.0 0.0"),
        ]:
            files[0] = files[0][:-1] + b"".join(b"\1" + frame(body) for body in records) + files[0][-1:]
            audit.write_files(self.folder, files)
            said, counted = audit.ended(made.made, self.folder, files), Counter()
            with mock.patch.object(audit, "of_program", lambda *words, said=said: said):
                self.assertEqual((kills.wrong_with_audit("program", made, self.folder, counted), counted), (wrong, met))
            with mock.patch.object(audit, "of_program", lambda *words: (6, "a disk failed", "")):
                self.assertEqual(kills.wrong_with_audit("program", made, self.folder, counted),
                                 f"the audit ends with status 6, 'a disk failed', and the plain one with {said[0]}")

    def test_made_scenarios_of_two_areas_pack(self):
        for has_areas in False, True:
            met, text = Counter(), kills.made(has_areas)
            readings.read(text.encode())
            for site in model.played(json.loads(text), met).sites:
                self.assertTrue(site.up)
                self.assertEqual(site.committed, [2, 2, 2])
                self.assertEqual(site.last_epoch(), 1 + kills.RESTARTS * has_areas)
            packs = {what: 30 for what in ("pack into A", "pack into B")} if has_areas else {}
            self.assertEqual({what: count for what, count in met.items() if what.startswith("pack into")}, packs)

    def test_made_scenarios_upgrade_each_site_amid_its_commits(self):
        for has_areas in False, True:
            text = kills.made(has_areas, True)
            readings.read(text.encode())
            for site in model.played(json.loads(text), Counter()).sites:
                kinds = [kind for kind, *_ in site.records]
                at = kinds.index(FORMAT)
                self.assertEqual((kinds.count(FORMAT), kinds[:at].count(OWN), kinds[at:].count(OWN)), (1, 1, 1))
                self.assertEqual(site.committed, [2, 2, 2])

    def test_files_with_a_record_format_are_counted(self):
        """A file is right as a front of the whole play, up to the upgrade and behind it; one upgraded otherwise is not."""
        made = kills.Scenario(kills.made(False, True))
        sites = model.played(json.loads(made.text), Counter()).sites
        whole = [journals.bodies_of(journals.read(bytes(site.disk.safe), site.capacity, site.count)) for site in sites]
        at = whole[0].index(b"\x0a\2")
        for bodies, wrong, upgraded in [
            (whole[0][:at], None, 2), (whole[0][: at + 1], None, 3), (whole[0], None, 3),
            ([*whole[0][:at], *whole[0][at + 1 :]], f"site 0: {len(whole[0]) - 1} records, and not the first ones of the whole play", 0),
        ]:
            files = [bodies, *whole[1:]]
            for site, kept in enumerate(files):
                records = b"".join(b"\1" + frame(body) for body in kept)
                with open(kills.file_of(self.folder, site), "wb") as file:
                    file.write(journals.HEADER + records + b"\0")
            met = Counter()
            self.assertEqual((kills.wrong_with(made, self.folder, whole, False, met), met["upgraded"]), (wrong, upgraded))

    def test_commits_are_measured(self):
        program = self.program()
        status, told = run_bench(file_commits, "--program", program, "--commits", "5", "--runs", "1", "--folder", self.folder)
        self.assertIsNone(status)
        first, *lines = told.splitlines()
        self.assertEqual(first, "5 commits of one write at one site, 1 runs of each")
        names = ["over disks in memory", "over file disks", "over file disks, run by 1 thread", "over file disks, run by 8 threads",
                 "the syncs alone"]
        for line, name in zip(lines, names, strict=True):
            self.assertRegex(line, rf"^{name}: \d+\.\d{{3}} s, [\d,]+ commits a second$")
        self.assertEqual(sorted(os.listdir(self.folder)), ["program"])


if __name__ == "__main__":
    unittest.main()
