"""Journal files in words: those that the plain model leaves, of one area and of two, and those that are none."""

import json
import os
import re
import subprocess
import unittest
from collections import Counter

from played import InFolder, TOP, RANDOM, disks_of, examples, file_text, random_scenario, run_tool, tool
import generator
import journals
import model
import readings
import reports
import words
from spelled import BOOT, GOT, OWN, SEEN, WRITE, frame, record_of

STOP = [["stop", 0], ["restart", 0]]
ONE_AREA = """\
{}: WALTERJ1, one area, the first format, 142 bytes, for 1 site
  gate 8 open, record at 9 of 5 bytes: Boot 1
  gate 18 open, record at 19 of 118 bytes: Own 0@1 of 0.1.1, with the snapshot 0 (write 10:5 "hello")
  gate 141 closed
  nothing behind it
"""
TWO_AREAS = """\
{}: WALTERK1, two areas, the first format, 151 bytes, for 1 site and a capacity of 293 bytes
  switch 0: area A is live
  area A at 9: live, with a pack of 0 bytes
    gate 17 open, record at 18 of 5 bytes: Boot 1
    gate 27 open, record at 28 of 118 bytes: Own 0@1 of 0.1.1, with the snapshot 0 (write 10:5 "hello")
    gate 150 closed
    nothing behind it
  area B at 151: no bytes
"""
IN_B = """\
{}: WALTERK1, two areas, the first format, 247 bytes, for 1 site and a capacity of 293 bytes
  switch 1: area B is live
  area A at 9: 142 bytes that don't count
  area B at 151: live, with a pack of 77 bytes
    entry at 159 of 5 bytes: Boot 1
    entry at 169 of 62 bytes without 56 zeros: Own 0@1 of 0.1.1, with the snapshot 0 (write 10:5 "hello")
    gate 236 open, record at 237 of 5 bytes: Boot 2
    gate 246 closed
    nothing behind it
"""
IN_A = """\
{}: WALTERK1, two areas, the first format, 350 bytes, for 1 site and a capacity of 500 bytes
  switch 0: area A is live
  area A at 9: live, with a pack of 87 bytes
    entry at 17 of 5 bytes: Boot 1
    entry at 27 of 62 bytes without 56 zeros: Own 0@1 of 0.1.1, with the snapshot 0 (write 10:5 "hello")
    entry at 94 of 5 bytes: Boot 2
    gate 104 open, record at 105 of 5 bytes: Boot 3
    gate 114 closed
    at 115: 139 bytes, which begin with no record
  area B at 254: 96 bytes that don't count
"""


def example(name, steps=(), **more):
    """The scenario of an example, with more steps."""
    made = json.loads(file_text(os.path.join(TOP, "examples", f"{name}.json")))
    return {**made, **more, "steps": [*made["steps"], *steps]}


class InWords(InFolder):
    def save(self, name, data):
        path = os.path.join(self.folder, name)
        with open(path, "wb") as file:
            file.write(data)
        return path

    def lines(self, data, *more):
        """What is told of some bytes, without the file's name."""
        path = self.save("some.journal", data)
        status, told, wrong = run_tool("journal", path, *more)
        self.assertEqual((status, wrong), (0, ""))
        return told.replace(path + ": ", "", 1).splitlines()

    def wrong(self, data, *more):
        """What is said of bytes that can't be shown, without the file's name."""
        path = self.save("wrong.journal", data)
        status, told, wrong = run_tool("journal", path, *more)
        self.assertEqual((status, told, wrong.count("\n")), (2, "", 1))
        front = f"journal: {path}: "
        self.assertTrue(wrong.startswith(front), wrong)
        return wrong[len(front) : -1]


class Audited(InFolder):
    """What is said behind the journals of a folder, where a scenario is named."""

    def journals(self, *sites):
        """Journals of the second format with these records, and the scenario of their run."""
        for site, records in enumerate(sites):
            bodies = [record_of(record, 2) for record in records]
            with open(os.path.join(self.folder, f"site-{site}.journal"), "wb") as file:
                file.write(b"WALTERJ2" + b"".join(b"\1" + frame(body) for body in bodies) + b"\0")
        path = os.path.join(self.folder, "run.json")
        with open(path, "w") as file:
            json.dump({"sites": len(sites), "f": 0, "containers": [[1, "regular", 0]], "clients": [], "steps": []}, file)
        return path

    def said(self, path):
        status, told, wrong = run_tool("journal", self.folder, "--scenario", path)
        self.assertEqual(wrong, "")
        return status, told[told.index("audit: ") :].splitlines()

    def of(self, site, start=(0, 0)):
        return model.Tx((site, 1, 1), 0, start, ((WRITE, (1, 5), b"a"),))

    def test_a_conflict_with_both_records(self):
        path = self.journals(*([(BOOT, 1), (OWN, 1, self.of(site))] for site in (0, 1)))
        self.assertEqual(self.said(path), (8, [
            "audit: no, conflict: two commits write one object, and neither is in the other's snapshot",
            "  0.1, site 0's 2nd record: Own 0@1 of 0.1.1, with the snapshot 0,0 (write 1:5 \"a\")",
            "  1.1, site 1's 2nd record: Own 1@1 of 1.1.1, with the snapshot 0,0 (write 1:5 \"a\")"]))

    def test_one_record_alone_and_a_body_that_is_none(self):
        path = self.journals([(BOOT, 1)], [(BOOT, 1), (GOT, 0, 1, self.of(0))])
        self.assertEqual(self.said(path), (8, [
            "audit: no, missing: this commit was received, or seen, and its site hasn't made it",
            "  1.1, site 1's 2nd record: Got 0@1 of 0.1.1, with the snapshot 0,0 (write 1:5 \"a\")"]))
        path = self.journals([(BOOT, 2)], [(BOOT, 1)])
        self.assertEqual(self.said(path)[1][0].split(": ")[1], "no, unreadable")

    def test_a_legal_history(self):
        path = self.journals([(BOOT, 1), (OWN, 1, self.of(0))], [(BOOT, 1), (GOT, 0, 1, self.of(0)), (SEEN, 0, 1)])
        self.assertEqual(self.said(path), (0, ["audit: the journals tell one legal history, of 1 commit and 1 arrival"]))


class Shown(InWords):
    def test_a_journal_of_one_area_and_of_two(self):
        for made, more, wanted in [
            (example("first_run"), (), ONE_AREA),
            (example("first_run", areas=2, capacity=293), ("--capacity", "293"), TWO_AREAS),
            (example("first_run", STOP, areas=2, capacity=293), ("--capacity", "293"), IN_B),
            (example("first_run", STOP * 2, areas=2, capacity=500), ("--capacity", "500", "--sites", "1"), IN_A),
        ]:
            path = self.save("some.journal", disks_of(made)[0])
            self.assertEqual(run_tool("journal", path, *more), (0, wanted.format(path), ""))

    def test_the_records_of_several_sites(self):
        told = [self.lines(data, "--sites", "4") for data in disks_of(example("crossed_slow_commits"))]
        self.assertEqual(told[0][2:4], ["  gate 18 open, record at 19 of 37 bytes: Prepared 1 of 2, 10:1 for 2.1.1",
                                        "  gate 60 open, record at 61 of 10 bytes: Released 1 of 2"])
        self.assertEqual(told[2][2:4], ["  gate 18 open, record at 19 of 132 bytes: SlowBegin 1 of 2.1.1, with the snapshot "
                                        '0,0,0,0 (write 10:1 "a", write 20:1 "a")',
                                        "  gate 155 open, record at 156 of 9 bytes: SlowEnd 1"])
        told = [self.lines(data, "--sites", "2") for data in disks_of(example("slow_commit"))]
        self.assertIn('Own 1@1 of 1.1.1, its slow commit 1, with the snapshot 0,0 (write 10:5 "s")', "\n".join(told[1]))

    def test_the_records_of_both_formats(self):
        made = example("first_run", [["upgrade", 0]])
        lines = self.lines(disks_of(made)[0])
        self.assertEqual(lines[0], "WALTERJ1, one area, the first format, 149 bytes, for 1 site")
        self.assertIn("  gate 141 open, record at 142 of 2 bytes: Format 2", lines)
        (data,) = disks_of({**made, "format": 2})
        self.assertEqual(self.lines(data)[0], "WALTERJ2, one area, the second format, 87 bytes, for 1 site")
        self.assertIn('record at 19 of 63 bytes: Own 0@1 of 0.1.1, with the snapshot 0 (write 10:5 "hello")', self.lines(data)[2])

    def test_each_header_tells_its_format(self):
        for header, areas, form in [("WALTERJ1", "one area", "first"), ("WALTERJ2", "one area", "second"),
                                    ("WALTERK1", "two areas", "first"), ("WALTERK2", "two areas", "second")]:
            data = journals.empty(1 if areas == "one area" else 2, 300, 1 if form == "first" else 2)
            self.assertEqual(self.lines(data, "--capacity", "300")[0].split(" bytes")[0],
                             f"{header}, {areas}, the {form} format, {len(data)}")

    def test_a_site_that_is_upgraded_has_records_of_both_formats(self):
        for areas in 1, 2:
            data = disks_of(example("upgraded_in_place", areas=areas, capacity=4000))[1]
            lines = self.lines(data, "--sites", "3", "--capacity", "4000")
            # The record and the two in front of it, and the first of a commit behind it.
            at = next(place for place, line in enumerate(lines) if line.endswith(": Format 2"))
            sizes = [int(re.search(r" of ([0-9]+) bytes", line)[1]) for line in lines[at - 2 : at + 4] if "Marks" not in line]
            self.assertEqual(sizes, [116, 116, 2, 77] if areas == 1 else [76, 76, 2, 77])
            self.assertIn("Own 1@2 of 1.1.2, its slow commit 1, with the snapshot 0,1,0", "\n".join(lines[at:]))

    def test_what_is_not_in_the_format_in_force_is_no_record(self):
        tx = model.Tx((0, 1, 1), 0, (0,), ((3, (10, 5), b"hello"),))
        first, second = (record_of((2, 1, tx), form) for form in (1, 2))
        for header, bodies, right in [("J1", [first, second], [True, False]), ("J2", [first, second], [False, True]),
                                      ("J1", [first, b"\x0a\2", second, first], [True, True, True, False])]:
            data = b"WALTER" + header.encode() + b"".join(b"\1" + frame(body) for body in bodies) + b"\0" + frame(bodies[0]) + b"\0"
            told = [": no record: " not in line for line in self.lines(data, "--sites", "1")[1:]]
            self.assertEqual(told[: len(right)], right)
            # What stands behind the end is read by the format in force there.
            behind = self.lines(data, "--sites", "1")[-1]
            self.assertEqual("a record of" in behind, header == "J1" and len(bodies) == 2)

    def test_all_records_of_random_runs(self):
        """Those of the trail, and one in flight that a restart would find, whatever number of sites is told."""
        for made in [*map(random_scenario, RANDOM[:60]), *(generator.scenario(seed, False) for seed in RANDOM[:20])]:
            run = model.played(made, Counter())
            for site, data in zip(run.sites, map(self.settled, run.sites)):
                told = self.lines(data, "--capacity", str(site.capacity), "--sites", str(site.count))
                found = [line.split(": ", 1)[1] for line in told if re.match(" +(entry|gate [0-9]+ open)", line)]
                records = site.records + [site.flight] * (len(found) - len(site.records))
                bodies = (record_of(one, readings.format_of(site.count)) for one in records)
                self.assertEqual(found, [words.whole_record(reports.record_of(body, site.count)) for body in bodies])

    def settled(self, site):
        site.disk.settle()
        return bytes(site.disk.reads)

    def test_the_number_of_sites_is_found(self):
        for seed in RANDOM[:40]:
            made = random_scenario(seed)
            for data in disks_of(made):
                given = tool("journal").sites_of("some.journal", data, Given(made.get("capacity", 1 << 24)))
                self.assertLessEqual(given, made["sites"])
                one, other = (journals.bodies_of(journals.read(data, made.get("capacity", 1 << 24), sites))
                              for sites in (given, made["sites"]))
                self.assertEqual(one, other)

    def test_a_body_that_is_no_record(self):
        seen_of_2 = b"\4\2" + bytes(7) + b"\1"
        data = journals.HEADER + b"".join(b"\1" + frame(body) for body in (b"\1\2", bytes(100), b"", seen_of_2)) + b"\0"
        self.assertEqual(self.lines(data)[0], "WALTERJ1, one area, the first format, 141 bytes, for 3 sites")
        self.assertEqual(self.lines(data)[1:-2], ["  gate 8 open, record at 9 of 2 bytes: no record: 0102",
                                                  f"  gate 15 open, record at 16 of 100 bytes: no record: {'00' * 32}..",
                                                  "  gate 120 open, record at 121 of 0 bytes: no record: ",
                                                  "  gate 125 open, record at 126 of 10 bytes: Seen 2@1"])


class Given:
    """Words that name no number of sites."""

    def __init__(self, capacity):
        self.sites, self.capacity = None, capacity


class Behind(InWords):
    """What stands behind the last gate."""

    def test_a_fault_of_a_commit(self):
        record = 'a record of 118 bytes that doesn\'t count: Own 0@1 of 0.1.1, with the snapshot 0 (write 10:5 "hello")'
        for nth, choice, wanted in [(1, 0, "nothing behind it"), (1, 1, f"at 19: {record}, and 1 byte behind it"),
                                    (1, 7, "at 19: 123 bytes, which begin with no record"), (1, 256, "at 19: 123 bytes of 0"),
                                    (3, 0, f"at 19: {record}, and 1 byte behind it"), (3, 1, "nothing behind it"),
                                    (3, 7, f"at 19: {record}, and 1 byte behind it")]:
            told = self.lines(disks_of(example("first_run", arms=[[0, nth, choice]]))[0])
            self.assertEqual(told[-1], f"  {wanted}", (nth, choice))
            self.assertEqual(len(told), 5 if (nth, choice) == (3, 1) else 4)

    def test_a_torn_record(self):
        whole = disks_of(example("first_run", arms=[[0, 3, 0]]))[0]
        torn = "at 19: a torn record, which has {} of its 118 bytes"
        for size, wanted in [(142, "and 1 byte behind it"), (141, '"hello")'), (140, torn.format(117)), (23, torn.format(0)),
                             (22, "at 19: 3 bytes of 0"), (19, "nothing behind it")]:
            self.assertTrue(self.lines(whole[:size])[-1].endswith(wanted), size)
        self.assertEqual(self.lines(whole[:19] + b"\0\0\1")[-1], "  at 19: 3 bytes, which begin with no record")

    def test_a_fault_of_a_pack(self):
        for nth, choice, live, there in [(2, 0, "A", "no bytes"), (2, 1, "A", "86 bytes that don't count"),
                                         (2, 7, "A", "86 bytes that don't count"), (4, 1, "B", None)]:
            steps = [["stop", 0], ["arm", 0, nth, choice], ["restart", 0]]
            told = self.lines(disks_of(example("first_run", steps, areas=2, capacity=293))[0], "--capacity", "293")
            self.assertTrue(told[1].endswith(f"area {live} is live"))
            self.assertEqual([line for line in told if "hello" in line and re.match(" +(entry|gate)", line)],
                             [line for line in told if "hello" in line])
            if there:
                self.assertEqual(told[-1], f"  area B at 151: {there}")

    def test_the_rest_of_an_area_that_is_live(self):
        data = disks_of(example("first_run", areas=2, capacity=1009))[0]
        self.assertEqual(self.lines(data, "--capacity", "1009")[-2:], ["    at 151: 358 bytes of 0", "  area B at 509: no bytes"])
        data += bytes(500) + b"more"
        self.assertEqual(self.lines(data, "--capacity", "1009")[-2:],
                         ["  area B at 509: 500 bytes that don't count", "  4 bytes behind both areas"])


class Refused(InWords):
    def test_foreign_bytes(self):
        self.assertEqual(self.wrong(b"WALTER"), "foreign at 0: it has 6 bytes, and a journal at least 9")
        self.assertEqual(self.wrong(b"NOTWALTER"), "foreign at 0: its header is 4e4f5457414c5445, and that of a journal "
                         "57414c5445524a31, 57414c5445524b31, 57414c5445524a32 or 57414c5445524b32")
        self.assertEqual(self.wrong(b"WALTERK1" + bytes(20), "--capacity", "46"), "foreign at 0: it has two areas, and these "
                         "want a capacity of at least 47; it is read for 1 site and a capacity of 46 bytes")

    def test_damaged_bytes(self):
        for behind, wanted in [
            (b"\xff\xff\xff\xff\0", "an open gate with a record of 4,294,967,295 bytes, which has at most 65,536"),
            (b"\0\0", "an open gate wants four bytes of length behind it"),
            (frame(b"hello"), "an open gate with a record of 5 bytes, and no gate is at 18"),
        ]:
            self.assertEqual(self.wrong(b"WALTERJ1\1" + behind), f"damaged at 8: {wanted}")

    def test_damaged_bytes_of_two_areas(self):
        data = disks_of(example("first_run", STOP, areas=2, capacity=293))[0]
        by = "; it is read for 1 site and a capacity of 293 bytes"
        for torn, wanted in [
            (data[:150], "damaged at 151: the length of a pack wants eight bytes there"),
            (data[:236], "damaged at 151: a pack of 77 bytes, of which the area B has no place"),
            (data[:159] + b"\2" + data[160:], "damaged at 151: a pack of 77 bytes that has no reading"),
            (data[:240], "damaged at 236: an open gate wants four bytes of length behind it"),
        ]:
            self.assertEqual(self.wrong(torn, "--capacity", "293"), wanted + by)
        self.assertTrue(self.wrong(data).startswith("damaged at 8388612: "))

    def test_others_are_shown_all_the_same(self):
        right, wrong = self.save("right", disks_of(example("first_run"))[0]), self.save("wrong", b"")
        status, told, said = run_tool("journal", wrong, right, os.path.join(self.folder, "none"))
        self.assertEqual((status, told), (3, ONE_AREA.format(right)))
        self.assertEqual(said, f"journal: {wrong}: foreign at 0: it has 0 bytes, and a journal at least 9\n"
                         f"journal: {self.folder}/none: No such file or directory\n")


class Folder(InWords):
    def test_the_journals_of_a_folder(self):
        status, told, said = run_tool("journal", self.folder)
        self.assertEqual((status, told, said), (3, "", f"journal: {self.folder}: no file site-<i>.journal is in it\n"))
        for number, data in enumerate(disks_of(example("crossed_slow_commits"))):
            self.save(f"site-{number}.journal", data)
        for name in "site-10.journal", "site-.journal", "site-01.journal", "site-0.journal.old", "other":
            self.save(name, b"WALTERJ2\0" if name == "site-10.journal" else b"")
        status, told, said = run_tool("journal", self.folder)
        self.assertEqual((status, said), (0, ""))
        named = [line.split(": ")[0] for line in told.splitlines() if not line.startswith(" ")]
        self.assertEqual(named, [os.path.join(self.folder, f"site-{number}.journal") for number in (0, 1, 2, 3, 10)])
        self.assertIn("site-1.journal: WALTERJ1, one area, the first format, 61 bytes, for 4 sites\n", told)

    def test_its_words(self):
        path = os.path.join(TOP, "tools", "journal")
        data = disks_of(example("first_run"))[0]
        ended = subprocess.run([path, "-"], input=data, capture_output=True)
        self.assertEqual((ended.returncode, ended.stdout.decode()), (0, ONE_AREA.format("standard input")))
        for given, status, said in [
            (["--help"], 0, "usage: journal [-h] "), ([], 1, "journal: the following arguments are required: FILE"),
            (["--sites", "17", "x"], 1, "journal: argument --sites: "),
            (["--capacity", "many", "x"], 1, "journal: argument --capacity: "),
            (["none"], 3, "journal: none: No such file or directory"),
        ]:
            ended = subprocess.run([path, *given], capture_output=True, text=True, cwd=self.folder)
            self.assertEqual(ended.returncode, status)
            self.assertTrue((ended.stdout + ended.stderr).startswith(said), ended)


if __name__ == "__main__":
    unittest.main()
