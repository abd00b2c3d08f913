"""The plain audit of bench/: each reason by journals made by hand, and yes of what runs leave."""

import functools
import json
import os
import random
import unittest
from collections import Counter

from played import InFolder, disks_of, run_bench
import audit
import changes
import command
import generator
import journals
import model
from ends import DONE, NO_JOURNAL, NOT_LEGAL, End
from spelled import BOOT, FORMAT, GOT, OWN, SEEN, SET_ADD, WRITE, record_of

TWO = {"sites": 2, "f": 0, "containers": [[1, "regular", 0], [3, "cset", 1]]}
THREE = {**TWO, "sites": 3}
HERE = (1, 5)


def tx_of(site, number, start, *updates, epoch=1, slow=0):
    return model.Tx((site, epoch, number), slow, tuple(start), updates or ((WRITE, HERE, b"a"),))


def own(number, tx):
    return OWN, number, tx


def boot(*records):
    return [(BOOT, 1), *records]


def said(made, *sites, form=2):
    """What the audit says of these records of each site, all spelled in one format."""
    contents = [journals.Content(form, [record_of(record, form) for record in records]) for records in sites]
    return audit.audit(made, contents)[0]


@functools.lru_cache(maxsize=None)
def left_by(seed):
    """A scenario, and what its run leaves on the disks."""
    made = generator.scenario(seed)
    return made, [journals.content_of(audit.read_as(made, data)) for data in disks_of(made)]


class Reasons(unittest.TestCase):
    """Of each reason the least pair, where a greater one stands too."""

    def test_a_start_and_a_commit_are_the_lines_of_a_yes(self):
        tx = tx_of(0, 1, [0, 0])
        text = said(TWO, boot(own(1, tx)), boot((GOT, 0, 1, tx), (SEEN, 0, 1)))
        self.assertEqual(text, "audit yes sites 2 lines 3\nstart 0.1.1\ncommit 0:1 0.1.1\narrive 1 0:1\n")

    def test_unreadable_names_the_first_body_of_the_least_site(self):
        tx = tx_of(1, 1, [0, 0])
        self.assertEqual(said(TWO, boot((BOOT, 3), (BOOT, 9)), boot(own(2, tx))), "audit no unreadable 0.1 0.1\n")
        self.assertEqual(said(TWO, boot(), boot(own(2, tx), own(2, tx))), "audit no unreadable 1.1 1.1\n")

    def test_a_format_stands_in_no_journal_of_the_second(self):
        self.assertEqual(said(TWO, boot((FORMAT,)), boot(), form=1), "audit yes sites 2 lines 0\n")
        self.assertEqual(said(TWO, boot((FORMAT,)), boot()), "audit no unreadable 0.1 0.1\n")

    def test_missing_names_what_was_received_and_not_made(self):
        tx = tx_of(0, 1, [0, 0])
        text = said(THREE, boot(), boot((GOT, 0, 1, tx_of(0, 1, [0, 0, 0]))), boot((GOT, 0, 1, tx_of(0, 1, [0, 0, 0]))))
        self.assertEqual(text, "audit no missing 1.1 1.1\n")
        self.assertEqual(said(TWO, boot(), boot((GOT, 0, 1, tx))), "audit no missing 1.1 1.1\n")

    def test_a_commit_of_another_sites_transaction_differs(self):
        made, got = tx_of(0, 1, [0, 0]), tx_of(1, 1, [0, 0])
        self.assertEqual(said(TWO, boot(own(1, made)), boot((GOT, 0, 1, got))), "audit no differs 1.1 0.1\n")

    def test_differs_names_both_records(self):
        made, got = tx_of(0, 1, [0, 0]), tx_of(0, 1, [0, 0], (WRITE, HERE, b"b"))
        text = said(THREE, boot(own(1, tx_of(0, 1, [0, 0, 0]))), boot((GOT, 0, 1, tx_of(0, 1, [0, 0, 0]))),
                    boot((GOT, 0, 1, tx_of(0, 2, [0, 0, 0]))))
        self.assertEqual(text, "audit no differs 2.1 0.1\n")
        self.assertEqual(said(TWO, boot(own(1, made)), boot((GOT, 0, 1, got))), "audit no differs 1.1 0.1\n")

    def test_twice_names_the_first_pair(self):
        one, two = tx_of(0, 1, [0, 0]), tx_of(0, 2, [2, 0])
        text = said(TWO, boot(own(1, one), own(2, tx_of(0, 1, [1, 0])), own(3, two), own(4, two)), boot())
        self.assertEqual(text, "audit no twice 0.1 0.2\n")

    def test_a_start_that_no_front_has(self):
        early, late = tx_of(0, 1, [0, 1]), tx_of(0, 2, [5, 0])
        self.assertEqual(said(TWO, boot(own(1, early), own(2, late)), boot()), "audit no start 0.1 0.1\n")
        self.assertEqual(said(TWO, boot(own(1, tx_of(0, 1, [0, 0])), own(2, late)), boot()), "audit no start 0.2 0.2\n")

    def test_conflicts_of_two_sites_and_of_one(self):
        both = boot(own(1, tx_of(0, 1, [0, 0]))), boot(own(1, tx_of(1, 1, [0, 0])))
        self.assertEqual(said(TWO, *both), "audit no conflict 0.1 1.1\n")
        one = boot(own(1, tx_of(0, 1, [0, 0])), own(2, tx_of(0, 2, [0, 0])), own(3, tx_of(0, 3, [0, 0])))
        self.assertEqual(said(TWO, one, boot()), "audit no conflict 0.1 0.2\n")
        seen = boot(own(1, tx_of(0, 1, [0, 0])), own(2, tx_of(0, 2, [1, 0])))
        self.assertTrue(said(TWO, seen, boot()).startswith("audit yes"))
        counted = tx_of(0, 1, [0, 0], (SET_ADD, (3, 1), 7)), tx_of(1, 1, [0, 0], (SET_ADD, (3, 1), 7))
        self.assertTrue(said(TWO, boot(own(1, counted[0])), boot(own(1, counted[1]))).startswith("audit yes"))

    def test_sites_that_wait_for_each_other(self):
        of_0, of_1 = tx_of(0, 1, [0, 0], (WRITE, (1, 1), b"")), tx_of(1, 1, [0, 0], (WRITE, (1, 2), b""))
        seen_0, seen_1 = [(GOT, 0, 1, of_0), (SEEN, 0, 1)], [(GOT, 1, 1, of_1), (SEEN, 1, 1)]
        text = said(TWO, boot(*seen_1, own(1, of_0)), boot(*seen_0, own(1, of_1)))
        self.assertEqual(text, "audit no cycle 0.2 1.3\n")


class Runs(unittest.TestCase):
    def test_what_runs_leave_is_yes(self):
        for seed in range(60):
            made, contents = left_by(seed)
            text, status = audit.audit(made, contents)
            self.assertEqual(status, DONE, (seed, text))

    def test_some_runs_with_a_record_changed_are_no(self):
        """Of each kind of change; and a journal that is made of contents holds these."""
        found = {kind: Counter() for kind in changes.CHANGES}
        for seed in range(120):
            made, contents = left_by(seed % 60)
            kind, other = changes.changed(random.Random(seed), contents)
            self.assertNotEqual(other, contents, (seed, kind))
            files = [changes.bytes_of(made, content) for content in other]
            self.assertEqual([journals.content_of(audit.read_as(made, data)) for data in files], other)
            found[kind][audit.audit(made, other)[1]] += 1
        # Where the last one is left out, it hardly matters.
        self.assertTrue(found.pop("the last left out")[DONE], found)
        self.assertTrue(all(statuses[NOT_LEGAL] for statuses in found.values()), found)


class Command(InFolder):
    """The command `audit` of the plain model."""

    def audit(self, made, files):
        audit.write_files(self.folder, files)
        return run_bench(command, "audit", self.write("run.json", json.dumps(made)), "--disks", self.folder)

    def test_it_writes_what_it_finds(self):
        made, contents = left_by(2)
        self.assertEqual(self.audit(made, disks_of(made)), audit.audit(made, contents)[::-1])
        later = contents[0]._replace(bodies=[record_of((BOOT, 9)), *contents[0].bodies[1:]])
        files = [changes.bytes_of(made, content) for content in [later, *contents[1:]]]
        self.assertEqual(self.audit(made, files), (NOT_LEGAL, "audit no unreadable 0.0 0.0\n"))

    def test_the_first_file_that_is_no_journal_is_named(self):
        empty = journals.empty(1, 100, 2)
        damaged = "its journal is damaged, since it claims a length of 0 (at place 8)"
        for files, site, said in [([b"", b""], 0, "it has no journal (at place 0)"),
                                  ([empty, empty[:8] + b"\1"], 1, damaged)]:
            with self.assertRaises(End) as end:
                self.audit({**TWO, "clients": [], "steps": []}, files)
            path = os.path.join(self.folder, f"site-{site}.journal")
            self.assertEqual((end.exception.status, str(end.exception)),
                             (NO_JOURNAL, f"{path}: {said}; move it away, or name another folder behind --disks"))


if __name__ == "__main__":
    unittest.main()
