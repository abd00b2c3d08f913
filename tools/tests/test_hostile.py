"""Which inputs and shapes bench/hostile.py makes, and what it says of those that differ, with the plain model as the program."""

import itertools
import json
import os
import random
import unittest
from collections import Counter
from unittest import mock

from played import InFolder, run_bench
import audit
import ends
import hostile
import journals
import model
import readings
from spelled import frame

SMALL = 12_000
# Refuses all, in the words of the model for this text.
REFUSES = """#!/bin/sh
cat > /dev/null
echo "walter: the scenario has no reading: the text: wants JSON in UTF-8, an object outermost" >&2
exit 2
"""


class Inputs(unittest.TestCase):
    def try_with(self, come, play, *rest):
        """What is said of an input where the program ends so."""
        with mock.patch.object(hostile, "came_of", lambda program, words, data: come(words, data)):
            return play("program", *rest, Counter())

    def test_the_model_plays_inputs_of_all_kinds(self):
        with mock.patch.object(hostile, "GENERATED", 3):
            status, told = run_bench(hostile, "--model", "--count", "1000", "--seed", "2")
        self.assertEqual(status, False)
        of_clients, of_texts, of_journals, of_audits = told.splitlines()
        self.assertRegex(of_clients, "^clients' bytes: 960 from seed 2, 0 differ; answers [1-9].*, bad frames [1-9].*, refusals [1-9]")
        self.assertRegex(of_texts, "^texts of scenarios: 30 from seed 2, 0 differ; .*the text is no JSON [1-9]")
        self.assertRegex(of_journals, "^journals: 10 from seed 2, 0 differ; ")
        self.assertRegex(of_audits, "^audits: 10 from seed 2, 0 differ; ")

    def test_they_go_by_their_seeds(self):
        self.assertEqual(hostile.requests_of(4, 20), hostile.requests_of(4, 20))
        self.assertNotEqual(hostile.requests_of(4, 20)["clients"], hostile.requests_of(5, 20)["clients"])
        readings.read(json.dumps(hostile.requests_of(4, 300)).encode())
        self.assertEqual(hostile.batches(3000), (hostile.batches(3000)[0], 3000))
        self.assertEqual(sum(hostile.batches(3001)[0]), 3001)

    def test_what_clients_send_is_compared(self):
        def right(words, data):
            return hostile.Come(0, "", model.play(json.loads(data), Counter()))

        self.assertIsNone(self.try_with(right, hostile.try_requests, 1, 20))
        changed = self.try_with(lambda *given: right(*given)._replace(status=5, written=""), hostile.try_requests, 1, 20)
        self.assertEqual(changed, "came 5 '', wanted 0 ''")
        other = self.try_with(lambda *given: right(*given)._replace(written="sites 9\n"), hostile.try_requests, 1, 20)
        self.assertRegex(other, "^came sites 9, wanted sites [124] f ")

    def test_texts_are_compared(self):
        bases = [json.dumps(hostile.plain()).encode()]
        come = {}

        def by_model(words, data):
            come["data"] = data
            return hostile.text_wanted(data, Counter())

        for seed in range(30):
            self.assertIsNone(self.try_with(by_model, hostile.try_text, bases, seed))
        self.assertIsNotNone(self.try_with(lambda *given: hostile.Come(2, "walter: no\n", ""), hostile.try_text, bases, 3))

    def test_what_asks_for_much_is_left_out(self):
        met = Counter()
        large = json.dumps(hostile.plain(areas=2, capacity=1 << 40)).encode()
        self.assertIsNone(hostile.text_wanted(large, met))
        self.assertEqual(met, {"left out": 1})

    def test_files_are_compared(self):
        empty = journals.empty(1, 300)
        used = empty[:8] + b"\1" + frame(b"x") + b"\0"
        for content, cause in [(b"", None), (empty, None), (empty + b"behind", None), (b"WALTERJ1", ("it has no journal", 0)),
                               (used, ("its journal has records", 8)),
                               (empty[:8] + b"\1\0\0\0\5x", ("its journal is damaged, since it claims a length of 5", 8))]:
            self.assertEqual(hostile.cause_of(content, 300, 1), cause)
        self.assertIsNone(self.over(lambda folder: None, [used]))
        self.assertEqual(self.over(lambda folder: hostile.write_files(folder, [empty]), [used]),
                         "the file of site 0 has other bytes than the model's")

    def over(self, leave, contents):
        """What is said where the program refuses the first file, and leaves these files."""
        def come(words, data):
            leave(words[-1])
            return hostile.Come(7, f"walter: {words[-1]}/site-0.journal: its journal has records (at place 8); move it away, or name "
                                   "another folder behind --disks\n", "")

        told = (None, 0, [("its journal has records", 8)])
        with mock.patch.object(hostile, "came_of", lambda program, words, data: come(words, data)):
            return hostile.wrong_with_files("program", hostile.played_over(1), contents, told, contents)

    def test_audits_are_compared(self):
        """And no audit changes a file."""
        bases, run_bases = hostile.journal_bases(), hostile.audit_bases()[:6]
        met, leave = Counter(), []

        def by_plain(program, made, folder):
            files = audit.files_in(folder, made["sites"])
            audit.write_files(folder, leave)
            return audit.ended(made, folder, files)

        with mock.patch.object(audit, "of_program", by_plain):
            for seed in range(30):
                self.assertIsNone(hostile.try_audit("program", bases, run_bases, seed, met))
            self.assertTrue(met["yes"] and met["unreadable"] and met["no journal, or a damaged one"], met)
            leave = [b"x"]
            wrong = hostile.try_audit("program", bases, run_bases, 0, met)
            self.assertEqual(wrong, "a file has other bytes behind the audit")
        with mock.patch.object(audit, "of_program", lambda *words: (ends.NO_MEMORY, "out of memory", "")):
            self.assertTrue(hostile.try_audit("program", bases, run_bases, 0, met).startswith("came 5 'out of memory'"))

    def test_sites_begin_over_what_is_found(self):
        """Over a journal without records a site comes to the same, in the layout and the format that it has, whatever is asked
        for; what stands behind stays."""
        made = {**hostile.played_over(1), "capacity": 700}
        for areas, form, asked, behind in itertools.product((1, 2), (1, 2), (1, 2), (b"", bytes(500) + b"behind")):
            content = journals.empty(areas, 700, form)
            content += behind[len(content) :]
            run = model.played({**made, "format": asked}, Counter(),
                               lambda scenario, me, met, content=content: hostile.Found(content, scenario, me, met))
            self.assertEqual(run.text(), model.play({**made, "areas": areas, "format": form}, Counter()))
            self.assertTrue(bytes(run.sites[0].disk.safe).endswith(behind[-6:]))

    def test_journals_are_of_both_formats(self):
        bases = hostile.journal_bases()
        for (capacity, sites), made in bases.items():
            areas = 1 + (capacity >= journals.LEAST_OF_TWO)
            right = {header for form in hostile.forms_of(sites) for header in journals.HEADERS[form][:areas]}
            self.assertEqual({base[:8] for base in made}, right | {journals.HEADER})
        self.assertEqual(hostile.cause_of(journals.empty(1, 700), 700, 16), ("it has no journal", 0))
        for base in bases[700, 2]:
            bodies = journals.bodies_of(journals.read(base, 700, 2))
            own = [len(body) for body in bodies if body[0] == 2]
            if own:
                is_first = base[:8] in journals.HEADERS[1]
                self.assertEqual((own, bodies.count(b"\x0a\2")), ([118 if is_first else 71, 71], int(is_first)))

    def test_changed_values_are_json(self):
        rng, bases = random.Random(1), [json.dumps(hostile.requests_of(1, 3)).encode()]
        for _ in range(200):
            json.loads(hostile.text_of_values(rng, bases))


class Shapes(InFolder):
    def test_each_is_what_the_model_says(self):
        for name, make in hostile.SHAPES.items():
            data, wanted = make(readings.MOST_BYTES if name == "one byte too many" else SMALL)
            with self.subTest(name):
                try:
                    said = model.played(readings.read(data), Counter()).text(False)
                except readings.Refused as refused:
                    said = str(refused)
                self.assertEqual(said, wanted if isinstance(wanted, str) else model.played(wanted, Counter()).text(False))
                if not name.startswith("16,38"):
                    self.assertEqual(len(data), readings.MOST_BYTES + 1 if name == "one byte too many" else SMALL)

    def test_what_a_shape_takes_is_told(self):
        program = self.write("program", REFUSES, is_program=True)
        shapes = {name: hostile.SHAPES[name] for name in ("zeros in a list", "no keys")}
        with mock.patch.object(hostile, "SHAPES", shapes), mock.patch.object(hostile, "OF_RUN", {}), \
             mock.patch("builtins.print") as told:
            self.assertEqual(hostile.measured_shapes(program, None, 500), 1)
        first, second = (call.args[0] for call in told.call_args_list)
        self.assertRegex(first, r"^zeros in a list: 500 bytes, status 2, \d\.\d\d s, \d+ MB: right$")
        self.assertRegex(second, r"^no keys: 500 bytes, status 2, .*: came 2 'walter: .*, wanted 2 'walter: .*the keys: wants")

    def test_limits_are_kept(self):
        come = hostile.Come(0, "", "text\n")
        for seconds, megabytes, wanted in [(1, 10, None), (11, 10, "11.0 s and not 10"), (1, 501, "501 MB and not 500")]:
            run = hostile.run_of.__globals__["Measured"]("text\n", seconds, megabytes)
            self.assertEqual(hostile.wrong_of_shape(come, run, come), wanted)


if __name__ == "__main__":
    unittest.main()
