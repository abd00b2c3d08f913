"""What bench/speed.py and bench/growth.py measure of loads and of kinds of scenarios, by programs that are scripts here."""

import os
import sys
import unittest
from unittest import mock

from played import InFolder, TOP, run_bench
import growth
import kinds
import measured
import speed

MODEL = f'#!/bin/sh\nexec {sys.executable} {os.path.join(TOP, "bench", "model.py")} "$@"\n'
TIME = r"\d+\.\d{3} s, \d+\.\d\d us an event"
SIDE = rf"least {TIME}; median {TIME}; memory \d+ MB"
RATIO = r"\d+\.\d\d"
PLAYS = MODEL.replace("exec", "shift\nexec")
SMALL = {"hot-set": kinds.Kind(lambda: kinds.hot_set(commits=3)), "long-rows-ticks": kinds.Kind(lambda: kinds.long_rows(10, 4))}


class Speed(InFolder):
    def program(self, name, text):
        return self.write(name, text, is_program=True)

    def test_two_programs_are_compared(self):
        program, words = self.program("one", MODEL), ["--calls", "5", "--seed", "3", "--runs", "2"]
        status, told = run_bench(speed, program, "--program", program, *words)
        self.assertIsNone(status)
        lines = told.splitlines()
        self.assertEqual(len(lines), 4)
        for line, wanted in zip(lines, [r"load of seed 3 with 5 calls: 23 events, 2 runs of each in turn",
                                        f"the program: {SIDE}", f"the other: {SIDE}",
                                        f"ratio of the least times {RATIO}, of the medians {RATIO}, of the memory {RATIO}"]):
            self.assertRegex(line, f"^{wanted}$")

    def test_they_run_in_turn_and_the_other_with_its_words(self):
        log = os.path.join(self.folder, "log")
        one, other = (self.program(name, f'#!/bin/sh\necho {name} "$@" >> {log}\necho "site 0 up epoch 1 events 4 records 1"\n')
                      for name in ("one", "other"))
        status, _ = run_bench(speed, f"{other} --stage 2", "--program", one, "--calls", "9", "--runs", "2")
        self.assertIsNone(status)
        with open(log, encoding="utf-8") as file:
            self.assertEqual(file.read(), "one load --seed 7 --calls 9\nother --stage 2 load --seed 7 --calls 9\n" * 2)

    def test_other_summaries_are_told(self):
        one, other = (self.program(name, f"#!/bin/sh\necho same\necho {name}\n") for name in ("one", "other"))
        self.assertEqual(run_bench(speed, other, "--program", one),
                         ("the two write different summaries\nthe program: one\nthe other: other", ""))

    def test_a_program_that_fails_is_told(self):
        one = self.program("one", "#!/bin/sh\necho no such load >&2\nexit 5\n")
        self.assertEqual(run_bench(speed, one, "--program", one), (f"{one} ended with status 5\nno such load", ""))
        self.assertEqual(run_bench(speed, one, "--program", "/none"), ("/none ended with status 1\nNo such file or directory", ""))

    def test_a_run_is_measured(self):
        words = [sys.executable, "-c", "print(len(b'x' * 60_000_000) + sum(range(5_000_000)))"]
        run = measured.measured(words)
        self.assertEqual(run.written, f"{60_000_000 + sum(range(5_000_000))}\n")
        self.assertGreater(run.megabytes, 60)
        self.assertTrue(0.01 < run.seconds < 60)

    def test_a_run_reads_a_file(self):
        with open(self.write("source", "hello\n"), encoding="utf-8") as source:
            self.assertEqual(measured.measured(["cat"], source).written, "hello\n")

    def test_events_are_those_of_all_sites(self):
        self.assertEqual(measured.events_of("load seed 1 calls 1\nsite 0 up epoch 1 events 4 records 1 log 0\n"
                                            "site 1 down epoch 1 events 30 records 1 log 0\n"), 34)

    def test_kinds_are_compared(self):
        program, words = self.program("one", PLAYS), ["--kinds", "all", "--runs", "2"]
        with mock.patch.dict(kinds.KINDS, SMALL, clear=True), mock.patch.dict(speed.KINDS, SMALL):
            status, told = run_bench(speed, program, "--program", program, *words)
        self.assertEqual(status, False)
        first, *head, hot, long = told.splitlines()
        self.assertEqual(([first], head), (["2 runs of each in turn"], speed.HEAD))
        side = r"\d+\.\d{3} +\d+\.\d{3} +\d+"
        for line, name, events in (hot, "hot-set", 19), (long, "long-rows-ticks", 24):
            self.assertRegex(line, rf"^{name} +{events} \| +{side} \| +{side} \| +{RATIO} +{RATIO} +{RATIO} \| (within|above) 3$")

    def test_kinds_run_in_turn_with_the_words_of_both(self):
        log = os.path.join(self.folder, "log")
        one, other = (self.program(name, f'#!/bin/sh\necho {name} "$@" >> {log}\nwc -c\necho "site 0 up events 4 "\n')
                      for name in ("one", "other"))
        with mock.patch.dict(kinds.KINDS, SMALL, clear=True), mock.patch.dict(speed.KINDS, SMALL):
            status, told = run_bench(speed, f"{other} --stage 2", "--program", f"{one} --fast", "--runs", "2", "--kinds", "hot-set")
        self.assertEqual((status, len(told.splitlines())), (False, 4))
        self.assertIn("too short to tell", told)
        with open(log, encoding="utf-8") as file:
            self.assertEqual(file.read(), "one --fast play\nother --stage 2 play\n" * 2)

    def test_kinds_that_differ_or_fail_are_told(self):
        one, other, failing = (self.program(name, f"#!/bin/sh\necho same\necho {name}\n{end}\n")
                               for name, end in (("one", ""), ("other", ""), ("failing", "echo why >&2; exit 5")))
        with mock.patch.dict(kinds.KINDS, SMALL, clear=True), mock.patch.dict(speed.KINDS, SMALL):
            status, told = run_bench(speed, other, "--program", one, "--kinds", "all")
            self.assertEqual((status, told.splitlines()[3:]), (True, [
                line for name in SMALL
                for line in (f"{name}: the two write different reports", "the program: one", "the other: other")]))
            status, told = run_bench(speed, failing, "--program", one, "--kinds", "hot-set")
        self.assertEqual((status, told.splitlines()[3:]), (True, [f"hot-set: the other: {failing} ended with status 5", "why"]))

    def test_the_limit_is_by_the_least_times_and_by_the_medians(self):
        def side(*seconds):
            made = speed.Side("a side", [])
            made.runs = [measured.Measured("", number, 10) for number in seconds]
            return made

        kind = kinds.Kind(None)
        self.assertEqual(speed.limit_of(side(0.3, 0.3, 0.3), side(0.1, 0.1, 0.1), kind), "within 3")
        self.assertEqual(speed.limit_of(side(0.31, 0.31, 0.31), side(0.1, 0.11, 0.11), kind), "above 3")
        self.assertEqual(speed.limit_of(side(0.1, 0.31, 0.31), side(0.1, 0.1, 0.1), kind), "above 3")
        self.assertEqual(speed.limit_of(side(0.1), side(0.019), kind), "too short to tell")

    def test_the_memory_has_a_limit_where_the_kind_has_one(self):
        def side(seconds, megabytes):
            made = speed.Side("a side", [])
            made.runs = [measured.Measured("", seconds, megabytes)]
            return made

        kind = kinds.Kind(None, 2, 1.8)
        self.assertEqual(speed.limit_of(side(0.2, 18), side(0.1, 10), kind), "within 2, within 1.8 MB for MB")
        self.assertEqual(speed.limit_of(side(0.3, 19), side(0.1, 10), kind), "above 2, above 1.8 MB for MB")
        self.assertEqual(speed.limit_of(side(0.3, 19), side(0.01, 20), kind), "too short to tell, within 1.8 MB for MB")

    def test_kinds_that_there_are_not(self):
        with mock.patch("sys.stderr"):
            self.assertEqual(run_bench(speed, "one", "--kinds", "hot-set,cold-set")[0], 2)

    def test_loads_grow(self):
        with mock.patch.object(growth, "LOADS", (5, 10)), mock.patch.object(growth, "RUNS", 1):
            first, second = growth.load_lines(self.program("one", MODEL))
        self.assertRegex(first, r"^load of 5 calls: \d\.\d{3} s; 23 events; \d+\.\d\d us an event$")
        self.assertRegex(second, rf"^load of 10 calls: \d\.\d{{3}} s; 43 events; \d+\.\d\d us an event; ratio {RATIO}$")


if __name__ == "__main__":
    unittest.main()
