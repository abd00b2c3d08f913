"""Which device calls bench/stops.py stops, and what it says of runs that differ, with the plain model as the program."""

import json
import subprocess
import unittest
from collections import Counter
from unittest import mock

from played import run_bench
import journals
import model
import readings
import rows
import stops
from spelled import FORMAT, record_of

SLOW = "a slow commit"


def ended(status, written, said=""):
    return subprocess.CompletedProcess([], status, written, said)


class Stops(unittest.TestCase):
    def stop(self, play, *words):
        """Stops the calls of the slow commit, where `play` is the program."""
        one = {SLOW: stops.SCENARIOS[SLOW]}
        with mock.patch.object(stops, "SCENARIOS", one), \
             mock.patch.object(stops.subprocess, "run", lambda words, input, **_: play(json.loads(input))):
            return run_bench(stops, "--program", "program", *words)

    def test_the_slow_commit_has_36_runs(self):
        played = []

        def play(made):
            played.append(tuple(made["arms"][0]))
            return ended(0, model.play(made, Counter()))

        status, told = self.stop(play)
        self.assertEqual((status, told), (False, "a slow commit: 4 and 8 calls of its sites were stopped, in 36 runs\n12 device "
                         "calls were stopped, each by the choices 0, 1, 7: the same\n"))
        arms = [(site, nth, choice) for site, most in ((0, 4), (1, 8)) for nth in range(1, most + 1) for choice in (0, 1, 7)]
        self.assertEqual(sorted(played), arms)

    def test_runs_that_differ_are_told(self):
        for change, wanted in [
            (lambda text: ended(5, "", "walter: out of memory\n"), "status 5, walter: out of memory"),
            (lambda text: ended(0, text.replace(" failed ", " taken ", 1)), "played: e "),
        ]:
            def play(made, change=change):
                text = model.play(made, Counter())
                return change(text) if made["arms"] == [[0, 3, 1]] else ended(0, text)

            status, told = self.stop(play)
            _, line, *_, last = told.splitlines()
            self.assertEqual(status, True)
            self.assertTrue(line.startswith(f"  a slow commit, call 3 of site 0, choice 1: {wanted}"), line)
            self.assertTrue(last.endswith(": 1 runs differ"), last)

    def test_the_model_alone(self):
        status, told = self.stop(None, "--model")
        self.assertEqual((status, told.splitlines()[-1]),
                         (False, "12 device calls were stopped, each by the choices 0, 1, 7: played by the model"))

    def test_an_upgrade_is_stopped_at_each_of_its_calls(self):
        """Of its four calls the third opens the gate: from there on a restart finds it where all is left. What comes behind is in
        the format in force then."""
        for name in "an upgrade and restarts", "an upgrade and restarts over two areas":
            made, found = stops.SCENARIOS[name](), []
            for choice in rows.CHOICES:
                for nth, _, run in rows.stopped(made, 1, lambda _, choice=choice: choice):
                    site = run.sites[1]
                    entry = next(one for one in site.entries if one.event == "upgrade")
                    if entry.outcome == "failed":
                        found.append((nth, choice, site.form))
                        self.assertEqual(entry.flight, (FORMAT,))
                        self.assertEqual(self.bodies_on(site), list(self.spelled(site.records)))
            first = min(nth for nth, _, _ in found)
            self.assertEqual(sorted(found), [(first + call, choice, 2 if call > 1 and choice == 1 else 1)
                                             for call in range(4) for choice in rows.CHOICES])

    def bodies_on(self, site):
        return journals.bodies_of(journals.read(bytes(site.disk.reads), site.capacity, site.count))

    def spelled(self, records):
        """The records from the first format on, each in the format in force at its place."""
        form = 1
        for record in records:
            yield record_of(record, form)
            form = 2 if record[0] == FORMAT else form

    def test_scenarios_are_right_and_packs_are_stopped(self):
        for name, make in stops.SCENARIOS.items():
            made, met = make(), Counter()
            readings.read(json.dumps(rows.armed(made, 0, 1, 7)).encode())
            if "areas" not in made:
                continue
            for site in range(made["sites"]):
                for _, _, run in rows.stopped(made, site, lambda _: 1):
                    met.update(what for what in run.met if run.met[what])
                    self.assertTrue(all(one.up for one in run.sites))
            for what in ("load fails", "pack fails before the switch byte", "pack fails at the switch byte", "pack into A"):
                self.assertGreater(met[what], 0, what)


if __name__ == "__main__":
    unittest.main()
