"""The two formats in the plain model of bench/ and in scripts, and sites up to sixteen."""

import json
import os
import random
import unittest
from collections import Counter

from played import TOP, by_model, file_text
import disks
import journals
import model
import pictures
import readings
import reports
import rows
import runs
import scripts
import words
from spelled import *


def example(name):
    return json.loads(file_text(os.path.join(TOP, "examples", f"{name}.json")))


FIRST_RUN = example("first_run")
UPGRADE = [["upgrade", 0]]
STOP = [["stop", 0], ["restart", 0]]
BOOT, TOLD = b"\1\0\0\0\1", b"\x0a\2"
HELLO = ((WRITE, (1, 5), b"hello"),)
# The transaction of the run.
RUN = (0, 1, 1), ((WRITE, (10, 5), b"hello"),)
# The transaction up to its snapshot, and from its updates on.
FRONT, BEHIND = bytes.fromhex("00 00000001 0000000000000001 0000000000000000"), bytes.fromhex(
    "0001 01 00000001 0000000000000005 00000005 68656c6c6f")
MADE = {"containers": [], "clients": [], "steps": []}


def played(made=FIRST_RUN, more=(), **keys):
    """The one site of a scenario, with further steps and keys."""
    (site,) = model.played({**made, **keys, "steps": [*made["steps"], *more]}, Counter()).sites
    return site


def trace_of(site):
    return [model.trace_line(0, entry).split(" ") for entry in site.entries]


def bodies_on(site):
    return journals.bodies_of(journals.read(bytes(site.disk.reads), site.capacity, site.count))


def refused_at(**keys):
    """The text of the place at which a scenario is refused, or None."""
    try:
        readings.read(json.dumps({**MADE, "sites": 1, "f": 0, **keys}).encode())
    except readings.Refused as refused:
        return str(refused)
    return None


class Spellings(unittest.TestCase):
    def test_a_transaction_has_the_vector_of_its_format(self):
        tx = model.Tx((0, 1, 1), 0, (3, 4), HELLO)
        numbers = bytes.fromhex("0000000000000003 0000000000000004")
        self.assertEqual(transaction_of(tx, 1), FRONT + numbers + bytes(48) + BEHIND)
        self.assertEqual(transaction_of(tx, 2), FRONT + b"\2" + numbers + BEHIND)
        for kind, fields in (OWN, (1, tx)), (GOT, (1, 1, tx)), (SLOW_BEGIN, (1, tx)):
            first, second = (record_of((kind, *fields), form) for form in (1, 2))
            self.assertEqual((first[-109:], second[-62:]), (transaction_of(tx, 1), transaction_of(tx, 2)))
            self.assertEqual(first[:-109], second[:-62])

    def test_sixteen_sites_have_the_second_alone(self):
        tx = model.Tx((0, 1, 1), 0, tuple(range(16)), HELLO)
        self.assertEqual(len(transaction_of(tx, 2)), 24 + 8 * 16 + 22)
        with self.assertRaises(struct.error):
            transaction_of(tx, 1)

    def test_a_record_of_neither_is_spelled_alike(self):
        for record in (1, 7), (FORMAT,), (MARKS, 1, 2), (PREPARED, 1, 2, (0, 1, 1), ((1, 5),)):
            self.assertEqual(record_of(record, 1), record_of(record, 2))
        self.assertEqual(record_of((FORMAT,)), TOLD)


class Journals(unittest.TestCase):
    def test_there_are_four_headers(self):
        for form, of_one, of_two in (1, b"WALTERJ1", b"WALTERK1"), (2, b"WALTERJ2", b"WALTERK2"):
            self.assertEqual(journals.empty(1, 300, form), of_one + b"\0")
            self.assertEqual(journals.empty(2, 59, form), of_two + bytes(26))
            for data in journals.empty(1, 300, form), journals.empty(2, 300, form):
                self.assertEqual(journals.read(data, 300, 8).form, form)

    def test_foreign_bytes(self):
        for data, capacity, sites in [(b"WALTERJ3\0", 300, 1), (b"WALTERK2" + bytes(100), 46, 1), (b"WALTERJ2", 300, 1),
                                      (journals.empty(1, 300, 1), 300, 9), (journals.empty(2, 300, 1), 300, 16)]:
            with self.assertRaises(journals.Foreign):
                journals.read(data, capacity, sites)
        for areas in 1, 2:
            self.assertEqual(journals.read(journals.empty(areas, 300, 2), 300, 16).form, 2)

    def test_a_disk_that_has_bytes_keeps_its_format(self):
        for areas in 1, 2:
            for made, asked in (1, 2), (2, 1):
                disk = disks.Disk()
                disks.Journal(disk, 293, areas, 1, made).append(BOOT)
                journal = disks.Journal(disk, 293, areas, 1, asked)
                self.assertEqual((journal.form, journal.bodies), (made, [BOOT]))

    def test_a_pack_leaves_out_nothing_of_the_second_format(self):
        rng = random.Random(1)
        for _ in range(300):
            sites = rng.randint(1, 16)
            start = tuple(rng.choice([0, 0, 1, 256]) for _ in range(sites))
            tx = model.Tx((0, 1, 1), rng.choice([0, 1]), start, HELLO * rng.choice([1, 1, 256]))
            for record in (OWN, 1, tx), (GOT, 0, 1, tx), (SLOW_BEGIN, 1, tx):
                body = record_of(record, 2)
                entry = journals.entry_of(body, sites)
                self.assertEqual(entry, b"\0" + frame(body))
                if sites < 8:
                    body = record_of(record, 1)
                    self.assertEqual(len(journals.entry_of(body, sites)), 5 + len(body) - 64 + 8 * sites)

    def test_from_eight_sites_on_every_body_is_packed_whole(self):
        for sites in range(8, 17):
            for body in b"\2" + bytes(200), b"\3" + bytes(200), b"\7" + bytes(93):
                self.assertEqual(journals.entry_of(body, sites), b"\0" + frame(body))
                cut = b"\1" + frame(body[:30])
                data = journals.HEADERS[2][1] + b"\0" + struct.pack(">Q", len(cut)) + cut + b"\0"
                with self.assertRaises(journals.Damaged):
                    journals.read(data, 10_000, sites)


class Upgrades(unittest.TestCase):
    def test_a_site_is_upgraded_where_there_is_place(self):
        site = played(more=UPGRADE, capacity=149)
        self.assertEqual(trace_of(site)[-1][3:], ["upgrade", "taken", "-", "0a02", "-", "-", "0"])
        self.assertEqual((len(site.records), bodies_on(site)[-1]), (3, TOLD))
        site = played(more=UPGRADE, capacity=148)
        self.assertEqual(trace_of(site)[-1][3:], ["upgrade", "full:7:6", "-", "-", "-", "-", "0"])
        self.assertEqual(len(site.records), 2)

    def test_it_comes_up_again_where_there_is_place_for_a_boot(self):
        for capacity, outcome, is_up in (159, "taken", True), (158, "full:10:9", False):
            site = played(more=UPGRADE + STOP, capacity=capacity)
            self.assertEqual((site.entries[-1].outcome, site.up), (outcome, is_up))
            self.assertEqual((site.last_epoch(), site.form), (2 if is_up else 1, 2))

    def test_it_is_passed_in_the_second_format_and_down_where_the_site_is(self):
        self.assertEqual([entry.outcome for entry in played(more=UPGRADE * 2).entries[-2:]], ["taken", "passed"])
        self.assertEqual(played(more=UPGRADE, format=2).entries[-1].outcome, "passed")
        self.assertEqual(played(more=[*UPGRADE, *STOP, *UPGRADE]).entries[-1].outcome, "passed")
        self.assertEqual(played(more=STOP[:1] + UPGRADE).entries[-1].outcome, "down")

    def test_what_comes_behind_it_is_spelled_in_the_second_format(self):
        steps = FIRST_RUN["steps"]
        first = bodies_on(played(more=steps))
        for areas in 1, 2:
            site = played({**FIRST_RUN, "clients": [[0, FIRST_RUN["clients"][0][1] * 2]]}, UPGRADE + steps, areas=areas)
            own = [record for record in site.records if record[0] == OWN]
            self.assertEqual(bodies_on(site), [BOOT, record_of(own[0], 1), TOLD, record_of(own[1], 2)])
            self.assertEqual(bodies_on(site)[:2], first[:2])
            lines = [line for line in trace_of(site) if line[6] != "-"]
            self.assertEqual([bytes.fromhex(line[6]) for line in lines], bodies_on(site))

    def test_a_fault_leaves_it_in_flight(self):
        """An append makes four calls, of which the third opens the gate."""
        for nth, choice, kept in (1, 1, "-"), (3, 0, "-"), (3, 1, "0a02"), (4, 1, "0a02"):
            site = played(more=[["arm", 0, nth, choice], *UPGRADE, ["restart", 0], *UPGRADE])
            failed, restart, again = trace_of(site)[-3:]
            self.assertEqual(failed[3:8], ["upgrade", "failed", "-", "-", "0a02"])
            self.assertEqual((restart[4], restart[5]), ("taken", kept))
            self.assertEqual(again[4], "passed" if kept != "-" else "taken")
            self.assertEqual(bodies_on(site).count(TOLD), 1)


class Examples(unittest.TestCase):
    def test_a_site_is_upgraded_amid_its_commits(self):
        made = example("upgraded_in_place")
        run = model.played(made, Counter())
        first, upgraded, last = run.sites
        self.assertEqual([site.form for site in run.sites], [1, 2, 1])
        own = [record for record in upgraded.records if record[0] in (OWN, SLOW_BEGIN)]
        self.assertEqual([kind for kind, *_ in own], [OWN, SLOW_BEGIN, OWN, OWN])
        spelled = [record_of(record, form) for record, form in zip(own, (1, 1, 2, 2))]
        bodies = bodies_on(upgraded)
        self.assertEqual([body for body in bodies if body[0] in (OWN, SLOW_BEGIN)], spelled)
        self.assertEqual([at for at, body in enumerate(bodies) if body == TOLD], [3])
        self.assertEqual([line.split(" ")[6] for line in run.text().splitlines() if " upgrade " in line], [TOLD.hex(), "-"])
        self.assertEqual(upgraded.last_epoch(), 2)
        for site in first, last:
            self.assertEqual((site.log, dict(site.rows)), (upgraded.log, dict(upgraded.rows)))
            self.assertEqual([record_of(record, 1) for record in site.records], bodies_on(site))

    def test_a_slow_commit_asks_fifteen_sites(self):
        run = model.played(example("sixteen_sites"), Counter())
        asking, *asked = run.sites
        self.assertEqual((asking.count, asking.tolerated, [site.form for site in run.sites]), (16, 15, [2] * 16))
        updates = asking.log[0, 1].updates
        self.assertEqual([site.here(updates) for site in run.sites], [((number, 1),) for number in range(16)])
        begun = next(entry for entry in asking.entries if entry.wrote and entry.wrote[0] == SLOW_BEGIN)
        self.assertEqual([(to, packet[0]) for to, packet in begun.sends], [(number, PREPARE) for number in range(1, 16)])
        self.assertEqual([site.log for site in asked], [asking.log] * 15)
        self.assertEqual([site.locks for site in run.sites], [{}] * 16)


class Sites(unittest.TestCase):
    def test_a_journal_of_the_second_format_has_place_for_less(self):
        """The row of a journal that is full, with a transaction of 54 bytes in place of 109."""
        for capacity, said in (87, "85"), (86, "e00a00000000000000440000000000000043"):
            site = played(format=2, capacity=capacity)
            self.assertEqual(site.entries[-1].outcome[len("reply:") + 8 :][: len(said)], said)
        self.assertEqual(bytes(played(format=2).disk.reads)[:8], b"WALTERJ2")
        self.assertEqual(bytes(played(format=2, areas=2).disk.reads)[:8], b"WALTERK2")

    def test_up_to_sixteen_sites(self):
        for sites, form in (8, 1), (9, 2), (16, 2):
            run = model.played({**MADE, "sites": sites, "f": 0}, Counter())
            self.assertEqual([site.form for site in run.sites], [form] * sites)
            self.assertEqual(sum(line.startswith("site ") for line in run.text().split("\n")), sites)

    def test_sixteen_sites_commit_what_one_has_committed(self):
        to_all = [step for site in range(1, 16) for step in (["deliver", site, 0, 1], ["deliver", 0, site, 1])]
        made = {**FIRST_RUN, "sites": 16, "f": 15}
        run = model.played({**made, "steps": [*made["steps"], *to_all]}, Counter())
        self.assertEqual([len(site.log) for site in run.sites], [1] * 16)
        for site in run.sites[1:]:
            tx = model.Tx(RUN[0], 0, (0,) * 16, RUN[1])
            self.assertEqual(bodies_on(site)[-1], record_of((GOT, 0, 1, tx), 2))

    def test_worked_runs_of_few_sites_come_to_the_same_beside_many_that_hear_nothing(self):
        """But where a commit becomes visible everywhere, or the first format is wanted."""
        for name, play in rows.ROWS.items():
            made = play().made
            is_of_first = "capacity" in made or any(word == "upgrade" for word, *_ in made["steps"])
            if made["sites"] > 8 or is_of_first or name == "a commit is durable and then visible":
                continue
            few = model.played(made, Counter())
            for sites in 9, 16:
                many = model.played({**made, "sites": sites}, Counter())
                self.assertEqual(many.replies, few.replies, name)
                for one, other in zip(many.sites, few.sites):
                    self.assertEqual([(entry.event, entry.outcome) for entry in one.entries],
                                     [(entry.event, entry.outcome) for entry in other.entries], name)

    def test_a_format_is_refused_behind_the_room(self):
        text = readings.TEXTS["format"]
        self.assertEqual(text, "the format: wants 1 or 2, and 1 only where there are at most 8 sites")
        for keys in {"format": 1}, {"format": 2}, {"sites": 8, "format": 1}, {"sites": 9, "format": 2}, {"sites": 16}:
            self.assertIsNone(refused_at(**keys), keys)
        for keys in {"format": 0}, {"format": 3}, {"format": None}, {"sites": 9, "format": 1}, {"format": 3, "link": 0}:
            self.assertEqual(refused_at(**keys), text, keys)
        self.assertEqual(refused_at(format=3, room=-1), readings.TEXTS["room"])
        self.assertEqual(refused_at(format=3, sites=17), readings.TEXTS["sites"])

    def test_an_upgrade_is_a_step_of_one_site(self):
        self.assertIsNone(refused_at(steps=[["upgrade", 0]]))
        self.assertEqual(refused_at(steps=[["upgrade", 1]]),
                         "step 0, its site: wants a whole number below 1, the number of sites")
        self.assertEqual(refused_at(steps=[["upgrade"]]), 'step 0, its length: wants just ["upgrade", site]')


class Scripts(unittest.TestCase):
    def test_lines_have_the_format_and_upgrades(self):
        lines = "sites 16 tolerated 3\nroom 5\nformat 2\nupgrade 15\ntick 0\n"
        made = {"sites": 16, "f": 3, "room": 5, "format": 2, **MADE, "steps": [["upgrade", 15], ["tick", 0]]}
        self.assertEqual(scripts.read(lines), made)
        self.assertEqual(scripts.write(made), lines)

    def test_names_are_worked_out_behind_an_upgrade(self):
        made = scripts.read("sites 9 tolerated 0\ncontainer 1 regular at 0\nclient ann at 0\n"
                            'ann: start\nann: write 1:1 "x"\nupgrade 0\nann: commit\nsettle 8\n')
        self.assertEqual(made["steps"][2], ["upgrade", 0])
        self.assertIn(["deliver", 8, 0, 1], made["steps"])

    def test_wrong_lines_are_refused(self):
        for lines, told in [
            ("sites 9 tolerated 0\nformat 1", 'line 2: "1": wants the format 1 or 2, and 1 only where there are at most 8 sites'),
            ("sites 8 tolerated 0\nformat 3", 'line 2: "3": wants the format 1 or 2'),
            ("sites 1 tolerated 0\nformat 1\nformat 2", 'line 3: "format": wants format once: line 2 has it'),
            ("sites 1 tolerated 0\nupgrade 1", 'line 2: "1": wants a site below 1; the form is upgrade SITE'),
        ]:
            with self.assertRaises(scripts.Wrong) as wrong:
                scripts.read(lines)
            self.assertTrue(str(wrong.exception).startswith(told), wrong.exception)


class Words(unittest.TestCase):
    """What the tools read of the trace of a run, whose records are in either format."""

    SCRIPT = ("sites 2 tolerated 0\ncontainer 1 regular at 0\nclient ann at 0\n"
              'ann: start\nann: write 1:1 "x"\nann: commit\nupgrade 0\nupgrade 0\n'
              'ann: start\nann: write 1:1 "y"\nann: commit\nsettle\nstop 0\nupgrade 0\n')

    def run_of(self, script):
        text = json.dumps(scripts.read(script))
        return runs.Run(runs.Scenario(script), reports.read(by_model(text).text()))

    def test_an_upgrade_is_told(self):
        run = self.run_of(self.SCRIPT)
        told = [words.moment_line(run.scenario, step.moment) for step in run.steps if step.made[0] == "upgrade"]
        self.assertEqual(told, ["upgrade 0 -> site 0 journals in the second format from now on",
                                "upgrade 0 -> site 0 journals in the second format already",
                                "upgrade 0 -> site 0 is down"])
        records = [words.whole_record(moment.entry.wrote) for moment in run.moments if moment.site == 0 and moment.entry.wrote]
        self.assertEqual(records[1:4], ['Own 0@1 of 0.1.1, with the snapshot 0,0 (write 1:1 "x")', "Format 2",
                                        'Own 0@2 of 0.1.2, with the snapshot 1,0 (write 1:1 "y")'])
        self.assertIn("Format: the records behind it are in the second format", pictures.Picture(run).svg())

    def test_a_record_is_read_in_the_format_in_force(self):
        """Where it is in the other one, or a second Format comes, the report is refused; whichever format the journal began in."""
        made = scripts.read(self.SCRIPT)
        lines = model.played(made, Counter()).text().splitlines(keepends=True)
        tx = model.Tx((0, 1, 2), 0, (1, 0), ((WRITE, (1, 1), b"y"),))
        for line, other, wanted in [
            (record_of((OWN, 2, tx), 2).hex(), record_of((OWN, 2, tx), 1).hex(), "records as docs/FORMATS.md has them"),
            (" upgrade passed - - - ", " upgrade passed - 0a02 - ", "no record Format where the second format is in force"),
        ]:
            at = next(place for place, one in enumerate(lines) if line in one)
            text = "".join([*lines[:at], lines[at].replace(line, other), *lines[at + 1 :]])
            with self.assertRaisesRegex(reports.Wrong, f"line {at + 1}: wants {wanted}"):
                reports.read(text)
        reports.read(model.play({**made, "format": 2}, Counter()))

    def test_a_format_in_flight_is_in_force_where_it_is_found(self):
        for choice, form in (0, 1), (1, 2):
            made = scripts.read(self.SCRIPT.replace("upgrade 0\n", f"arm 0 call 3 choice {choice}\nupgrade 0\nrestart 0\n", 1)
                                .replace("upgrade 0\nann", "ann", 1))
            run = model.played(made, Counter())
            self.assertEqual([entry.form for entry in run.sites[0].entries if entry.wrote and entry.wrote[0] == OWN], [1, form])
            reports.read(run.text())

    def test_up_to_sixteen_sites_are_read(self):
        run = self.run_of(self.SCRIPT.replace("sites 2", "sites 16"))
        self.assertEqual([step.moment.entry.outcome[0] for step in run.steps if step.made[0] == "upgrade"],
                         ["passed", "passed", "down"])
        self.assertEqual(max(moment.site for moment in run.moments), 15)

    def test_in_which_format_a_record_is(self):
        tx = model.Tx((0, 1, 1), 0, (3, 4), HELLO)
        first, second = (reports.record_of(record_of((OWN, 1, tx), form), 2) for form in (1, 2))
        self.assertEqual((first, first.transaction.snapshot), (second, (3, 4)))
        for body in record_of((OWN, 1, tx._replace(start=(3, 4, 5))), 2), b"\x0a\1", b"\x0a", b"\x0a\2\0", b"\x0b":
            with self.assertRaises((ValueError, struct.error)):
                reports.record_of(body, 2)


if __name__ == "__main__":
    unittest.main()
