"""Journals of two areas in the plain model: what fits, what a restart packs, what faults leave of that, and wrong bytes."""

import copy
import json
import os
import random
import struct
import unittest
from collections import Counter

from played import TOP, RANDOM, examples, file_text, random_scenario
import compare
import disks
import generator
import journals
import model
import readings
import scripts
from spelled import frame, record_of

FIRST_RUN = json.loads(file_text(os.path.join(TOP, "examples", "first_run.json")))
STOP = [["stop", 0], ["restart", 0]]
AMPLE = 1 << 19
# What is left of a write or a sync that fails: nothing, all, or its places filled with a byte, which may be 1.
CHOICES = [0, 1, 7, 256, 257]
# The calls of a restart that an arm counts where there are two areas: a read, the four of a pack, and the four of an append.
READ, PACK, APPEND = 1, (2, 3, 4, 5), (6, 7, 8, 9)
BOOT = b"\1\0\0\0\1"
OWN = record_of((model.OWN, 1, model.Tx((0, 1, 1), 0, (0,), ((model.WRITE, (10, 5), b"hello"),))))


def played(made, met=None, **more):
    return model.played({**made, **more}, Counter() if met is None else met)


def with_areas(made):
    """The same scenario with two areas, and as much place as it may want."""
    return {**{key: value for key, value in made.items() if key != "capacity"}, "areas": 2, "capacity": AMPLE}


def with_one_area(made):
    """The same scenario with one area, and as much place."""
    return {**{key: value for key, value in made.items() if key != "areas"}, "capacity": AMPLE}


def full_of(outcome):
    """How many bytes were needed and how many left where an outcome says that a journal was full, or None."""
    if outcome.startswith("full:"):
        return tuple(map(int, outcome.split(":")[1:]))
    reply = bytes.fromhex(outcome[len("reply:") :]) if outcome.startswith("reply:") else b""
    return struct.unpack(">QQ", reply[6:]) if reply[4:6] == bytes([model.REFUSED, 10]) else None


def bodies_of(site, records):
    """The bodies of a site's first records, each in the format that is in force at its place."""
    form, bodies = site.header, []
    for record in records:
        bodies.append(record_of(record, form))
        form = 2 if record[0] == model.FORMAT else form
    return bodies


def left_of(site, records, packed):
    """How many bytes are left behind these records, of which so many are packed where there are two areas."""
    bodies = bodies_of(site, records)
    if site.areas == 1:
        return site.capacity - 9 - sum(5 + len(body) for body in bodies)
    entries = sum(len(journals.entry_of(body, site.count)) for body in bodies[:packed])
    return (site.capacity - 9) // 2 - 9 - entries - sum(5 + len(body) for body in bodies[packed:])


def outcomes(run):
    return [(entry.event, entry.outcome) for entry in run.sites[0].entries]


def bodies_on(site):
    """What a restart would find on the disk of a site, which is settled for it."""
    site.disk.settle()
    return bodies_in(site, site.disk)


def bodies_in(site, disk):
    return journals.bodies_of(journals.read(bytes(disk.reads), site.capacity, site.count))


def crashed(disk, choice):
    """The disk as it is once it has settled, if what is pending is left by this choice."""
    left = copy.copy(disk)
    left.safe, left.pending, left.choice = bytearray(disk.safe), list(disk.pending), choice
    left.settle()
    return left


def is_armed(made):
    return "arms" in made or any(step[0] == "arm" for step in made["steps"])


class Counting(disks.Disk):
    """A disk that keeps which calls on it an arm counts."""

    def __init__(self):
        super().__init__()
        self.calls = []

    def write(self, at, data):
        self.calls.append(("write", at, len(data)))
        super().write(at, data)

    def sync(self):
        self.calls.append(("sync",))
        super().sync()

    def read(self):
        self.calls.append(("read",))
        return super().read()


class Areas(unittest.TestCase):
    def test_a_commit_fits_into_half_of_the_capacity(self):
        run = played(FIRST_RUN, areas=2, capacity=293)
        self.assertEqual(outcomes(run)[-1], ("call:0:commit", "reply:0000000a85000000000000000001"))
        self.assertEqual(run.sites[0].journal.left(), 0)
        run = played(FIRST_RUN, areas=2, capacity=292)
        self.assertEqual(outcomes(run)[-1], ("call:0:commit", "reply:00000012e00a" + struct.pack(">QQ", 123, 122).hex()))

    def test_a_restart_finds_place_where_it_packs(self):
        site = played(FIRST_RUN, areas=2, capacity=293, steps=FIRST_RUN["steps"] + STOP).sites[0]
        self.assertEqual((site.up, site.last_epoch(), site.journal.left()), (True, 2, 46))
        self.assertEqual(struct.unpack_from(">Q", site.disk.reads, 9 + 142), (77,))
        run = played(FIRST_RUN, areas=1, capacity=142, steps=FIRST_RUN["steps"] + STOP)
        self.assertEqual((outcomes(run)[-1], run.sites[0].up), (("restart", "full:10:0"), False))

    def test_a_restart_may_find_no_place_behind_a_pack(self):
        """Each epoch takes ten bytes, and an area of 30 has place for two, packed or not. A full restart has packed before."""
        met, empty = Counter(), {"sites": 1, "f": 0, "containers": [], "clients": []}
        run = played(empty, met, areas=2, capacity=69, steps=STOP * 3)
        full = [("restart", "full:10:1")]
        self.assertEqual(outcomes(run)[2:], [("restart", "taken"), ("stop", "taken"), *full, ("stop", "down"), *full])
        self.assertEqual((met["pack into B"], met["pack into A"]), (2, 1))

    def test_with_ample_place_reports_are_the_same(self):
        """Where no disk is armed for a restart: it makes more calls, and an arm counts them. The example of areas has such an
        arm."""
        made = [json.loads(file_text(path)) for path in examples("json") if "thousand" not in path]
        made = [one for one in made if "areas" not in one]
        made += [one for one in map(random_scenario, RANDOM[:60]) if not is_armed(one) and len(one["steps"]) < 1000]
        self.assertGreater(len(made), 30)
        met = Counter()
        for one in made:
            self.assertEqual(played(with_areas(one), met).text(), played(with_one_area(one)).text())
        self.assertTrue(met["pack into A"] and met["pack into B"])

    def test_a_crash_leaves_the_records_or_one_more(self):
        """Whatever call of a disk fails, and whatever is left of what was written since the last sync."""
        met = Counter()
        for seed in RANDOM[:60]:
            made = random_scenario(seed)
            readings.check(made)
            run = model.Run(made, met)
            for step in made["steps"]:
                before = [len(site.entries) for site in run.sites]
                run.step(*step)
                for site in run.sites:
                    if site.disk.broken and len(site.entries) > before[site.me]:
                        self.check_crash(site, (seed, step))
        self.assertTrue(all(met[what] for what in compare.AREAS), met)

    def check_crash(self, site, where):
        """The one more is the record in flight. A fault in a pack leaves none, and all of the records."""
        known, flight = bodies_of(site, site.records), site.flight and record_of(site.flight, site.form)
        for choice in CHOICES:
            found = bodies_in(site, crashed(site.disk, choice))
            self.assertEqual(found[: len(known)], known, where)
            self.assertIn(found[len(known) :], ([], [flight]) if flight else ([],), where)

    def test_what_is_left_follows_from_the_trail(self):
        """Packed are all records before the last restart that ended well, and in one that doesn't all that there are."""
        met = Counter()
        # An advance that finds a journal of one area full is rare.
        for seed in range(320):
            for site in played(random_scenario(seed)).sites:
                self.check_left(site, met)
        for areas in 1, 2:
            for what in "call", "deliver", "advance", "restart", "up":
                self.assertTrue(met[areas, what], (areas, what))

    def check_left(self, site, met):
        records, packed = [], 0
        for entry in site.entries:
            word, full = entry.event.split(":")[0], full_of(entry.outcome)
            records += [entry.kept] if entry.kept else []
            if word == "restart" and (full or entry.outcome == "taken"):
                packed = len(records)
            if full:
                self.assertEqual(full[1], left_of(site, records, packed))
                met[site.areas, word] += 1
            records += [entry.wrote] if entry.wrote else []
        if site.up:
            self.assertEqual(site.journal.left(), left_of(site, records, packed))
            met[site.areas, "up"] += 1

    def test_random_scenarios_have_areas_unless_none_are_asked_for(self):
        some = [random_scenario(seed) for seed in RANDOM]
        self.assertEqual({made.get("areas") for made in some}, {None, 1, 2})
        self.assertTrue(all(made["capacity"] >= 47 for made in some if made.get("areas") == 2))
        alone = [made for _, made in compare.made_from(3, 20, False, False)]
        self.assertEqual(alone, [generator.scenario(seed, False) for seed in range(3, 23)])
        self.assertFalse(any("areas" in made for made in alone))

    def test_some_capacities_just_fit_a_record(self):
        for areas, more in (1, {}), (2, {"capacity": AMPLE}):
            made = {**FIRST_RUN, **more, "areas": areas, "steps": FIRST_RUN["steps"] + STOP * 2}
            sizes = generator.sizes(played(made).sites[0])
            self.assertEqual(sizes, [19, 142, 152, 162] if areas == 1 else [19, 142, 96, 106])
            for short, kept in (0, sizes), (1, sizes[: sizes.index(max(sizes))]):
                size = max(sizes) - short
                run = played(made, capacity=size if areas == 1 else 9 + 2 * size)
                self.assertEqual(generator.sizes(run.sites[0])[: len(kept)], kept)
                self.assertEqual(max(generator.sizes(run.sites[0])) == max(sizes), short == 0)
        made = {**FIRST_RUN, "areas": 2, "steps": FIRST_RUN["steps"] + STOP * 2}
        found = {generator.fitted(random.Random(seed), made)["capacity"] for seed in range(100)}
        near = [size + more for size in (142, 96, 106) for more in (-1, 0, 1)]
        self.assertEqual(found, {9 + 2 * size + odd for size in near for odd in (0, 1)})

    def test_a_script_has_a_line_for_them(self):
        for more in {"areas": 1}, {"areas": 2}, {"areas": 2, "capacity": 47}, {"areas": 1, "capacity": 19}, {}:
            made = {**FIRST_RUN, **more}
            text = scripts.write(made)
            self.assertEqual(scripts.read(text), made)
            self.assertEqual(list(readings.read(json.dumps(scripts.read(text)).encode())), list(scripts.read(text)))
            self.assertEqual([line for line in text.splitlines() if line.startswith(("capacity", "areas"))],
                             [f"{key} {more[key]}" for key in ("capacity", "areas") if key in more])
        self.assertEqual(scripts.read("sites 1 tolerated 0\nareas 2\ncapacity 47")["areas"], 2)
        self.assertEqual(scripts.LEAST_OF_TWO, journals.LEAST_OF_TWO)


class Calls(unittest.TestCase):
    """Which calls on a disk are made, in their order: it is these that an arm counts."""

    def calls(self, disk, make):
        disk.calls.clear()
        return make(), list(disk.calls)

    def test_a_journal_is_made_by_writes_and_a_sync(self):
        for capacity, sizes in [(47, [28]), (293, [151]), (2 * 65536 - 9, [65536]), (2 * 65536 - 7, [65536, 1]),
                                (300_001, [65536, 65536, 18933])]:
            disk = Counting()
            disks.Journal(disk, capacity, 2, 3)
            self.assertEqual(disk.calls, [("write", 65536 * at, size) for at, size in enumerate(sizes)] + [("sync",)])
            self.assertEqual(len(disk.reads), 9 + (capacity - 9) // 2)
        disk = Counting()
        disks.Journal(disk, 293)
        self.assertEqual((disk.calls, bytes(disk.reads)), ([("write", 0, 9), ("sync",)], b"WALTERJ1\0"))

    def test_a_load_reads_once_and_a_pack_and_an_append_make_four_calls(self):
        disk = Counting()
        journal, _ = self.calls(disk, lambda: disks.Journal(disk, 293, 2, 1))
        self.assertEqual(self.calls(disk, journal.pack)[1], [])
        for at, body, length in [(17, BOOT, 10), (27, OWN, 123)]:
            self.assertEqual(self.calls(disk, lambda: journal.append(body))[1],
                             [("write", at + 1, length), ("sync",), ("write", at, 1), ("sync",)])
        journal, calls = self.calls(disk, lambda: disks.Journal(disk, 293, 2, 1))
        self.assertEqual((calls, journal.bodies, journal.area.name), ([("read",)], [BOOT, OWN], "A"))
        self.assertEqual(self.calls(disk, journal.pack)[1], [("write", 151, 8 + 77 + 1), ("sync",), ("write", 8, 1), ("sync",)])
        self.assertEqual((disk.reads[8], journal.area.name, journal.left()), (1, "B", 56))
        self.assertEqual(self.calls(disk, lambda: journal.append(BOOT))[1],
                         [("write", 237, 10), ("sync",), ("write", 236, 1), ("sync",)])
        journal, _ = self.calls(disk, lambda: disks.Journal(disk, 293, 2, 1))
        self.assertEqual((journal.bodies, journal.area.name), ([BOOT, OWN, BOOT], "B"))
        self.assertEqual(self.calls(disk, journal.pack)[1], [("write", 9, 8 + 87 + 1), ("sync",), ("write", 8, 1), ("sync",)])
        self.assertEqual((disk.reads[8], journal.area.name), (0, "A"))

    def test_zeros_come_first_where_the_disk_ends_before_the_other_area(self):
        """As that of a journal does which was made for less."""
        disk = Counting()
        disks.Journal(disk, 293, 2, 1).append(BOOT)
        journal, _ = self.calls(disk, lambda: disks.Journal(disk, 300_001, 2, 1))
        at = 9 + (300_001 - 9) // 2
        self.assertEqual(self.calls(disk, journal.pack)[1],
                         [("write", 151, 65536), ("write", 151 + 65536, 65536), ("write", 151 + 2 * 65536, at - 151 - 2 * 65536),
                          ("write", at, 8 + 10 + 1), ("sync",), ("write", 8, 1), ("sync",)])
        self.assertEqual(disks.Journal(disk, 300_001, 2, 1).bodies, [BOOT])

    def test_a_disk_that_has_bytes_is_opened_as_its_header_says(self):
        for made, asked, left in (2, 1, 142 - 9 - 10), (1, 2, 293 - 9 - 10):
            disk = Counting()
            disks.Journal(disk, 293, made, 1).append(BOOT)
            journal, _ = self.calls(disk, lambda: disks.Journal(disk, 293, asked, 1))
            self.assertEqual((journal.bodies, journal.left()), ([BOOT], left))
            self.assertEqual(len(self.calls(disk, journal.pack)[1]), 4 if made == 2 else 0)

    def test_one_area_is_as_it_was(self):
        disk = Counting()
        journal = disks.Journal(disk, 142)
        journal.append(BOOT)
        journal, calls = self.calls(disk, lambda: disks.Journal(disk, 142, 2, 1))
        self.assertEqual((calls, journal.bodies, self.calls(disk, journal.pack)[1]), ([("read",)], [BOOT], []))
        self.assertEqual(bytes(disk.reads).hex(), "57414c5445524a31" "01" "00000005" "0100000001" "00")


class Faults(unittest.TestCase):
    """A restart whose pack fails. Of three restarts the first packs into the area B, and the second into A."""

    def run_of(self, restarts, nth, choice, before=()):
        arm = [["arm", 0, nth, choice]]
        steps = [*before, *FIRST_RUN["steps"], *STOP * restarts, ["stop", 0], *arm, ["restart", 0], ["restart", 0]]
        return played(FIRST_RUN, areas=2, capacity=1000, steps=steps)

    def test_a_fault_in_a_pack_leaves_the_content(self):
        for restarts in 0, 1:
            for nth in PACK:
                for choice in CHOICES:
                    with self.subTest(restarts=restarts, nth=nth, choice=choice):
                        self.check(self.run_of(restarts, nth, choice).sites[0], restarts)

    def check(self, site, restarts):
        failed, last = site.entries[-2:]
        self.assertEqual((failed.outcome, failed.kept, failed.wrote, failed.flight), ("failed", None, None, None))
        self.assertEqual((last.outcome, last.kept, last.wrote), ("taken", None, (model.BOOT, restarts + 2)))
        self.assertEqual(bodies_on(site), list(map(record_of, site.records)))
        self.assertEqual(len(site.records), restarts + 3)

    def test_the_switch_byte_turns_to_an_area_that_has_all(self):
        """The byte that is left by a fault at it chooses the area, and by 1 it is B."""
        for restarts, live in (0, "ABAAB"), (1, "BAAAB"):
            for choice, name in zip(CHOICES, live):
                arm = [["stop", 0], ["arm", 0, PACK[2], choice], ["restart", 0]]
                site = played(FIRST_RUN, areas=2, capacity=1000, steps=[*FIRST_RUN["steps"], *STOP * restarts, *arm]).sites[0]
                site.disk.settle()
                held = journals.read(bytes(site.disk.reads), 1000, 1)
                self.assertEqual(held.area.name, name, (restarts, choice))
                self.assertEqual(journals.bodies_of(held), list(map(record_of, site.records)))

    def test_the_calls_beside_those_of_a_pack(self):
        for nth in READ, *APPEND:
            failed = self.run_of(0, nth, 0).sites[0].entries[-2]
            self.assertEqual((failed.outcome, failed.flight), ("failed", None if nth == READ else (model.BOOT, 2)), nth)
        run = self.run_of(0, APPEND[-1] + 1, 0)
        self.assertEqual([entry.outcome for entry in run.sites[0].entries[-2:]], ["taken", "passed"])

    def test_a_restart_keeps_what_it_found_though_its_pack_fails(self):
        steps = [["arm", 0, 3, 1], *FIRST_RUN["steps"], ["arm", 0, PACK[0], 7], ["restart", 0], ["restart", 0]]
        site = played(FIRST_RUN, areas=2, capacity=1000, steps=steps).sites[0]
        unsure, failed, last = site.entries[-3:]
        self.assertEqual(record_of(unsure.flight), OWN)
        self.assertEqual((failed.outcome, failed.kept, failed.flight), ("failed", unsure.flight, None))
        self.assertEqual((last.outcome, last.kept, last.wrote), ("taken", None, (model.BOOT, 2)))
        self.assertEqual(bodies_on(site), [BOOT, OWN, record_of((model.BOOT, 2))])


def area_of(pack, *bodies, end=b"\0"):
    """The bytes of an area: a pack, records, and a closed gate or what else."""
    return struct.pack(">Q", len(pack)) + pack + b"".join(b"\1" + frame(body) for body in bodies) + end


def entry(mark, shown):
    return struct.pack(">BI", mark, len(shown)) + shown


def two(area_a, area_b=b"", switch=b"\0", capacity=293):
    size = (capacity - 9) // 2
    return journals.HEADER_OF_TWO + switch + area_a + (bytes(size - len(area_a)) + area_b if area_b else b"")


class Bytes(unittest.TestCase):
    def content(self, data, capacity=293, sites=1):
        return journals.bodies_of(journals.read(data, capacity, sites))

    def test_the_content_is_what_is_packed_and_then_the_records(self):
        packed, shown = entry(0, BOOT) + entry(1, OWN[:38] + OWN[94:]), record_of((model.BOOT, 2))
        self.assertEqual(self.content(two(area_of(packed, shown))), [BOOT, OWN, shown])
        self.assertEqual(self.content(two(area_of(b"", BOOT), area_of(packed, shown), b"\1")), [BOOT, OWN, shown])
        for switch in b"\0", b"\2", b"\xff":
            self.assertEqual(self.content(two(area_of(b"", BOOT), area_of(packed, shown), switch)), [BOOT])
        self.assertEqual(self.content(journals.HEADER + area_of(b"", BOOT)[8:], 19), [BOOT])

    def test_foreign_bytes(self):
        for data, capacity in [(b"", 293), (b"WALTERJ1", 293), (b"WALTERK1", 293), (b"NOTWALTER", 293),
                               (b"walterk1" + bytes(200), 293), (two(area_of(b"")), 46)]:
            with self.assertRaises(journals.Foreign) as wrong:
                self.content(data, capacity)
            self.assertEqual(wrong.exception.place, 0)
        self.assertEqual(self.content(two(area_of(b""), capacity=47), 47), [])

    def test_damaged_bytes(self):
        own, cut = entry(0, OWN), entry(1, OWN[:38] + OWN[94:])
        most = (1 << 64) - 1
        for data, place, length in [
            # The eight bytes of a pack's length are wanting.
            (two(b""), 9, 0), (two(bytes(7)), 9, 0), (two(area_of(b""), switch=b"\1"), 151, 0),
            (two(area_of(b""), bytes(7), b"\1"), 151, 0),
            # A pack leaves no byte for a gate, of the area or of the disk.
            (two(area_of(entry(0, BOOT), end=b"")), 9, 10), (two(struct.pack(">Q", 134) + bytes(200)), 9, 134),
            (two(struct.pack(">Q", most) + bytes(134)), 9, (1 << 32) - 1),
            (two(struct.pack(">Q", 1 << 32) + bytes(134)), 9, (1 << 32) - 1),
            # A pack has no reading: an entry is cut off, has another mark, or isn't the one that its body has.
            (two(area_of(entry(0, BOOT)[:-1])), 9, 9), (two(area_of(b"\0\0\0\0")), 9, 4), (two(area_of(entry(2, BOOT))), 9, 10),
            (two(area_of(entry(1, BOOT))), 9, 10), (two(area_of(own)), 9, 123), (two(area_of(entry(1, OWN[:20]))), 9, 25),
            (two(area_of(b""), area_of(own), b"\1"), 151, 123),
            # An open gate within the area or the disk.
            (two(area_of(b"", end=b"\1\0\0\0")), 17, 0), (two(area_of(b"", BOOT, end=b"")), 17, 5),
            (two(area_of(b"", BOOT, end=b"\1" + struct.pack(">I", 65537))), 27, 65537),
            (two(area_of(b"", end=b"\1" + frame(bytes(20)))), 17, 20),
            (two(area_of(b"", end=b"\1" + frame(bytes(129)) + bytes(300))), 17, 129),
            (two(area_of(b"", bytes(124), end=b"\1" + bytes(300))), 146, 0),
        ]:
            with self.subTest(data[:40].hex()):
                with self.assertRaises(journals.Damaged) as wrong:
                    self.content(data)
                self.assertEqual((wrong.exception.place, wrong.exception.length), (place, length))
        self.assertEqual(self.content(two(area_of(cut))), [OWN])
        self.assertEqual(self.content(two(area_of(b"", bytes(128)) + bytes(300))), [bytes(128)])
        self.assertEqual(self.content(two(area_of(own)), sites=8), [OWN])

    def test_damaged_bytes_of_one_area(self):
        for behind, length in [(b"\1", 0), (b"\1\0\0\0", 0), (b"\1\xff\xff\xff\xff\0", (1 << 32) - 1), (b"\1" + frame(BOOT), 5),
                               (b"\1" + struct.pack(">I", 65537) + bytes(70000), 65537)]:
            with self.assertRaises(journals.Damaged) as wrong:
                self.content(journals.HEADER + behind)
            self.assertEqual((wrong.exception.place, wrong.exception.length), (8, length))

    def test_which_bodies_are_packed_without_zeros(self):
        tx = model.Tx((0, 1, 1), 0, (1, 0, 2), ((model.SET_ADD, (2, 1), 9),))
        for body, cut in [(record_of((model.OWN, 1, tx)), 40), (record_of((model.GOT, 1, 1, tx)), 40),
                          (record_of((model.SLOW_BEGIN, 1, tx)), 40), (BOOT, 0), (record_of((model.MARKS, 1, 1)), 0),
                          (b"\2" + bytes(93), 40), (b"\2" + bytes(92), 0), (b"\3" + bytes(94), 40), (b"\3" + bytes(93), 0),
                          (b"\5" + bytes(200), 0), (b"\2" + bytes(92) + b"\1", 0), (b"", 0)]:
            self.assertEqual(len(journals.entry_of(body, 3)), 5 + len(body) - cut, body.hex())
            self.assertEqual(len(journals.entry_of(body, 8)), 5 + len(body))
            self.assertEqual(self.content(two(area_of(journals.entry_of(body, 3))), 1000, 3), [body])

    def test_a_pack_is_read_back_and_isnt_longer_than_its_records(self):
        rng = random.Random(1)
        for _ in range(300):
            sites = rng.randint(1, 8)
            zeros = bytes([rng.randint(0, 9)]) + bytes(rng.randint(0, 200))
            bodies = rng.choices([BOOT, OWN, zeros, rng.randbytes(rng.randint(0, 200))], k=rng.randint(0, 6))
            pack = journals.pack_of(bodies, sites)
            self.assertEqual(struct.unpack_from(">Q", pack), (len(pack) - 8,))
            self.assertLessEqual(len(pack) - 8, sum(5 + len(body) for body in bodies))
            self.assertEqual(self.content(two(pack + b"\0", capacity=10_000), 10_000, sites), bodies)


class Key(unittest.TestCase):
    def wrong(self, **more):
        try:
            return readings.read(json.dumps({**FIRST_RUN, **more}).encode()) and None
        except readings.Refused as refused:
            return str(refused)

    def test_the_place_is_behind_that_of_the_capacity(self):
        for more in {"areas": 1}, {"areas": 1, "capacity": 19}, {"areas": 2}, {"areas": 2, "capacity": 47}:
            self.assertIsNone(self.wrong(**more), more)
        for more in ({"areas": 0}, {"areas": 3}, {"areas": None}, {"areas": 2.0}, {"areas": True}, {"areas": 2, "capacity": 46},
                     {"areas": 3, "link": 0}):
            self.assertEqual(self.wrong(**more), "the areas: wants 1 or 2, and 2 only where the capacity is at least 47", more)
        self.assertEqual(self.wrong(areas=2, capacity=18), readings.TEXTS["capacity"])
        self.assertTrue(readings.TEXTS["keys"].endswith(" takes capacity, areas, room, format, link, ticks, threads and arms besides"))
        self.assertEqual(self.wrong(areas=2, link=0), readings.TEXTS["link"])


if __name__ == "__main__":
    unittest.main()
