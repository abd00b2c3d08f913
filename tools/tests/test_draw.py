"""Pictures are whole: an arrow for each delivery, no two labels at one place, and nothing beside the page."""

import json
import os
import re
import subprocess
import sys
import tempfile
import unittest
import xml.etree.ElementTree as xml

from played import TOP, RANDOM, by_model, example_run, examples, file_text, random_run, run_tool, source_of, without_trace
import compared
import pictures
import reports
import runs
import scripts

SVG = "{http://www.w3.org/2000/svg}"
# No letter of the fonts is wider, by which the labels are placed.
LETTER = 7.3


def places_of(curve):
    return [tuple(map(float, place.split(","))) for place in curve.replace("M", "").replace("Q", "").split(" ")]


def run_of(script):
    """The model's run of a script."""
    return runs.Run(runs.Scenario(script), reports.read(by_model(json.dumps(scripts.read(script))).text()))


class Drawn:
    """A picture's parts, read back from its SVG."""

    def __init__(self, text):
        self.root = xml.fromstring(text)
        self.width, self.height = float(self.root.get("width")), float(self.root.get("height"))

    def all(self, name, kind=None):
        return [one for one in self.root.iter(SVG + name) if kind is None or kind in (one.get("class") or "").split()]

    def titles(self, kind):
        return [one.find(SVG + "title").text for one in self.all("g", kind)]

    def curves(self):
        """The middle of each line that bends."""
        for one in self.all("path"):
            (x, y), (bend_x, bend_y), (end_x, end_y) = places_of(one.get("d"))
            yield (x + 2 * bend_x + end_x) / 4, (y + 2 * bend_y + end_y) / 4

    def labels(self):
        """Each label's row, where it begins and where it ends."""
        for one in self.all("text"):
            x, long = float(one.get("x")), len(one.text) * LETTER
            begins = x - {"start": 0, "middle": long / 2, "end": long}[one.get("text-anchor")]
            yield float(one.get("y")), begins, begins + long


class Draw(unittest.TestCase):
    def picture(self, run):
        """Where a run has too many entries, of some stamps in its middle."""
        if len(run.moments) <= pictures.MOST:
            return pictures.Picture(run)
        stamp = run.moments[len(run.moments) // 2].entry.stamp
        return pictures.Picture(run, stamp - 50, stamp + 50)

    def check(self, run):
        picture = self.picture(run)
        drawn = Drawn(picture.svg())
        self.check_labels(drawn)
        self.check_entries(run, picture, drawn)
        self.check_packets(run, picture, drawn)

    def check_labels(self, drawn):
        rows = {}
        for y, begins, ends in drawn.labels():
            rows.setdefault(y, []).append((begins, ends))
            self.assertTrue(0 <= begins and ends <= drawn.width and pictures.FONT <= y <= drawn.height)
        heights = sorted(rows)
        self.assertTrue(all(other - one >= pictures.FONT for one, other in zip(heights, heights[1:])))
        for labels in map(sorted, rows.values()):
            self.assertTrue(all(one[1] < other[0] for one, other in zip(labels, labels[1:])), labels)

    def check_entries(self, run, picture, drawn):
        titles = drawn.titles("entry")
        self.assertEqual([title.split("\n")[1] for title in titles], [moment.entry.line for moment in picture.moments])
        # Of what occurs the legend has one more.
        for name, kind, count in [
            ("circle", "flight", sum(moment.entry.flight is not None and not moment.entry.wrote for moment in picture.moments)),
            ("circle", "stable", sum(moment.entry.wrote is not None for moment in picture.moments)),
            ("rect", "found", sum(moment.entry.kept is not None for moment in picture.moments)),
            ("rect", "lock", len(picture.bars)),
        ]:
            self.assertEqual(len(drawn.all(name, kind)), count + (count > 0))

    def check_packets(self, run, picture, drawn):
        seen = set(picture.moments)
        packets = [packet for lane in run.lanes.values() for packet in lane]
        came = sum(packet.put_out in seen or moment in seen for packet in packets for moment in packet.came)
        self.assertEqual(len(drawn.all("g", "delivery")), came)
        if len(seen) == len(run.moments):
            self.assertEqual(came, sum(moment.entry.event[0] == "deliver" for moment in run.moments))
        for x, y in drawn.curves():
            self.assertTrue(picture.x(0) - 20 <= x <= picture.x(run.scenario.sites - 1) + 20)
            self.assertTrue(picture.heads + 4 < y < picture.bottom + 5)
        lost = sum(not packet.came and packet.put_out in seen for packet in packets)
        self.assertEqual(sum(len(title.split("\n")) for title in drawn.titles("lost")), lost)

    def test_examples(self):
        for path in examples("json"):
            with self.subTest(os.path.basename(path)):
                self.check(example_run(path))

    def test_random_runs(self):
        for seed in RANDOM:
            with self.subTest(seed):
                self.check(random_run(seed)[1])

    def test_many_sites_stand_closer(self):
        """So closely that no heading touches the next one, and no number of a site its colour; few have the place that they had."""
        for sites, between in (8, 72), (9, 54), (16, 54):
            run = run_of(f"sites {sites} tolerated 0\nclient ann at {sites - 1}\nann: start\n")
            picture = pictures.Picture(run)
            self.assertEqual({picture.x(site + 1) - picture.x(site) for site in range(sites - 1)}, {between})
            drawn = Drawn(picture.svg())
            self.check_labels(drawn)
            last = drawn.all("g", "entry")[-1]
            (swatch,), number = last.iter(SVG + "rect"), [one for one in last.iter(SVG + "text")][1]
            self.assertEqual(number.text, str(sites - 1))
            self.assertLess(float(number.get("x")) + len(number.text) * LETTER, float(swatch.get("x")))

    def test_entries_of_one_stamp_stand_in_the_order_of_the_steps(self):
        """The clients of the sites 2, 0 and 1 call in this order."""
        script = "sites 3 tolerated 0\n" + "".join(f"client at{site} at {site}\n" for site in range(3))
        run = run_of(script + "at2: start\nat0: start\nat1: start\nat0: abort\nat2: abort\n")
        picture = pictures.Picture(run)
        self.assertEqual([moment.site for moment in picture.moments], [0, 1, 2, 2, 0, 1, 0, 2])
        for seed in RANDOM:
            run = random_run(seed)[1]
            places = {step.moment: step.place for step in run.steps if step.moment}
            keys = [(moment.entry.stamp, places.get(moment, -1)) for moment in pictures.in_order(run)]
            self.assertEqual(keys, sorted(keys))

    def test_an_upgrade_is_drawn(self):
        """As a record that is of no transaction, and in a row of words, with the record's kind below."""
        picture = pictures.Picture(example_run(os.path.join(TOP, "examples", "upgraded_in_place.json")))
        moment = next(one for one in picture.moments if one.entry.event[0] == "upgrade")
        entry = Drawn(picture.svg()).all("g", "entry")[picture.rows[moment]]
        self.assertEqual(entry.find(SVG + "circle").get("fill"), pictures.PLAIN)
        said = [one.text for one in entry.iter(SVG + "text")]
        self.assertEqual(said[-1], "upgrade 1 -> site 1 journals in the second format from now on [Format 2]")
        self.assertIn("Format: the records behind it are in the second format", picture.svg())

    def test_a_transaction_has_one_colour_at_all_sites(self):
        """In the picture of a slow commit its records and packets have one colour, and the other transaction another."""
        drawn = Drawn(pictures.Picture(example_run(os.path.join(TOP, "examples", "slow_commit.json"))).svg())
        colours = {}
        for entry in drawn.all("g", "entry"):
            swatch = [one.get("fill") for one in entry.iter(SVG + "rect")]
            mark = [one.get("stroke") for one in entry if one.get("class") in ("none", "stable")]
            if swatch:
                self.assertEqual(swatch, mark)
                colours.setdefault(swatch[0], set()).add(entry.find(SVG + "title").text.split("\n")[1].split()[2])
        self.assertEqual(sorted(map(sorted, colours.values())), [["0"], ["0", "1"]])
        for delivery in drawn.all("g", "delivery"):
            self.assertEqual({one.get("stroke") for one in delivery if one.tag != SVG + "title"},
                             {colour for colour, sites in colours.items() if len(sites) == 2})
        self.assertEqual(len({pictures.colour_of(place) for place in range(60)}), 60)

    def test_the_legend_has_what_occurs_alone(self):
        texts = {}
        for name in ("first_run", "stop_at_the_gate", "slow_commit", "crossed_slow_commits"):
            drawn = Drawn(pictures.Picture(example_run(os.path.join(TOP, "examples", name + ".json"))).svg())
            texts[name] = {one.text.split(":")[0] for one in drawn.all("text") if one.get("class") != "title"}
        self.assertTrue(texts["first_run"] >= {"Boot", "Own", "a record made stable", "0.1.1 of ann"})
        self.assertFalse(texts["first_run"] & {"Got", "PROPAGATE", "VOTE", "a record in flight", "a slow commit's locks"})
        self.assertTrue(texts["stop_at_the_gate"] >= {"a record in flight", "a record that a restart found"})
        self.assertTrue(texts["slow_commit"] >= {"PREPARE", "VOTE", "PROPAGATE", "a packet that never came", "1.1.1 of bob"})
        self.assertFalse(texts["slow_commit"] & {"ACK", "RELEASE", "SlowEnd", "a packet that changes nothing"})
        self.assertTrue(texts["crossed_slow_commits"] >= {"RELEASE", "SlowEnd", "a packet that changes nothing"})

    def test_a_picture_has_a_title(self):
        run = example_run(os.path.join(TOP, "examples", "slow_commit.json"))
        for given, title in [(None, run.scenario.title), ("Mine", "Mine"), ("long " * 99, ("long " * 99).strip())]:
            drawn = Drawn(pictures.Picture(run, title=given).svg())
            self.assertEqual(" ".join(one.text for one in drawn.all("text", "title")), title)
            self.check_labels(drawn)

    def test_packets_that_never_came_are_told_apart_by_kind(self):
        """A commit puts out a PROPAGATE and a DSMARK to each of seven peers, of which none comes."""
        script = "sites 8 tolerated 0\ncontainer 1 set at 0\nclient ann at 0\nann: start\nann: setadd 1:1 9\nann: commit\n"
        drawn = Drawn(pictures.Picture(run_of(script)).svg())
        lost = {}
        for one in drawn.all("g", "lost"):
            shaft, *end = [part for part in one if part.tag != SVG + "title"]
            kinds = {text.split(" packet ")[1].split()[1] for text in one.find(SVG + "title").text.split("\n")}
            lost[kinds.pop()] = shaft.get("stroke-dasharray"), {(part.tag, part.get("fill")) for part in end}
            self.assertEqual(kinds, set())
        self.assertEqual(sorted(lost), ["DSMARK", "PROPAGATE"])
        for one, other in zip(*lost.values()):
            self.assertNotEqual(one, other)
        ends = {(pictures.stub_end(kind, (0, 0), 0, "#000"), pictures.LINES[kind]) for kind in pictures.LINES}
        self.assertEqual(len(ends), 8)

    def test_a_stop_is_a_gap(self):
        picture = pictures.Picture(example_run(os.path.join(TOP, "examples", "locks_outlive_a_stop.json")))
        self.assertEqual([len(picture.stays(site)) for site in range(3)], [2, 1, 2])
        for site in (0, 2):
            (_, ends), (begins, _) = picture.stays(site)
            self.assertLess(ends + pictures.ROW / 2, begins)
        # The lock of site 0 outlives its stop, and that of site 1 the run.
        bars = {lock.site: lock.ends for lock, _ in picture.bars}
        self.assertEqual((bars[0].entry.event[3], bars[1]), ("release", None))

    def test_too_many_entries_are_refused(self):
        run = example_run(os.path.join(TOP, "examples", "ten_thousand_calls.json"))
        for first, last, count in [(None, None, "10,001"), (2, 502, "501"), (9_000, None, "1,002")]:
            with self.assertRaisesRegex(pictures.TooMany, f"{count} entries, where a picture has at most 500"):
                pictures.Picture(run, first, last)
        self.assertEqual(len(pictures.Picture(run, 2, 501).moments), 500)

    def test_the_tool(self):
        tool = [sys.executable, os.path.join(TOP, "tools", "draw")]
        slow = os.path.join(TOP, "examples", "slow_commit.json")
        text = by_model(file_text(slow)).text()
        made = subprocess.run(tool + [source_of(slow)], input=text, capture_output=True, text=True)
        self.assertEqual((made.returncode, made.stderr), (0, ""))
        self.assertEqual(len(Drawn(made.stdout).all("g", "delivery")), 2)
        some = subprocess.run(tool + [source_of(slow), "--from", "3", "--to", "4"], input=text, capture_output=True, text=True)
        self.assertEqual(len(Drawn(some.stdout).all("g", "entry")), text.count("\ne 3 ") + text.count("\ne 4 "))
        for words, given, status, said in [
            ([], without_trace(text), 2, "draw: standard input: it has no trace, which --trace writes"),
            ([], "sites\n", 2, "draw: standard input, line 1: wants sites N f F clients N; it has: sites"),
            ([], "", 2, "draw: standard input, line 1: wants sites N f F clients N; it is empty"),
            (["--from", "4", "--to", "3"], text, 1, "draw: --from 4 is behind --to 3"),
            (["--from", "90"], text, 1, "draw: no entry has such a stamp: they are from 1 to 7"),
            (["--html", "--from", "90"], text, 1, "draw: no entry has such a stamp: they are from 1 to 7"),
            (["no such file"], text, 3, "draw: no such file: No such file or directory"),
        ]:
            wrong = subprocess.run(tool + [slow] + words, input=given, capture_output=True, text=True)
            self.assertEqual((wrong.returncode, wrong.stdout), (status, ""))
            self.assertEqual(wrong.stderr.split("\n")[0], said)
            self.assertNotIn("Traceback", wrong.stderr)

    def test_two_runs_side_by_side(self):
        slow = os.path.join(TOP, "examples", "slow_commit.script")
        with tempfile.TemporaryDirectory() as folder:
            other = os.path.join(folder, "other.script")
            with open(other, "w", encoding="utf-8") as file:
                file.write(file_text(slow).replace('ann: write 10:5 "t"', 'ann: write 10:6 "t"'))
            status, drawn, wrong = run_tool("draw", "--compare", slow, other)
            self.assertEqual((status, wrong), (0, ""))
            both = Drawn(drawn)
            # The write is another one, so is what comes of the commit; and the other run has no more than that.
            rows = [one for one in both.all("rect", "differs") if "row" in one.get("class").split()]
            self.assertEqual(len(rows), 2 * 2)
            self.assertEqual(drawn.count("an entry that the other run hasn&#x27;t") + drawn.count("an entry that the other run hasn't"), 2)
            self.assertEqual(run_tool("draw", "--compare", slow, slow)[1].count("row differs"), 0)
            # The first rows stand at one height, also where a title has two lines.
            crossed = os.path.join(TOP, "examples", "crossed_slow_commits.script")
            runs = [compared.run_of(path) for path in (slow, crossed)]
            tops = [float(top) for top in re.findall(r'<svg [^>]* y="([0-9.]+)"', compared.svg(runs))]
            heads = [pictures.Picture(run).heads for run in runs]
            self.assertNotEqual(*heads)
            self.assertEqual(tops[0] + heads[0], tops[1] + heads[1])
            for words in ["--compare", slow], ["--compare", slow, other, slow], ["--compare", slow, other, "--html"], []:
                self.assertEqual(run_tool("draw", *words)[:2], (1, ""))
            self.assertEqual(run_tool("draw", "--compare", slow, "none.script")[0], 3)

    @unittest.skipUnless(os.path.exists("/dev/full"), "there is no /dev/full")
    def test_an_output_that_fails_is_told(self):
        slow = os.path.join(TOP, "examples", "slow_commit.json")
        tool, text = [sys.executable, os.path.join(TOP, "tools", "draw"), slow, "--html"], by_model(file_text(slow)).text()
        with open("/dev/full", "w", encoding="utf-8") as full:
            made = subprocess.run(tool, input=text, stdout=full, stderr=subprocess.PIPE, text=True)
        self.assertEqual((made.returncode, made.stderr.count("\n")), (4, 1))
        # Who reads takes nothing, and is gone.
        reader, writer = os.pipe()
        os.close(reader)
        made = subprocess.run(tool, input=text, stdout=writer, stderr=subprocess.PIPE, text=True)
        os.close(writer)
        self.assertEqual((made.returncode, made.stderr), (4, ""))


if __name__ == "__main__":
    unittest.main()
