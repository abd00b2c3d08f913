"""The page of a run stands alone and tells each entry; where a headless browser is installed, it is tried in it."""

import json
import os
import re
import shutil
import subprocess
import sys
import tempfile
import unittest

from played import TOP, RANDOM, by_model, example_run, file_text, random_run, source_of
import holdings
import pages
import pictures
import reports
import runs
import transactions
import words
from test_draw import run_of

SLOW = os.path.join(TOP, "examples", "slow_commit.json")
BROWSERS = ("chromium", "chromium-browser", "google-chrome", "google-chrome-stable", "chrome")
BROWSER = next(filter(None, map(shutil.which, BROWSERS)), None)
# What is tried on the page of the slow commit: what stands there then is written into the page, and read back.
TRIAL = """<pre id="tried"></pre><script>
const tried = {};
const dims = () => parts.map((some, row) => some[1].classList.contains("dim") ? -1 : row).filter((row) => row >= 0);
const set = (id, value, event) => { of(id).value = value; of(id).dispatchEvent(new Event(event)); };
tried.filters = filters.map((name) => [...of(name).options].map((option) => option.text));
tried.begin = of("sites").textContent;
parts[4][1].dispatchEvent(new MouseEvent("click"));
tried.clicked = of("said").textContent;
tried.later = document.querySelectorAll("svg .entry.later").length;
of("forward").click();
of("forward").click();
of("back").click();
tried.stepped = chosen;
tried.key = (document.body.dispatchEvent(new KeyboardEvent("keydown", { key: "ArrowDown", bubbles: true })), chosen);
set("search", "VOTE 1", "input");
tried.searched = dims();
set("search", "", "input");
set("client", "ann", "change");
tried.ann = [dims(), of("count").textContent];
chosen = -1;
of("forward").click();
tried.next = chosen;
set("client", "", "change");
set("transaction", "1.1.1", "change");
set("site", "0", "change");
tried.there = dims();
set("site", "", "change");
set("kind", "commit", "change");
tried.commits = dims();
set("transaction", "", "change");
set("kind", "", "change");
choose(run.entries.length - 1);
tried.end = of("sites").textContent;
document.getElementById("tried").textContent = JSON.stringify(tried);
</script></body>"""


def watched(path, *stamps):
    return holdings.Watched(runs.Scenario(file_text(source_of(path))), reports.read(by_model(file_text(path)).text()), *stamps)


def data_of(page):
    return json.loads(re.search(r'<script id="run" type="application/json">(.*?)</script>', page, re.DOTALL)[1])


def in_browser(page):
    """What a trial on a page came to."""
    with tempfile.TemporaryDirectory() as folder:
        path = os.path.join(folder, "page.html")
        with open(path, "w", encoding="utf-8") as file:
            file.write(page.replace("</body>", TRIAL))
        words = [BROWSER, "--headless", "--no-sandbox", "--disable-gpu", f"--user-data-dir={folder}", "--dump-dom"]
        shown = subprocess.run(words + ["file://" + path], capture_output=True, text=True, timeout=900).stdout
    found = re.search(r'<pre id="tried">(.*?)</pre>', shown, re.DOTALL)
    return json.loads(found[1].replace("&gt;", ">").replace("&lt;", "<").replace("&amp;", "&"))


class Page(unittest.TestCase):
    def test_a_page_stands_alone_and_has_each_entry(self):
        run = watched(SLOW)
        page = pages.page(run)
        self.assertIsNone(re.search(r"(src|href)=|@import|url\(", page))
        self.assertEqual(page.count("<svg "), 1)
        # The panel says what to do, and nothing that is chosen lies under the bar.
        self.assertIn('"what to do"', page)
        self.assertIn("scroll-padding: calc(var(--bar) + 30px) 0 30px", page)
        entries = data_of(page)["entries"]
        self.assertEqual([one["line"] for one in entries], [one.entry.line for one in pictures.in_order(run)])
        said = {one["line"]: (one["client"], one["transaction"], one["kind"], one["said"]) for one in entries}
        vote = next(line for line in said if line.startswith("e 6 1"))
        self.assertEqual(said[vote], ("bob", "1.1.1", "VOTE", "1 <- 0 packet 1 VOTE 1 YES: committed 1@1 [Own 1@1]"))

    def test_text_of_a_script_stays_text(self):
        script = '# </title><script>\nsites 1 tolerated 0\ncontainer 1 regular at 0\nclient ann at 0\nann: start\n' \
            'ann: write 1:5 "</script>"\n'
        made = run_of(script)
        page = pages.page(holdings.Watched(made.scenario, made.report))
        self.assertEqual((page.count("<script"), page.count("</script>")), (2, 2))
        self.assertIn("<title>&lt;/title&gt;&lt;script&gt;</title>", page)
        self.assertIn('"</script>"', data_of(page)["entries"][-1]["said"])

    def test_what_a_site_holds(self):
        """Behind the last entry that a site has in a slow commit: the lock stays where the commit never came."""
        run = watched(SLOW)
        lines = {moment.site: dict(run.held[moment]) for moment in run.moments}
        self.assertEqual(lines[0], {"stands": "up", "committed": "nothing", "holds": "nothing", "locks": "10:5 for 1.1.1",
                                    "peers": "1 has said: received 0, committed 0, durable there 0"})
        self.assertEqual(lines[1], {"stands": "up", "committed": "1@1", "holds": '10:5 "s"', "marks": "durable 0, visible 0",
                                    "peers": "0 has said: received 0, committed 0, durable there 0"})
        self.assertEqual([dict(one)["stands"] for one in run.begin], ["down", "down"])
        stop = watched(os.path.join(TOP, "examples", "stop_at_the_gate.json"))
        stands = [dict(stop.held[moment])["stands"] for moment in stop.moments]
        self.assertEqual(stands, ["up"] * 3 + ["down, with Own 0@1 in flight"] * 2 + ["up"] * 2)

    def test_an_upgrade_is_told_and_stays(self):
        run = watched(os.path.join(TOP, "examples", "upgraded_in_place.json"))
        told = [dict(run.held[moment]).get("journals") for moment in run.moments if moment.site == 1]
        at = [moment.entry.event[0] for moment in run.moments if moment.site == 1].index("upgrade")
        self.assertEqual(told, [None] * at + ["in the second format, since it was upgraded"] * (len(told) - at))

    def test_fifteen_peers_are_told_together(self):
        """By what they have said: at the end each has received and committed the one commit."""
        run = watched(os.path.join(TOP, "examples", "sixteen_sites.json"))
        all_others = ", ".join(map(str, range(1, 16)))
        lines = [dict(run.held[moment])["peers"] for moment in run.moments if moment.site == 0]
        self.assertEqual(lines[0], f"{all_others} have said: received 0, committed 0, durable there 0")
        self.assertEqual(lines[-1], f"{all_others} have said: received 1, committed 1, durable there 0")
        self.assertIn("1 has said: received 1, committed 0, durable there 0; " + lines[0].replace("1, ", "", 1), lines)
        self.assertEqual(len(run.begin), 16)

    def test_what_random_sites_hold_is_what_they_hold(self):
        """At the end the commits and the values are those of the model."""
        for seed in RANDOM[:60]:
            played, run = random_run(seed)
            if len(run.moments) > 3_000:
                continue
            again = holdings.Watched(run.scenario, run.report, run.moments[-1].entry.stamp)
            for site, holding in zip(played.sites, again.holdings):
                log = run.report.lines[site.me].log
                self.assertEqual(holding.commits, log)
                values = {}
                for at, tx in site.log.items():
                    if at[1] <= site.committed[at[0]]:
                        values.update({oid: what for kind, oid, what in tx.updates if kind == 3})
                self.assertEqual(holding.values, {oid: words.scripts.words_of_value(what) for oid, what in values.items()})

    def test_a_page_of_some_stamps(self):
        run = watched(os.path.join(TOP, "examples", "durable_and_visible.json"), 5, 7)
        data = data_of(pages.page(run, 5, 7))
        self.assertEqual({one["stamp"] for one in data["entries"]}, {5, 6, 7})
        self.assertEqual(dict(data["begin"][0])["committed"], "0@1")
        self.assertEqual(dict(data["begin"][1])["committed"], "nothing")

    def test_which_transaction_entries_are_of(self):
        """Each call between a start and its end is of that transaction, at whatever site its packets come."""
        run = example_run(os.path.join(TOP, "examples", "crossed_slow_commits.json"))
        names = transactions.Names(run)
        told = {words.moment_line(run.scenario, one): names.of_moment(one) for one in run.moments}
        of_ann = ["ann commit -> deciding 2.1.1; the slow commit 1 begins", "ann level 2.1.1 -> level 0: not committed",
                  "0 <- 2 packet 1 PREPARE 1 of 2.1.1 for 10:1: locks 10:1, votes YES",
                  "2 <- 1 packet 1 VOTE 1 NO, 20:1 is locked by 3.1.1: the slow commit 1 has ended",
                  "0 <- 2 packet 2 RELEASE 1: the slow commit 1 of 2 is over here"]
        self.assertEqual({told[line] for line in of_ann}, {(2, 1, 1)})
        self.assertEqual(names.of_moment(run.moments[0]), None)

    def test_the_tool(self):
        tool = [sys.executable, os.path.join(TOP, "tools", "draw"), source_of(SLOW), "--html"]
        text = by_model(file_text(SLOW)).text()
        made = subprocess.run(tool, input=text, capture_output=True, text=True)
        self.assertEqual((made.returncode, made.stderr, data_of(made.stdout)), (0, "", data_of(pages.page(watched(SLOW)))))

    @unittest.skipUnless(BROWSER, "no headless browser is installed: " + " or ".join(BROWSERS))
    def test_the_page_in_a_browser(self):
        tried = in_browser(pages.page(watched(SLOW)))
        self.assertEqual(tried["filters"], [["all", "bob", "ann"], ["all", "1.1.1", "0.1.1"], ["all", "0", "1"],
                                            ["all", "restart", "start", "write", "commit", "PREPARE", "VOTE"]])
        self.assertTrue(tried["begin"].startswith("site 0standsdown"), tried["begin"])
        self.assertTrue(tried["clicked"].startswith('stamp 3 at site 1bob write 10:5 "s" -> done'), tried["clicked"])
        self.assertEqual((tried["later"], tried["stepped"], tried["key"], tried["searched"]), (6, 5, 6, [7, 9]))
        self.assertEqual(tried["ann"], [[3, 5, 8], "3 of 11 entries"])
        self.assertEqual((tried["next"], tried["there"], tried["commits"]), (3, [7], [6, 10]))
        self.assertIn('holds10:5 "s"', tried["end"])


if __name__ == "__main__":
    unittest.main()
