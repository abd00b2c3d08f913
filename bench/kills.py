#!/usr/bin/env python3
"""Kills the program at random moments of plays over file disks, and reads the journals that it leaves.

    python3 bench/kills.py
    python3 bench/kills.py examples/slow_commit.json --kills 50 --seed 3

Plays the scenario to its end over an empty folder, three times; without one it is a made one of three sites. Then it plays it
again and again, each time over an empty folder, and kills the program (SIGKILL) somewhere between its start and the soonest end.
Each file that is left must be empty, or a journal that can be read, whose records are the first ones of what the whole play left
at that site. Of a killed process the system keeps all that was written: a machine that stops isn't tried here.

With --run threads drive the scenario. Two such runs may differ, so no journal is compared with another: each must be readable.
With --areas the made scenario has journals of two areas, and behind its transactions its sites restart again and again: so some
kills come amid a pack. With --upgrades each of its sites is upgraded amid its commits: so some kills come before the record Format,
and some behind it. Both may be asked for.

The journals that are left are audited, where none of them is empty, by the program and by the plain audit of audit.py:
both are to say that they tell a legal history.

Says how many files were met with how many records, and how many of them have a record Format. Ends with status 1 where one is wrong:
it has a line with what is wrong.
"""

import argparse
import json
import os
import random
import signal
import subprocess
import sys
import tempfile
import time
from collections import Counter

import audit
import ends
import journals
from compare import built, knows_audits
from growth import Spread
from spelled import FORMAT, record_of

KILLS, TRANSACTIONS = 200, 6
# Of the made scenario with two areas: how often each site restarts, and a capacity that takes several writes to begin with.
RESTARTS, CAPACITY_OF_TWO = 20, 300_000
# The quickest of so many plays says how long one takes.
WHOLE_PLAYS = 3
CAPACITY = 16_777_216


def file_of(folder, site):
    return os.path.join(folder, f"site-{site}.journal")


def words_of(program, folder, is_run):
    return [program, "run" if is_run else "play", "--disks", folder]


class Scenario:
    """A scenario, and what of it tells how its journals are read."""

    def __init__(self, text):
        told = json.loads(text)
        self.made, self.text, self.sites = told, text, told["sites"]
        self.capacity = told.get("capacity", CAPACITY)

    def bodies(self, folder, site):
        """The records in a site's file, or None where there is no file or nothing in it."""
        path = file_of(folder, site)
        if not os.path.exists(path) or os.path.getsize(path) == 0:
            return None
        with open(path, "rb") as file:
            return journals.bodies_of(journals.read(file.read(), self.capacity, self.sites))


def play_whole(program, scenario, is_run):
    """Plays to the end. Gives the seconds that it took, and what it left of each site."""
    with tempfile.TemporaryDirectory() as folder:
        begin = time.monotonic()
        ended = subprocess.run(words_of(program, folder, is_run), input=scenario.text, capture_output=True, text=True)
        seconds = time.monotonic() - begin
        if ended.returncode != 0:
            sys.exit(f"the program ended with status {ended.returncode}\n{ended.stderr}")
        try:
            return seconds, [scenario.bodies(folder, site) or [] for site in range(scenario.sites)]
        except journals.Wrong as wrong:
            sys.exit(f"the whole play left a journal that can't be read: {wrong}")


def kill_within(program, scenario, is_run, folder, seconds):
    """Starts a play, and kills it once so many seconds are over. Says whether it was still at work."""
    with open(os.path.join(folder, "scenario"), "w+", encoding="utf-8") as source:
        source.write(scenario.text)
        source.seek(0)
        child = subprocess.Popen(words_of(program, folder, is_run), stdin=source, stdout=subprocess.DEVNULL,
                                 stderr=subprocess.DEVNULL)
        time.sleep(seconds)
        child.send_signal(signal.SIGKILL)
        return child.wait() == -signal.SIGKILL


def wrong_with(scenario, folder, whole, is_run, met):
    """What is wrong with a file that was left, or None. Counts what is met."""
    for site in range(scenario.sites):
        try:
            bodies = scenario.bodies(folder, site)
        except journals.Wrong as wrong:
            return f"site {site}: {wrong}"
        met["none" if bodies is None else "whole" if bodies == whole[site] else "a front"] += 1
        met["upgraded"] += bodies is not None and record_of((FORMAT,)) in bodies
        if bodies is not None and not is_run and bodies != whole[site][: len(bodies)]:
            return f"site {site}: {len(bodies)} records, and not the first ones of the whole play"
    return None


def wrong_with_audit(program, scenario, folder, met):
    """What is wrong with the audit of what was left, or None. Counts what is met."""
    files = audit.files_in(folder, scenario.sites)
    wanted = status, _, text = audit.ended(scenario.made, folder, files)
    came = audit.of_program(program, scenario.made, folder)
    if came != wanted:
        return f"the audit ends with status {came[0]}, {came[1] or came[2][:80]!r}, and the plain one with {status}"
    if status == ends.NOT_LEGAL:
        return text.rstrip("\n")
    met["audited" if status == ends.DONE else "not audited"] += 1
    return None


def tried(program, scenario, is_run, kills, seed):
    """What came of all kills: how many found the program at work, what was met, and the lines of what is wrong."""
    plays = [play_whole(program, scenario, is_run) for _ in range(WHOLE_PLAYS)]
    seconds, whole = min(seconds for seconds, _ in plays), plays[0][1]
    rng, met, killed, lines, is_audited = random.Random(seed), Counter(), 0, [], knows_audits(program)
    for number in range(kills):
        moment = rng.uniform(0, seconds)
        with tempfile.TemporaryDirectory() as folder:
            killed += kill_within(program, scenario, is_run, folder, moment)
            wrong = wrong_with(scenario, folder, whole, is_run, met)
            if is_audited and not wrong:
                wrong = wrong_with_audit(program, scenario, folder, met)
        if wrong:
            lines.append(f"kill {number}, {moment:.4f} s: {wrong}")
    return killed, met, lines


def upgraded(made):
    """The scenario with an upgrade of each site, one after another and amid all that is done."""
    sites, steps = made["sites"], list(made["steps"])
    for site in reversed(range(sites)):
        steps.insert(len(made["steps"]) * (site + 1) // (sites + 1), ["upgrade", site])
    return {**made, "steps": steps}


def made(has_areas=False, has_upgrades=False):
    """A scenario of three sites, with two areas and with upgrades where these are asked for."""
    one = Spread(TRANSACTIONS).made()
    one = upgraded(one) if has_upgrades else one
    if has_areas:
        one.update(areas=2, capacity=CAPACITY_OF_TWO)
        one["steps"] += [[word, site] for site in range(one["sites"]) for word in ("stop", "restart")] * RESTARTS
    return json.dumps(one)


def main():
    parser = argparse.ArgumentParser(description=__doc__, formatter_class=argparse.RawDescriptionHelpFormatter)
    parser.add_argument("scenario", nargs="?", help="a scenario; without it one is made of transactions at three sites")
    parser.add_argument("--program", metavar="PATH", help="the program; without it that of this repository, which ./walter "
                        "proves and builds first where that isn't done yet")
    parser.add_argument("--run", action="store_true", help="let threads drive the scenario")
    parser.add_argument("--areas", action="store_true", help="make a scenario of journals of two areas, whose sites restart")
    parser.add_argument("--upgrades", action="store_true", help="make a scenario whose sites are upgraded amid their commits")
    parser.add_argument("--kills", type=int, default=KILLS, metavar="K", help=f"how often it is killed; {KILLS} without it")
    parser.add_argument("--seed", type=int, default=1, metavar="N", help="the seed of the moments; 1 without it")
    words = parser.parse_args()
    if words.scenario:
        with open(words.scenario, encoding="utf-8") as file:
            text = file.read()
    else:
        text = made(words.areas, words.upgrades)
    killed, met, lines = tried(words.program or built(), Scenario(text), words.run, words.kills, words.seed)
    formats = f", {met['upgraded']} with a record Format" if met["upgraded"] else ""
    print(f"{words.kills} plays, {killed} of them killed at work; files: {met['none']} with nothing, {met['a front']} with a front "
          f"of the records, {met['whole']} with all{formats}; {len(lines)} wrong")
    if met["audited"] or met["not audited"]:
        print(f"audits: {met['audited']} yes; {met['not audited']} folders have a file with nothing")
    print("\n".join(lines), end="\n" if lines else "")
    sys.exit(1 if lines else 0)


if __name__ == "__main__":
    main()
