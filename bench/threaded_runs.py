#!/usr/bin/env python3
"""Has the program run random scenarios by threads, and checks the report and the trace of each by threaded.py.

The scenarios go by their seeds, in the kinds of `KINDS`: of one to eight sites, some of up to sixteen, and of 1 to 32 threads, with
links that lose, repeat and swap, with disks that are armed and with short journals, of one area and of two and of either format,
with few clients for many threads and with none. Where the program refuses the key `areas` none has it; nor `format`, or more than
eight sites, where it refuses that. One of a hundred is to spend a trail. Each is run with its threads, and with one. Says how often
each reply, outcome, record and packet was met in these runs, and what the link chose, and which of these were not met; and how many
runs were accepted. Ends with status 1 where one isn't: it has a line with its seed and what is wrong. A run that takes two minutes
is taken for one that never ends.

With --kilobytes a run has no more address space than these, so that threads are hard to make, or memory is wanting: it is to
end all the same, with a right report or with status 5. From 4,000 on there is room for the program, and from 100,000 on for
most threads.
"""

import argparse
import json
import random
import resource
import subprocess
import sys
from collections import Counter, namedtuple

import compare
import journals
import readings
import threaded
from generator import CHOICES, COMMIT, START, areas_of, frames, of_several, sent
from spelled import PACKETS, write

# How many sites, clients and threads there are, how many parts what a client sends has at most, how probable a link and arms
# are, and whether journals are short. A part has up to eight transactions.
Kind = namedtuple("Kind", "sites clients threads parts link arms short", defaults=(0.3, 0, False))
ANY = range(1, 9)
KINDS = [
    Kind(ANY, (2, 6), (2, 8, 32), 4),
    Kind(ANY, (2, 8), (1, 2, 8), 4, link=1),
    Kind((1, 2, 3), (2, 6), (2, 3, 8), 4, arms=1),
    Kind((2, 3, 4), (3, 8), (4, 8), 20, link=0.1),
    Kind(ANY, (1, 2), (16, 32), 4),
    Kind((2, 3, 4), (3, 8), (4, 8, 32), 8, link=1, arms=1),
    Kind((1,), (2, 8), (2, 8), 4, short=True),
    Kind((5, 6, 7, 8), (8, 24), (8, 16, 32), 3, arms=0.5),
    Kind(ANY, (0, 0), (1, 8, 32), 0, arms=0.5),
    Kind((1, 2, 3), (16, 40), (4, 8, 32), 3, arms=0.5),
]
RATES = [0, 0, 20, 100, 300, 500, 1000]
TICKS = [0, 1, 3, 10, 20]
# Of so many seeds in a row the last one spends a trail, which takes seconds.
SPENT = 100
LONGEST = 120
NO_MEMORY = 5
# What the trace says where an event met want of memory, which the model doesn't know.
WANT = (" memory ", " reply:00000002e00d ")
# Of what compare.py counts these aren't met in a threaded run: a disk fails once at most, and no site stops otherwise, makes
# a step that finds it down, or advances where nothing may be committed. Limits are left to compare.py.
NEVER = {"stop taken", "stop down", "restart passed", "restart failed", "advance passed", "Boot in flight", "Boot found",
         "packet of no such number", *(f"{what} down" for what in (*PACKETS, "advance", "tick")),
         *(f"refusal {number}" for number in (3, 4, 11, 12))}
KINDS_MET = (compare.SITES, compare.REPLIES, compare.OUTCOMES, compare.RECORDED, compare.VOTES, compare.RULES,
             compare.DELIVERIES, compare.LINKS)
ALL = [kind for kinds in KINDS_MET for kind in kinds if kind not in NEVER]
# How many sites there may be besides where there are formats. No threaded run has an upgrade.
MORE_SITES = [kind for kind in compare.FORMATS if kind.startswith("sites ")]


# The scenarios


def containers(rng, sites):
    """Few objects, so that they are fought over, preferred at any sites."""
    kinds = {2: "cset", **{number: "regular" for number in regular(sites)}}
    return [[number, kinds[number], rng.randrange(sites)] for number in sorted(kinds)]


def regular(sites):
    return 1, 7, *range(8, 4 + sites)


def client(rng, sites, parts):
    """A client at any site: mostly with transactions, and sometimes with anything."""
    site, most = rng.randrange(sites), rng.randint(0, parts)
    made = [of_several(rng, site, regular(sites), rng.choice([0, 0.3])) if rng.random() < 0.8 else sent(rng)
            for _ in range(most)]
    return [site, b"".join(made).hex()]


def any_scenario(rng, kind, areas):
    sites = rng.choice(kind.sites)
    made = {"sites": sites, "f": rng.choice([0, 0, rng.randrange(sites)]), "containers": containers(rng, sites),
            "clients": [client(rng, sites, kind.parts) for _ in range(rng.randint(*kind.clients))],
            "threads": rng.choice(kind.threads), "ticks": rng.choice(TICKS)}
    if rng.random() < kind.link:
        made["link"] = {"seed": rng.getrandbits(64), **{rate: rng.choice(RATES) for rate in ("lose", "repeat", "swap")}}
    if rng.random() < kind.arms:
        made["arms"] = [[site, rng.randint(1, rng.choice([8, 60, 300])), rng.choice(CHOICES)] for site in range(sites)]
    # A site whose disk fails comes up again only where its journal has place.
    if kind.short:
        made["capacity"] = rng.randint(150, 2000)
    return {**made, **(areas_of(rng, made) if areas else {}), "steps": []}


def spent(rng, is_down):
    """The trail of a site is spent: where its journal, full by a commit, has no place for another epoch, it is restarted again
    and again; or it is up, and there is no place for the second commit of site 0, which it tries to commit again and again."""
    commit = frames([START, write((1, 5), b"hello"), COMMIT])
    capacity, arms, commits = (145, [[0, 3, 1]], 1) if is_down else (291, [], 2)
    others = [[rng.randrange(2), frames([START] * rng.randint(1, 2000)).hex()] for _ in range(3)]
    return {"sites": 2, "f": 0, "containers": [[1, "regular", 0]], "clients": [[0, (commit * commits).hex()], *others],
            "capacity": capacity, "threads": rng.choice([2, 8]), "ticks": 5, "arms": arms, "steps": []}


def with_format(seed, made):
    """The scenario with journals of either format; in one of eight seeds one of several sites has further ones, up to sixteen. It
    is drawn apart, so that all else is the same whether programs take the key or not."""
    rng = random.Random(f"format {seed}")
    if made["sites"] > 1 and rng.random() < 0.125:
        made = {**made, "sites": rng.randint(journals.MOST_OF_FIRST + 1, readings.MOST_SITES)}
    form = rng.choice([None, *range(readings.format_of(made["sites"]), 3)])
    return made if form is None else {**made, "format": form}


def scenario(seed, areas=True, formats=True):
    """The scenario of a seed; where no areas are asked for none has the key `areas`, and where no formats are, none has the key
    `format` or more than eight sites."""
    rng = random.Random(seed)
    if (seed + 1) % SPENT == 0:
        return spent(rng, seed // SPENT % 2 == 0)
    made = any_scenario(rng, KINDS[seed % len(KINDS)], areas)
    return with_format(seed, made) if formats else made


# The runs


def limit_to(kilobytes):
    """What limits a program's address space, where it is to be limited."""
    size = kilobytes and kilobytes * 1024
    return (lambda: resource.setrlimit(resource.RLIMIT_AS, (size, size))) if size else None


def wrong_of(program, made, met, kilobytes=None):
    """What is wrong with the program's run of a scenario, or None. What was met in it is counted."""
    try:
        ended = subprocess.run([program, "run", "--trace"], input=json.dumps(made), capture_output=True, text=True,
                               timeout=LONGEST, preexec_fn=limit_to(kilobytes))
    except subprocess.TimeoutExpired:
        return f"it hasn't ended in {LONGEST} s"
    if kilobytes and (ended.returncode == NO_MEMORY or any(one in ended.stdout for one in WANT)):
        met["want of memory"] += 1
        return None
    if ended.returncode != 0 or ended.stderr:
        return f"status {ended.returncode}, {ended.stderr.strip()}"
    try:
        run = threaded.checked(made, ended.stdout, met=met)
    except threaded.Wrong as wrong:
        return str(wrong)
    compare.count_met(run, met)
    met["entries"] += sum(len(site.entries) for site in run.sites)
    met["spent"] += sum(len(site.entries) >= threaded.MOST_ENTRIES for site in run.sites)
    return None


def accepted(program, made, seed, met, kilobytes=None):
    """How many runs of a seed's scenario are accepted: with its threads, and with one. The others are told."""
    count = 0
    for threads in made["threads"], 1:
        wrong = wrong_of(program, {**made, "threads": threads}, met, kilobytes)
        if wrong:
            print(f"seed {seed} with {threads} threads: {wrong[:500]}", flush=True)
        count += wrong is None
    return count


def main():
    parser = argparse.ArgumentParser(description=__doc__, formatter_class=argparse.RawDescriptionHelpFormatter)
    parser.add_argument("--scenarios", type=int, default=200, metavar="N", help="how many are run; 200 without it")
    parser.add_argument("--seed", type=int, default=0, metavar="N", help="the seed of the first; 0 without it")
    parser.add_argument("--program", metavar="PATH", help="the program; without it that of this repository, which "
                        "./walter proves and builds first where that isn't done yet")
    parser.add_argument("--kilobytes", type=int, metavar="N", help="how much address space each run has; without it as much as "
                        "there is")
    parser.add_argument("--scenario", action="store_true", help="write the first scenario, and run nothing")
    words = parser.parse_args()
    if words.scenario:
        print(json.dumps(scenario(words.seed)))
        return
    program, met = words.program or compare.built(), Counter()
    areas, formats = (compare.knows(program, key) for key in ("areas", "format"))
    for key, known in ("areas", areas), ("format", formats):
        if not known:
            print(compare.NO_KEY.format(key))
    seeds = range(words.seed, words.seed + words.scenarios)
    count = sum(accepted(program, scenario(seed, areas, formats), seed, met, words.kilobytes) for seed in seeds)
    counted = ALL + (MORE_SITES if formats else [])
    print("met: " + "; ".join(f"{kind}: {met[kind]:,}" for kind in counted if met[kind]))
    print("not met: " + ("; ".join(kind for kind in counted if not met[kind]) or "none"))
    print(f"{words.scenarios:,} scenarios from seed {words.seed}, each with its threads and with one: {count:,} of "
          f"{2 * words.scenarios:,} runs accepted, with {met['entries']:,} entries and {met['spent']:,} spent trails"
          + (f"; {met['want of memory']:,} were without memory" if words.kilobytes else ""))
    sys.exit(count < 2 * words.scenarios)


if __name__ == "__main__":
    main()
