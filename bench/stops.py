#!/usr/bin/env python3
"""Stops the disk of each site at each of its calls, and compares what the program makes of it with the plain model.

    python3 bench/stops.py --program PATH
    python3 bench/stops.py --model

Six scenarios are played: the slow commit of examples/, behind which each site restarts; the same with stops and restarts of both
sites, over journals of one area and of two, whose packs are stopped too; the site of examples/ that is upgraded amid its commits,
with stops and restarts too, over one area and over two: where its upgrade is stopped, a restart finds the record Format or doesn't,
and what comes behind is in the format in force then; and the made scenario of a load of 40 calls, whose sites come up again by
their pumps. For each site and each choice of 0, 1 and 7 the disk is armed at its first call behind the opening,
then at the second, and so on until an arm isn't reached. Each run is played by the program and by the model: the status is 0, and
report and trace are the same. With --model the model plays alone.

Prints for each scenario how many calls of each site were stopped, and in how many runs; and a line for each run that differs, by
its scenario, its site, its call and its choice. Ends with status 1 where there is one.
"""

import argparse
import json
import subprocess
import sys

import loads
from compare import built, first_difference
from rows import CHOICES, example, stopped

LOAD = 7, 40
# Two areas of this take all records of the slow commit several times.
CAPACITY_OF_TWO = 4096


def restarts(sites):
    """Each of so many sites comes up behind a stop, and behind a second one; where the one restart fails, the next one doesn't."""
    return [[word, site] for site in range(sites) for word in ("stop", "restart", "restart") * 2]


def slow_commit(behind, **more):
    """The slow commit of examples/, with steps behind it."""
    made = example("slow_commit", **more)
    return {**made, "steps": [*made["steps"], *behind]}


def upgraded(**more):
    """The upgrade of examples/, with restarts of all sites behind it."""
    made = example("upgraded_in_place", **more)
    return {**made, "steps": [*made["steps"], *restarts(made["sites"])]}


SCENARIOS = {
    "a slow commit": lambda: slow_commit([["restart", 0], ["restart", 1]]),
    "a slow commit and restarts": lambda: slow_commit(restarts(2)),
    "a slow commit and restarts over two areas": lambda: slow_commit(restarts(2), areas=2, capacity=CAPACITY_OF_TWO),
    "an upgrade and restarts": upgraded,
    "an upgrade and restarts over two areas": lambda: upgraded(areas=2, capacity=CAPACITY_OF_TWO),
    f"the calls of a load of {LOAD[1]}": lambda: loads.made(*LOAD),
}


def wrong_of(program, made, run):
    """What is wrong with the program's run of a scenario, or None."""
    ended = subprocess.run([program, "play", "--trace"], input=json.dumps(made), capture_output=True, text=True)
    if ended.returncode != 0 or ended.stderr:
        return f"status {ended.returncode}, {ended.stderr.strip()[:300]}"
    if ended.stdout == run.text():
        return None
    came, wanted = first_difference(ended.stdout, run.text())
    return f"played: {came[:300]}\n    model:  {wanted[:300]}"


def tried(program, name, made):
    """Stops all calls of a scenario. Gives how many of each site were stopped, in how many runs, and what is wrong."""
    counts, runs, lines = [], 0, []
    for site in range(made["sites"]):
        reached = [0]
        for choice in CHOICES:
            for nth, one, run in stopped(made, site, lambda _: choice):
                reached.append(nth)
                runs += 1
                wrong = wrong_of(program, one, run) if program else None
                if wrong:
                    lines.append(f"{name}, call {nth} of site {site}, choice {choice}: {wrong}")
        counts.append(max(reached))
    return counts, runs, lines


def main():
    parser = argparse.ArgumentParser(description=__doc__, formatter_class=argparse.RawDescriptionHelpFormatter)
    parser.add_argument("--program", metavar="PATH", help="the program; without it that of this repository, which ./walter "
                        "proves and builds first where that isn't done yet")
    parser.add_argument("--model", action="store_true", help="play the model alone")
    words = parser.parse_args()
    program = None if words.model else words.program or built()
    calls = differ = 0
    for name, make in SCENARIOS.items():
        counts, runs, lines = tried(program, name, make())
        calls, differ = calls + sum(counts), differ + len(lines)
        print(f"{name}: {' and '.join(map(str, counts))} calls of its sites were stopped, in {runs:,} runs", flush=True)
        print("".join(f"  {line}\n" for line in lines), end="", flush=True)
    how = "played by the model" if words.model else f"{differ:,} runs differ" if differ else "the same"
    print(f"{calls:,} device calls were stopped, each by the choices {', '.join(map(str, CHOICES))}: {how}")
    sys.exit(differ > 0)


if __name__ == "__main__":
    main()
