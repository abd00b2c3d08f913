#!/usr/bin/env python3
"""Runs the program and another of the same rules in turn on one made scenario, and says what an event takes in each.

    python3 bench/speed.py PLAIN
    python3 bench/speed.py "PLAIN --with its words" --program PATH --calls 6000
    python3 bench/speed.py PLAIN --kinds all
    python3 bench/speed.py PLAIN --kinds hot-set,long-rows-ticks
    python3 bench/speed.py PLAIN --kinds common

Both play `load --seed N --calls M`, and are to write the same summary. The times are the processor's, user's and system's
together. The ratios are the program's numbers to the other's: only these say something of another machine. The memory is the
most that a run takes, where it is more than the 7 MB or so of the process that measures it.

With --kinds both play scenarios instead, and are to write the same reports, with status 0: those of kinds.py, of common.py, or
some of both by their names. There is a line for each, with the least and the median time in seconds, the memory in MB, the three
ratios, and whether those of both times and of the memory keep the limits of the kind. Where the two differ the line says so, and
the status is 1.
"""

import argparse
import shlex
import statistics
import sys
import tempfile

import common
import file_commits
import kinds
from compare import built, first_difference
from loads import load_words
from measured import events_of, fault_of, measured, microseconds, run_of

RUNS = 7
# Of less than so many seconds a ratio says little.
LEAST_SECONDS = 0.02
KINDS = {**kinds.KINDS, **common.KINDS, **common.WORKLOADS}
GROUPS = {"all": kinds.KINDS, "common": common.KINDS, "workloads": common.WORKLOADS}
LINE = "{:<16} {:>7} | {:>8} {:>8} {:>6} | {:>8} {:>8} {:>6} | {:>6} {:>6} {:>6} | {}"
HEAD = [LINE.format("", "", *(side for name in ("program", "other") for side in (name, "", "")), "ratios", "", "", ""),
        LINE.format("kind", "events", *("least s", "median s", "MB") * 2, "least", "median", "memory", "limit")]


class Side:
    """One of the two programs: its name, its command, and its runs."""

    def __init__(self, name, command):
        self.name, self.command, self.runs = name, command, []

    def load(self, seed, calls):
        self.runs.append(measured(load_words(self.command, seed, calls)))
        return self.runs[-1].written

    def play(self, source):
        """Plays the scenario that is in a file."""
        source.seek(0)
        self.runs.append(run_of([*self.command, "play"], source))
        return self.runs[-1]

    def least(self):
        return min(run.seconds for run in self.runs)

    def median(self):
        return statistics.median(run.seconds for run in self.runs)

    def memory(self):
        return max(run.megabytes for run in self.runs)

    def line(self, events):
        return (f"{self.name}: least {self.least():.3f} s, {microseconds(self.least(), events)}; median {self.median():.3f} s, "
                f"{microseconds(self.median(), events)}; memory {self.memory():.0f} MB")


def summary_of(sides, seed, calls):
    """Runs each once, and gives the summary that both write."""
    one, other = (side.load(seed, calls) for side in sides)
    if one != other:
        sys.exit("the two write different summaries\n" + "\n".join(differing(sides, one, other)))
    return one


def differing(sides, one, other):
    """The first lines that differ of what both write, each with its side."""
    return (f"{side.name}: {line[:300]}" for side, line in zip(sides, first_difference(one, other)))


def ratio(one, other):
    return f"{one / other:.2f}" if other > 0 else "none"


def compared(sides, seed, calls, runs):
    """The lines that tell how the two compare."""
    for _ in range(runs):
        summary = summary_of(sides, seed, calls)
    events, (one, other) = events_of(summary), sides
    yield f"load of seed {seed} with {calls:,} calls: {events:,} events, {runs} runs of each in turn"
    yield from (side.line(events) for side in sides)
    yield (f"ratio of the least times {ratio(one.least(), other.least())}, of the medians "
           f"{ratio(one.median(), other.median())}, of the memory {ratio(one.memory(), other.memory())}")


# The kinds


def play_kind(sides, name, runs):
    """Runs both in turn on the scenario of a kind. Gives what is to be told of them, where they don't end well or differ."""
    with tempfile.TemporaryFile("w+") as source:
        source.write(kinds.text_of(KINDS[name].make()))
        for _ in range(runs):
            one, other = played = [side.play(source) for side in sides]
            failed = [f"{side.name}: {fault_of(side.command, run)}" for side, run in zip(sides, played) if run.status != 0]
            if failed:
                return failed
            if one.written != other.written:
                return ["the two write different reports", *differing(sides, one.written, other.written)]
    return []


def limit_of(one, other, kind):
    """Whether the program keeps the limits of the kind: of both times, and of the memory, if it has one."""
    if other.least() < LEAST_SECONDS:
        times = "too short to tell"
    else:
        keeps = one.least() <= kind.times * other.least() and one.median() <= kind.times * other.median()
        times = f"within {kind.times}" if keeps else f"above {kind.times}"
    if kind.memory is None:
        return times
    return f"{times}, {'within' if one.memory() <= kind.memory * other.memory() else 'above'} {kind.memory} MB for MB"


def kind_line(sides, name):
    one, other = sides
    numbers = (number for side in sides
               for number in (f"{side.least():.3f}", f"{side.median():.3f}", f"{side.memory():.0f}"))
    ratios = (ratio(one.least(), other.least()), ratio(one.median(), other.median()), ratio(one.memory(), other.memory()))
    return LINE.format(name, f"{events_of(one.runs[-1].written):,}", *numbers, *ratios, limit_of(one, other, KINDS[name]))


def compare_kinds(commands, names, runs):
    """Prints a table with a line for each kind. Gives of how many kinds something is wrong."""
    wrong = 0
    print(f"{runs} runs of each in turn", *HEAD, sep="\n", flush=True)
    for name in names:
        sides = sides_of(*commands)
        told = play_kind(sides, name, runs)
        wrong += len(told) > 0
        print(*([name + ": " + told[0], *told[1:]] if told else [kind_line(sides, name)]), sep="\n", flush=True)
    return wrong


def kinds_named(words):
    """The kinds of these words, which are joined by commas: each is a kind, or a group of them."""
    names = [name for word in words.split(",") for name in GROUPS.get(word, [word])]
    unknown = [name for name in names if name not in KINDS]
    if unknown:
        raise argparse.ArgumentTypeError(f"{unknown[0]!r} is none of {', '.join(KINDS)}, or {' or '.join(GROUPS)}")
    return names


# The command


def sides_of(program, other):
    return [Side("the program", program), Side("the other", other)]


def main():
    parser = argparse.ArgumentParser(description=__doc__, formatter_class=argparse.RawDescriptionHelpFormatter)
    parser.add_argument("other", help="the other program, with the words that it takes before `load` or `play`, if any")
    parser.add_argument("--program", metavar="PATH", help="the program, with its words if it takes some; without it that of this "
                        "repository, which ./walter proves and builds first where that isn't done yet")
    parser.add_argument("--kinds", type=kinds_named, metavar="NAMES", help="play the scenarios of these kinds, joined by commas: "
                        f"of {', '.join(KINDS)}; all stands for those of kinds.py, common and workloads for those of common.py")
    parser.add_argument("--seed", type=int, default=7, metavar="N", help="the seed of the load; 7 without it")
    parser.add_argument("--calls", type=int, default=20_000, metavar="M", help="how many calls it has; 20000 without it")
    parser.add_argument("--runs", type=int, default=RUNS, metavar="K", help=f"how often each runs; {RUNS} without it")
    parser.add_argument("--commits", type=int, metavar="C", help="print also how many commits a second the program makes over "
                        "file disks, by so many, as file_commits.py does")
    words = parser.parse_args()
    if words.runs < 1:
        parser.error("--runs wants a number from 1")
    program = shlex.split(words.program) if words.program else [built()]
    commands = program, shlex.split(words.other)
    if words.kinds:
        sys.exit(compare_kinds(commands, words.kinds, words.runs) > 0)
    for line in compared(sides_of(*commands), words.seed, words.calls, words.runs):
        print(line, flush=True)
    for line in file_commits.told(program[0], None, words.commits, words.runs) if words.commits else []:
        print(line, flush=True)


if __name__ == "__main__":
    main()
