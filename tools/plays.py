"""Plays of scripts and scenarios, by the plain model of bench/ or by the program, and what is told of them."""

import os
import subprocess
import sys
from collections import Counter

import ends
import reports
import runs
import scripts
import strangers
import words

TOP = os.path.join(os.path.dirname(os.path.abspath(__file__)), "..")
sys.path.append(os.path.join(TOP, "bench"))
import model
import readings

PROGRAM = os.path.normpath(os.path.join(TOP, "walter"))


class Source:
    """A file with a script or a scenario: the scenario, as the tools read it and as it is played."""

    def __init__(self, path, data=None):
        self.name, self.data = ends.name_of(path), ends.bytes_of(path) if data is None else data
        strangers.check_scenario(self.name, self.data)
        try:
            self.made = readings.read(self.data) if strangers.is_json(self.data) else None
            self.scenario = runs.Scenario(scripts.decoded(self.data))
        except readings.Refused as refused:
            raise ends.End(ends.NO_SCENARIO, f"{self.name}: {strangers.refusal(self.data, refused)}") from None
        except scripts.Wrong as wrong:
            raise ends.End(ends.NO_SCENARIO, wrong.in_file(self.name)) from None
        self.made = self.made or self.scenario.script.scenario()


def report_of(made, program=None, trace=True):
    """What is written of a scenario: by the program where one is named, else by the model."""
    return by_program(program, scripts.text_of(made), trace) if program else model.played(made, Counter()).text(trace)


def by_program(program, text, trace):
    """What the program writes. Where that is no whole report it has said why, and its status stands."""
    try:
        ended = subprocess.run([program, "play", *["--trace"] * trace], input=text, stdout=subprocess.PIPE, encoding="utf-8",
                               errors="replace")
    except OSError as fault:
        raise ends.End(ends.NO_PROGRAM, f"{program}: {fault.strerror}") from None
    if ended.returncode != 0:
        raise ends.End(ended.returncode, "" if ended.returncode > 0 else f"{program} was ended by signal {-ended.returncode}")
    return ended.stdout


def take_path(parser, given, name):
    """What is played has a path. That behind `--program` is its path where there is no other: then the program has none."""
    if getattr(given, name) is None and given.program not in (None, PROGRAM):
        setattr(given, name, given.program)
        given.program = PROGRAM
    if getattr(given, name) is None:
        parser.error("wants the path of what is to be played")


def built(program):
    """The program itself, where ./walter is asked for it, which proves and builds it first where that isn't done yet."""
    if program != PROGRAM:
        return program
    found = subprocess.run([program, "--where"], stdout=subprocess.PIPE, text=True)
    if found.returncode != 0:
        raise ends.End(found.returncode, "")
    return found.stdout.rstrip("\n")


def run_of(scenario, report):
    """The run that a report tells of a scenario."""
    try:
        return runs.Run(scenario, reports.read(report))
    except reports.Wrong as wrong:
        raise ends.End(ends.NO_SCENARIO, f"the report: {wrong}") from None


def lines_of(run, packets=False):
    return [*words.lines(run, packets), *words.left_over(run)]


def difference(lines, wanted):
    """Where lines differ first from those that are wanted, or None."""
    for place in range(max(len(lines), len(wanted))):
        came, want = (some[place] if place < len(some) else "no line" for some in (lines, wanted))
        if place >= min(len(lines), len(wanted)) or came != want:
            return f"line {place + 1} differs\nwanted: {want}\ncame:   {came}"
    return None
