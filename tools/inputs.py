"""The runs that commands read from files: what is wrong is told with the file and the line, and what stands there."""

import re

import ends
import reports
import runs
import scripts
import strangers

LONGEST = 120
A_SUMMARY = ": it is the summary of a load, which has no replies and no trace: `bench/model.py load .. --scenario` writes its scenario"


def wrong_in(path, text):
    return ends.End(ends.NO_SCENARIO, f"{ends.name_of(path)}{text}")


def scenario_of(path):
    text = ends.text_of(path)
    strangers.check_scenario(ends.name_of(path), text.encode())
    try:
        return runs.Scenario(text)
    except scripts.Wrong as wrong:
        raise ends.End(ends.NO_SCENARIO, wrong.in_file(ends.name_of(path))) from None
    except RecursionError:
        raise wrong_in(path, f": {scripts.NoScenario()}") from None


def quoted(text, wrong):
    """The line that a fault speaks of, or as much of it as a line of a terminal has place for."""
    place, lines = re.match("line ([0-9]+): ", str(wrong)), text.split("\n")
    line = lines[int(place[1]) - 1].strip() if place and int(place[1]) <= len(lines) else ""
    if not text:
        return "; it is empty"
    return f"; it has: {line if len(line) <= LONGEST else line[:LONGEST] + '..'}" if line else ""


def read_run(scenario, report, make=runs.Run, needs_trace=False, is_threaded=False):
    """The run that a scenario and a report tell, by the files that they are in."""
    made, text = scenario_of(scenario), ends.text_of(report)
    if is_threaded:
        made.forget_steps()
    if strangers.is_json(text.encode()) or strangers.is_script(text.encode()):
        raise wrong_in(report, ": this is no report, but what one may be of: the script or the scenario stands first, and its report behind")
    if reports.is_summary(text):
        raise wrong_in(report, A_SUMMARY)
    try:
        told = reports.read(text)
        if needs_trace and not told.entries:
            raise wrong_in(report, ": it has no trace, which --trace writes")
        return make(made, told)
    except reports.Wrong as wrong:
        raise wrong_in(report, f", {wrong}{quoted(text, wrong)}") from None


def read_summary(path):
    """The summary of a load, by the file that it is in."""
    text = ends.text_of(path)
    try:
        return reports.read_summary(text)
    except reports.Wrong as wrong:
        raise wrong_in(path, f", {wrong}{quoted(text, wrong)}") from None
