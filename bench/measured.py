"""Runs of a program with the processor time and the memory that each took, and how many events they had."""

import json
import re
import subprocess
import sys
import tempfile
from collections import namedtuple

# A run: what was written, the seconds of processor time, user's and system's, and the most memory in MB; the status, and the
# lines on standard error.
Measured = namedtuple("Measured", "written seconds megabytes status said", defaults=(0, ()))
# In a small process of its own: what a child took is never told as less than its parent had.
RUN = """
import json, os, sys
child = os.fork()
if child == 0:
    try:
        os.execvp(sys.argv[1], sys.argv[1:])
    except OSError as fault:
        sys.exit(fault.strerror)
_, status, took = os.wait4(child, 0)
print(json.dumps([os.waitstatus_to_exitcode(status), took.ru_utime + took.ru_stime, took.ru_maxrss]), file=sys.stderr)
"""
EVENTS = re.compile(r"^site \d+ .* events (\d+) ", re.M)


def run_of(words, source=None):
    """Runs a command, whose standard input is this file."""
    ended = subprocess.run([sys.executable, "-S", "-E", "-c", RUN, *words], stdin=source or subprocess.DEVNULL,
                           stdout=subprocess.PIPE, stderr=subprocess.PIPE, text=True, check=True)
    *said, last = ended.stderr.splitlines()
    status, seconds, kilobytes = json.loads(last)
    return Measured(ended.stdout, seconds, kilobytes * 1024 / 1_000_000, status, said)


def fault_of(words, run):
    """What is said of a run that didn't end well."""
    return "\n".join([f"{words[0]} ended with status {run.status}", *run.said])


def measured(words, source=None):
    """The same of a command that is to end with status 0, and else is the end of this."""
    run = run_of(words, source)
    if run.status != 0:
        sys.exit(fault_of(words, run))
    return run


def measured_of(words, text):
    """The same, where standard input has this text."""
    with tempfile.TemporaryFile("w+") as source:
        source.write(text)
        source.seek(0)
        return measured(words, source)


def events_of(text):
    """How many events all sites have had, by a report or a summary."""
    return sum(map(int, EVENTS.findall(text)))


def microseconds(seconds, events, of="an event"):
    return f"{seconds * 1_000_000 / events:.2f} us {of}"
