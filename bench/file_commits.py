#!/usr/bin/env python3
"""How many commits a second the program makes over file disks, beside what the syncs of a file alone allow here.

    python3 bench/file_commits.py
    python3 bench/file_commits.py --folder /mnt/disk --commits 5000

One site plays so many transactions of one write, over disks in memory and over the files of a folder; and 1 and 8 threads run
them, of eight clients, over files. A commit is two writes, its record's and its gate's, with a sync behind each: the same of
files alone is done in Python, with records of the same size. Of each the least time of some runs counts.
"""

import argparse
import json
import os
import subprocess
import sys
import tempfile
import time

import kinds
from compare import built
from growth import commits_of, in_turns

RUNS, COMMITS = 3, 2_000
CLIENTS = 8
# The bytes of a record of one write, but for its gate.
RECORD = 124


def scenario(commits):
    """One client commits so many transactions of one write."""
    return kinds.text_of(in_turns([commits_of(range(commits))], [0] * (3 * commits)))


def threaded(commits, threads):
    """Eight clients share the same transactions, and so many threads serve them."""
    clients = [[0, commits_of(range(first, commits, CLIENTS))] for first in range(CLIENTS)]
    return json.dumps({"sites": 1, "f": 0, "containers": [[1, "regular", 0]], "clients": clients, "threads": threads,
                       "steps": []})


def seconds_of(program, command, text, folder):
    words = [program, command, *(["--disks", folder] if folder else [])]
    begin = time.monotonic()
    ended = subprocess.run(words, input=text, capture_output=True, text=True)
    if ended.returncode != 0:
        sys.exit(f"the program ended with status {ended.returncode}\n{ended.stderr}")
    return time.monotonic() - begin


def seconds_of_syncs(folder, commits):
    """Writes and syncs a file as the commits of a journal do."""
    file = os.open(os.path.join(folder, "syncs"), os.O_RDWR | os.O_CREAT, 0o600)
    try:
        begin, place = time.monotonic(), 9
        for _ in range(commits):
            os.pwrite(file, bytes(RECORD), place)
            os.fdatasync(file)
            os.pwrite(file, b"\1", place - 1)
            os.fdatasync(file)
            place += RECORD
        return time.monotonic() - begin
    finally:
        os.close(file)


def in_folder(parent, measure):
    with tempfile.TemporaryDirectory(dir=parent) as folder:
        return measure(folder)


def told(program, parent, commits, runs):
    """The lines that tell the commits a second."""
    text = scenario(commits)

    def run_by(threads):
        shared = threaded(commits, threads)
        return lambda: in_folder(parent, lambda folder: seconds_of(program, "run", shared, folder))

    measures = [("over disks in memory", lambda: seconds_of(program, "play", text, None)),
                ("over file disks", lambda: in_folder(parent, lambda folder: seconds_of(program, "play", text, folder))),
                ("over file disks, run by 1 thread", run_by(1)),
                ("over file disks, run by 8 threads", run_by(8)),
                ("the syncs alone", lambda: in_folder(parent, lambda folder: seconds_of_syncs(folder, commits)))]
    yield f"{commits:,} commits of one write at one site, {runs} runs of each"
    for name, measure in measures:
        seconds = min(measure() for _ in range(runs))
        yield f"{name}: {seconds:.3f} s, {commits / seconds:,.0f} commits a second"


def main():
    parser = argparse.ArgumentParser(description=__doc__, formatter_class=argparse.RawDescriptionHelpFormatter)
    parser.add_argument("--program", metavar="PATH", help="the program; without it that of this repository, which ./walter "
                        "proves and builds first where that isn't done yet")
    parser.add_argument("--folder", metavar="DIR", help="where the files are made; without it among the temporary files")
    parser.add_argument("--commits", type=int, default=COMMITS, metavar="M", help=f"how many commits; {COMMITS} without it")
    parser.add_argument("--runs", type=int, default=RUNS, metavar="K", help=f"how often each is run; {RUNS} without it")
    words = parser.parse_args()
    for line in told(words.program or built(), words.folder, words.commits, words.runs):
        print(line)


if __name__ == "__main__":
    main()
