"""Plays a scenario in the plain model, and writes the report that `walter play` is to write of it.

    python3 bench/model.py examples/slow_commit.script
    python3 bench/model.py --trace < examples/slow_commit.json

The scenario is JSON or a script. Bytes that are none are refused as the program refuses them: by the same place, with the same
text and the same status.

    python3 bench/model.py load --seed 7 --calls 2000
    python3 bench/model.py load --seed 7 --calls 2000 --scenario > load.json

The first plays a made scenario, and writes the summary that `walter load` is to write of it. The second writes the scenario.

    python3 bench/model.py audit --disks DIR examples/slow_commit.json

audits the journals that a run of the scenario left in the folder DIR, and writes what `walter audit` is to write of
them, with the same status: 0 where they tell a legal history, and 8 where they don't.
"""

import json
import os
import sys
from collections import Counter

import audit
import loads
import model
import readings

sys.path.append(os.path.join(os.path.dirname(os.path.abspath(__file__)), "..", "tools"))
import ends


def is_script(data):
    """Whether bytes are a script and no JSON: they begin with a comment, or their first word is `sites`."""
    return data.lstrip()[:1] == b"#" or data.split(maxsplit=1)[:1] == [b"sites"]


def scenario_of(data, name):
    """The scenario of a file's bytes."""
    if is_script(data):
        import scripts

        try:
            return scripts.read(scripts.decoded(data))
        except scripts.Wrong as wrong:
            raise ends.End(ends.NO_SCENARIO, wrong.in_file(name)) from None
    try:
        return readings.read(data)
    except readings.Refused as refused:
        raise ends.End(ends.NO_SCENARIO, f"the scenario has no reading: {refused}") from None


def taken(path):
    """The bytes of the scenario, or an end as that of the program where standard input can't be read."""
    try:
        return ends.bytes_of(path)
    except ends.End:
        if path not in (None, "-"):
            raise
        raise ends.End(ends.NOT_READ, "the scenario could not be read to its end") from None


def written(text, what):
    try:
        ends.write(text)
    except ends.End as end:
        raise ends.End(end.status, f"the {what} could not be written to its end") from None


def play(words):
    parser = ends.Parser(__doc__, prog="model.py")
    parser.add_argument("file", nargs="?", help="a scenario, as JSON or as a script; standard input without it")
    parser.add_argument("--trace", action="store_true", help="write a line for each event too, behind the report")
    given = parser.parse_args(words)
    made = scenario_of(taken(given.file), ends.name_of(given.file))
    written(model.played(made, Counter()).text(given.trace), "report")


def load(words):
    parser = ends.Parser(loads.__doc__, prog="model.py load")
    parser.add_argument("--seed", type=ends.number_to(loads.MOST_SEED), required=True, metavar="N", help="the seed, below 2^64")
    parser.add_argument("--calls", type=ends.number_to(loads.MOST_CALLS), required=True, metavar="M",
                        help=f"how many calls there are, to {loads.MOST_CALLS:,}")
    parser.add_argument("--scenario", action="store_true", help="write the scenario, and play nothing")
    given = parser.parse_args(words)
    made = loads.made(given.seed, given.calls)
    if given.scenario:
        written(json.dumps(made, separators=(",", ":")) + "\n", "scenario")
    else:
        written(loads.summary(given.seed, given.calls, model.played(made, Counter())), "summary")


def audit_folder(words):
    parser = ends.Parser(audit.__doc__, prog="model.py audit")
    parser.add_argument("file", nargs="?", help="a scenario, as JSON or as a script; standard input without it")
    parser.add_argument("--disks", required=True, metavar="DIR", help="the folder with the journals of its sites")
    given = parser.parse_args(words)
    made = scenario_of(taken(given.file), ends.name_of(given.file))
    status, said, text = audit.ended(made, given.disks, audit.files_in(given.disks, made["sites"]))
    if said:
        raise ends.End(status, said)
    written(text, "finding")
    return status


COMMANDS = {"load": load, "audit": audit_folder}


def main():
    command, *words = sys.argv[1:] or [None]
    return COMMANDS[command](words) if command in COMMANDS else play(sys.argv[1:])
