#!/usr/bin/env python3
"""Runs the program on wrong inputs, and compares how each run ends with what is wanted: its status, what it wrote on
standard error and, where that can be read, on standard output; then over file disks, in folders of its own. Prints a line for
each case, and ends with status 1 where one differs. With --model the plain model is run in its place, which is to end in the same
ways, but for `run`, which it hasn't: its own name stands in front of what it says. Of wrong words only the status and the front of
what is said are compared: `./walter` says how it is used, the program has the text of clap, and the model its own. With --program a
part of that text is looked for too, and the texts of help and version are asked for.
"""

import argparse
import json
import os
import subprocess
import sys
import tempfile
from collections import Counter
from concurrent.futures import ThreadPoolExecutor
from functools import partial

import audit
import journals
import model
import readings

TOP = os.path.dirname(os.path.dirname(os.path.abspath(__file__)))
# What stands in front where words are wrong, said by `./walter` and by the program.
WRONG_WORDS = ("walter: usage: ", "error: ")
WORDS = "the words are wrong"
NO_READING = "the scenario has no reading: "
SITES = readings.TEXTS["sites"]
CLOSED = None
MODELS_AT_ONCE = 6
# How many seconds a case may take, on a machine that may have much else to do.
LONGEST = 600


def file_of(*parts):
    with open(os.path.join(TOP, *parts), encoding="utf-8") as file:
        return file.read()


def scenario(sites="1", clients="", more="", f="0", containers="", steps=""):
    return (f'{{"sites":{sites},"f":{f},"containers":[{containers}],"clients":[{clients}],"steps":[{steps}]{more}}}')


# The stored run of the program.
RUN = file_of("crates", "walter", "stdin")
REPORT = file_of("crates", "walter", "stdout")

# What comes of the load of seed 7 with 20 calls.
SUMMARY = """\
load seed 7 calls 20
replies started 6 ended 0 done 6 read 5 committed 1 aborted 0 deciding 1 level 0 unsure 0 refused 1
site 0 up epoch 1 events 29 records 5 log 2
site 1 up epoch 1 events 26 records 5 log 1
site 2 up epoch 1 events 28 records 5 log 1
"""

# The part that is wrong in a step of two sites and one client, the step, and what is said of it.
STEPS = [
    ("value", "{}", "its value: wants a list"),
    ("word", '["push",0]', readings.STEP_TEXTS["word"]),
    ("length", '["deliver",0,1]', 'its length: wants just ["deliver", site, from, number]'),
    ("client", '["call",1]', "its client: wants a whole number below 1, the number of clients"),
    ("site", '["tick",2]', "its site: wants a whole number below 2, the number of sites"),
    ("site of an upgrade", '["upgrade",2]', "its site: wants a whole number below 2, the number of sites"),
    ("from", '["advance",0,2]', "its from: wants a whole number below 2, the number of sites"),
    ("from, which is its site", '["deliver",1,1,1]', "its from: wants another one than its site"),
    ("number", '["deliver",1,0,0]', "its number: wants a whole number from 1 to 4294967295"),
    ("nth", '["arm",0,0,0]', "its nth: wants a whole number from 1 to 1000000"),
    ("choice", '["arm",0,1,18446744073709551616]', "its choice: wants a whole number below 2^64"),
]

# What is tried, the words, standard input, the file that standard output goes to if it is one, and what is wanted: the
# status, the line on standard error, and the report.
CASES = [
    ("no words", [], RUN, None, 1, WORDS, ""),
    ("play --fast", ["play", "--fast"], RUN, None, 1, WORDS, ""),
    ("no calls", ["load", "--seed", "7"], "", None, 1, WORDS, ""),
    ("no number", ["load", "--seed", "7", "--calls", "many"], "", None, 1, WORDS, ""),
    ("20,001 calls", ["load", "--seed", "7", "--calls", "20001"], "", None, 1, WORDS, ""),
    ("a seed of 2^64", ["load", "--seed", "18446744073709551616", "--calls", "5"], "", None, 1, WORDS, ""),
    ("an open bracket", ["play"], "[", None, 2, NO_READING + "the text is no JSON: line 1, column 1", ""),
    ("seventeen sites", ["play"], scenario(sites="17"), None, 2, NO_READING + SITES, ""),
    ("another key", ["play"], scenario(more=',"speed":1'), None, 2, NO_READING + 'key "speed": a scenario has none', ""),
    ("odd hex", ["play"], scenario(clients='[0,"0"]'), None, 2, NO_READING + readings.TEXTS["clients"].format(0), ""),
    ("no keys", ["play"], "{}", None, 2, NO_READING + readings.TEXTS["keys"], ""),
    ("another outermost value", ["play"], "[]", None, 2, NO_READING + readings.TEXTS["json"], ""),
    ("too great an f", ["play"], scenario(f="1"), None, 2, NO_READING + readings.TEXTS["f"], ""),
    ("containers out of order", ["play"], scenario(containers='[2,"cset",0],[1,"cset",0]'), None, 2,
     NO_READING + readings.TEXTS["containers"].format(1), ""),
    ("a capacity of 10", ["play"], scenario(more=',"capacity":10'), None, 2, NO_READING + readings.TEXTS["capacity"], ""),
    ("no areas", ["play"], scenario(more=',"areas":0'), None, 2, NO_READING + readings.TEXTS["areas"], ""),
    ("two areas in 46 bytes", ["play"], scenario(more=',"areas":2,"capacity":46'), None, 2,
     NO_READING + readings.TEXTS["areas"], ""),
    ("a room of 100,001", ["play"], scenario(more=',"room":100001'), None, 2, NO_READING + readings.TEXTS["room"], ""),
    ("a third format", ["play"], scenario(more=',"format":3'), None, 2, NO_READING + readings.TEXTS["format"], ""),
    ("the first format of nine sites", ["play"], scenario("9", more=',"format":1'), None, 2, NO_READING + readings.TEXTS["format"], ""),
    ("a link without a seed", ["play"], scenario(more=',"link":{"lose":0,"repeat":0,"swap":0}'), None, 2,
     NO_READING + readings.TEXTS["link"], ""),
    ("10,001 ticks", ["play"], scenario(more=',"ticks":10001'), None, 2, NO_READING + readings.TEXTS["ticks"], ""),
    ("no thread", ["play"], scenario(more=',"threads":0'), None, 2, NO_READING + readings.TEXTS["threads"], ""),
    ("an arm of no site", ["play"], scenario(more=',"arms":[[1,1,1]]'), None, 2, NO_READING + readings.TEXTS["arms"].format(0),
     ""),
    *((f"a step with a wrong {part}", ["play"], scenario("2", '[0,""]', steps=f'["tick",0],{step}'), None, 2,
       f"{NO_READING}step 1, {said}", "") for part, step, said in STEPS),
    ("no list of steps", ["play"], scenario(more=',"steps":0'), None, 2, NO_READING + "step 0, the value of steps: wants a list",
     ""),
    ("too many bytes", ["play"], " " * (readings.MOST_BYTES + 1), None, 2, NO_READING + readings.TEXTS["long"], ""),
    ("a closed standard input", ["play"], CLOSED, None, 3, "the scenario could not be read to its end", ""),
    ("a full standard output", ["play"], RUN, "/dev/full", 4, "the report could not be written to its end", ""),
    ("the stored run", ["play"], RUN, None, 0, "", REPORT),
    ("a load", ["load", "--calls=20", "--seed", "7"], CLOSED, None, 0, "", SUMMARY),
]

# `run` refuses what `play` refuses, steps too, which it ignores otherwise.
CASES_OF_RUN = [(f"run: {name}", ["run", *words[1:]], *rest) for name, words, *rest in CASES if words[:1] == ["play"] and rest[2]]
# One client alone at one site that makes no ticks: so two runs don't differ.
CASES_OF_RUN += [
    ("a run", ["run"], scenario(clients='[0,"0000000101"]', steps='["call",0],["stop",0]', more=',"ticks":0'), None, 0, "",
     "sites 1 f 0 clients 1\nclient 0 site 0 replies 1 0000000e8000000000010000000000000001\n"
     "site 0 up epoch 1 events 2 records 1 got 0 committed 0 log -\n"),
]

# `audit` refuses the same. Its disks in memory have no journals, so it writes nothing of any.
CASES_OF_AUDIT = [(f"audit: {name}", ["audit", *words[1:]], *rest) for name, words, *rest in CASES
                  if words[:1] == ["play"] and rest[2] not in (0, 4)]
CASES_OF_AUDIT += [("an audit of disks in memory", ["audit"], RUN, None, 7,
                    "site 0 cannot begin with its disk: it has no journal (at place 0)", "")]

# What may be done to the one file of a folder before the stored run's second play over it, and what is then said of that file.
USED = "its journal has records (at place 8)"
BYTES = {
    "records": (None, USED),
    "records of the second format": (b"WALTERJ2\1" + b"\0\0\0\5" + b"\1\0\0\0\1" + b"\0", USED),
    "no journal": (b"WALTERJ1", "it has no journal (at place 0)"),
    "a damaged journal": (b"WALTERJ1\1" + b"\0\0\0\5" + b"\1",
                          "its journal is damaged, since it claims a length of 5 (at place 8)"),
}
UNFIT = "{}/site-0.journal: {}; move it away, or name another folder behind --disks"
NO_FOLDER = "{} is no folder: make it, or name another behind --disks"
FAILED = "{}/site-0.journal could not be opened, read or written: see that this may be done, and that there is room"

# Words to the program itself, and what is wanted: the status, a part of what is said, and the front of what is written.
TEXTS = [
    ("", 1, "requires a subcommand", ""),
    ("runs", 1, "'runs'", ""),
    ("play --fast", 1, "'--fast'", ""),
    ("play --trace --trace", 1, "'--trace'", ""),
    ("run --fast", 1, "'--fast'", ""),
    ("run --trace --trace", 1, "'--trace'", ""),
    ("play --disks", 1, "--disks <DIR>", ""),
    ("play --disks a --disks b", 1, "--disks <DIR>", ""),
    ("load --seed 7", 1, "--calls <M>", ""),
    ("load --seed 7 --calls 20001", 1, "'20001'", ""),
    ("load --seed -1 --calls 1", 1, "'-1'", ""),
    ("audit --trace", 1, "'--trace'", ""),
    ("audit --disks a --disks b", 1, "--disks <DIR>", ""),
    ("--version", 0, "", "walter "),
    ("--help", 0, "", "Plays or runs scenarios"),
    ("play --help", 0, "", "Plays the scenario"),
    ("run --help", 0, "", "Runs the scenario"),
    ("load --help", 0, "", "Makes a scenario"),
    ("audit --help", 0, "", "Says on standard output whether"),
]


def run(program, words, stdin, sink):
    """The status, and what was written on standard error and on standard output."""
    closing = ["sh", "-c", 'exec "$@" <&-', "sh"] if stdin is CLOSED else []
    with open(sink or os.devnull, "w", encoding="utf-8") as out:
        ended = subprocess.run(
            [*closing, *program, *words],
            input=stdin,
            stdout=out if sink else subprocess.PIPE,
            stderr=subprocess.PIPE,
            encoding="utf-8",
            timeout=LONGEST,
        )
    return ended.returncode, ended.stderr, ended.stdout or ""


def program_run(program, *case):
    """The same of the program, where all that begins as wrong words are told is told in the same way."""
    status, said, written = run(program, *case)
    return status, f"walter: {WORDS}\n" if said.startswith(WRONG_WORDS) else said, written


def model_run(words, stdin, sink):
    """The same of the model, in the words of the program: the word `play` isn't one of its own."""
    model = [sys.executable, os.path.join(TOP, "bench", "model.py")]
    own = words[1:] if words[:1] == ["play"] else words or ["no", "words"]
    status, said, written = run(model, own, stdin, sink)
    return status, f"walter: {WORDS}\n" if status == 1 else said.replace("model: ", "walter: ", 1), written


def differing(play, cases, at_once=1):
    """Plays all cases, with a line for each. Gives how many differ."""
    differ = 0
    with ThreadPoolExecutor(at_once) as pool:
        for case, came in zip(cases, pool.map(lambda case: play(*case[1:4]), cases)):
            name, _, _, _, status, line, report = case
            wanted = status, f"walter: {line}\n" if line else "", report
            print(f"{name}: {'the same' if came == wanted else f'wanted {wanted}, came {came}'}")
            differ += came != wanted
    return differ


def folder_with(top, name, content):
    """A folder, whose one file has these bytes, or with no file."""
    folder = os.path.join(top, name.replace(" ", "_"))
    os.mkdir(folder)
    if content is not None:
        with open(os.path.join(folder, "site-0.journal"), "wb") as file:
            file.write(content)
    return folder


def found_of_run():
    """What an audit finds of what the stored run leaves."""
    made = json.loads(RUN)
    files = (bytes(site.disk.reads) for site in model.played(made, Counter()).sites)
    return audit.audit(made, [journals.content_of(audit.read_as(made, data)) for data in files])[0]


def cases_over_files(top):
    """The cases of the stored run over file disks, in folders that are made here; and of nine sites over a file of the first format."""
    for name, (content, said) in BYTES.items():
        folder = folder_with(top, name, content)
        words = ["play", "--disks", folder]
        if content is None:
            yield ("an empty folder", words, RUN, None, 0, "", REPORT)
        yield (f"a file that has {name}", words, RUN, None, 7, UNFIT.format(folder, said), "")
        told = (0, "", "audit yes sites 1 lines 0\n") if said == USED else (7, UNFIT.format(folder, said), "")
        if content is None:
            yield (f"an audit of {name}", ["audit", "--disks", folder], RUN, None, 0, "", found_of_run())
        else:
            yield (f"an audit of {name}", ["audit", "--disks", folder], scenario(), None, *told)
    folder = folder_with(top, "a later epoch", b"WALTERJ1\1" + b"\0\0\0\5" + b"\1\0\0\0\2" + b"\0")
    yield ("an audit of a later epoch", ["audit", "--disks", folder], scenario(), None, 8, "", "audit no unreadable 0.0 0.0\n")
    folder, said = folder_with(top, "nine sites", b"WALTERJ1\0"), BYTES["no journal"][1]
    yield ("nine sites over the first format", ["play", "--disks", folder], scenario("9"), None, 7, UNFIT.format(folder, said), "")
    for name, folder, said in [("no folder", os.path.join(top, "none"), NO_FOLDER), ("a file for a folder", os.devnull, NO_FOLDER),
                               ("a folder for a file", os.path.join(top, "taken"), FAILED)]:
        if said is FAILED:
            os.makedirs(os.path.join(folder, "site-0.journal"))
        yield (name, ["play", f"--disks={folder}"], RUN, None, 6, said.format(folder), "")


def differing_texts(program):
    """Runs the program with all words, with a line for each. Gives how many differ."""
    differ = 0
    for words, *wanted, front in TEXTS:
        status, said, written = run(program, words.split(), "", None)
        same = status == wanted[0] and wanted[1] in said and bool(said) == (status != 0) and written.startswith(front)
        print(f"{words or 'no words'}: {'the same' if same else f'wanted {wanted, front}, came {status, said, written}'}")
        differ += not same
    return differ


def main():
    parser = argparse.ArgumentParser(description=__doc__, formatter_class=argparse.RawDescriptionHelpFormatter)
    parser.add_argument(
        "--program",
        help="without it `./walter`, which proves and builds the program where that isn't done yet",
    )
    parser.add_argument("--model", action="store_true", help="run the plain model of model.py")
    given = parser.parse_args()
    if given.model:
        sys.exit(differing(model_run, CASES, MODELS_AT_ONCE) > 0)
    program = [os.path.abspath(given.program or os.path.join(TOP, "walter"))]
    # A case may have to prove the program, so its cases come one after another.
    play = partial(program_run, program)
    differ = differing(play, CASES + CASES_OF_RUN + CASES_OF_AUDIT)
    with tempfile.TemporaryDirectory() as top:
        differ += differing(play, list(cases_over_files(top)))
    sys.exit(differ + (differing_texts(program) if given.program else 0) > 0)


if __name__ == "__main__":
    main()
