"""The plain model as a program: it refuses what the program refuses, in the same words, and plays what it is given."""

import contextlib
import io
import json
import os
import random
import subprocess
import sys
import unittest

from played import TOP, RANDOM, by_model, examples, file_text, random_scenario, without_trace
import readings
import rows
import statuses

MODEL = [sys.executable, os.path.join(TOP, "bench", "model.py")]
RIGHT = {"sites": 2, "f": 0, "containers": [[1, "regular", 0]], "clients": [[0, "00"], [1, ""]], "steps": []}
LINK = {"seed": 1, "lose": 0, "repeat": 0, "swap": 0}
NO_JSON, JSON = "the text is no JSON: ", readings.TEXTS["json"]

# What the program says of these bytes, as it was told by it.
TEXTS = [
    (b"", 1, 0), (b" ", 1, 1), (b"[", 1, 1), (b"{", 1, 1), (b'"', 1, 1), (b"nul", 1, 1), (b"tru e", 1, 1), (b"-", 1, 1),
    (b"01", 1, 1), (b"1.", 1, 1), (b"1e", 1, 1), (b"[1e999]", 1, 7), (b"[1e999 , 2]", 1, 10), (b"1e999", 1, 5),
    (b'"\\ud800"', 1, 1), (b'["\\udc00"]', 1, 2), (b'"a\nb"', 1, 1), (b'"\\x"', 1, 1), (b"[1,]", 1, 4), (b"[1,\n]", 2, 1),
    (b"[,1]", 1, 2), (b"[1 2]", 1, 4), (b"[1:2]", 1, 3), (b'{"a"}', 1, 5), (b'{"a" 1}', 1, 6), (b'{"a":}', 1, 6),
    (b'{"a":,}', 1, 6), (b'{"a":1,}', 1, 8), (b'{"a":1,,}', 1, 8), (b"{1:2}", 1, 3), (b'{"a":1]', 1, 7), (b"[1}", 1, 3),
    (b"{}{}", 1, 3), (b"{} x", 1, 4), (b"{},", 1, 3), (b"{}]", 1, 3), (b"\\", 1, 1), (b"[\\]", 1, 2), (b'a"b c"', 1, 1),
    (b'["a"b]', 1, 5), (b'["a" "b"]', 1, 6), (b'{"a":"b":1}', 1, 10), (b'["a":1]', 1, 6), (b"\xef\xbb\xbf{}", 1, 1),
    (b'\n\n  {"sites":1,\n "f": tru}', 4, 7), (b"[" * 128 + b"]" * 128, 1, 129), (b'{"a":' * 128 + b"1" + b"}" * 128, 1, 637),
]
OTHERS = [
    (b"null", JSON), (b"1e5", JSON), (b"[]", JSON), (b"\xff", JSON), (b'{"sites":"\xff"}', JSON),
    (b"[" * 127 + b"]" * 127, JSON), (b'["\\ud800\\udc00"]', JSON), (b'{"sites":1}', readings.TEXTS["keys"]),
    (b'{"a":1}', 'key "a": a scenario has none'),
    (b'{"zz":1,"ab\\u0000\\n\\"\\u0007":2,"sites":1}', 'key "ab\\0\\n\\"\\u{7}": a scenario has none'),
]
# What stands in a right scenario, and the place that is wrong then; or none.
PLACES = [
    ("sites", 0, "sites"), ("sites", 17, "sites"), ("sites", 16, None), ("sites", 1.0, "sites"), ("sites", True, "sites"), ("sites", "2", "sites"),
    ("f", 2, "f"), ("f", -1, "f"), ("f", None, "f"), ("f", -0.0, "f"),
    ("containers", 1, "containers", 0), ("containers", [[2, "regular", 0], [1, "cset", 0]], "containers", 1),
    ("containers", [[1, "regular", 2]], "containers", 0), ("containers", [[1, "Regular", 1]], "containers", 0),
    ("containers", [[4294967296, "cset", 0]], "containers", 0), ("containers", [[k, "cset", 0] for k in range(256)], None),
    ("containers", [[k, "cset", 0] for k in range(257)], "containers", 256),
    ("containers", [[1, "cset", 0], [1, "cset", 0], 3], "containers", 1),
    ("clients", {}, "clients", 0), ("clients", [[0, "0g"]], "clients", 0), ("clients", [[0, "AbcD"], [2, ""]], "clients", 1),
    ("clients", [[0, ""]] * 1024 + [[1, ""]], None), ("clients", [[1, ""]] * 3 + [[0, ""]] * 1025, "clients", 1027),
    ("clients", [[0, "0 0"]], "clients", 0), ("capacity", 18, "capacity"), ("capacity", 19, None),
    ("capacity", 1099511627776, None), ("capacity", 1099511627777, "capacity"), ("capacity", None, "capacity"),
    ("areas", 1, None), ("areas", 2, None), ("areas", 0, "areas"), ("areas", 3, "areas"), ("areas", None, "areas"),
    ("room", 0, None), ("room", 100000, None), ("room", 100001, "room"), ("room", -1, "room"), ("room", 1.0, "room"),
    ("room", None, "room"),
    ("format", 1, None), ("format", 2, None), ("format", 0, "format"), ("format", 3, "format"), ("format", 1.0, "format"),
    ("format", None, "format"), ("format", "2", "format"),
    ("link", LINK, None), ("link", {**LINK, "seed": 2**64 - 1, "lose": 1000}, None), ("link", [], "link"),
    ("link", {**LINK, "seed": 2**64}, "link"), ("link", {**LINK, "swap": 1001}, "link"), ("link", {**LINK, "repeat": -1}, "link"),
    ("link", {**LINK, "ticks": 1}, "link"), ("link", {"seed": 1, "lose": 1, "repeat": 1}, "link"), ("link", None, "link"),
    ("ticks", 0, None), ("ticks", 10000, None), ("ticks", 10001, "ticks"), ("ticks", None, "ticks"),
    ("threads", 1, None), ("threads", 32, None), ("threads", 0, "threads"), ("threads", 33, "threads"),
    ("threads", 8.0, "threads"), ("threads", None, "threads"),
    ("arms", 5, "arms", 0), ("arms", [], None), ("arms", [[0, 0, 0]], "arms", 0), ("arms", [[0, 1000001, 0]], "arms", 0),
    ("arms", [[0, 1000000, 2**64 - 1]], None), ("arms", [[0, 1, 1], [0, 1, 2**64]], "arms", 1),
    ("steps", [["deliver", 0, 1, 4294967295], ["arm", 1, 1000000, 2**64 - 1]], None),
]

NO_WORD = readings.STEP_TEXTS["word"]
CLIENT = "its client: wants a whole number below 2, the number of clients"
SITE, FROM = (f"its {part}: wants a whole number below 2, the number of sites" for part in ("site", "from"))
NUMBER, NTH = (f"its {part}: wants a whole number from 1 to {most}" for part, most in (("number", 4294967295), ("nth", 1000000)))
CHOICE, SAME = "its choice: wants a whole number below 2^64", "its from: wants another one than its site"
# A wrong step, and what is said of it.
STEPS = [
    (1, "its value: wants a list"), ({"tick": 0}, "its value: wants a list"), ("tick", "its value: wants a list"),
    ([], NO_WORD), ([0, 0], NO_WORD), (["push", 0], NO_WORD), (["Tick", 0], NO_WORD), ([["tick"], 0], NO_WORD),
    (["call"], 'its length: wants just ["call", client]'), (["call", 0, 0], 'its length: wants just ["call", client]'),
    (["deliver", 0, 1], 'its length: wants just ["deliver", site, from, number]'),
    (["advance", 9, 9, 9], 'its length: wants just ["advance", site, from]'),
    (["tick", 0, 1], 'its length: wants just ["tick", site]'), (["stop"], 'its length: wants just ["stop", site]'),
    (["restart", 0, 0, 0, 0], 'its length: wants just ["restart", site]'),
    (["pump"], 'its length: wants just ["pump", site]'), (["pump", 2], SITE),
    (["arm", 0, 1], 'its length: wants just ["arm", site, nth, choice]'),
    (["call", 2], CLIENT), (["call", "0"], CLIENT), (["call", 4294967296], CLIENT), (["tick", 2], SITE), (["stop", True], SITE),
    (["restart", -1], SITE), (["advance", 2, 2], SITE), (["deliver", 256, 1, 0], SITE), (["arm", 1.0, 0, -1], SITE),
    (["advance", 0, 2], FROM), (["deliver", 0, None, 0], FROM), (["advance", 1, 1], SAME), (["deliver", 0, 0, 0], SAME),
    (["deliver", 0, 1, 0], NUMBER), (["deliver", 0, 1, 4294967296], NUMBER), (["arm", 0, 0, -1], NTH),
    (["arm", 0, 1000001, 0], NTH), (["arm", 0, 1, 2**64], CHOICE), (["arm", 0, 1, 0.5], CHOICE),
]


def has_pumps(made):
    return any(step[0] == "pump" for step in made["steps"])


def refusal(data):
    try:
        return readings.read(data) and None
    except readings.Refused as refused:
        return str(refused)


class Model(unittest.TestCase):
    def test_what_is_no_json_is_refused_at_its_line_and_column(self):
        for data, line, column in TEXTS:
            self.assertEqual(refusal(data), f"{NO_JSON}line {line}, column {column}", data)
        for data, said in OTHERS:
            self.assertEqual(refusal(data), said, data)

    def test_a_scenario_is_refused_at_its_first_wrong_place(self):
        for key, value, place, *index in PLACES:
            wanted = place and readings.TEXTS[place].format(*index)
            self.assertEqual(refusal(json.dumps({**RIGHT, key: value}).encode()), wanted, (key, value))
        self.assertEqual(refusal(b" " * 16_777_217), readings.TEXTS["long"])
        self.assertEqual(refusal(json.dumps({**RIGHT, "sites": 17, "f": 17, "steps": 1}).encode()), readings.TEXTS["sites"])

    def test_of_a_wrong_step_the_first_wrong_part_is_told(self):
        for step, said in STEPS:
            for before in [], [["tick", 0]] * 3:
                made = {**RIGHT, "steps": [*before, step, 0]}
                self.assertEqual(refusal(json.dumps(made).encode()), f"step {len(before)}, {said}", step)
        self.assertEqual(refusal(json.dumps({**RIGHT, "steps": 0}).encode()), "step 0, the value of steps: wants a list")
        made = {**RIGHT, "clients": [], "steps": [["call", 0]]}
        self.assertEqual(refusal(json.dumps(made).encode()),
                         "step 0, its client: wants a whole number below 0, the number of clients")
        self.assertEqual({said.split(": ")[0] for _, said in STEPS} | {"the value of steps"},
                         {said.split(": ")[0] for said in readings.STEP_TEXTS.values()})

    def test_numbers_and_keys_are_as_the_program_reads_them(self):
        text = '{"sites":1,"sites":2,"f":%s,"containers":[],"clients":[],"steps":[]}'
        self.assertIsNone(refusal((text % 1).encode()))
        for f in "-0", "1.0", "1e0", "18446744073709551616":
            self.assertEqual(refusal((text % f).encode()), readings.TEXTS["f"])
        self.assertIsNone(refusal(b'{"s\\u0069tes":1,"f":0,"containers":[],"clients":[],"steps":[]}'))

    def test_both_readers_read_the_same(self):
        made = [file_text(path).encode() for path in examples("json") if "thousand" not in path]
        some = [one for one in map(random_scenario, RANDOM[:50]) if not one.keys() & {"link", "ticks"} and not has_pumps(one)]
        for data in made + [json.dumps(one).encode() for one in some]:
            plain = readings.plain_reading(data)
            self.assertTrue(plain is not None and plain == readings.json_of(data))
            self.assertIsNone(refusal(data))

    def test_no_bytes_are_a_traceback(self):
        rng, whole = random.Random(1), json.dumps({**RIGHT, "arms": [[0, 1, 1]], "steps": [["tick", 0]]}).encode()
        for _ in range(3000):
            data = bytearray(whole)
            for _ in range(rng.randint(1, 3)):
                data[rng.randrange(len(data))] = rng.choice(b'[]{},:"\\0123456789-.eE ntf\xff\n')
            refusal(bytes(data))

    def test_it_ends_as_the_program_does(self):
        """The cases of bench/statuses.py."""
        with contextlib.redirect_stdout(io.StringIO()) as said:
            self.assertEqual(statuses.differing(statuses.model_run, statuses.CASES, statuses.MODELS_AT_ONCE), 0, said.getvalue())

    def test_a_file_standard_input_and_a_script_are_played(self):
        path = os.path.join(TOP, "examples", "slow_commit.json")
        text, script = by_model(file_text(path)).text(), path.replace(".json", ".script")
        for words, source, wanted in [
            ([path], None, without_trace(text)),
            ([path, "--trace"], None, text),
            ([], file_text(path), without_trace(text)),
            (["--trace", script], None, text),
            (["--trace", "-"], file_text(script), text),
        ]:
            ended = subprocess.run(MODEL + words, input=source, capture_output=True, text=True)
            self.assertEqual((ended.returncode, ended.stdout, ended.stderr), (0, wanted, ""))
        helped = subprocess.run(MODEL + ["--help"], capture_output=True, text=True)
        self.assertEqual((helped.returncode, helped.stdout[:16]), (0, "usage: model.py "))
        for words, source, status, said in [
            (["none.json"], "", 3, "model: none.json: No such file or directory\n"),
            ([], "sites 1 tolerated 1\nfly", 2, 'model: standard input, line 1: "1": wants fewer sites'),
            ([], "hello", 2, "model: the scenario has no reading: the text is no JSON: line 1, column 1\n"),
        ]:
            ended = subprocess.run(MODEL + words, input=source, capture_output=True, text=True)
            self.assertEqual((ended.returncode, ended.stdout, ended.stderr[: len(said)]), (status, "", said))

    def test_the_worked_runs(self):
        for name, play in rows.ROWS.items():
            self.assertEqual(play().wrong, [], name)


if __name__ == "__main__":
    unittest.main()
