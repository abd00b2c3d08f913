"""tools/check on histories written by hand, on small ones that are looked through whole, and on random runs."""

import itertools
import os
import random
import subprocess
import unittest

from played import InFolder, RANDOM, TOP, random_run, run_tool
import anomalies
import dependencies
import edn
import observed

EXAMPLES = os.path.join(TOP, "examples")
LONG_FORK = os.path.join(EXAMPLES, "long_fork.script")
ALL = anomalies.MODELS
# Histories by hand: the anomaly, which models it fits, and the transactions, each as its process, its end and what it does. `r x 1`
# is a read, `w x 1` a write; `+ s 5`, `- s 5` and `c s 5 1` add an id to a set, take it away and count it; nil is no value.
HISTORIES = [
    (None, ALL, ["0 ok w x 1, w y 1", "1 ok r x 1, r y 1, w x 2", "2 ok r x 2, r y 1"]),
    # Adya's tables.
    ("aborted read", (), ["0 fail w x 1", "1 ok r x 1"]),
    ("intermediate read", (), ["0 ok w x 1, w x 2", "1 ok r x 1"]),
    ("causality broken", (), ["0 ok w x 1, r y 2", "1 ok w y 2, r x 1"]),
    ("conflicting fork", (), ["0 ok w x 1, w y 1", "1 ok w x 2, w y 2", "2 ok r x 1, r y 2"]),
    ("fractured read", (), ["0 ok w x 1, w y 1", "1 ok r x 1, r y nil"]),
    ("fractured read", (), ["0 ok w y 0", "1 ok r y 0, w x 1, w y 1", "2 ok r x 1, r y 0"]),
    ("lost update", ("causal",), ["0 ok w x 1", "1 ok r x 1, w x 2", "2 ok r x 1, w x 3"]),
    ("lost update", ("causal",), ["0 ok r x nil, w x 1", "1 ok r x nil, w x 2"]),
    ("write skew", ("causal", "psi", "si"), ["0 ok r x nil, r y nil, w x 1", "1 ok r x nil, r y nil, w y 1"]),
    ("write skew", ("causal", "psi", "si"), ["0 ok w x 1, w y 1", "1 ok r x 1, r y 1, w x 2", "2 ok r x 1, r y 1, w y 2"]),
    # A reader who sees a state that no order has, of two writers who are well apart (Fekete, O'Neil, O'Neil).
    ("write skew", ("causal", "psi", "si"),
     ["0 ok w x 0, w y 0", "1 ok r x 0, r y 0, w x 11", "2 ok r y 0, w y 20", "3 ok r x 0, r y 20"]),
    # The table of the paper on parallel snapshot isolation: short forks are write skews, and of conflicting forks one is above.
    ("unrepeatable read", (), ["0 ok w x 1", "1 ok r x nil, r x 1"]),
    ("long fork", ("causal", "psi"), ["0 ok w x 1", "1 ok w y 1", "2 ok r x 1, r y nil", "3 ok r x nil, r y 1"]),
    ("long fork", ("causal", "psi"), ["0 ok w x 1", "1 ok w y 1", "0 ok r x 1, r y nil", "1 ok r x nil, r y 1"]),
    ("conflicting fork", (), ["0 ok w x 1", "1 ok w x 2", "2 ok r x 1", "2 ok r x 2", "3 ok r x 2", "3 ok r x 1"]),
    ("causality broken", (), ["0 ok w x 1", "1 ok r x 1, w y 1", "2 ok r y 1, r x nil"]),
    ("causality broken", (), ["0 ok w x 1", "0 ok r x nil"]),
    ("causality broken", (), ["0 ok w x 1", "1 ok r x 1", "1 ok r x nil"]),
    # What a transaction alone may get wrong.
    ("a value of nobody", (), ["0 ok r x 7"]),
    ("own write missed", (), ["0 ok w x 1, r x nil"]),
    (None, ALL, ["0 ok w x 1, r x 1, w x 2, r x 2"]),
    # A transaction whose end isn't told is committed where another read it.
    (None, ALL, ["0 info w x 1, w y 1", "1 ok r x nil"]),
    ("fractured read", (), ["0 info w x 1, w y 1", "1 ok r x 1, r y nil"]),
    ("intermediate read", (), ["0 info w x 1, w x 2", "1 ok r x 1"]),
    # A blind write between a read and the write over it.
    ("lost update", ("causal",), ["0 ok w x 1", "1 ok r x 1, w x 2", "1 ok w y 1", "2 ok r x 1, w x 3, w z 1", "3 ok r z 1, r y 1"]),
    # Sets count, and nobody conflicts over them.
    (None, ALL, ["0 ok + s 5", "1 ok + s 5", "2 ok c s 5 2, + s 5, c s 5 3", "3 ok c s 5 1"]),
    ("a count of nobody", (), ["0 ok + s 5", "1 ok c s 5 2"]),
    ("a count of nobody", (), ["0 ok + s 5, - s 5", "1 ok c s 5 -1"]),
    ("unrepeatable read", (), ["0 ok + s 5", "1 ok c s 5 0, c s 5 1"]),
    ("fractured read", (), ["0 ok + s 5, + t 5", "1 ok c s 5 1, c t 5 0"]),
    ("long fork", ("causal", "psi"), ["0 ok + s 5", "1 ok + t 5", "2 ok c s 5 1, c t 5 0", "3 ok c s 5 0, c t 5 1"]),
    ("write skew", ("causal", "psi", "si"), ["0 ok c s 5 0, - t 5", "1 ok c t 5 0, - s 5"]),
    ("causality broken", (), ["0 ok + s 5", "1 ok c s 5 1, w x 1", "2 ok r x 1, c s 5 0"]),
]
WORDS = {"r": "r", "w": "w", "+": "add", "-": "del", "c": "count"}


def transaction(text):
    """A transaction of a table: its process, its end, and what it does."""
    process, end, does = text.split(" ", 2)
    return int(process), end, [part.split(" ") for part in does.split(", ")]


def operation(word, key, *rest):
    return [edn.Keyword(WORDS[word]), key, *(None if one == "nil" else int(one) for one in rest)]


def text_of(history):
    """A history in EDN, with each end behind its invoke. A process goes on as another one behind an info, as Elle wants it."""
    lines, gone = [], {}
    for at, text in enumerate(history):
        process, end, does = transaction(text)
        process += gone.get(process, 0)
        value = [operation(*one) for one in does]
        for kind in "invoke", end:
            lines.append(edn.edn({edn.Keyword("type"): edn.Keyword(kind), edn.Keyword("f"): edn.Keyword("txn"), edn.Keyword("value"): value,
                                  edn.Keyword("process"): process, edn.Keyword("index"): len(lines)}))
        if end == "info":
            gone[process] = gone.get(process, 0) + 100
    return "\n".join(lines) + "\n"


def verdict(history, model):
    return anomalies.check(observed.of_edn(text_of(history)), model)


# ---- all orders of the writers, one after the other


def orders(facts):
    keys = list(facts.writers)
    for chosen in itertools.product(*(itertools.permutations(facts.writers[key]) for key in keys)):
        yield dict(zip(keys, chosen))


def relations(facts, order):
    """The pairs of what comes before what, and of who missed whom, by an order of the writers of each object."""
    before = {(edge.one, edge.other) for edge in facts.edges if edge.kind != "missed"}
    missed = {(edge.one, edge.other) for edge in facts.edges if edge.kind == "missed"}
    for writers in order.values():
        before |= {(one, other) for at, one in enumerate(writers) for other in writers[at + 1 :]}
    for read in facts.reads:
        writers = order.get(read.key, ())
        if read.writer >= 0:
            before.add((read.writer, read.reader))
            writers = writers[writers.index(read.writer) + 1 :]
        missed |= {(read.reader, other) for other in writers}
    return {(a, b) for a, b in before if a != b}, {(a, b) for a, b in missed if a != b}


def joined(one, other):
    return {(a, d) for a, b in one for c, d in other if b == c}


def closure(pairs):
    while True:
        more = pairs | joined(pairs, pairs)
        if more == pairs:
            return pairs
        pairs = more


def is_loopless(pairs):
    return all(a != b for a, b in pairs)


def fits(before, missed, model):
    """The models by their definitions."""
    if model == "psi":
        known = closure(before)
        return is_loopless(known) and is_loopless(joined(known, missed))
    if model == "si":
        return is_loopless(closure(before | joined(before, missed)))
    return is_loopless(closure(before | missed))


def small_history(rng):
    """A history of up to five transactions over two objects, whose reads are of anything that is written."""
    count, values, made = rng.randrange(2, 6), {"x": ["nil"], "y": ["nil"]}, []
    for at in range(count):
        made.append([("w", key, str(at + 1)) for key in "xy" if rng.randrange(2)])
        for _, key, value in made[-1]:
            values[key].append(value)
    texts = []
    for at, writes in enumerate(made):
        reads = [("r", key, rng.choice([one for one in values[key] if one != str(at + 1)])) for key in "xy" if rng.randrange(2)]
        does = reads + writes
        if does:
            texts.append(f"{rng.randrange(4)} ok " + ", ".join(" ".join(one) for one in does))
    return texts


class Check(InFolder):
    def test_histories_by_hand(self):
        for name, models, history in HISTORIES:
            for model in ALL:
                with self.subTest(history=history, model=model):
                    came = verdict(history, model)
                    self.assertEqual(came.fits, model in models)
                    if came.found:
                        self.assertIn(name, [one.name for one in came.found])
                    self.assertEqual(bool(came.found), not came.fits)

    def test_a_cycle_goes_round(self):
        for _, models, history in HISTORIES:
            for model in ALL:
                for one in verdict(history, model).found:
                    if one.edges:
                        self.assertEqual([edge.other for edge in one.edges], [edge.one for edge in one.edges[1:] + one.edges[:1]])

    def test_small_histories_as_all_orders_have_it(self):
        rng, counts = random.Random(1), {}
        for _ in range(200):
            history = small_history(rng)
            facts = dependencies.Facts(observed.of_edn(text_of(history)))
            if facts.faults:
                continue
            ways = [relations(facts, order) for order in orders(facts)]
            for model in ("psi", "si", "serializable"):
                wanted = any(fits(*way, model) for way in ways)
                came = anomalies.check_facts(facts, model)
                self.assertEqual((came.fits, bool(came.found)), (wanted, not wanted), (history, model))
                counts[model, wanted] = counts.get((model, wanted), 0) + 1
        self.assertGreater(min(counts.values()), 10)

    def test_what_fits_a_model_fits_those_before_it(self):
        rng = random.Random(2)
        for _ in range(200):
            history = small_history(rng)
            fitting = [verdict(history, model).fits for model in ALL]
            self.assertEqual(fitting, sorted(fitting, reverse=True), history)

    def test_random_runs_are_of_parallel_snapshot_isolation(self):
        for seed in RANDOM:
            transactions = observed.of_run(random_run(seed)[1])
            for model in "causal", "psi":
                self.assertTrue(anomalies.check(transactions, model).fits, (seed, model))

    def test_a_run_in_words(self):
        self.assertEqual(run_tool("check", LONG_FORK), (0, "psi: fits (4 committed transactions)\n", ""))
        status, told, wrong = run_tool("check", LONG_FORK, "--model", "si")
        self.assertEqual((status, wrong), (1, ""))
        self.assertEqual(told.splitlines(), [
            "si: doesn't fit (4 committed transactions)",
            "long fork, a cycle of 4 transactions:",
            "  ann's 0.1.2 read 20:1 as no value, without what bob's 1.1.1 did to it "
            "[line 17, stamp 7 at site 0; line 11, stamp 3 at site 1]",
            '  bob\'s 1.1.2 read 20:1 as "y", with what bob\'s 1.1.1 did to it [line 11, stamp 3 at site 1; line 20, stamp 7 at site 1]',
            "  bob's 1.1.2 read 10:1 as no value, without what ann's 0.1.1 did to it "
            "[line 19, stamp 6 at site 1; line 9, stamp 3 at site 0]",
            '  ann\'s 0.1.2 read 10:1 as "x", with what ann\'s 0.1.1 did to it [line 9, stamp 3 at site 0; line 16, stamp 6 at site 0]',
        ])

    def test_the_history_of_a_run_tells_the_same(self):
        history = self.write("long_fork.edn", run_tool("explain", LONG_FORK, self.report(LONG_FORK), "--history")[1])
        self.assertEqual(run_tool("check", history)[0], 0)
        status, told, _ = run_tool("check", history, "--model", "si")
        self.assertEqual((status, told.splitlines()[1]), (1, "long fork, a cycle of 4 transactions:"))
        self.assertIn("the transaction 4 of process 0 read 20:1 as no value", told)

    def test_a_history_may_come_by_standard_input(self):
        text = "; a comment\n" + text_of(["0 ok r x nil, w x 1", "1 ok r x nil, w x 2"])
        ended = subprocess.run([os.path.join(TOP, "tools", "check"), "-"], input=text, capture_output=True, text=True)
        self.assertEqual((ended.returncode, ended.stderr, ended.stdout.splitlines()[1]), (1, "", "lost update, a cycle of 2 transactions:"))
        ended = subprocess.run([os.path.join(TOP, "tools", "check"), "-"], input=text.replace(":w", ":cas"), capture_output=True, text=True)
        self.assertEqual((ended.returncode, ended.stderr[:52]), (2, "check: standard input, line 2: wants an operation as"))

    def report(self, script):
        return self.write("report", run_tool("play", script, "--report")[1])

    def test_a_report_without_a_trace_is_enough(self):
        report = self.report(LONG_FORK)
        self.assertEqual(run_tool("check", LONG_FORK, report), (0, "psi: fits (4 committed transactions)\n", ""))
        self.assertEqual(run_tool("check", LONG_FORK, report, "--model", "si")[0], 1)
        self.assertEqual(run_tool("check", LONG_FORK, "--run")[0], 1)

    def test_the_cycle_as_a_graph(self):
        status, told, _ = run_tool("check", LONG_FORK, "--model", "si", "--dot")
        self.assertEqual((status, told.splitlines()[0], told.splitlines()[-1]), (1, "digraph anomalies {", "}"))
        self.assertEqual((told.count(" -> "), told.count("style=dashed")), (4, 2))
        self.assertEqual(run_tool("check", LONG_FORK, "--dot"), (0, "digraph anomalies {\n  node [shape=box];\n}\n", ""))

    def test_where_there_is_nothing_to_check_it_says_so(self):
        path = self.write("alone.edn", text_of(["0 ok w x 1, r x 1", "1 ok r y nil"]))
        status, told, _ = run_tool("check", path, "--model", "serializable")
        self.assertEqual((status, told.splitlines()), (0, [
            "serializable: fits (2 committed transactions)",
            "there is nothing to check: no committed transaction writes what another one reads or writes"]))

    def test_reads_that_are_of_two_writers_are_counted(self):
        path = self.write("twice.edn", text_of(["0 ok w x 1", "1 ok w x 1", "2 ok r x 1"]))
        self.assertIn("1 read weren't used: more than one transaction", run_tool("check", path)[1])

    def test_what_is_no_history_is_refused_with_its_line(self):
        right = text_of(["0 ok w x 1"])
        for text, wants in [
            (right.replace(":w ", ":cas "), "line 1: wants an operation as"),
            (right + right.splitlines()[1], "line 3: wants an invoke of process 0 before"),
            (right.splitlines()[0] + "\n" + right, "line 2: wants an end of process 0's transaction before"),
            (right.replace(":ok", ":done"), "line 2: wants :type :invoke, :ok, :fail or :info"),
            (right[:-4], "line 2: wants a value"),
            (right + "[1]", "line 3: wants a map"),
        ]:
            path = self.write("wrong.edn", text)
            status, told, wrong = run_tool("check", path)
            self.assertEqual((status, told, wrong.startswith(f"check: {path}, {wants}")), (2, "", True), wrong)

    def test_edn_is_read_as_others_write_it(self):
        text = ('; a comment\n[{:type :invoke, :f :txn :value [[:r 3 nil] [:w :key 2]] :process 0 :time 12.5},\n'
                '{:type :info :process :nemesis :value #{1 2}}\n{:type :ok, :f :txn :value ([:r 3 nil] [:w :key 2]) :process 0}]')
        found = observed.of_edn(text)
        self.assertEqual([(one.end, len(one.operations)) for one in found], [("ok", 2)])
        self.assertEqual(found[0].operations[1].key, "key")
        self.assertEqual([value for _, value in edn.values(r'"a\u0041\n" -7 [true nil] #{[1]} {}')],
                         ["aA\n", -7, [True, None], frozenset({(1,)}), {}])


if __name__ == "__main__":
    unittest.main()
