"""What the transactions of a history say of their order, by what they read: who read whose write, who missed it, who wrote over it.

Stands on the history alone: on the values that clients were told, and on the order of the transactions of one client. The order in
which two transactions wrote one object is told by no history, and isn't made up here.
"""

from collections import defaultdict, namedtuple

import scripts

# An edge says that one transaction comes before another: `session`, both are of one client; `read`, the other read what it wrote;
# `missed`, it read an object and not what the other wrote there; `wrote`, it wrote an object before the other did. `why` tells of
# a `wrote` what it is known by.
Edge = namedtuple("Edge", "kind one other key value why places", defaults=(None, None, None, ()))
# What is wrong with a transaction alone: the name of the anomaly, and its words.
Fault = namedtuple("Fault", "name words")
# The first that a transaction read of an object, beside its own writes: what it read, whose write it is, and where.
Read = namedtuple("Read", "reader key value writer place")
INITIAL = -1
# An id of a set that more transactions change tells too little for all that there would be to look at.
MOST_CHANGES = 256


class Facts:
    """The committed transactions of a history, by number, and what is known of them. One that wasn't told its end is committed where
    another read what it wrote."""

    def __init__(self, transactions):
        self.all, self.faults, self.unused = transactions, [], 0
        self.wrote = self.writes()
        read = self.values_read()
        self.committed = [one for one in transactions if one.end == "ok" or one.end == "info" and one in read]
        self.number = {one: at for at, one in enumerate(self.committed)}
        self.writers, self.places = defaultdict(list), {}
        self.find_writers()
        self.reads, self.edges = [], []
        self.deltas = self.sets()
        for one in self.committed:
            if one.end == "ok":
                self.read_through(one)
        self.find_sessions()

    # What was written

    def writes(self):
        """Of each value of an object the transactions that wrote it, each with whether it was their last there."""
        wrote = defaultdict(dict)
        for one in self.all:
            last = {op.key: op.value for op in one.operations if op.does == "write"}
            for op in one.operations:
                if op.does == "write":
                    wrote[op.key, op.value][one] = last[op.key] == op.value
        return wrote

    def values_read(self):
        """The transactions whose last write of an object was read by one that is committed, and can be told by its value."""
        found = set()
        for one in self.all:
            for op in one.operations if one.end == "ok" else ():
                wrote = self.wrote.get((op.key, op.value), {}) if op.does == "read" and op.value is not None else {}
                if len(wrote) == 1:
                    found.update(writer for writer, is_last in wrote.items() if is_last)
        return found

    def find_writers(self):
        for at, one in enumerate(self.committed):
            for op in one.operations:
                if op.does == "write":
                    self.places[at, op.key] = op.place
                    if at not in self.writers[op.key][-1:]:
                        self.writers[op.key].append(at)

    # What was read

    def read_through(self, one):
        """Goes through what a transaction did: it reads its own writes, and the same again of what others wrote."""
        mine, seen, counts = {}, {}, Counts()
        for op in one.operations:
            if op.does == "write":
                mine[op.key] = op.value
            elif op.does == "read" and op.key in mine:
                if mine[op.key] != op.value:
                    self.fault("own write missed", f"{one.name} wrote {shown(mine[op.key])} to {op.key} and read {shown(op.value)}", op)
            elif op.does == "read" and op.key in seen:
                if seen[op.key] != op.value:
                    self.fault("unrepeatable read", f"{one.name} read {op.key} as {shown(seen[op.key])} and then as "
                               f"{shown(op.value)}", op)
            elif op.does == "read":
                seen[op.key] = op.value
                self.read(one, op)
            else:
                self.count_through(one, op, counts)

    def fault(self, name, words, op):
        self.faults.append(Fault(name, f"{words} [{op.place}]"))

    def read(self, one, op):
        """Finds whose write a transaction read."""
        if op.value is None:
            self.reads.append(Read(self.number[one], op.key, None, INITIAL, op.place))
            return
        wrote = {writer: is_last for writer, is_last in self.wrote.get((op.key, op.value), {}).items() if writer is not one}
        said = f"{one.name} read {shown(op.value)} of {op.key}, which"
        writer, is_last = next(iter(wrote.items()), (None, None))
        if len(wrote) > 1:
            self.unused += 1
        elif writer is None:
            self.fault("a value of nobody", f"{said} nobody wrote", op)
        elif writer.end == "fail":
            self.fault("aborted read", f"{said} {writer.name} wrote, and that is aborted", op)
        elif not is_last:
            self.fault("intermediate read", f"{said} {writer.name} wrote over before it committed", op)
        elif writer not in self.number:
            self.unused += 1
        else:
            self.reads.append(Read(self.number[one], op.key, op.value, self.number[writer], op.place))

    # Sets: what is committed there adds up, and no order can be told of it

    def sets(self):
        """By how much each transaction changes each id of a set in all, for those that may be committed."""
        deltas = defaultdict(dict)
        for one in self.all:
            if one.end == "fail":
                continue
            for op in one.operations:
                if op.does in ("add", "del"):
                    by = deltas[op.key].setdefault(op.id, {})
                    by[one] = by.get(one, 0) + (1 if op.does == "add" else -1)
        return deltas

    def count_through(self, one, op, counts):
        if op.does in ("add", "del"):
            counts.mine[op.key, op.id] += 1 if op.does == "add" else -1
            return
        told = {op.id: op.value} if op.does == "count" else {**dict.fromkeys(self.deltas[op.key], 0), **op.value}
        for which, count in told.items():
            self.count(one, op, which, count - counts.mine[op.key, which], counts.seen)

    def count(self, one, op, which, count, seen):
        before = seen.setdefault((op.key, which), count)
        if before != count:
            self.fault("unrepeatable read", f"{one.name} counted {before} of the id {which} in {op.key} and then {count}", op)
        if before != count or (op.key, which, "told") in seen:
            return
        seen[op.key, which, "told"] = True
        others = {writer: delta for writer, delta in self.deltas[op.key].get(which, {}).items() if writer is not one and delta}
        least, most = (sum(delta for delta in others.values() if delta * sign > 0) for sign in (-1, 1))
        if not least <= count <= most:
            self.fault("a count of nobody", f"{one.name} counted {count} of the id {which} in {op.key}, and all that was done to it "
                       f"comes to {least} to {most}", op)
        elif count in (least, most) and len(others) <= MOST_CHANGES:
            self.tell_count(one, op, which, count, others, 1 if count == most else -1)

    def tell_count(self, one, op, which, count, others, sign):
        """All that goes one way was seen, and nothing that goes the other way. What may not be committed says nothing."""
        reader, what = self.number[one], f"{op.key} id {which}"
        for writer, delta in others.items():
            if writer not in self.number:
                continue
            other = self.number[writer]
            if delta * sign > 0:
                self.edges.append(Edge("read", other, reader, what, count, None, (op.place,)))
            else:
                self.edges.append(Edge("missed", reader, other, what, count, None, (op.place,)))

    # Clients

    def find_sessions(self):
        last = {}
        for at, one in enumerate(self.committed):
            if one.process in last:
                self.edges.append(Edge("session", last[one.process], at))
            last[one.process] = at

    def is_empty(self):
        """Whether no committed transaction reads or writes what another one writes."""
        touched = defaultdict(set)
        for at, one in enumerate(self.committed):
            for op in one.operations:
                touched[op.key].add((at, op.does in ("write", "add", "del")))
        return not any(writes and len({at for at, _ in both}) > 1 for both in touched.values()
                       for writes in [any(changes for _, changes in both)])


class Counts:
    """What a transaction has done to sets itself, and what it has counted of the others' before."""

    def __init__(self):
        self.mine, self.seen = defaultdict(int), {}


def shown(value):
    """A value in words, so that no two are alike."""
    if value is None:
        return "no value"
    if isinstance(value, bytes):
        return scripts.words_of_value(value)
    return f'"{value}"' if isinstance(value, str) else str(value)
