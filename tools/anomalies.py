"""The anomalies of a history by name, each with a smallest cycle of what its transactions read and wrote.

By Adya's graphs, and for parallel snapshot isolation by those of Cerone and Gotsman: a history fits a model where there is an order of
the writers of each object by which no cycle is there that the model forbids. `psi` forbids cycles with fewer than two edges `missed`;
`si` those in which no two of these follow each other; `serializable` all. `causal` forbids that a transaction misses what a
transaction wrote that it knows of; who writes last is nobody's business there.
"""

import heapq
from collections import defaultdict, deque, namedtuple

from dependencies import INITIAL, Edge, Facts, shown

MODELS = ("causal", "psi", "si", "serializable")
# What a transaction alone may get wrong; then what each model forbids beside what the one before it does.
ALONE = ("a value of nobody", "a count of nobody", "aborted read", "intermediate read", "own write missed", "unrepeatable read")
FORBIDS = {"causal": ("fractured read", "causality broken", "conflicting fork"), "psi": ("lost update",), "si": ("long fork",),
           "serializable": ("write skew",)}
# How many transactions are looked at by what each knows of each; how many steps are taken in all to find a smallest cycle; and how
# many choices of who wrote first are tried.
MOST_KNOWING, MOST_STEPS, MOST_TRIES = 6000, 2_000_000, 300

# Whether a history fits a model, or None where that isn't found out; and the anomalies, each by name with its edges.
Verdict = namedtuple("Verdict", "fits found")
Anomaly = namedtuple("Anomaly", "name edges words", defaults=((), None))


# ---- graphs


class Graph:
    """Transactions by number, and the edges from each: those that say `before`, and those that say `missed`."""

    def __init__(self, count, edges):
        self.count = count
        self.before, self.missed = ([[] for _ in range(count)] for _ in range(2))
        for edge in edges:
            if edge.one != edge.other:
                (self.missed if edge.kind == "missed" else self.before)[edge.one].append(edge)

    def edges(self, at):
        return self.before[at] + self.missed[at]

    def components(self, follow):
        """The component of each transaction, by the edges that are followed: those with one number lie in cycles together."""
        return components(self.count, lambda at: [edge.other for edge in follow(at)])

    def is_acyclic(self, follow):
        """Whether there is no cycle by the edges that are followed."""
        return is_acyclic(self.count, lambda at: [edge.other for edge in follow(at)])

    def has_order(self):
        """Whether the edges `before` have no cycle: some order has each transaction behind those before it."""
        return self.is_acyclic(self.before.__getitem__)


def components(count, following):
    """Tarjan's strongly connected components, without a call for each step."""
    found, order, low, on_stack, stack, names = {}, {}, {}, set(), [], 0
    for root in range(count):
        if root in order:
            continue
        work = [(root, iter(following(root)))]
        order[root] = low[root] = len(order)
        stack.append(root)
        on_stack.add(root)
        while work:
            at, rest = work[-1]
            for other in rest:
                if other not in order:
                    order[other] = low[other] = len(order)
                    stack.append(other)
                    on_stack.add(other)
                    work.append((other, iter(following(other))))
                    break
                if other in on_stack:
                    low[at] = min(low[at], order[other])
            else:
                work.pop()
                if work:
                    low[work[-1][0]] = min(low[work[-1][0]], low[at])
                if low[at] == order[at]:
                    names += 1
                    one = None
                    while one != at:
                        one = stack.pop()
                        on_stack.discard(one)
                        found[one] = names
    return [found[at] for at in range(count)]


def way_to(came, state):
    way = []
    while came[state] is not None:
        state, edge = came[state]
        way.append(edge)
    return way[::-1]


def least(ways):
    """The shortest of the cycles that are there, or None."""
    return min(filter(None, ways), key=len, default=None)


# ---- cycles of each kind, the shortest that is found


class Cycles:
    """Looks for cycles of a graph by how many `missed` they have, and how these follow each other."""

    def __init__(self, graph):
        self.graph = graph
        component = graph.components(graph.edges)
        self.before, self.missed = ([[edge for edge in edges if component[edge.one] == component[edge.other]] for edges in part]
                                    for part in (graph.before, graph.missed))
        self.steps = MOST_STEPS

    def shortest(self, start, goal, following, below=None):
        """The edges of a shortest way between two states, or None: of one that has fewer edges, where that is told. `following`
        gives the edges from a state, each with the state behind it."""
        came, waiting = {start: None}, deque([(start, 1)])
        while waiting and self.steps > 0:
            state, length = waiting.popleft()
            if below is not None and length >= below:
                return None
            for edge, after in following(state):
                self.steps -= 1
                if after in came:
                    continue
                came[after] = state, edge
                if after == goal:
                    return way_to(came, after)
                waiting.append((after, length + 1))
        return None

    def by_before(self, at):
        return [(edge, edge.other) for edge in self.before[at]]

    def by_all(self, at):
        return [(edge, edge.other) for edge in self.before[at] + self.missed[at]]

    def without_missed(self):
        """A cycle of edges `before` alone."""
        found, same = None, self.graph.components(lambda at: self.before[at])
        for edges in self.before:
            for edge in edges:
                if same[edge.one] == same[edge.other]:
                    way = self.shortest(edge.other, edge.one, self.by_before, found and len(found) - 1)
                    found = least([found, way and [edge, *way]])
        return found

    def with_one(self):
        """Cycles with one edge `missed`: of each name a shortest."""
        found = {}
        for edges in self.missed:
            for edge in edges:
                way = self.shortest(edge.other, edge.one, self.by_before)
                if way is not None:
                    name, cycle = name_of_one(edge, way), [edge, *way]
                    found[name] = least([found.get(name), cycle])
        return found

    def apart(self):
        """A cycle in which no edge `missed` follows another."""
        found = None
        for edges in self.missed:
            for edge in edges:
                way = self.shortest(2 * edge.other + 1, 2 * edge.one, lambda state: in_turn(self, state), found and len(found) - 1)
                found = least([found, way and [edge, *way]])
        return found

    def of_any(self):
        """A cycle with two edges `missed`, one behind the other."""
        found = None
        for edges in self.missed:
            for first in edges:
                for second in self.missed[first.other]:
                    if second.other == first.one:
                        return [first, second]
                    way = self.shortest(second.other, first.one, self.by_all, found and len(found) - 2)
                    found = least([found, way and [first, second, *way]])
        return found


def name_of_none(cycle):
    """The name of a cycle in which nothing is missed: each transaction comes before the next."""
    if any(edge.why == "update" for edge in cycle):
        return "lost update"
    return "conflicting fork" if all(edge.kind == "wrote" for edge in cycle) else "causality broken"


def name_of_one(edge, way):
    """The name of a cycle in which a transaction misses a write by `edge`, and knows of the writer by `way`."""
    if len(way) == 1 and way[0].kind == "read":
        return "fractured read"
    if len(way) == 1 and way[0].kind == "wrote" and way[0].key == edge.key:
        return "lost update"
    return "lost update" if any(one.kind == "wrote" for one in way) else "causality broken"


def anomalies(graph, model):
    """What a model forbids and a graph has, each by name with a smallest cycle."""
    cycles, found = Cycles(graph), {}
    whole = cycles.without_missed()
    if whole:
        found[name_of_none(whole)] = whole
    for name, cycle in cycles.with_one().items():
        found[name] = least([found.get(name), cycle])
    if not found and model in ("si", "serializable"):
        found = {"long fork": cycles.apart()}
    if not any(found.values()) and model == "serializable":
        found = {"write skew": cycles.of_any()}
    return [Anomaly(name, tuple(cycle)) for name, cycle in found.items() if cycle]


def fits(graph, model):
    """Whether a graph has no cycle that a model forbids. This is much faster than to look for the smallest one."""
    if graph.is_acyclic(graph.edges):
        return True
    if model == "serializable":
        return False
    if model == "si":
        return is_acyclic(2 * graph.count, lambda state: [after for _, after in in_turn(graph, state)])
    if not graph.has_order():
        return False
    known = knowing(graph)
    return not any(known[edge.one] >> edge.other & 1 for at in range(graph.count) for edge in graph.missed[at])


def is_acyclic(count, following):
    return len(set(components(count, following))) == count


def in_turn(part, state):
    """The edges from a state of a graph or of a part of it, each with the state behind it, where no edge `missed` may follow another.
    An even state is a transaction twice; an odd one is the transaction come to by such an edge."""
    at, was_missed = divmod(state, 2)
    found = [(edge, 2 * edge.other) for edge in part.before[at]]
    return found if was_missed else found + [(edge, 2 * edge.other + 1) for edge in part.missed[at]]


def in_line(graph, rank):
    """The transactions, each behind those before it by edges `before`, which have no cycle: of those that may come next always the
    one of the least rank."""
    waits = [0] * graph.count
    for edges in graph.before:
        for edge in edges:
            waits[edge.other] += 1
    ready = [(rank[at], at) for at in range(graph.count) if not waits[at]]
    heapq.heapify(ready)
    while ready:
        at = heapq.heappop(ready)[1]
        yield at
        for edge in graph.before[at]:
            waits[edge.other] -= 1
            if not waits[edge.other]:
                heapq.heappush(ready, (rank[edge.other], edge.other))


def knowing(graph):
    """Of each transaction those that come before it by edges `before`, as bits. These edges have no cycle."""
    known = [0] * graph.count
    for at in in_line(graph, range(graph.count)):
        for edge in graph.before[at]:
            known[edge.other] |= known[at] | 1 << at
    return known


# ---- who wrote first


class Writing:
    """Which writers of an object come before which, as far as that is known: each with why."""

    def __init__(self, facts, known=None):
        self.facts, self.why = facts, dict(known or {})

    def add(self, key, one, other, why):
        """Says whether it is new."""
        if one == other or (key, one, other) in self.why:
            return False
        self.why[key, one, other] = why
        return True

    def edges(self):
        facts, places = self.facts, self.facts.places
        later = defaultdict(list)
        for (key, one, other), why in self.why.items():
            later[key, one].append(other)
            # What one knows by other edges needs none of its own.
            if why != "known":
                yield Edge("wrote", one, other, key, None, why, (places[one, key], places[other, key]))
        for read in facts.reads:
            if read.writer != INITIAL:
                yield Edge("read", read.writer, read.reader, read.key, read.value, None, (places[read.writer, read.key], read.place))
            missed = facts.writers.get(read.key, ()) if read.writer == INITIAL else later[read.key, read.writer]
            for other in missed:
                if other != read.reader:
                    yield Edge("missed", read.reader, other, read.key, read.value, None, (read.place, places[other, read.key]))
        # Behind these, so that a cycle tells a read rather than that two transactions are of one client.
        yield from facts.edges

    def graph(self, *kinds):
        """The graph of the edges of these kinds, or of all."""
        return Graph(len(self.facts.committed), (edge for edge in self.edges() if not kinds or edge.kind in kinds))

    def take_own(self):
        """Who reads an object and writes it comes behind whom it read."""
        for read in self.facts.reads:
            if read.writer != INITIAL and (read.reader, read.key) in self.facts.places:
                self.add(read.key, read.writer, read.reader, "over")

    def take_known(self, known):
        """Of two writers of an object of which one knows the other, that other comes first."""
        news = False
        for key, writers in self.facts.writers.items():
            for other in writers:
                for one in writers:
                    if known[other] >> one & 1:
                        news |= self.add(key, one, other, "known")
        return news

    def take_read(self, known):
        """Who knows a writer of an object and reads another one's value shows that the other came later."""
        news = False
        for read in self.facts.reads:
            for one in self.facts.writers.get(read.key, ()) if read.writer != INITIAL else ():
                if known[read.reader] >> one & 1 and one != read.reader:
                    news |= self.add(read.key, one, read.writer, "seen")
        return news

    def take_updates(self):
        """Who reads an object and writes it leaves no place for a writer between."""
        news = False
        for read in self.facts.reads:
            if (read.reader, read.key) not in self.facts.places:
                continue
            for other in self.facts.writers.get(read.key, ()):
                if other in (read.reader, read.writer):
                    continue
                if read.writer == INITIAL or (read.key, read.writer, other) in self.why:
                    news |= self.add(read.key, read.reader, other, "update")
                elif (read.key, other, read.reader) in self.why:
                    news |= self.add(read.key, other, read.writer, "update")
        return news


def settled(writing):
    """The graph when nothing more is known of who wrote first, or when its edges `before` have a cycle; and whether they have none."""
    while True:
        graph = writing.graph()
        if not graph.has_order():
            return graph, False
        known = knowing(graph)
        if not (writing.take_known(known) | writing.take_read(known) | writing.take_updates()):
            return graph, True


def in_rank(facts, graph=None):
    """An order of all writers: by when they ended, and behind whom the graph has before them."""
    rank = [one.rank or (1 << 62, at) for at, one in enumerate(facts.committed)]
    return sorted(range(len(rank)), key=rank.__getitem__) if graph is None else list(in_line(graph, rank))


def in_order(facts, order):
    """The graph by an order of all writers. Of each object just those edges that the others follow from."""
    place = {at: n for n, at in enumerate(order)}
    after, edges = {}, []
    for key, writers in facts.writers.items():
        ordered = sorted(writers, key=place.get)
        after[key, INITIAL] = ordered[0]
        for one, other in zip(ordered, ordered[1:]):
            after[key, one] = other
            edges.append(Edge("wrote", one, other, key, None, "taken", (facts.places[one, key], facts.places[other, key])))
    for read in facts.reads:
        if read.writer != INITIAL:
            edges.append(Edge("read", read.writer, read.reader, read.key, read.value, None,
                              (facts.places[read.writer, read.key], read.place)))
        other = after.get((read.key, read.writer))
        if other == read.reader:
            other = after.get((read.key, other))
        if other is not None:
            edges.append(Edge("missed", read.reader, other, read.key, read.value, None, (read.place, facts.places[other, read.key])))
    return Graph(len(facts.committed), edges + facts.edges)


# ---- verdicts


def check(transactions, model):
    """Whether a history fits a model, and which anomalies it has."""
    return check_facts(Facts(transactions), model)


def check_facts(facts, model):
    if facts.faults:
        return Verdict(False, [Anomaly(fault.name, (), fault.words) for fault in first_of_each(facts.faults)])
    if model == "causal":
        return causal(facts)
    if fits(in_order(facts, in_rank(facts)), model):
        return Verdict(True, [])
    lost = lost_updates(facts)
    if lost:
        return Verdict(False, lost)
    return by_what_is_known(facts, model)


def first_of_each(faults):
    found = {}
    for fault in faults:
        found.setdefault(fault.name, fault)
    return found.values()


def lost_updates(facts):
    """Two transactions that read the same version of an object and both write it. Any order of the two loses one's update."""
    first = {}
    for read in facts.reads:
        if (read.reader, read.key) not in facts.places:
            continue
        other = first.setdefault((read.key, read.writer), read)
        if other is not read:
            places = facts.places
            return [Anomaly("lost update", tuple(
                Edge("missed", one.reader, two.reader, read.key, read.value, None, (one.place, places[two.reader, read.key]))
                for one, two in ((other, read), (read, other))))]
    return []


def by_what_is_known(facts, model):
    """By the orders of writers that are left, once all is taken that is known of them."""
    writing = Writing(facts)
    writing.take_own()
    first = writing.graph()
    if len(facts.committed) > MOST_KNOWING:
        return verdict_of(first, model)
    if first.has_order():
        writing.take_known(knowing(first))
        first = writing.graph()
    found = anomalies(first, model)
    if found:
        return Verdict(False, found)
    tries = [MOST_TRIES]
    found, is_whole = tried(writing, model, tries)
    if found is None:
        return Verdict(True, [])
    return Verdict(False if is_whole else None, found)


def verdict_of(graph, model):
    found = anomalies(graph, model)
    return Verdict(False if found else None, found)


def tried(writing, model, tries):
    """Tries the orders of writers: None where one fits, else the anomalies of the first that was tried, and whether all were."""
    facts = writing.facts
    tries[0] -= 1
    graph, has_order = settled(writing)
    found = anomalies(graph, model)
    if found or not has_order:
        return found, True
    taken = in_order(facts, in_rank(facts, graph))
    if fits(taken, model):
        return None, True
    found = anomalies(taken, model)
    pair = open_pair(writing)
    if pair is None or tries[0] <= 0:
        return found, pair is None
    is_whole, (key, one, other) = True, pair
    for before, after in (one, other), (other, one):
        choice = Writing(facts, writing.why)
        choice.add(key, before, after, "taken")
        come, whole = tried(choice, model, tries)
        if come is None:
            return None, True
        is_whole &= whole
    return found, is_whole


def open_pair(writing):
    """Two writers of an object of which neither is known to come first, or None."""
    for key, writers in writing.facts.writers.items():
        for at, one in enumerate(writers):
            for other in writers[at + 1 :]:
                if (key, one, other) not in writing.why and (key, other, one) not in writing.why:
                    return key, one, other
    return None


def causal(facts):
    """A transaction knows of those before it by sessions and reads. What it misses of their writes breaks causality."""
    writing = Writing(facts)
    knows = writing.graph("session", "read")
    whole = Cycles(knows).without_missed()
    if whole:
        return Verdict(False, [Anomaly("causality broken", tuple(whole))])
    known = knowing(knows)
    writing.take_known(known)
    found = Cycles(writing.graph("session", "read", "missed")).with_one()
    if found:
        return Verdict(False, [Anomaly(name, tuple(cycle)) for name, cycle in found.items()])
    writing.take_read(known)
    whole = Cycles(writing.graph("session", "read", "wrote")).without_missed()
    return Verdict(not whole, [Anomaly(name_of_none(whole), tuple(whole))] if whole else [])


# ---- words

WHY = {
    "over": "{other} wrote over what it had read of {one}",
    "seen": "who knew of both read the other",
    "update": "else an update between would be lost",
    "taken": "taken so: the other order fits no better",
}


def edge_words(facts, edge):
    """An edge in words, with the places that it comes from."""
    one, other = (facts.committed[at].name for at in (edge.one, edge.other))
    places = " [" + "; ".join(filter(None, edge.places)) + "]" if any(edge.places) else ""
    if edge.kind == "session":
        return f"{one} ended before {other} began: they are of one client"
    if edge.kind == "read":
        return f"{other} read {edge.key} as {shown(edge.value)}, with what {one} did to it{places}"
    if edge.kind == "missed":
        return f"{one} read {edge.key} as {shown(edge.value)}, without what {other} did to it{places}"
    return f"{one} wrote {edge.key} before {other} did: {WHY[edge.why].format(one=one, other=other)}{places}"


def lines(facts, anomaly):
    """An anomaly: its name, and a line for each edge of its cycle."""
    if not anomaly.edges:
        return [f"{anomaly.name}: {anomaly.words}"]
    return [f"{anomaly.name}, a cycle of {len({edge.one for edge in anomaly.edges})} transactions:",
            *(f"  {edge_words(facts, edge)}" for edge in anomaly.edges)]


def dot(facts, found):
    """The cycles as a graph in the language DOT: an arrow goes from who comes before to who comes behind."""
    told = ["digraph anomalies {", "  node [shape=box];"]
    for number, anomaly in enumerate(found):
        told.append(f"  subgraph cluster_{number} {{ label={text_of(anomaly.name)};")
        for at in sorted({edge.one for edge in anomaly.edges}):
            told.append(f"    t{number}_{at} [label={text_of(facts.committed[at].name)}];")
        for edge in anomaly.edges:
            label = edge.kind if edge.key is None else f"{edge.kind} {edge.key}"
            style = ", style=dashed" if edge.kind == "missed" else ""
            told.append(f"    t{number}_{edge.one} -> t{number}_{edge.other} [label={text_of(label)}{style}];")
        told.append("  }")
    return "\n".join([*told, "}"]) + "\n"


def text_of(words):
    return '"' + words.replace("\\", "\\\\").replace('"', '\\"') + '"'
