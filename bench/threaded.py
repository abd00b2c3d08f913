"""Checks the report of a threaded run, with its trace: whether the plain model makes the same of each event, and whether each
trail is worked.

    python3 bench/threaded.py SCENARIO.json REPORT

A threaded run goes by no steps: which event is next at a site stands in its trail alone. So the model plays the events of the
trace, in its order, and each line is to be what it makes of them. A trail is worked where its entries are, behind the first,

- the next call of a client that is at home there,
- a restart, where the site is down,
- and where it is up a delivery, no packet oftener than the link copies it; an advance of the least site whose next commit may
  be committed there; or a tick where there is no such site, in all no more than the scenario has.

At its end, but where it is spent, all calls of its clients are made, there are just as many ticks, the site is up, no advance
may be made, and each packet that was put out to it has come just as often as the link copies it; --unfinished leaves that out.

A full lane drops packets, and how full it was no trail tells. So a drop is taken as it is told, once so many packets were put
out on a lane as it has places; where an entry drops some of one kind and to one receiver, these are taken to be its last ones.
The model knows no want of memory: an entry that met it differs.
"""

import itertools
import re
from collections import Counter

import command
import link
import model
from command import ends
from spelled import PACKETS

MOST_ENTRIES, MOST_STAMP = 100_000, 1 << 62
ENTRY = re.compile(r"e [0-9]+ ([0-9]+) (\S+) \S+ \S+ \S+ \S+ (\S+) [0-9]+")
CALL, DELIVER, ADVANCE = map(re.compile, ("call:([0-9]+):[a-z]+", "deliver:([0-9]+):([0-9]+):[a-z]+", "advance:([0-9]+)"))
ALONE = ("tick", "restart")


class Wrong(Exception):
    """The report isn't that of a threaded run of its scenario."""

    def __init__(self, place, text):
        super().__init__(f"line {place}: {text}")


class Site(model.Site):
    """A site of the model whose packets find a place on their lanes where its trail says so."""

    # What is put out next, by receiver and name, as the trace has it; and to whom packets are dropped.
    told, lost = Counter(), set()

    def tell(self, sends):
        self.told, self.lost = Counter(sends.split(",")), set()

    def finds_place(self, to, packet):
        send = f"{to}:{PACKETS[packet[0] - 1]}"
        if self.told[send] == 0:
            self.lost.add(to)
            return False
        self.told[send] -= 1
        return True


def step_of(site, event):
    """The step of the model that brings an event at a site, or None where no threaded run has such an event."""
    if event in ALONE:
        return event, site
    for form, word in (DELIVER, "deliver"), (ADVANCE, "advance"):
        found = form.fullmatch(event)
        if found:
            return word, site, *map(int, found.groups())
    call = CALL.fullmatch(event)
    return ("call", int(call[1])) if call else None


class Check:
    """A threaded run while its trace is read, line by line. `met` counts what the model and the link came to."""

    def __init__(self, scenario, lines, met, make=Site):
        self.run, self.lines = model.Run(scenario, met, make), lines
        self.ticks = scenario.get("ticks", link.TICKS)
        # How many calls the bytes of each client are.
        self.calls = [len(list(model.calls_of(bytes.fromhex(sent), Counter()))) for _, sent in self.run.clients]
        # How many lines stand before those of the sites, and before the trace.
        self.front = 1 + len(self.run.clients)
        self.head = self.front + len(self.run.sites)
        # How many entries of each site were read, and how many ticks among them; and how often each packet came, by its
        # receiver, its sender and its number.
        self.read, self.ticked, self.came = Counter(), Counter(), Counter()

    def trace(self):
        """Plays the events of the trace."""
        first = self.run.text(False).split("\n", 1)[0]
        if self.lines[0] != first:
            raise Wrong(1, f"wants {first}")
        if len(self.lines) <= self.head + 1:
            raise Wrong(self.head + 1, "wants the trace")
        for place, line in enumerate(self.lines[self.head : -1], self.head + 1):
            found = ENTRY.fullmatch(line)
            if found is None or int(found[1]) >= len(self.run.sites):
                raise Wrong(place, "wants e STAMP SITE EVENT OUTCOME KEPT WROTE FLIGHT SENDS DROPPED")
            self.entry(place, self.run.sites[int(found[1])], found[2], found[3])

    def entry(self, place, site, event, sends):
        if self.read[site.me] == 0:
            made = self.opening(place, site, event)
        else:
            made = self.play(place, site, event, sends)
        self.read[site.me] += 1
        wanted = model.trace_line(site.me, made)
        if self.lines[place - 1] != wanted:
            raise Wrong(place, f"the model makes of it: {wanted}")
        for to in site.lost:
            if len(site.put_out[to]) < model.LANE:
                raise Wrong(place, f"packets to site {to} are dropped, and fewer than {model.LANE:,} were put out to it")

    def opening(self, place, site, event):
        if event != "restart":
            raise Wrong(place, f"the first entry of site {site.me} is its restart")
        return site.entries[0]

    def play(self, place, site, event, sends):
        """The entry that the model makes of the next event at a site."""
        step = step_of(site.me, event)
        why = "no threaded run has such an event" if step is None else self.unworked(site, *step)
        if why:
            raise Wrong(place, f"{event} at site {site.me}: {why}")
        site.tell(sends)
        self.run.step(*step)
        if step[0] == "deliver":
            self.came[step[1:]] += 1
        self.ticked[site.me] += step[0] == "tick"
        return site.entries[-1]

    # Whether trails are worked

    def is_spent(self, site):
        return len(site.entries) >= MOST_ENTRIES or site.clock + 1 >= MOST_STAMP

    def unworked(self, site, word, *rest):
        """Why an event is none of a worked trail, or None."""
        if self.is_spent(site):
            return "its trail is spent"
        if word == "call":
            return self.unworked_call(site, *rest)
        if word == "restart":
            return "the site is up" if site.up else None
        if not site.up:
            return "the site is down"
        if word == "deliver":
            return self.unworked_delivery(site, *rest[1:])
        return self.unworked_advance(site, rest[1]) if word == "advance" else self.unworked_tick(site)

    def unworked_call(self, site, client):
        if client >= len(self.run.clients) or self.run.clients[client][0] != site.me:
            return f"no client {client} is at home there"
        return None if self.is_left(client) else f"client {client} has made all calls of its bytes"

    def unworked_delivery(self, site, sender, number):
        if sender not in site.peers or not 0 < number <= len(self.put_out(site, sender)):
            return "no such packet was put out before"
        copies = self.copies(site, sender, number)
        return None if self.came[site.me, sender, number] < copies else f"the link has {copies} of this packet"

    def unworked_advance(self, site, other):
        least = site.least_enabled()
        return None if other == least else f"the least that may be committed there is of {'none' if least is None else least}"

    def unworked_tick(self, site):
        least = site.least_enabled()
        if least is not None:
            return f"the next commit of {least} may be committed there"
        return None if self.ticked[site.me] < self.ticks else f"it has made its {self.ticks:,} ticks"

    def is_left(self, client):
        """Whether a client has a call left."""
        return len(self.run.replies[client]) < self.calls[client]

    def put_out(self, site, sender):
        return self.run.sites[sender].put_out[site.me]

    def copies(self, site, sender, number):
        """How often the link hands over a packet."""
        inbox = self.run.inboxes[site.me]
        if (sender, number) not in inbox.copies:
            inbox.take({peer: len(self.put_out(site, peer)) for peer in site.peers})
        return inbox.copies[sender, number]

    # The end

    def text(self):
        """The report is that of the entries: they are all there, and in order, and the lines before them say what they do."""
        for place, (line, wanted) in enumerate(itertools.zip_longest(self.lines, self.run.text().split("\n")), 1):
            if line != wanted:
                raise Wrong(place, "wants " + ("nothing there" if wanted is None else wanted or "the end of the report"))

    def whole(self):
        """The run has come to its end at each site whose trail isn't spent."""
        for site in self.run.sites:
            why = None if self.is_spent(site) else self.unfinished(site)
            if why:
                raise Wrong(self.front + site.me + 1, f"site {site.me} isn't at its end: {why}")

    def unfinished(self, site):
        """What is left to be done at a site, or None."""
        left = [client for client, (home, _) in enumerate(self.run.clients) if home == site.me and self.is_left(client)]
        if left:
            return f"client {left[0]} has calls left"
        if not site.up:
            return "it is down"
        least = site.least_enabled()
        if least is not None:
            return f"the next commit of {least} may be committed there"
        ticked = self.ticked[site.me]
        return f"it has made {ticked:,} ticks of {self.ticks:,}" if ticked < self.ticks else self.undelivered(site)

    def undelivered(self, site):
        for sender in site.peers:
            for number in range(1, len(self.put_out(site, sender)) + 1):
                came, copies = self.came[site.me, sender, number], self.copies(site, sender, number)
                if came < copies:
                    return f"packet {number} of {sender} came {came} times, and the link has {copies} of it"
        return None


def checked(scenario, report, is_whole=True, met=None):
    """What the model makes of a report that is one of a threaded run of the scenario. Another is Wrong."""
    check = Check(scenario, report.split("\n"), Counter() if met is None else met)
    check.trace()
    check.text()
    if is_whole:
        check.whole()
    return check.run


def check(scenario, report, is_whole=True):
    """How many entries such a report has."""
    return sum(len(site.entries) for site in checked(scenario, report, is_whole).sites)


def main():
    parser = ends.Parser(__doc__, prog="threaded.py")
    parser.add_argument("scenario", help="a scenario, as JSON or as a script")
    parser.add_argument("report", nargs="?", help="what was written of its run, with the trace; standard input without it")
    parser.add_argument("--unfinished", action="store_true", help="ask for worked trails, and not that they are at their end")
    given = parser.parse_args()
    made = command.scenario_of(command.taken(given.scenario), ends.name_of(given.scenario))
    try:
        entries = check(made, ends.text_of(given.report), not given.unfinished)
    except Wrong as wrong:
        raise ends.End(ends.NOT_AS_ASKED, f"{ends.name_of(given.report)}, {wrong}") from None
    ends.write(f"{entries:,} entries: each is right, and the trails are worked{'' if given.unfinished else ' to their end'}\n")


if __name__ == "__main__":
    ends.run(main)
