"""Scenarios of the kinds that people care about, made by playing them in the plain model: clients act by what they are answered.

A client starts a transaction, makes its calls, commits, and asks again while it is told Deciding. Where no link is asked for, packets
come by steps that name them: all that carry transactions and votes, and of notices that say how far a site has come the last. Else the
sites are pumped, and what the link loses is said again by ticks. `tools/workload` is the command.
"""

import random
import struct
from collections import Counter, namedtuple

import model
import pumps
from spelled import *

# How a workload is made: its kind, how much there is of what, and how many of 100 transactions that write are slow commits. The rates
# are of 1,000 packets, and `stops` how often a site stops; where one isn't 0, or `pumped` is said, the sites are pumped.
Asked = namedtuple("Asked", "kind sites clients transactions seed remote pumped lose repeat swap stops",
                   defaults=(3, 6, 100, 0, 10, False, 0, 0, 0, 0))
MOST_EVENTS, MOST_ROUNDS = 99_000, 400
# How many pumps of a site come at once at most, how many rounds a client waits before its site ticks, and how many rounds lie between
# the ticks of a site that is pumped and owes something.
MOST_PUMPS, PATIENCE, BETWEEN_TICKS = 400, 6, 12
DOWN, GONE = 9, 7
AT_FIRST = 100


class TooMany(Exception):
    """A trail would be spent."""


# ---- requests and what is answered


def read(oid):
    return bytes([READ]) + struct.pack(">IQ", *oid)


def read_set(oid):
    return on_set(SET_READ, oid)


def count_in(oid, which):
    return on_set(SET_READ_ID, oid, which)


def put(oid, text):
    return write(oid, text.encode())


def answer_of(reply):
    """What a read is answered: a text or None, a count, or a map of counts."""
    kind = reply[4]
    if kind == VALUE:
        return reply[10:].decode() if reply[5] else None
    if kind == COUNT:
        return struct.unpack_from(">q", reply, 5)[0]
    if kind == SET:
        return dict(struct.iter_unpack(">Qq", reply[9:]))
    return None


# ---- kinds. A transaction is a generator: it yields requests, and is sent what is answered to them. `name` is the transaction's own,
# so that no two of them write one value to an object.


class Kind:
    """What a kind has: its containers, of each a regular or a counting one at each site, and its transactions."""

    CONTAINERS = ()
    SETS = ()

    def __init__(self, asked, rng):
        self.asked, self.rng, self.met = asked, rng, Counter()
        # Between the numbers of one container and of the next, at one site.
        self.apart = 10 if asked.sites <= 10 else 100

    def containers(self):
        """Their numbers are tens, or hundreds, with the site behind: none could be taken for a site."""
        found = [[self.apart * (at + 1) + site, "cset" if name in self.SETS else "regular", site]
                 for at, name in enumerate(self.CONTAINERS) for site in range(self.asked.sites)]
        return sorted(found)

    def object(self, name, site, local):
        return self.apart * (self.CONTAINERS.index(name) + 1) + site, local

    def name_of(self, oid):
        return self.CONTAINERS[oid[0] // self.apart - 1]

    def of_few(self, count):
        """One of so many, the first ones more often."""
        return int(count * self.rng.random() ** 2)

    def elsewhere(self, site):
        """A site that is to be written to: this one, or by the share of slow commits another."""
        if self.asked.sites == 1 or self.rng.randrange(100) >= self.asked.remote:
            return site
        return self.rng.choice([one for one in range(self.asked.sites) if one != site])

    def anywhere(self):
        return self.rng.randrange(self.asked.sites)

    def transaction(self, site, name):
        raise NotImplementedError

    def told(self):
        """What the kind has to say of its run, in lines."""
        return []


class Social(Kind):
    """People with a profile, a wall and a set of friends. They post, on their own wall and on a friend's, make friends, and look."""

    CONTAINERS, SETS = ("profiles", "walls", "friends"), ("friends",)

    def __init__(self, asked, rng):
        super().__init__(asked, rng)
        self.people = max(4, asked.transactions // (8 * asked.sites))

    def transaction(self, site, name):
        one, there, other = self.of_few(self.people), self.anywhere(), self.of_few(self.people)
        does = self.rng.randrange(100)
        if does < 15:
            yield put(self.object("profiles", self.elsewhere(site), one), f"profile by {name}")
        elif does < 50:
            wall = self.object("walls", self.elsewhere(site), one)
            yield read(self.object("profiles", site, one))
            yield put(wall, f"post by {name}")
        elif does < 65:
            yield on_set(SET_ADD, self.object("friends", site, one), self.number(there, other))
            yield on_set(SET_ADD, self.object("friends", there, other), self.number(site, one))
        elif does < 70:
            friends = yield read_set(self.object("friends", site, one))
            for which in sorted(friends)[:1]:
                yield on_set(SET_DEL, self.object("friends", site, one), which)
                yield on_set(SET_DEL, self.object("friends", which % 10, which // 10), self.number(site, one))
        else:
            yield read(self.object("profiles", there, other))
            yield read(self.object("walls", there, other))
            yield read_set(self.object("friends", there, other))

    def number(self, site, person):
        return self.apart * person + site


class Shop(Kind):
    """Stock that runs out, carts, and orders. Who finds nothing left orders nothing."""

    CONTAINERS, SETS = ("stock", "orders", "carts"), ("carts",)
    IN_STOCK = 10

    def __init__(self, asked, rng):
        super().__init__(asked, rng)
        self.items = max(3, asked.transactions // (20 * asked.sites))

    def transaction(self, site, name):
        item, cart = self.of_few(self.items), self.of_few(self.items)
        does = self.rng.randrange(100)
        if does < 40:
            shelf = self.object("stock", self.elsewhere(site), item)
            left = self.left((yield read(shelf)))
            if left == 0:
                self.met["sold out"] += 1
                return
            yield put(shelf, f"{left - 1} left by {name}")
            yield put(self.object("orders", site, int(name.split(".")[1])), f"order by {name}")
        elif does < 65:
            yield on_set(SET_ADD if self.rng.randrange(3) else SET_DEL, self.object("carts", site, cart), item)
        else:
            yield read(self.object("stock", self.anywhere(), item))
            yield read_set(self.object("carts", site, cart))

    def left(self, text):
        return self.IN_STOCK if text is None else int(text.split()[0])

    def told(self):
        return [f"found sold out: {self.met['sold out']:,}"]


class Bank(Kind):
    """Accounts with 100 each at first, transfers between two of them, and readers who add up the accounts of a branch."""

    CONTAINERS = ("accounts",)
    OF_A_BRANCH = 5

    def __init__(self, asked, rng):
        super().__init__(asked, rng)
        self.branches = max(1, asked.transactions // (20 * asked.sites))

    def branch(self, site, branch):
        """A branch is at one site, but for its last account, which is where slow commits go to."""
        there = (site + 1 + branch) % self.asked.sites
        return [self.object("accounts", there if number == self.OF_A_BRANCH - 1 else site, 1000 * site + branch * self.OF_A_BRANCH + number)
                for number in range(self.OF_A_BRANCH)]

    def transaction(self, site, name):
        if self.rng.randrange(100) < 25:
            yield from self.add_up(self.branch(self.anywhere(), self.of_few(self.branches)))
            return
        accounts = self.branch(site, self.of_few(self.branches))
        local = self.rng.sample(accounts[:-1], 2)
        giver, taker = (local[0], accounts[-1]) if self.rng.randrange(100) < self.asked.remote else local
        has, other = (self.money(text) for text in ((yield read(giver)), (yield read(taker))))
        amount = self.rng.randrange(1, 20)
        yield put(giver, f"{has - amount} by {name}")
        yield put(taker, f"{other + amount} by {name}")

    def add_up(self, accounts):
        whole = 0
        for account in accounts:
            whole += self.money((yield read(account)))
        self.met["added up"] += 1
        self.met["right"] += whole == AT_FIRST * len(accounts)

    @staticmethod
    def money(text):
        return AT_FIRST if text is None else int(text.split()[0])

    def told(self):
        return [f"readers who added up: {self.met['added up']:,}, of whom {self.met['right']:,} found all the money"]


class Counting(Kind):
    """Counters that everybody raises and lowers at their own site, and reads. Nobody conflicts."""

    CONTAINERS, SETS = ("counters",), ("counters",)

    def __init__(self, asked, rng):
        super().__init__(asked, rng)
        self.counters = max(2, asked.transactions // 100)

    def transaction(self, site, name):
        oid, which = self.object("counters", self.anywhere(), self.of_few(self.counters)), self.rng.randrange(4)
        if self.rng.randrange(100) < 70:
            yield on_set(SET_ADD if self.rng.randrange(4) else SET_DEL, oid, which)
        else:
            yield count_in(oid, which)


KINDS = {"social": Social, "shop": Shop, "bank": Bank, "counter": Counting}


# ---- clients


class Client:
    """A client with the transaction that it is at: what it sends next, and since when it is told Deciding."""

    def __init__(self, number, site):
        self.number, self.site = number, site
        self.doing, self.next, self.deciding = None, None, 0


class Maker:
    """Makes a workload's scenario while the model plays it. `counts` has how its transactions ended."""

    def __init__(self, asked):
        self.asked, self.rng = asked, random.Random(repr(asked))
        self.kind = KINDS[asked.kind](asked, self.rng)
        self.pumped = asked.pumped or any((asked.lose, asked.repeat, asked.swap, asked.stops))
        self.clients = [Client(number, number % asked.sites) for number in range(asked.clients)]
        self.sent = [bytearray() for _ in self.clients]
        self.run = model.Run({**self.head(), "clients": [[one.site, ""] for one in self.clients]}, Counter())
        self.steps, self.counts, self.over = [], Counter(), Counter()
        self.begun, self.open, self.rounds = 0, 0, 0
        # Of each commit the step that made it and the one by which all sites had it; and how many each lane has had.
        self.made_at, self.seen_at = {}, {}
        self.come = Counter()
        self.committed = [[0] * asked.sites for _ in range(asked.sites)]
        self.stops = sorted(self.rng.randrange(max(1, asked.transactions)) for _ in range(asked.stops))

    def head(self):
        asked = self.asked
        made = {"sites": asked.sites, "f": min(1, asked.sites - 1), "containers": self.kind.containers(), "clients": []}
        if self.pumped:
            made["link"] = {"seed": asked.seed, "lose": asked.lose, "repeat": asked.repeat, "swap": asked.swap}
        return {**made, "steps": []}

    def made(self):
        """The scenario, whole."""
        rounds = 0
        while self.begun < self.asked.transactions or self.open:
            rounds = rounds + 1 if self.begun == self.asked.transactions else 0
            if rounds > MOST_ROUNDS:
                break
            self.round()
        self.spread_all()
        return {**self.head(), "clients": [[one.site, bytes(sent).hex()] for one, sent in zip(self.clients, self.sent)],
                "steps": self.steps}

    def round(self):
        """Each client makes a call, in any order, and some of what is under way comes."""
        for client in self.rng.sample(self.clients, len(self.clients)):
            self.turn(client)
        if self.stops and self.begun > self.stops[0]:
            self.stops.pop(0)
            self.step("stop", self.rng.randrange(self.asked.sites))
        for site in range(self.asked.sites):
            (self.pump if self.pumped else self.bring)(site, self.rng.randrange(3) == 0)
        self.rounds += 1
        waiting = {client.site for client in self.clients if client.deciding and client.deciding % PATIENCE == 0}
        if self.pumped and self.rounds % BETWEEN_TICKS == 0:
            waiting |= {site.me for site in self.run.sites if site.up and min(site.seen_by.values(), default=site.own()) < site.own()}
        for site in sorted(waiting):
            self.tick(site)

    def step(self, word, where, *more):
        site = self.run.sites[self.clients[where].site if word == "call" else where]
        if len(site.entries) >= MOST_EVENTS:
            raise TooMany
        self.run.step(word, where, *more)
        self.steps.append([word, where, *more])
        self.look_at(site)

    def look_at(self, site):
        """Keeps which commits a site has made, and which all sites have by what it has committed."""
        before, now = self.committed[site.me], len(self.steps)
        if before == site.committed:
            return
        for home, (was, has) in enumerate(zip(before, site.committed)):
            for number in range(was + 1, has + 1):
                if home == site.me:
                    self.made_at[home, number] = now
                if all(one.committed[home] >= number for one in self.run.sites):
                    self.seen_at[home, number] = now
        self.committed[site.me] = list(site.committed)

    # Calls

    def turn(self, client):
        if client.doing is None:
            if self.begun == self.asked.transactions:
                return
            client.doing, client.next = self.kind.transaction(client.site, f"{client.number}.{self.begun}"), bytes([START])
            self.begun += 1
            self.open += 1
        self.take(client, self.call(client, client.next))

    def call(self, client, body):
        sent = frame(body)
        self.sent[client.number] += sent
        self.run.calls[client.number] = model.calls_of(sent, Counter())
        self.step("call", client.number)
        return self.run.replies[client.number][-1]

    def take(self, client, reply):
        """Goes on with a transaction by what was answered."""
        kind = reply[4]
        if kind == STARTED:
            client.next = next(client.doing, bytes([COMMIT]))
        elif kind in (DONE, VALUE, SET, COUNT):
            try:
                client.next = client.doing.send(answer_of(reply))
            except StopIteration:
                client.next = bytes([COMMIT])
        elif kind == DECIDING:
            client.deciding += 1
        elif kind == REFUSED and reply[5] == DOWN:
            client.deciding = 0
        elif kind == REFUSED and reply[5] != GONE:
            client.next = bytes([ABORT])
            self.counts["refused"] += 1
        else:
            self.end(client, reply)

    def end(self, client, reply):
        kind = reply[4]
        what = {COMMITTED: "committed", ENDED: "ended", ABORTED: "aborted"}.get(kind, "lost")
        self.counts[what] += 1
        if kind == ABORTED and reply[5] in (MODIFIED, LOCKED):
            oid = struct.unpack_from(">IQ", reply, 6)
            self.over["a later version" if reply[5] == MODIFIED else "a lock", self.kind.name_of(oid)] += 1
        client.doing, client.deciding = None, 0
        self.open -= 1

    # What comes by steps that name packets

    def bring(self, here, is_whole):
        """The packets of some of a site's lanes come, of notices that a later one repeats just the last; and it commits what it may."""
        site = self.run.sites[here]
        for there in site.peers:
            if is_whole or self.rng.randrange(2):
                self.bring_lane(here, there)
        self.commit_all(site)

    def bring_lane(self, here, there):
        out, first = self.run.sites[there].put_out[here], self.come[here, there]
        end = self.end_of(here, there, out, first)
        last = {packet[0]: number for number, (_, packet) in enumerate(out[first:end], first + 1)}
        for number in range(first + 1, end + 1):
            kind = out[number - 1][1][0]
            if kind not in (ACK, DSMARK, VISIBLE) or last[kind] == number:
                self.step("deliver", here, there, number)
        self.come[here, there] = end

    def end_of(self, here, there, out, first):
        """How far a lane may come: a transaction that came before one that it has seen would have to be said again."""
        got = list(self.run.sites[here].got)
        for number in range(first + 1, len(out) + 1):
            kind, commit, *rest = out[number - 1][1]
            if kind == PROPAGATE:
                if not model.covers(got, rest[0].start):
                    return number - 1
                got[there] = max(got[there], commit)
        return len(out)

    def commit_all(self, site):
        """Commits whatever may be committed. Says whether there was something."""
        before = len(self.steps)
        while site.up and (there := site.least_enabled()) is not None:
            self.step("advance", site.me, there)
        return len(self.steps) > before

    # What comes by pumps

    def pump(self, here, is_whole):
        for _ in range(MOST_PUMPS if is_whole else self.rng.randrange(4)):
            if not pumps.has_work(self.run, here):
                break
            self.step("pump", here)

    def tick(self, here):
        if self.run.sites[here].up:
            self.step("tick", here)

    # The end

    def is_everywhere(self):
        return len(self.seen_at) == len(self.made_at) and all(site.up for site in self.run.sites)

    def spread_all(self):
        """All that was committed comes to all sites, by ticks where it was lost."""
        for _ in range(MOST_ROUNDS):
            for site in range(self.asked.sites):
                (self.pump if self.pumped else self.bring)(site, True)
            if self.is_everywhere():
                return
            if not self.pumped or not any(pumps.has_work(self.run, site) for site in range(self.asked.sites)):
                for site in self.run.sites:
                    self.tick(site.me)

    # What came of it, in words

    def lines(self):
        asked, counts = self.asked, self.counts
        yield (f"{asked.kind}: {asked.transactions:,} transactions of {asked.clients} clients at {asked.sites} sites, seed {asked.seed}, "
               f"in {len(self.steps):,} steps")
        ended = counts["committed"] + counts["ended"] + counts["aborted"]
        yield f"ended: {ended:,}, of which {counts['committed']:,} committed, and {counts['ended']:,} had nothing to commit"
        yield f"aborted: {counts['aborted']:,}" + "".join(f"; {count:,} over {what} of {whose}"
                                                          for (what, whose), count in sorted(self.over.items()))
        for what, words in (("lost", "lost in a stop"), ("refused", "refused, and given up")):
            if counts[what]:
                yield f"{words}: {counts[what]:,}"
        if self.open:
            yield f"not ended: {self.open:,}"
        yield from self.lines_of_visible()
        yield from self.kind.told()

    def lines_of_visible(self):
        took = sorted(self.seen_at[one] - at for one, at in self.made_at.items() if one in self.seen_at)
        if took:
            yield (f"visible everywhere behind so many events: {took[len(took) // 2]:,} in the middle, {took[9 * len(took) // 10]:,} of nine "
                   f"in ten, {took[-1]:,} at most")
        left = len(self.made_at) - len(took)
        if left:
            yield f"not visible everywhere at the end: {left:,}"


def made(kind, sites, transactions, **more):
    """The scenario of a kind."""
    return Maker(Asked(kind, sites, transactions=transactions, **more)).made()
