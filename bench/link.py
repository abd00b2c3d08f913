"""The link of a scenario and the words that its choices are drawn from, as docs/FORMATS.md has them under "The link"."""

from collections import deque, namedtuple

WORD, STATE = (1 << 32) - 1, (1 << 64) - 1
MULTIPLIER = 6364136223846793005
# Of 1,000 packets so many are lost, come twice, or come before those that wait.
Rates = namedtuple("Rates", "seed lose repeat swap")
# A choice: how often a packet is put into the queue, and whether it is put in front.
Choice = namedtuple("Choice", "copies front")
QUIET = {"seed": 0, "lose": 0, "repeat": 0, "swap": 0}
TICKS = 100


class Words:
    """The words of 32 bits that the generator PCG XSH RR 64/32 draws, by its state and its stream."""

    def __init__(self, state, stream):
        self.increment = (stream << 1 | 1) & STATE
        self.state = (state + self.increment) & STATE
        self.turn()

    def turn(self):
        self.state = (self.state * MULTIPLIER + self.increment) & STATE

    def draw(self):
        state, turned = self.state, self.state >> 59
        self.turn()
        word = (state >> 18 ^ state) >> 27 & WORD
        return (word >> turned | word << (32 - turned)) & WORD


def rates_of(scenario):
    """The rates of a scenario's link; all are 0 where it has none."""
    return Rates(**scenario.get("link", QUIET))


class Inbox:
    """The packets that came to a site: how many of each sender the link has taken, and the queue of those that wait.

    A packet is its sender and its number. `copies` has how often each was put into the queue, and `met` counts the choices."""

    def __init__(self, rates, me, peers, met):
        self.rates, self.queue, self.met = rates, deque(), met
        self.words = {peer: Words(rates.seed, 16 * me + peer) for peer in peers}
        self.taken, self.copies = {peer: 0 for peer in peers}, {}

    def choice(self, peer):
        lost, again, first = (self.words[peer].draw() % 1000 < rate for rate in self.rates[1:])
        return Choice(0, False) if lost else Choice(2 if again else 1, first)

    def take(self, arrived):
        """Takes what has arrived and wasn't taken before, by how much of each sender has arrived."""
        for peer in sorted(self.taken):
            while self.taken[peer] < arrived[peer]:
                self.taken[peer] += 1
                self.put((peer, self.taken[peer]), self.choice(peer))

    def put(self, packet, choice):
        self.copies[packet] = choice.copies
        self.met[f"link {('loses', 'hands over once', 'hands over twice')[choice.copies]}"] += 1
        self.met["link swaps"] += choice.front
        if choice.copies > 0:
            (self.queue.appendleft if choice.front else self.queue.append)(packet)
        if choice.copies > 1:
            self.queue.append(packet)
