"""What a pump would come to, found out before it is made: a pump of a site that has nothing else to do ticks."""

import copy
from collections import Counter, deque


def has_work(run, here):
    """Whether a pump of a site would do something else than tick: come up, take a packet, or commit what it may."""
    site = run.sites[here]
    return not site.up or bool(queue_of(run, here)) or site.least_enabled() is not None


def queue_of(run, here):
    """The queue of a site once the link has taken what has arrived. The link itself stays as it is."""
    inbox = run.inboxes[here]
    if inbox.queue:
        return inbox.queue
    tried = copy.copy(inbox)
    tried.words = {peer: copy.copy(words) for peer, words in inbox.words.items()}
    tried.queue, tried.taken, tried.copies, tried.met = deque(), dict(inbox.taken), {}, Counter()
    tried.take({peer: len(run.sites[peer].put_out[here]) for peer in inbox.taken})
    return tried.queue
