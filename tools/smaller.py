"""The smallest script that can be found which still breaks an expectation: items of a script are left out as long as it does.

What the link made is left out freely. A client's own lines are left out only where the script without them, played by its own
deliveries, still meets the expectation: else anything that lacks a line would break it. So are the lines that say how many
areas journals have, in which format they begin, and for how many entries trails have their memory from the start.
"""

import copy

import scripts
import varied

ROUNDS = 8


def is_of_client(item):
    return isinstance(item, (scripts.Turn, scripts.Sent))


def with_items(script, items):
    made = copy.copy(script)
    made.items = items
    return made


def played(script, items):
    run = varied.Played(with_items(script, items))
    run.play()
    return run


class Search:
    """`breaks` says of a run whether it still breaks the expectation, and `meets` whether it meets it as the script does."""

    def __init__(self, script, found, breaks, meets):
        self.script, self.breaks, self.meets = script, breaks, meets
        self.items = found.items
        self.own = script.items
        self.may_shorten = meets(played(script, self.own))

    def smallest(self):
        for setting in "areas", "room", "format":
            self.leave_out_setting(setting)
        for _ in range(ROUNDS):
            before = len(self.items)
            if self.may_shorten:
                for client in range(len(self.script.clients)):
                    self.leave_out({item.place for item in self.own if is_of_client(item) and item.client == client})
                self.thin(lambda: list(dict.fromkeys(item.place for item in self.items if is_of_client(item))), self.leave_out)
            self.thin(lambda: [at for at, item in enumerate(self.items) if not is_of_client(item)], self.leave_out_at)
            if len(self.items) == before:
                break
        return with_items(self.script, self.items)

    def thin(self, parts, leave_out):
        """Leaves out parts, first many at once and then fewer."""
        size = max(1, len(parts()) // 2)
        while True:
            at = len(parts())
            while at > 0:
                leave_out(set(parts()[max(0, at - size) : at]))
                at -= size
            if size == 1:
                return
            size //= 2

    def leave_out_at(self, left_out):
        """What the link made, by its places among the items."""
        self.take([item for at, item in enumerate(self.items) if at not in left_out])

    def leave_out(self, places):
        """Lines of clients."""
        own = [item for item in self.own if not is_of_client(item) or item.place not in places]
        if len(own) < len(self.own) and self.meets(played(self.script, own)) and self.take(
                [item for item in self.items if not is_of_client(item) or item.place not in places]):
            self.own = own

    def leave_out_setting(self, name):
        """Goes on without the setting of this name where that comes to the same."""
        script = copy.copy(self.script)
        setattr(script, name, None)
        if getattr(self.script, name) is None or not self.meets(played(script, self.own)):
            return
        run = played(script, self.items)
        if self.breaks(run):
            self.script, self.items = script, run.items

    def take(self, items):
        """Goes on with these items where they still break the expectation."""
        if len(items) == len(self.items):
            return False
        run = played(self.script, items)
        if not self.breaks(run):
            return False
        self.items = run.items
        return True
