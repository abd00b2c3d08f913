"""A disk that fails where it is armed to, and the journal on it, as docs/FORMATS.md and docs/DECISIONS.md have them.

The bytes of a journal, of one area or of two, are told in journals.py."""

import struct

import journals

# A new journal, and the zeros in front of an area, are written in pieces of so many bytes.
MOST_WRITE = 65536


class Failed(Exception):
    """A call on the disk failed."""


class Full(Exception):
    """The journal has no place: so many bytes are needed, and so many left."""

    def __init__(self, need, left):
        super().__init__()
        self.need, self.left = need, left


class Disk:
    """Fails where it is armed to, and from then on until it settles."""

    def __init__(self):
        self.reads, self.safe, self.pending = bytearray(), bytearray(), []
        self.arm, self.broken, self.choice = None, False, 0

    def is_failing(self):
        if not self.broken and self.arm:
            nth, choice = self.arm
            self.arm = (nth - 1, choice) if nth > 1 else None
            if nth == 1:
                self.broken, self.choice = True, choice
        return self.broken

    def write(self, at, data):
        self.pending.append((at, data))
        if self.is_failing():
            raise Failed
        overwrite(self.reads, at, data)

    def sync(self):
        if self.is_failing():
            raise Failed
        # No call has failed since the disk settled, so with what is pending it is what reads give.
        for at, data in self.pending:
            overwrite(self.safe, at, data)
        self.pending = []

    def read(self):
        if self.is_failing():
            raise Failed
        return bytes(self.reads)

    def settle(self):
        for at, data in self.pending if self.choice != 0 else []:
            overwrite(self.safe, at, data if self.choice == 1 else bytes([self.choice % 256]) * len(data))
        self.reads, self.pending, self.broken = bytearray(self.safe), [], False


def overwrite(image, at, data):
    if at <= len(image):
        image[at : at + len(data)] = data


class Journal:
    """A journal on a disk: the format of its header, its bodies as they were loaded, the area that counts, and the place of the
    first closed gate.

    Of the calls that an arm counts a load makes one, a read of the whole disk. Where the disk has no bytes it makes the writes
    of a new journal, and a sync. An append makes four, of which the third opens the gate. A pack makes four, of which the third
    turns to the other area; and before them one for each piece of zeros, where the disk ends in front of that area.
    """

    def __init__(self, disk, capacity, areas=1, sites=journals.MOST_OF_FIRST, form=1):
        self.disk, self.capacity, self.sites = disk, capacity, sites
        # Whether a pack has come to the switch byte.
        self.turns = False
        if not disk.reads and not disk.pending:
            content = journals.empty(areas, capacity, form)
            self.write_pieces(0, content)
            disk.sync()
        else:
            disk.settle()
            content = disk.read()
        holding = journals.read(content, capacity, sites)
        self.form, self.bodies = holding.form, journals.bodies_of(holding)
        self.area, self.gate = holding.area, holding.gate

    def write_pieces(self, at, data):
        for first in range(0, len(data), MOST_WRITE):
            self.disk.write(at + first, data[first : first + MOST_WRITE])

    def left(self):
        """How many bytes are left behind the first closed gate."""
        return max(0, self.area.end - self.gate - 1)

    def append(self, body):
        need, left = len(body) + 5, self.left()
        if need > left:
            raise Full(need, left)
        self.disk.write(self.gate + 1, struct.pack(">I", len(body)) + body + b"\0")
        self.disk.sync()
        self.disk.write(self.gate, b"\1")
        self.disk.sync()
        self.gate += need

    def pack(self):
        """Packs the bodies that were loaded into the other area, and then turns to it by the switch byte.

        There is nothing to do of one area, or where there are no bodies. Whichever call fails, the content stays: up to the
        switch byte the live area is as it was, and from then on both areas have it."""
        if self.area.name is None or not self.bodies:
            return
        area, pack = journals.other_area(self.area, self.capacity), journals.pack_of(self.bodies, self.sites)
        size = len(self.disk.reads)
        self.write_pieces(size, bytes(max(0, area.begins - size)))
        self.disk.write(area.begins, pack + b"\0")
        self.disk.sync()
        self.turns = True
        self.disk.write(journals.SWITCH, bytes([area.name == "B"]))
        self.disk.sync()
        self.area, self.gate = area, area.begins + len(pack)
