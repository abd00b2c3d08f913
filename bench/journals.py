"""The bytes of a journal, of one area or of two, and what they hold.

A journal of one area is as docs/FORMATS.md has it: a header, and behind it gates and records. The header tells the format in which
its records are spelled, up to a record Format; what is told here is of bytes, whichever format they are in.

One of two areas has headers of its own, a switch byte at place 8, the area A at 9 and the area B behind it. Each area has half
of the capacity less 9, rounded down. B is live where the switch byte is 1, and A where it is any other; what stands in the other
area doesn't count. An area begins with eight bytes that say how long its pack is, and with the pack. Behind it stand gates and
records as in a journal of one area, and no record reaches past the area's end. The content is the bodies that are packed, and
then those behind open gates.

A pack has an entry for each body: one byte of mark, four bytes of length, and so many bytes. The mark is 1 where zeros of the
body are left out: those by which a transaction's snapshot is filled up to eight sites, in the first format. It is 0 where the
body is whole, as it always is from eight sites on.
"""

import struct
from collections import namedtuple

# By the format, the headers of one area and of two.
HEADERS = {1: (b"WALTERJ1", b"WALTERK1"), 2: (b"WALTERJ2", b"WALTERK2")}
HEADER, HEADER_OF_TWO = HEADERS[1]
# How many bytes a header has, and the most sites that a journal of the first format serves.
HEADER_SIZE, MOST_OF_FIRST = 8, 8
# The first gate of one area, and the switch byte of two.
SWITCH = GATE = 8
LEAST, LEAST_OF_TWO = 9, 47
MOST_BODY, MOST_TOLD = 65536, (1 << 32) - 1
# The body of a record Format.
FORMAT = b"\x0a\2"
# The first bytes of the records that have a transaction, each with the place behind its snapshot: in a Got, the second of them,
# a site stands before.
BEHIND_SNAPSHOT = {b"\2": 94, b"\3": 95, b"\7": 94}

# Where bodies may stand: its name, none of a journal of one area; the place where it begins, and the one that no record passes.
Area = namedtuple("Area", "name begins end")
# An entry of a pack: its place, its mark, how many bytes follow, and the body that they stand for.
Entry = namedtuple("Entry", "place mark length body")
# A record: the place of its gate, which is open, and its body.
Record = namedtuple("Record", "gate body")
# What a journal holds: the format of its header, the live area, what is packed in it, its records, and the place of the closed
# gate behind them.
Holding = namedtuple("Holding", "form area entries records gate")
# What counts of that: the format of the header, and the bodies.
Content = namedtuple("Content", "form bodies")


class Wrong(Exception):
    """Bytes that are no right journal, and the place that is wrong."""

    def __init__(self, place, text):
        super().__init__(text)
        self.place = place


class Foreign(Wrong):
    """Bytes that are no journal."""

    # What the program says of them.
    cause = "it has no journal"

    def __init__(self, text):
        super().__init__(0, f"foreign at 0: {text}")


class Damaged(Wrong):
    """A journal with a gate, or with a pack, behind which nothing can be read: its place, and the length that stands there."""

    def __init__(self, place, length, text):
        super().__init__(place, f"damaged at {place}: {text}")
        self.length = length
        self.cause = f"its journal is damaged, since it claims a length of {length}"


# ---- layouts


def both_areas(capacity):
    size = (capacity - 9) // 2
    return Area("A", 9, 9 + size), Area("B", 9 + size, 9 + 2 * size)


def other_area(area, capacity):
    return both_areas(capacity)[area.name == "A"]


def empty(areas, capacity, form=1):
    """The bytes of a journal without records. By zeros the area A is live, has an empty pack, and a closed gate behind it."""
    of_one, of_two = HEADERS[form]
    return of_one + b"\0" if areas == 1 else of_two.ljust(both_areas(capacity)[1].begins, b"\0")


def is_of_two(data):
    """Whether bytes begin as a journal of two areas does."""
    return data[:HEADER_SIZE] in [of_two for _, of_two in HEADERS.values()]


def format_in(data, sites):
    """The format that the header of a journal tells, of a site among so many."""
    if len(data) < LEAST:
        raise Foreign(f"it has {len(data)} bytes, and a journal at least {LEAST}")
    header = data[:HEADER_SIZE]
    for form, both in HEADERS.items():
        if header in both:
            if form == 1 and sites > MOST_OF_FIRST:
                raise Foreign(f"it is of the first format, which serves up to {MOST_OF_FIRST} sites")
            return form
    known = [one.hex() for both in HEADERS.values() for one in both]
    raise Foreign(f"its header is {header.hex()}, and that of a journal {', '.join(known[:-1])} or {known[-1]}")


def live_area(data, capacity):
    """The area whose bodies count, by the header, which is one of a journal, and the switch byte."""
    if not is_of_two(data):
        return Area(None, GATE, capacity)
    if capacity < LEAST_OF_TWO:
        raise Foreign(f"it has two areas, and these want a capacity of at least {LEAST_OF_TWO}")
    return both_areas(capacity)[data[SWITCH] == 1]


# ---- packs


def zeros_of(body, sites):
    """Between which places a body has the zeros that a pack leaves out, or None where it leaves out nothing."""
    end = end_of_zeros(body, sites)
    first = end and first_of_zeros(end, sites)
    is_short = end is not None and len(body) >= end and not any(body[first:end])
    return (first, end) if is_short else None


def end_of_zeros(body, sites):
    """The place behind the zeros that a body of this kind may have, or None where it may have none."""
    return BEHIND_SNAPSHOT.get(body[:1]) if sites < MOST_OF_FIRST else None


def first_of_zeros(end, sites):
    return end - 8 * (MOST_OF_FIRST - sites)


def entry_of(body, sites):
    zeros = zeros_of(body, sites)
    shown = body[: zeros[0]] + body[zeros[1] :] if zeros else body
    return struct.pack(">BI", zeros is not None, len(shown)) + shown


def pack_of(bodies, sites):
    """The pack of some bodies, behind its length."""
    entries = b"".join(entry_of(body, sites) for body in bodies)
    return struct.pack(">Q", len(entries)) + entries


def body_of(mark, shown, sites):
    """The body of which an entry shows these bytes."""
    end = end_of_zeros(shown, sites)
    if mark != 1 or end is None:
        return shown
    first = first_of_zeros(end, sites)
    return shown[:first] + bytes(end - first) + shown[first:]


def entries_of(data, at, end, sites):
    """The entries that stand between two places, or None where what stands there is no pack: each body has one entry alone."""
    entries = []
    while at < end:
        mark, length = struct.unpack_from(">BI", data, at) if at + 5 <= end else (0, end)
        behind = at + 5 + length
        if behind > end:
            return None
        body = body_of(mark, data[at + 5 : behind], sites)
        if len(body) > MOST_BODY or entry_of(body, sites) != data[at:behind]:
            return None
        entries.append(Entry(at, mark, length, body))
        at = behind
    return entries


def read_pack(data, area, bound, sites):
    """The entries of an area's pack, and the place of the gate behind them, which stands before the bound."""
    begins = area.begins + 8
    if len(data) < begins:
        raise Damaged(area.begins, 0, "the length of a pack wants eight bytes there")
    (length,) = struct.unpack_from(">Q", data, area.begins)
    told = min(length, MOST_TOLD)
    if begins + length >= bound:
        raise Damaged(area.begins, told, f"a pack of {length:,} bytes, of which the area {area.name} has no place")
    entries = entries_of(data, begins, begins + length, sites)
    if entries is None:
        raise Damaged(area.begins, told, f"a pack of {length:,} bytes that has no reading")
    return entries, begins + length


# ---- records


def read_records(data, gate, bound):
    """The records from a gate on, and the place of the first closed gate: all gates stand before the bound."""
    records = []
    while data[gate] == 1:
        if gate + 5 > bound:
            raise Damaged(gate, 0, "an open gate wants four bytes of length behind it")
        (length,) = struct.unpack_from(">I", data, gate + 1)
        following = gate + 5 + length
        if length > MOST_BODY:
            raise Damaged(gate, length, f"an open gate with a record of {length:,} bytes, which has at most {MOST_BODY:,}")
        if following >= bound:
            raise Damaged(gate, length, f"an open gate with a record of {length:,} bytes, and no gate is at {following}")
        records.append(Record(gate, data[gate + 5 : following]))
        gate = following
    return records, gate


def read(data, capacity, sites):
    """What a journal holds of a site among so many."""
    form = format_in(data, sites)
    area = live_area(data, capacity)
    if area.name is None:
        return Holding(form, area, [], *read_records(data, GATE, len(data)))
    bound = min(len(data), area.end)
    entries, gate = read_pack(data, area, bound, sites)
    return Holding(form, area, entries, *read_records(data, gate, bound))


def bodies_of(holding):
    """The content: the bodies that are packed, and those behind open gates."""
    return [one.body for one in [*holding.entries, *holding.records]]


def content_of(holding):
    return Content(holding.form, bodies_of(holding))


def forms_of(content):
    """The format in force at the place of each body, and behind the last one."""
    forms = [content.form]
    for body in content.bodies:
        forms.append(2 if body == FORMAT else forms[-1])
    return forms
