"""How requests, replies, transactions, records and packets are spelled, as docs/FORMATS.md has it."""

import struct

NAMES = ["start", "read", "write", "setadd", "setdel", "setread", "setreadid", "commit", "abort", "level"]
START, READ, WRITE, SET_ADD, SET_DEL, SET_READ, SET_READ_ID, COMMIT, ABORT, LEVEL = range(1, 11)
STARTED, VALUE, DONE, SET, COUNT, COMMITTED, ABORTED, DECIDING, LEVEL_IS, ENDED, UNSURE = range(0x80, 0x8B)
REFUSED = 0xE0
PACKETS = ["propagate", "ack", "dsmark", "visible", "prepare", "vote", "release", "released"]
PROPAGATE, ACK, DSMARK, VISIBLE, PREPARE, VOTE, RELEASE, RELEASED = range(1, 9)
BOOT, OWN, GOT, SEEN, PREPARED, LET_GO, SLOW_BEGIN, SLOW_END, MARKS, FORMAT = range(1, 11)
MODIFIED, LOCKED, ASKED, DEAD, LATER = range(1, 6)


def frame(body):
    return struct.pack(">I", len(body)) + body


def write(oid, value):
    return bytes([WRITE]) + struct.pack(">IQ", *oid) + frame(value)


def on_set(operation, oid, *number):
    """A request to a set: a change or a read of one number in it, or a read of all."""
    return bytes([operation]) + struct.pack(">IQ" + "Q" * len(number), *oid, *number)


def refusal(number, fields=b""):
    return bytes([REFUSED, number]) + fields


def name_of(tid):
    return struct.pack(">BIQ", *tid)


def vector_of(numbers, form):
    """A vector, in the first format with a number for each of eight sites."""
    if form == 1:
        return struct.pack(">8Q", *numbers, *[0] * (8 - len(numbers)))
    return struct.pack(f">B{len(numbers)}Q", len(numbers), *numbers)


def update_of(update):
    """An update: (operation, object, bytes or id)."""
    operation, oid, what = update
    if operation == WRITE:
        return struct.pack(">BIQI", 1, *oid, len(what)) + what
    return struct.pack(">BIQQ", 2 if operation == SET_ADD else 3, *oid, what)


def transaction_of(tx, form):
    head = name_of(tx.tid) + struct.pack(">Q", tx.slow) + vector_of(tx.start, form)
    return head + struct.pack(">H", len(tx.updates)) + b"".join(map(update_of, tx.updates))


def objects_of(objects):
    return struct.pack(">H", len(objects)) + b"".join(struct.pack(">IQ", *oid) for oid in objects)


def conflict_of(conflict):
    """A conflict, or the cause of an abort: (kind, object, version or name), of which ASKED and DEAD have the kind alone."""
    kind, *fields = conflict
    if kind == MODIFIED:
        return struct.pack(">BIQBQ", kind, *fields[0], *fields[1])
    if kind == LOCKED:
        return struct.pack(">BIQ", kind, *fields[0]) + name_of(fields[1])
    return bytes([kind])


def record_of(record, form=1):
    """A record, its kind and its fields, in the format that is in force at its place."""
    kind, *fields = record
    if kind == BOOT:
        return struct.pack(">BI", kind, *fields)
    if kind in (OWN, SLOW_BEGIN):
        return struct.pack(">BQ", kind, fields[0]) + transaction_of(fields[1], form)
    if kind == GOT:
        return struct.pack(">BBQ", kind, *fields[:2]) + transaction_of(fields[2], form)
    if kind in (SEEN, LET_GO):
        return struct.pack(">BBQ", kind, *fields)
    if kind == PREPARED:
        return struct.pack(">BBQ", kind, *fields[:2]) + name_of(fields[2]) + objects_of(fields[3])
    if kind == FORMAT:
        return bytes([kind, 2])
    return bytes([kind]) + struct.pack(f">{len(fields)}Q", *fields)


def request_of(body):
    """The request: its operation and fields; or None and the place of what is wrong."""
    shapes = {READ: ">IQ", SET_READ: ">IQ", SET_ADD: ">IQQ", SET_DEL: ">IQQ", SET_READ_ID: ">IQQ", LEVEL: ">BIQ"}
    operation = body[0] if body else 0
    if not START <= operation <= LEVEL:
        return None, 0
    shape = shapes.get(operation, ">IQI" if operation == WRITE else ">")
    end = 1 + struct.calcsize(shape)
    if len(body) < end:
        return None, len(body)
    fields = struct.unpack_from(shape, body, 1)
    if operation == WRITE:
        value, end = body[end : end + fields[2]], end + fields[2]
        fields = (*fields[:2], value)
    if len(body) != end:
        return None, min(len(body), end)
    if operation == LEVEL:
        return operation, fields
    return operation, fields[:2], *fields[2:]
