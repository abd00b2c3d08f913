"""The transactions of a run: what its clients have done, and of which transaction each call, record and packet is."""

import struct
from collections import namedtuple

import reports
import scripts

# What a call may be answered besides a refusal.
ANSWERS = {
    "start": ("started",),
    "read": ("value",),
    "write": ("done",),
    "setadd": ("done",),
    "setdel": ("done",),
    "setread": ("set",),
    "setreadid": ("count",),
    "commit": ("committed", "deciding", "aborted", "ended", "unsure"),
    "abort": ("aborted",),
    "level": ("level",),
    "bad": (),
}
ENDS = ("committed", "aborted", "ended", "unsure")
WAS_LOST = 7

# A transaction that was started: its name, its client, and its updates so far.
Session = namedtuple("Session", "name client updates")


def word_of(frame):
    """The word of a call, `bad` for a bad frame."""
    return (scripts.words_of(frame) or "bad").split(" ")[0]


def update_of(word, frame):
    """The update that a call makes, as a record has it."""
    oid = struct.unpack_from(">IQ", frame, 5)
    return word, oid, scripts.value_in(frame) if word == "write" else struct.unpack_from(">Q", frame, 17)[0]


def may_answer(frame, reply):
    return reply.kind == "refused" or reply.kind in ANSWERS[word_of(frame)]


class Sessions:
    """The transactions that clients have open, by their calls and the replies to them, and all that were started."""

    def __init__(self):
        self.open, self.started = {}, {}

    def take(self, client, frame, reply):
        """Takes a call in, and gives the name of the transaction that it is of, if it is of one."""
        word, session = word_of(frame), self.open.get(client)
        if reply.kind == "started":
            session = self.open[client] = self.started[reply.fields] = Session(reply.fields, client, [])
        elif word == "level":
            return struct.unpack_from(">BIQ", frame, 5)
        elif reply.kind == "done" and session:
            session.updates.append(update_of(word, frame))
        elif reply.kind in ENDS or reply.kind == "refused" and reply.fields[0] == WAS_LOST:
            self.open.pop(client, None)
        return session.name if session else None

    def has(self, client, transaction):
        """Whether a recorded transaction is the one that a client has open, with its updates."""
        session = self.open.get(client)
        return session is not None and (session.name, tuple(session.updates)) == (transaction.name, transaction.updates)


class Names:
    """The names of the transactions that the calls, the records and the packets of a run are of."""

    def __init__(self, run):
        self.commits = {at: transaction.name for site in run.sites for at, transaction in site.held.items() if at[0] == site.me}
        self.slows = {(site.me, number): slow.transaction.name for site in run.sites for number, slow in site.slows.items()}
        self.versions = {name: at for at, name in self.commits.items()}

    def of_record(self, record, site):
        if record.transaction:
            return record.transaction.name
        if record.kind == "Seen":
            return self.commits.get((record.site, record.number))
        if record.kind in ("Prepared", "Released", "SlowEnd"):
            return record.name or self.slows.get((site if record.site is None else record.site, record.number))
        return None

    def of_packet(self, packet):
        """Of a packet that counts commits, the last of these."""
        number, kind = packet.says.number, packet.kind
        if packet.says.transaction:
            return packet.says.transaction.name
        if kind in ("propagate", "ack", "dsmark", "visible"):
            return self.commits.get((packet.sender if kind in ("propagate", "dsmark") else packet.receiver, number))
        return self.slows.get((packet.sender if kind in ("prepare", "release") else packet.receiver, number))

    def of_moment(self, moment):
        if moment.call:
            return moment.name
        if moment.packet:
            return self.of_packet(moment.packet)
        records = [one for one in (moment.entry.kept, moment.entry.wrote, moment.entry.flight) if one]
        return next(filter(None, (self.of_record(one, moment.site) for one in records)), None)
