"""Why a packet or an Advance changed nothing at a site that is up: what is wanting there. Stands on docs/SITE.md."""


def version(site, number):
    return f"{site}@{number}"


def of_advance(site, there):
    """Why a site commits nothing of another, by what the site knows."""
    number = site.committed[there] + 1
    what = version(there, number)
    if number > site.got[there]:
        return f"{what} isn't received here"
    if number > site.durable_at[there]:
        return f"{what} isn't durable by the word of site {there}"
    return missing(site.held.get((there, number)), site.committed, "committed")


def missing(transaction, vector, how):
    """The first cause of a transaction that a site lacks."""
    for site, (start, known) in enumerate(zip(transaction.snapshot, vector) if transaction else ()):
        if start > known:
            return f"its cause {version(site, known + 1)} isn't {how} here"
    return "the catalog lacks what it changes"


def of_propagate(site, packet):
    there, says = packet.sender, packet.says
    if says.number is not None and says.number <= site.got[there]:
        return "received already"
    if says.number is not None and says.number > site.got[there] + 1:
        return f"{version(there, site.got[there] + 1)} isn't received here"
    return missing(says.transaction, site.got, "received")


def of_mark(site, packet, before):
    """Of an ACK, a DSMARK or a VISIBLE: it says no more than another before it, or more than there is."""
    if packet.says.number is not None and packet.says.number > before:
        return f"site {site.me} has no commit of that number"
    return f"{before} was said before"


def of_vote(site, packet):
    slow = site.slows.get(packet.says.number)
    if slow is None:
        return "no such slow commit is begun here"
    if slow.stands != "undecided":
        return "the slow commit is committed" if slow.stands == "decided" else "the slow commit has ended"
    if packet.says.against:
        return f"site {packet.sender} is to be asked again at a tick"
    return "its YES was heard before"


def of_released(site, packet):
    slow = site.slows.get(packet.says.number)
    if slow is None or slow.stands != "dropped":
        return "no slow commit of that number is to be released"
    return "it was confirmed before"


def of_packet(site, packet):
    if packet.kind == "propagate":
        return of_propagate(site, packet)
    if packet.kind in ("ack", "dsmark", "visible"):
        said = {"ack": site.acked, "dsmark": site.durable_at, "visible": site.seen_by}[packet.kind]
        return of_mark(site, packet, said[packet.sender])
    return {"vote": of_vote, "released": of_released}.get(packet.kind, lambda *_: None)(site, packet)


def of(site, moment):
    """What is wanting at a site for a moment that changed nothing there, where that is known; `site` is as it was before it."""
    word, *fields = moment.entry.event
    if moment.entry.outcome[0] != "passed":
        return None
    if word == "advance":
        return of_advance(site, fields[0])
    return of_packet(site, moment.packet) if word == "deliver" else None
