"""A run as one page of HTML that stands alone: its picture, and for each entry its words and what each site holds then."""

import json
import os
from xml.sax.saxutils import escape

import pictures
import words

TEMPLATE = os.path.join(os.path.dirname(os.path.abspath(__file__)), "page.html")


def told(picture, moment):
    """What the page says of an entry."""
    run, entry = picture.run, moment.entry
    name = picture.names.of_moment(moment)
    session = run.sessions.started.get(name)
    client = moment.call[0] if moment.call else session.client if session else None
    return {
        "site": moment.site,
        "stamp": entry.stamp,
        "kind": pictures.kind_of(moment),
        "transaction": words.name(name) if name else None,
        "client": None if client is None else run.scenario.names[client],
        "said": picture.said(moment, True),
        "sends": words.sends(moment.sends),
        "line": entry.line,
        "holds": run.held[moment],
    }


def page(run, first=None, last=None, title=None):
    """The page of a run that was watched from the one stamp to the other."""
    picture = pictures.Picture(run, first, last, title)
    data = {"begin": run.begin, "entries": [told(picture, moment) for moment in picture.moments]}
    with open(TEMPLATE, encoding="utf-8") as source:
        text = source.read()
    # No text of a scenario ends the script in which it stands.
    data = json.dumps(data, separators=(",", ":")).replace("<", "\\u003c")
    for mark, part in [("@title@", escape(" ".join(picture.title))), ("@picture@", picture.svg()), ("@run@", data)]:
        before, after = text.split(mark)
        text = before + part + after
    return text
