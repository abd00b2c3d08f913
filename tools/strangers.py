"""Files that are given where others are wanted, and what a scenario in JSON lacks: told so that a reader knows what to do.

The program's own texts say which place of a scenario is wrong. What stands behind them here says which part of that place.
"""

import json
import re

import ends

SITES = re.compile(rb"(?:[ \t\r]*(?:#[^\n]*)?\n)*[ \t]*sites[ \t]+\S+[ \t]+tolerated\b")
HISTORY = re.compile(rb"(?:[\s,\[(]|;[^\n]*\n)*\{\s*:")
REPORT = re.compile(r"sites [0-9]+ f [0-9]+ clients [0-9]+\n")
NEEDED = ("sites", "f", "containers", "clients", "steps")
IS_EMPTY = "it is empty: wants a script or a scenario"
IS_REPORT = "this is a report: tools/explain, tools/draw and tools/check read it, with its script or its scenario in front"
IS_SUMMARY = "this is the summary of a load, which `tools/explain load` tells in words"
IS_HISTORY = "this is a history, which tools/check reads"
IS_SCENARIO = "this is a scenario: tools/play plays it as it is, and --back makes a script of it"
IS_SCRIPT = "this is a script: without --back a scenario is made of it"


def is_json(data):
    return data.lstrip()[:1] in (b"{", b"[") and not is_history(data)


def is_script(data):
    """Whether the first line of bytes that is no comment is the one that a script begins with."""
    return SITES.match(data) is not None


def is_history(data):
    """Whether bytes begin as a history in EDN does: with a map that has a keyword in front, behind comments."""
    return HISTORY.match(data) is not None


def is_report(data):
    return REPORT.match(data[:200].decode("latin-1")) is not None


def other_than_scenario(data):
    """What bytes are that are neither a script nor a scenario, or None."""
    if not data.strip():
        return IS_EMPTY
    if is_report(data):
        return IS_REPORT
    if data.startswith(b"load seed "):
        return IS_SUMMARY
    return IS_HISTORY if is_history(data) else None


def check_scenario(name, data):
    """Ends where bytes are something else than a script or a scenario."""
    what = other_than_scenario(data)
    if what:
        raise ends.End(ends.NO_SCENARIO, f"{name}: {what}")


# ---- what is wrong with a place of a scenario


def refusal(data, refused):
    """The text of a place that is wrong, and which part of it is."""
    text = str(refused)
    try:
        made = json.loads(data)
    except (ValueError, RecursionError):
        return text
    part = part_of(made, text) if isinstance(made, dict) else None
    return f"{text}; {part}" if part else text


def part_of(made, text):
    if text.startswith("the keys: "):
        missing = [key for key in NEEDED if key not in made]
        return f"it has no {' and no '.join(missing)}" if missing else None
    found = re.match("client ([0-9]+): ", text)
    if found and isinstance(made.get("clients"), list) and int(found[1]) < len(made["clients"]):
        return part_of_client(made["clients"][int(found[1])], made["sites"])
    return None


def part_of_client(client, sites):
    if not isinstance(client, list) or len(client) != 2:
        return "it isn't a list of a site and bytes"
    site, sent = client
    if type(site) is not int or not 0 <= site < sites:
        return f"its site is {json.dumps(site)}"
    if not isinstance(sent, str):
        return "its bytes aren't a text"
    if len(sent) % 2:
        return f"its bytes have {len(sent)} digits"
    other = re.search("[^0-9a-fA-F]", sent)
    return f"digit {other.start()} of its bytes is {json.dumps(other[0])}" if other else f"site {site} has too many"
