"""The log of a run for the viewer ShiViz: of each entry the site, its vector clock, and its words.

A clock has a number for each site: how many entries of it this one comes behind, itself among them. An entry comes behind
those before it at its site, and a packet's behind the entry that put the packet out.
"""

import json

import words

# What ShiViz is to read the log by. It stands in the log's first line, and the second, which would part runs, is empty.
EXPRESSION = r"(?<host>\S*) (?<clock>{.*})\n(?<event>.*)"


def joined(one, other):
    return {site: max(one.get(site, 0), other.get(site, 0)) for site in sorted({*one, *other})}


def clocks(run):
    """Of each moment its clock, by site."""
    last, at = [{} for _ in run.sites], {}
    for moment in run.moments:
        clock = dict(last[moment.site])
        if moment.packet:
            clock = joined(clock, at[moment.packet.put_out])
        clock[moment.site] = last[moment.site].get(moment.site, 0) + 1
        last[moment.site] = at[moment] = clock
    return at


def host(site):
    return f"site{site}"


def log(run):
    lines = [EXPRESSION, ""]
    for moment, clock in clocks(run).items():
        told = json.dumps({host(site): count for site, count in sorted(clock.items())})
        lines += [f"{host(moment.site)} {told}", words.moment_line(run.scenario, moment)]
    return "\n".join(lines) + "\n"
