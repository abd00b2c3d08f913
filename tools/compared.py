"""Two runs side by side, each as a picture, in which the entries are marked that the other run hasn't."""

import difflib

import pictures
import plays
import words

BETWEEN = 24


def run_of(path):
    """The run of a script or a scenario, by the model."""
    source = plays.Source(path)
    return plays.run_of(source.scenario, plays.report_of(source.made))


def differing(one, other):
    """The moments of each run that have no partner in the other: what came of an entry is told alike by partners."""
    moments = [pictures.in_order(run) for run in (one, other)]
    told = [[(moment.site, words.moment_line(run.scenario, moment)) for moment in some] for run, some in zip((one, other), moments)]
    marked = [set(some) for some in moments]
    for here, there, length in difflib.SequenceMatcher(None, *told, autojunk=False).get_matching_blocks():
        marked[0] -= set(moments[0][here : here + length])
        marked[1] -= set(moments[1][there : there + length])
    return marked


def svg(runs, first=None, last=None):
    """Both pictures in one, whose first rows stand at one height, however long the titles are."""
    both = [pictures.Picture(run, first, last, marked=marked) for run, marked in zip(runs, differing(*runs))]
    at = both[0].width + BETWEEN
    tops = [max(one.heads for one in both) - one.heads for one in both]
    width, height = at + both[1].width, max(top + one.height for top, one in zip(tops, both))
    parts = both[0].svg(y=tops[0]) + both[1].svg(x=at, y=tops[1])
    return f'<svg xmlns="http://www.w3.org/2000/svg" width="{width:.0f}" height="{height:.0f}">\n{parts}</svg>\n'
