"""Tells what in a mission is accepted and does nothing, or not what it seems to do.

usage: tools/lint MISSION..

Each finding has its line and column, and what to do. Status 0 where nothing was found, 1 where something was, 2 where a
mission is refused or can't be read. A note is no finding. The tool stands beside the proved program, and flies nothing.

It looks for: items for a slot that their unit doesn't say, in any configuration that there can be, or to units that don't
hear it; items hidden by earlier ones; sensors that no task reads; words that are never set; subframes to spare; tasks that
every table sheds; and `>>` on a word that is used as signed. It notes the tasks that no task reads; faults that no two
working units would catch, as their lies have too few receivers; and sensors whose readers run no task that reads them, so
that nobody would catch a lie of theirs.
"""
import sys

from sift.documents import places
from sift.documents.show import shown
from sift.files import as_called, read_source, run
from sift.rules.lint import findings, notes, tasks_for_the_report
from sift.rules.loading import Refused, load, refusal


def lint(name):
    """Writes what is found in a mission, and tells the status."""
    try:
        text, root, mission = load(read_source(name))
    except Refused as refused:
        print(f"lint: {refusal(name, refused)}", file=sys.stderr)
        return 2
    found = findings(mission)
    for each in found:
        told = [("mend", each.mend)] if each.mend else []
        print(shown(name, text, each.start, each.end, each.why, told, root), end="")
    for each in notes(mission):
        line, column = places.line_and_column(text, each.start)
        print(f"{name}:{line}:{column}: note: {each.what}")
    outputs = tasks_for_the_report(mission)
    if outputs:
        print(f"{name}: note: read by no other task, and so outputs for the report: {', '.join(outputs)}")
    return 1 if found else 0


def main(words):
    """The highest status of the missions."""
    if words in (["--help"], ["-h"]):
        print(as_called(__doc__.strip()))
        return 0
    if not words or any(word.startswith("-") and word != "-" for word in words):
        print(as_called("usage: tools/lint MISSION.."), file=sys.stderr)
        return 2
    return max([lint(name) for name in words])


def entry():
    """Ends with the tool's status, for the words that it was called with."""
    sys.exit(run("lint", main, sys.argv[1:], unread=2, unwritten=2))


if __name__ == "__main__":
    entry()
