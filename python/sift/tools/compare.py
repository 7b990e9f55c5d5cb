"""Tells where two reports of `sift run` first differ, and which events are in one of them alone.

usage: tools/compare A B      each is a file; one of them may be - for standard input

The first line names the frame, the unit and the field, with what stands in A and in B. Then stand the frames that differ,
and of the events of `tools/picture` those in A alone, with a -, and those in B alone, with a +. Of two reports of different
versions what both tell is compared: whom a unit caught, and not by which kinds.
Status 0 where the reports are the same, and then nothing is written; 1 where they differ; 2 for other words, or where one
is no report; 9 where standard output can't be written.
"""
import sys

from sift.files import as_called, read_source, run
from sift.reports.differences import differences
from sift.reports.reading import NoReport, read_report


def main(words):
    """The exit status."""
    if words in (["--help"], ["-h"]):
        print(as_called(__doc__.strip()))
        return 0
    if len(words) != 2 or words == ["-", "-"] or any(word.startswith("-") and word != "-" for word in words):
        print(as_called("usage: tools/compare A B"), file=sys.stderr)
        return 2
    flights = []
    for name in words:
        try:
            flights.append(read_report(read_source(name).decode("ascii")))
        except (NoReport, UnicodeDecodeError) as fault:
            print(f"compare: {name} is no report: {fault}", file=sys.stderr)
            return 2
    lines = differences(*flights)
    if lines:
        print("\n".join(lines))
    return 1 if lines else 0


def entry():
    """Ends with the tool's status, for the words that it was called with."""
    sys.exit(run("compare", main, sys.argv[1:], unread=2, unwritten=9))


if __name__ == "__main__":
    entry()
