"""Finds the tables of a mission: by wishes, with a constraint solver, and checked by the proved program.

usage: tools/place MISSION [WISHES] [--write] [--seconds N] [--picture FILE] [--sweep FOLDER] [--program PROGRAM]
       tools/place MISSION --to-csv
       tools/place MISSION --from-csv FILE [--size SIZE] [--write] [--program PROGRAM]

  WISHES             what is wished: MISSION with .wishes for .toml where it isn't named and there is one
  --write            puts the tables into MISSION, of which every other byte stays; else they are printed
  --seconds N        how long it may take, about; 45 where it isn't given
  --picture FILE     draws the tables beside those of `plan`: an SVG, or lines where FILE ends in .txt
  --sweep FOLDER     flies the campaign of the mission as it is and with the tables, and compares both
  --to-csv           prints the mission's own tables as CSV: size, task, subframe, poll, positions
  --from-csv FILE    takes tables from CSV: task, subframe, positions, and the size there or by --size; the others stay
  --program PROGRAM  what checks the tables: out/sift, which tools/build makes, where it isn't given

The tables go to standard output, what the aims and the wishes came to goes to standard error. docs/place.md tells all of it.
The tool stands beside the proved program and is no part of it: MiniZinc with Gecode finds, and `sift check` accepts.
Status 0 where there are tables that `check` accepts; 1 where the wishes can't hold together, and then the fewest that can't
are named; 2 for other words, or a mission, wishes or a CSV that is refused; 3 where the time ended before tables were found;
9 where something can't be written; 125 where the solver or the program isn't there, or `check` doesn't accept the tables.
"""
import argparse
import sys

from sift import where
from sift.files import run
from sift.placing.work import Stopped, place


def positive(text):
    if not text.isdecimal() or int(text) == 0:
        raise argparse.ArgumentTypeError(f"{text}: a whole number from 1 on")
    return int(text)


class Words(argparse.ArgumentParser):
    """The command line; what it doesn't know gets the usage."""

    def format_help(self):
        return __doc__.lstrip()

    def error(self, message):
        usage = __doc__[__doc__.index("usage:") :].split("\n\n", 1)[0]
        print(f"{usage}\nplace: {message}", file=sys.stderr)
        sys.exit(2)


def options_of(words):
    parser = Words(allow_abbrev=False)
    parser.add_argument("mission")
    parser.add_argument("wishes", nargs="?")
    parser.add_argument("--write", action="store_true")
    parser.add_argument("--seconds", type=positive, default=45)
    parser.add_argument("--picture")
    parser.add_argument("--sweep")
    parser.add_argument("--to-csv", action="store_true")
    parser.add_argument("--from-csv")
    parser.add_argument("--size", type=positive)
    parser.add_argument("--program", default=where.program())
    options = parser.parse_args(words)
    sought = options.wishes or options.picture or options.sweep
    if options.to_csv and (sought or options.write or options.from_csv) or options.from_csv and sought:
        parser.error("--to-csv and --from-csv seek no tables: no wishes, no picture and no campaign stand beside them")
    if options.size and not options.from_csv:
        parser.error("--size tells which table a CSV has: --from-csv is missing")
    if options.write and options.mission == "-":
        parser.error("--write needs a mission in a file")
    return options


def main(words):
    """The exit status."""
    try:
        return place(options_of(words))
    except Stopped as stopped:
        print(stopped, file=sys.stderr)
        return stopped.status


def entry():
    """Ends with the tool's status, for the words that it was called with."""
    sys.exit(run("place", main, sys.argv[1:], unread=2, unwritten=9))


if __name__ == "__main__":
    entry()
