"""Measures how the time of a flight grows with its frames, its units and its workers.

usage: tools/growth [--program PROGRAM] [--runs N] > growth.tsv
       tools/growth --mission UNITS FRAMES

  --program PROGRAM  what flies: out/sift, which tools/build makes, where it isn't given
  --runs N           how often each mission is flown; five times where it isn't given
  --mission          prints the mission with so many units and frames, and flies nothing

The missions are as large as they may be but for what grows: eight units, 1,000 frames of 64 subframes, eight sensors, and 24
tasks with 64 words whose code has nearly all steps that it may have. A row tells what grows, its value, the workers, and of
the fastest of the runs the wall time and the processor time, in milliseconds. Other work on the machine shows in all of them.
`tools/picture --growth growth.tsv` draws them.
Status 0; 1 where a mission isn't flown, or the rows can't be written; 2 for other words.
"""
import argparse
import sys

from sift import where
from sift.files import run
from sift.growth import NotFlown, mission, rows
from sift.pictures.growth import COLUMNS


def main(words):
    parser = argparse.ArgumentParser(add_help=False, allow_abbrev=False, usage=__doc__[__doc__.index("usage:") + 7 :].split("\n\n", 1)[0])
    parser.add_argument("--program", default=where.program())
    parser.add_argument("--runs", type=int, default=5)
    parser.add_argument("--mission", type=int, nargs=2)
    parser.add_argument("--help", "-h", action="store_true")
    options = parser.parse_args(words)
    if options.help:
        print(__doc__.strip())
        return 0
    if options.mission:
        sys.stdout.write(mission(*options.mission))
        return 0
    try:
        print("\t".join(COLUMNS))
        for row in rows(options.program, options.runs):
            print(row, flush=True)
    except NotFlown as fault:
        print(f"growth: {fault}", file=sys.stderr)
        return 1
    except OSError as fault:
        print(f"growth: {f'{fault.filename}: ' if fault.filename else ''}{fault.strerror}", file=sys.stderr)
        return 1
    return 0


def entry():
    """Ends with the tool's status, for the words that it was called with."""
    sys.exit(run("growth", main, sys.argv[1:], unread=1, unwritten=1))


if __name__ == "__main__":
    entry()
