"""Writes the words of a report by their names, as CSV, as JSON by lines, or as a plot beside the ideal machine's.

usage: tools/words [--json] [--unjudged] MISSION REPORT [PROGRAM]
       tools/words --plot NAME[,NAME].. [--unjudged] MISSION REPORT [PROGRAM] > words.svg
       tools/words --require FILE [--json] [--unjudged] MISSION REPORT [PROGRAM]
       tools/words --names MISSION

CSV has a line for each frame and unit: f, u, a column for each output word (target.0), one for each sensor (sense.pitch),
and the skew, slack and margin of the frame. Words are signed decimals. Where a unit tells none, as a faulty one does, or a
frame no skew, the cells are empty, and null in JSON. Where a table of the mission sheds a task there is one column more, shed:
the output words that aren't of this frame, but held from before; in JSON a list of them. --names writes what words there are.
A plot has the chosen words of the flight over those of the ideal machine, which PROGRAM tells (./sift where none is
named), and over the sensor's own words; and the first frame in which they differ. Words of a task that a table sheds, and of
those that read it, aren't compared from the first such frame on. REPORT is a file, or - for standard input.
--require tells of each requirement of FILE, which docs/campaigns.md tells about, whether the flight keeps it, how far its word is
off at most, in how many frames, and in which first one; in JSON an object a line.
The built program, or PROGRAM, is asked whether the mission may have the report (`judge`); where there is none, a line says so,
and with --unjudged nobody is asked. Status 0; 1 where the report is none or isn't the mission's, the mission is refused, or one
can't be read; 2 for other words, or requirements that are refused; 3 where one is broken; 9 where standard output can't be written.
"""
import csv
import json
import os
import subprocess
import sys

from sift import where
from sift.campaigns.kits import can_fly
from sift.rules.loading import Refused, load, refusal
from sift.files import as_called, read_source, run
from sift.pictures.words import series_of, svg_of
from sift.reports.judging import NotJudged, judged
from sift.reports.named import Named
from sift.reports.reading import NoReport, read_ideal, read_report
from sift.reports.table import columns_of, rows_of

USAGE = "\n".join(__doc__.split("\n\n")[1].splitlines())


class NoWords(Exception):
    """Why no words are written."""


class Unread(Exception):
    """Why a file of requirements is refused, with its places."""


class Options:
    """The words of the command line: what is written, whether the report is judged, and the names of files."""

    def __init__(self, words):
        self.json, self.only_names, self.unjudged, self.plotted, self.required, self.files = False, False, False, None, None, []
        words = iter(words)
        for word in words:
            if word == "--json":
                self.json = True
            elif word == "--names":
                self.only_names = True
            elif word == "--unjudged":
                self.unjudged = True
            elif word == "--plot" and self.plotted is None:
                self.plotted = next(words, "").split(",")
            elif word == "--require" and self.required is None:
                self.required = next(words, "")
            else:
                self.files.append(word)

    def are_known(self):
        """Whether they are words of the usage."""
        kinds = (self.json and self.required is None) + self.only_names + (self.plotted is not None) + (self.required is not None)
        unknown = any(word.startswith("-") and word != "-" for word in self.files)
        return kinds < 2 and not unknown and len(self.files) in ((1,) if self.only_names else (2, 3))


def write_rows(named, flight, as_json):
    columns = columns_of(named)
    if as_json:
        for row in rows_of(named, flight):
            print(json.dumps(dict(zip(columns, row))))
        return
    writer = csv.writer(sys.stdout, lineterminator="\n")
    writer.writerow(columns)
    for row in rows_of(named, flight):
        writer.writerow([" ".join(cell) if isinstance(cell, list) else cell for cell in row])


def findings_of(options, mission, flight, text):
    """Of each requirement what is found of it in a flight, by the text of the ideal machine."""
    from sift.campaigns.faults import Schedule, outline_of
    from sift.campaigns.requirements import NoRequirements, read_requirements

    schedule = Schedule(outline_of(mission), read_ideal(text))
    try:
        required = read_requirements(read_source(options.required), schedule.names, [name for name, _ in schedule.sensors])
    except NoRequirements as refused:
        raise Unread(refused.told(options.required)) from None
    return [(requirement, requirement.find(flight, schedule)) for requirement in required]


def write_findings(findings, as_json):
    """Writes them; the status."""
    for requirement, finding in findings:
        if as_json:
            print(json.dumps({"name": str(requirement), **finding._asdict()}))
            continue
        frames = f"in {finding.frames} {'frame' if finding.frames == 1 else 'frames'}, first in {finding.first}" if finding.frames else "in none"
        print(f"{'broken' if finding.broken else 'kept  '}  {requirement}: {finding.largest} at most, too far {frames}")
    return 3 if any(finding.broken for _, finding in findings) else 0


def ideal_text(raw, program):
    """What the program tells of the ideal machine."""
    answer = subprocess.run([program, "ideal"], input=raw, stdout=subprocess.PIPE, check=False)
    if answer.returncode:
        raise NoWords(f"{program} ideal ends with status {answer.returncode}")
    return answer.stdout.decode()


def check_report(options, raw, report, flight):
    """Asks the program whether the mission may have the report, where there is one to ask."""
    program = options.files[2] if options.files[2:] else where.program()
    if options.unjudged:
        return
    if not can_fly(program):
        print("words: the report isn't judged: out/sift isn't built", file=sys.stderr)
        return
    try:
        verdict = judged(program, raw, report, flight.version())
    except NotJudged as fault:
        print(f"words: the report isn't judged: {fault}", file=sys.stderr)
        return
    if verdict != "yes":
        more = as_called("tools/explain") + f" {options.files[0]} {options.files[1]} tells why"
        raise NoReport(f"{options.files[0]} can't have this report: {verdict}; {more}")


def write(options, raw):
    """Writes what is asked for; the status."""
    named = Named(load(raw)[2])
    if options.only_names:
        print("\n".join(named.words()))
        return 0
    unknown = [name for name in options.plotted or [] if name not in named.words()]
    if unknown:
        raise NoWords(f"there is no word {unknown[0]}; there are {', '.join(named.words())}")
    report = read_source(options.files[1])
    flight = read_report(report.decode("ascii"))
    named.check(flight)
    check_report(options, raw, report, flight)
    program = options.files[2] if options.files[2:] else where.launcher()
    if options.required is not None:
        return write_findings(findings_of(options, named.mission, flight, ideal_text(raw, program)), options.json)
    if options.plotted is None:
        write_rows(named, flight, options.json)
        return 0
    series = list(series_of(named, options.plotted, flight, ideal_text(raw, program)))
    heads = [os.path.basename(name) for name in (options.files[1], options.files[0]) if name != "-"]
    sys.stdout.write(svg_of(series, " of ".join(heads)))
    return 0


def main(words):
    """The exit status; the words or the plot go to standard output."""
    if words in (["--help"], ["-h"]):
        print(as_called(__doc__.strip()))
        return 0
    options = Options(words)
    if not options.are_known():
        print(as_called(USAGE), file=sys.stderr)
        return 2
    try:
        return write(options, read_source(options.files[0]))
    except Unread as refused:
        print(f"words: what is required is refused\n{refused}", file=sys.stderr)
        return 2
    except Refused as refused:
        why = refusal(options.files[0], refused)
    except (NoReport, UnicodeDecodeError) as fault:
        why = f"{options.files[1]}: {fault}"
    except NoWords as fault:
        why = str(fault)
    print(f"words: {why}", file=sys.stderr)
    return 1


def entry():
    """Ends with the tool's status, for the words that it was called with."""
    sys.exit(run("words", main, sys.argv[1:], unread=1, unwritten=9))


if __name__ == "__main__":
    entry()
