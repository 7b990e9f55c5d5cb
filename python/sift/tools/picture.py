"""Draws a report of `sift run`, the skews of `sift clocks`, the schedule of a mission, the runs of a campaign, or how the time
of a flight grows: an SVG for a browser, or with --text lines for a terminal.

usage: tools/picture [--text] [--frames A-B] REPORT [MISSION] > flight.svg
       tools/picture [--text] --schedule MISSION > schedule.svg
       tools/picture [--text] --sweep RUNS > sweep.svg        RUNS is the runs.tsv of tools/sweep
       tools/picture [--text] --sweep RUNS --before RUNS > changes.svg
       tools/picture [--text] --growth TIMES > growth.svg     TIMES is what tools/growth tells

With its mission the picture of a report tells what faulty units say, and which tasks are shed. --frames draws some frames alone,
as 10-59; of a long flight frames are folded in which only clocks and words change.
Each is a file, or - for standard input. This tool stands beside the proved program and is no part of it: plain Python, its
standard library alone, nothing of it is proved. It shows what the lines say, and computes no flight. What it draws is told
in docs/pictures.md.
Status 0 and the drawing; 1 and a line on standard error where the input is none of these, can't be read, or the drawing
can't be written; 2 and its usage for other words.
"""
import contextlib
import os
import re
import shutil
import sys

from sift.files import as_called, read_source, run


class NotDrawn(Exception):
    """Why there is no drawing."""


def named(name):
    """What a drawing of a file is headed with: nothing for standard input."""
    return "" if name == "-" else os.path.basename(name)


def begins_run(raw):
    """Whether the input begins as a run of clocks does, so that it is no report of a flight."""
    return raw.startswith(b"round=")


def clocks_of(text):
    """The drawings of a run of clocks."""
    from sift.pictures import skews

    try:
        return skews.read_run(text), skews
    except skews.NoRun as fault:
        raise NotDrawn(f"no run of clocks: {fault}") from None


def mission_of(raw, name):
    """The mission of a document."""
    from sift.rules.loading import Refused, load, refusal

    try:
        return load(raw)[2]
    except Refused as refused:
        raise NotDrawn(refusal(name, refused)) from None


def stated_by(flight, report, document):
    """What a report's mission states, where its document is named."""
    from sift.reports.named import Named
    from sift.reports.reading import NoReport
    from sift.reports.stated import stated

    if document is None:
        return ()
    mission = mission_of(read_source(document), document)
    try:
        Named(mission).check(flight)
    except NoReport as fault:
        raise NotDrawn(f"{report}: {fault}") from None
    return stated(mission, flight)


def frames_of(words, flight):
    """The frames that are named as A-B, or all."""
    if words is None:
        return None
    first, last = map(int, FRAMES.fullmatch(words).groups())
    if not first <= last < len(flight.frames):
        raise NotDrawn(f"--frames {words}: the report has the frames 0 to {len(flight.frames) - 1}")
    return first, last


def flight_of(options):
    """The drawings of a report, or of a run of clocks, for a browser and for a terminal."""
    from sift.pictures import flight as flight_picture
    from sift.reports.reading import NoReport, read_report

    name = options.names[0]
    raw = read_source(name)
    if begins_run(raw):
        return clocks_of(raw.decode("ascii", "replace"))
    try:
        flight = read_report(raw.decode("ascii"))
    except UnicodeDecodeError as fault:
        raise NotDrawn(f"no report: byte {fault.start} is no ASCII") from None
    except NoReport as fault:
        raise NotDrawn(f"no report: {fault}") from None
    document = options.names[1] if options.names[1:] else None
    stated = stated_by(flight, name, document)
    heads = [named(each) for each in (name, document) if each and named(each)]
    return flight_picture.Drawn(flight, " of ".join(heads), frames_of(options.frames, flight), stated), flight_picture


def schedule_of(raw, name):
    """The drawings of a mission's schedule."""
    from sift.pictures import schedule as schedule_picture

    return schedule_picture.Schedule(mission_of(raw, name), named(name)), schedule_picture


@contextlib.contextmanager
def lines_of(name):
    """The lines of a file, or of standard input where the name is -."""
    if name == "-":
        yield sys.stdin
        return
    with open(name, encoding="utf-8") as lines:
        yield lines


def campaigns_of(name, before=None):
    """The drawings of a campaign's runs, or of two campaigns. The mission's name and its order are known where the campaign's kit
    lies beside them. Rows are read one by one, however many there are."""
    from sift.campaigns.campaign import Campaign
    from sift.campaigns.kits import kit_of
    from sift.campaigns.rows import NoRows, read_rows
    from sift.pictures import campaign as sweep_picture

    kit = kit_of(os.path.dirname(os.path.abspath(name))) if name != "-" else None
    campaign = Campaign(kit) if kit else None
    heads = (campaign.options["mission"], [str(slot) for slot in campaign.schedule.slots()]) if campaign else (named(name), None)
    try:
        with contextlib.ExitStack() as files:
            rows = read_rows(files.enter_context(lines_of(name)))
            required = next(rows)
            if before:
                older = read_rows(files.enter_context(lines_of(before)))
                next(older)
                drawn = sweep_picture.Changes(older, rows, *heads)
            else:
                drawn = sweep_picture.Table(rows, *heads, required)
    except (NoRows, UnicodeDecodeError) as fault:
        raise NotDrawn(f"no runs of a campaign: {fault}") from None
    if not drawn.cells:
        raise NotDrawn("no runs of a campaign: there is no run")
    return drawn, sweep_picture


def growth_of(raw, name):
    """The drawings of times."""
    from sift.pictures import growth as growth_picture

    try:
        return growth_picture.read_rows(raw.decode()), growth_picture
    except (growth_picture.NoRows, UnicodeDecodeError) as fault:
        raise NotDrawn(f"no times: {fault}") from None


USAGE = "\n".join(__doc__.split("\n\n")[1].splitlines()[:5])
FRAMES = re.compile("([0-9]{1,4})-([0-9]{1,4})")
KINDS = ("--schedule", "--sweep", "--growth")


class Options:
    """The words of the command line: whether lines are wanted, what is drawn, which frames, and the names of files."""

    def __init__(self, words):
        self.text, self.kind, self.frames, self.before, self.names = False, None, None, None, []
        words = iter(words)
        for word in words:
            if word == "--text":
                self.text = True
            elif word in KINDS and not self.kind:
                self.kind = word
            elif word == "--frames" and not self.frames:
                self.frames = next(words, "")
            elif word == "--before" and not self.before:
                self.before = next(words, "-")
            else:
                self.names.append(word)

    def are_known(self):
        """Whether they are words of the usage."""
        files = (1,) if self.kind else (1, 2)
        unknown = any(name.startswith("-") and name != "-" for name in self.names)
        frames = self.frames is None or not self.kind and FRAMES.fullmatch(self.frames)
        before = self.before is None or self.kind == "--sweep" and not self.before.startswith("-")
        return len(self.names) in files and not unknown and self.names.count("-") < 2 and bool(frames) and before


def drawing_of(options):
    """What is drawn, and the module that draws it."""
    name = options.names[0]
    if options.kind == "--sweep":
        return campaigns_of(name, options.before)
    if options.kind:
        return {"--schedule": schedule_of, "--growth": growth_of}[options.kind](read_source(name), name)
    return flight_of(options)


def main(words):
    """The exit status; the drawing goes to standard output."""
    if words in (["--help"], ["-h"]):
        print(as_called(__doc__.strip()))
        return 0
    options = Options(words)
    if not options.are_known():
        print(as_called(USAGE), file=sys.stderr)
        return 2
    try:
        drawn, picture = drawing_of(options)
    except NotDrawn as fault:
        print(f"picture: {fault}", file=sys.stderr)
        return 1
    width = shutil.get_terminal_size().columns if sys.stdout.isatty() else None
    sys.stdout.write(picture.text_of(drawn, width) if options.text else picture.svg_of(drawn))
    return 0


def entry():
    """Ends with the tool's status, for the words that it was called with."""
    sys.exit(run("picture", main, sys.argv[1:], unread=1, unwritten=1))


if __name__ == "__main__":
    entry()
