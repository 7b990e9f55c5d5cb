"""Flies a mission with each fault that its units can have, or with faults that are drawn, and tells which of them it doesn't stand.

usage: tools/sweep MISSION [--single] [--pairs] [--kinds LIST] [--values LIST] [--from LIST] [--limit N] [--keep]
                   [--random N] [--number S] [--require FILE] [--out FOLDER] [--overwrite] [--program PROGRAM] [--batch N]
                   [--jobs N] [--sshlogin LIST] [--slurm] [--json FILE] [--junit FILE]
       tools/sweep --resume [--out FOLDER] [--jobs N] [--sshlogin LIST] [--slurm] [--json FILE] [--junit FILE]
       tools/sweep --replay ROW [--out FOLDER]
       tools/sweep --reduce ROW [--out FOLDER]
       tools/sweep --compare BEFORE AFTER

  --single         one fault a run: each unit by each slot that it says; so it is where --pairs isn't given
  --pairs          two faults of two units a run
  --kinds LIST     in which ways: wrong, silence, two-faces, with commas between, which are all where it isn't given; and flip,
                   stuck, offset, drift, intermittent, as faults happen
  --values LIST    with which words they are wrong or intermittent, which bits flip, which numbers are added: as in 7,-3 or 0-15
  --from LIST      from which frames on, as in 0,10 or 0-49; 0 where it isn't given. Of pairs each has each of them
  --limit N        at most N runs, spread over all
  --keep           leaves the mission's own faults in
  --random N       N runs whose faults are drawn: units, moments, slots, ways, words, one or several, and storms
  --number S       from which number they are drawn; 0 where it isn't given
  --require FILE   what outputs must do: tables [[require]]; a run that breaks one has lost an output
  --out FOLDER     where all is kept: ./sweep where it isn't given
  --overwrite      takes away the campaign that the folder has, once the new one can begin
  --batch N        N runs a job; as many as fit where it isn't given
  --jobs N         how many jobs at once, as of GNU parallel; with --slurm how many tasks its job has
  --sshlogin LIST  on which machines, as of GNU parallel
  --slurm          as array jobs of Slurm, in a folder that its nodes see
  --program PROGRAM  what flies: out/sift, which tools/build makes, or the installed sift where it isn't given
  --resume         goes on with a campaign that ended before its end
  --replay ROW     prints the document of a row, a dividing line, and its report
  --reduce ROW     prints the smallest document that loses what a row loses
  --compare        tells what got worse and what better from one campaign to another, each by its folder or its runs.tsv
  --json FILE      writes what came of all rows, for a program; --junit FILE as JUnit's XML

The folder gets runs.tsv, a row a run; standard output a summary, the worst first. docs/campaigns.md tells all of it.
Status 0; 1 where a unit that goes wrong alone lost the margin or an output, a report wasn't judged right, a run isn't as
promised, or something got worse; 2 for other words, or a mission or a file that is refused; 9 where something can't be written; 125 where not all was flown.
"""
import contextlib
import gc
import os
import sys
from types import SimpleNamespace

from sift import where
from sift.campaigns.flying import library_of
from sift.campaigns.kits import can_fly, kit_of, new_kit
from sift.campaigns.ways import VALUES
from sift.documents.slots import ALL_KINDS, KINDS
from sift.files import as_called, run
from sift.forms import Form


VALUES_LISTED = Form("(-?[0-9]{1,5})(?:-([0-9]{1,5}))?")
FRAMES_LISTED = Form("([0-9]+)(?:-([0-9]+))?")
STORM = "storm"  # a kind that is drawn alone: what a stray unit stores can't be listed


class NotRight(Exception):
    """What is wrong with a value."""


def kinds_of(text):
    kinds = text.split(",")
    if not set(kinds) <= {*ALL_KINDS, STORM}:
        raise NotRight(f"{text}: the kinds are {', '.join(ALL_KINDS)}")
    return [kind for kind in (*ALL_KINDS, STORM) if kind in kinds]


def values_of(text):
    """The values of a list such as 7,-3,0-15."""
    values = []
    for part in text.split(","):
        found = VALUES_LISTED.fullmatch(part)
        if not found or int(found[1]) > int(found[2] or found[1]):
            raise NotRight(f"{text}: values are listed as in 7,-3 or 0-15")
        values += range(int(found[1]), int(found[2] or found[1]) + 1)
    return list(dict.fromkeys(values))


def frames_of(text):
    """The frames of a list such as 0,10-19."""
    frames = set()
    for part in text.split(","):
        found = FRAMES_LISTED.fullmatch(part)
        if not found or int(found[1]) > int(found[2] or found[1]):
            raise NotRight(f"{text}: frames are listed as in 0,10 or 0-49")
        frames |= set(range(int(found[1]), int(found[2] or found[1]) + 1))
    return sorted(frames)


def positive(text):
    if not text.isdecimal() or int(text) == 0:
        raise NotRight(f"{text}: a whole number from 1 on")
    return int(text)


def whole(text):
    if not text.isdecimal() or len(text) > 18:
        raise NotRight(f"{text}: a whole number of at most 18 digits")
    return int(text)


# What stands behind each option, and what the option is where it isn't given.
OPTIONS = {
    "--single": {"action": "store_true"},
    "--pairs": {"action": "store_true"},
    "--kinds": {"type": kinds_of},
    "--values": {"type": values_of},
    "--from": {"type": frames_of, "default": [0], "dest": "moments"},
    "--limit": {"type": positive},
    "--keep": {"action": "store_true"},
    "--random": {"type": positive},
    "--number": {"type": whole},
    "--require": {},
    "--out": {"default": "sweep"},
    "--overwrite": {"action": "store_true"},
    "--batch": {"type": positive},
    "--jobs": {},
    "--sshlogin": {"action": "append", "default": []},
    "--slurm": {"action": "store_true"},
    "--program": {"default": where.program()},
    "--resume": {"action": "store_true"},
    "--replay": {"type": positive},
    "--reduce": {"type": positive},
    "--compare": {"nargs": 2},
    "--json": {},
    "--junit": {},
}


def parser_of():
    import argparse  # which words do without that are right

    class Words(argparse.ArgumentParser):
        """The command line; what it doesn't know gets the usage."""

        def format_help(self):
            return as_called(__doc__.lstrip())

        def error(self, message):
            usage = __doc__[__doc__.index("usage:") :].split("\n\n", 1)[0]
            print(f"{as_called(usage)}\nsweep: {message}", file=sys.stderr)
            sys.exit(2)

    def told(read):
        """Reads a value as argparse is told of one that isn't right."""

        def reading(text):
            try:
                return read(text)
            except NotRight as why:
                raise argparse.ArgumentTypeError(str(why)) from None

        return reading

    parser = Words(allow_abbrev=False)
    parser.add_argument("mission", nargs="?")
    for name, how in OPTIONS.items():
        parser.add_argument(name, **{**how, "type": told(how["type"])} if "type" in how else how)
    return parser


def options_of(words):
    words = joined(words)
    options = plain_options(words) or parser_of().parse_args(words)
    options.document = None  # the bytes of the mission, where it isn't in a file
    fault = next(faults_in(options), None)
    if fault:
        parser_of().error(fault)
    options.number = options.number or 0
    return options


def plain_options(words):
    """The options of plain words, which are most of them, sooner than by argparse: each option stands alone, and its value behind it.
    None where argparse is to tell what the words are, or what is wrong with them."""
    dests = {name: how.get("dest", name[2:]) for name, how in OPTIONS.items()}
    found = {dests[name]: how.get("default", False if how.get("action") == "store_true" else None) for name, how in OPTIONS.items()}
    found["mission"] = None
    words = iter(words)
    for word in words:
        how = OPTIONS.get(word)
        if how is None and (word.startswith("-") or found["mission"] is not None):
            return None
        if how is None:
            found["mission"] = word
        elif how.get("action") == "store_true":
            found[dests[word]] = True
        else:
            value = next(words, "-")
            if value.startswith("-") or "action" in how or "nargs" in how:
                return None
            try:
                found[dests[word]] = how.get("type", str)(value)
            except NotRight:
                return None
    return SimpleNamespace(**found)


def joined(words):
    """The same words, with the values of --values in one with it: the first of them may have a minus, as an option has."""
    words = list(words)
    while "--values" in words[:-1]:
        place = words.index("--values")
        words[place : place + 2] = [f"--values={words[place + 1]}"]
    return words


def faults_in(options):
    """Which words don't go together."""
    of_a_row = options.replay is not None or options.reduce is not None or options.compare is not None
    if (options.mission is None) != (options.resume or of_a_row):
        yield "a campaign needs a mission; --resume and --replay have it from the folder"
    if options.overwrite and options.mission is None:
        yield "--overwrite goes with a mission: --resume and --replay keep what the folder has"
    if options.mission is None and (options.keep or options.require or options.values or options.random):
        yield "what is flown is chosen where a campaign begins: --resume, --replay and --reduce have it from the folder"
    if options.random and (options.single or options.pairs or options.values or options.limit or options.moments != [0]):
        yield "--random draws units, moments and words: --single, --pairs, --values, --from and --limit choose them"
    if options.number is not None and not options.random:
        yield "--number goes with --random"
    if options.slurm and options.sshlogin:
        yield "--slurm and --sshlogin are two ways to other machines"
    if options.slurm and options.jobs and not (options.jobs.isdecimal() and int(options.jobs)):
        yield f"argument --jobs: {options.jobs}: with --slurm a whole number from 1 on"
    unknown = sorted({*(options.kinds or ())} - {*ALL_KINDS, STORM})
    if unknown:
        yield f"argument --kinds: {unknown[0]}: the kinds are {', '.join(ALL_KINDS)}"
    if not options.random and STORM in (options.kinds or ()):
        yield f"argument --kinds: {STORM}: it goes with --random"
    yield from faults_in_values(options)


def faults_in_values(options):
    """Which values no kind can have."""
    taking = [kind for kind in options.kinds or KINDS if kind in VALUES]
    if options.values and not taking:
        yield f"--values goes with {', '.join(VALUES)}"
    for kind in taking if options.values else ():
        _, low, high = VALUES[kind]
        wrong = next((value for value in options.values if not low <= value <= high), None)
        if wrong is not None:
            yield f"argument --values: {wrong}: {kind} takes {low} to {high}"


def early(options, undo):
    """The folder of the kit and GNU parallel, where it can start at once: it takes as long as the reading of the mission.

    It can't where it would find nothing to fly, or another campaign's log, or has the whole kit to copy, or draws its bar; and it
    needn't where the library flies.
    """
    begins = options.mission is not None and can_fly(options.program) and not kit_of(options.out)
    logged = os.path.exists(os.path.join(options.out, "jobs.log"))
    others = options.sshlogin or options.slurm or library_of(options.program)
    if not begins or logged or others or sys.stderr.isatty() or not where.command("parallel"):
        return None, None
    from sift.campaigns.engine import Engine  # subprocess, which the library does without

    kit = new_kit(options.out, undo)
    engine = Engine(kit, options.jobs, options.sshlogin)
    undo.callback(engine.end)
    return kit, engine


def main(words):
    """The exit status."""
    options = options_of(words)
    gc.disable()  # nothing that is read of a mission or of rows refers to itself
    try:
        # What is made for a campaign that doesn't begin is taken away.
        with contextlib.ExitStack() as undo:
            kit, engine = early(options, undo)
            from sift.campaigns.sweeping import sweep  # while GNU parallel starts

            return sweep(options, kit, engine, undo)
    except KeyboardInterrupt:
        print("sweep: ended; --resume goes on", file=sys.stderr, flush=True)
        return 130


def entry():
    """Ends with the tool's status, for the words that it was called with."""
    os._exit(run("sweep", main, sys.argv[1:], unread=125, unwritten=9))  # at once: what was read is many things to let go


if __name__ == "__main__":
    entry()
