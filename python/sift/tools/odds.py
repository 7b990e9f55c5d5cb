"""Tells how likely a mission's promise ends within some hours, from a rate of failures and a campaign.

usage: tools/odds MISSION --permanent RATE [--transient RATE] [--lasts FRAMES] (--frame SECONDS | --tick SECONDS) --hours HOURS
                  [--runs [SIZE=]RUNS].. [--weight PATTERN=NUMBER].. [--units N] [--vary NAME=LIST].. [--by LEVEL]
                  [--causes N] [--plot FILE] [--json]

  --permanent RATE      failures of a unit in an hour, each for ever
  --transient RATE      the same of failures that end by themselves: 0 where it isn't given
  --lasts FRAMES        how many frames a transient failure lasts: 1 where it isn't given
  --frame SECONDS       how long a frame lasts; or with --tick how long a tick of the mission's clock does
  --hours HOURS         how long the mission flies
  --runs RUNS           what a campaign of single faults saw (runs.tsv of tools/sweep), for all sizes of the configuration; with
                        SIZE= before it for that size. Without it the mission is flown with each single fault, which takes a while
  --weight PATTERN=N    how much ways of failing count, as in '* silence=8' or 'unit 0 clock *=0.5'
  --units N             how many units are in the configuration at the start: the mission's where it isn't given
  --vary NAME=LIST      a row of a table for each value of permanent, transient, frame, hours or units, as in hours=1,10,100; of
                        several each with each
  --by LEVEL            contributions by slot, which is where it isn't given, by unit and slot, or by way of lying and kind of failure
  --causes N            how many contributions are told: 10 where it isn't given
  --plot FILE           a picture as SVG: over time, or over the values that vary
  --json                all of it as JSON

docs/odds.md derives the model, and says what is proved of it, what measured, and what assumed.
Status 0; 1 where the mission is refused, a table of runs can't be used, or the numbers are past what floats can tell; 2 for
other words; 9 where something can't be written.
"""
import argparse
import json
import math
import os
import subprocess
import sys
import tempfile

from sift import where
from sift.campaigns.rows import NoRows, rows_of
from sift.files import as_called, run
from sift.odds import DEATHS, FEWEST, LEVELS, NoWays, Rates, contributions, ways_of, white_bounds
from sift.odds.picture import POINTS, over_time, over_values
from sift.odds.study import VARIED, Setting, settings_of
from sift.rules.loading import Refused, load, refusal

PROVED = "while the promise holds, outputs are right and no working unit is removed (clause `headline`)"
ASSUMED = (
    "units fail independently of each other, each at the same rate, at any moment",
    "a failure is one of the ways that the campaign flew; each slot of a unit counts alike, and each way of lying in it",
    "a failure in the middle of a frame costs that whole frame",
    "a unit that is out of the configuration does no harm any more",
)


class NoOdds(Exception):
    """Why there are none."""


class Words(argparse.ArgumentParser):
    """The command line; what it doesn't know gets the usage."""

    def format_help(self):
        return as_called(__doc__)

    def error(self, message):
        usage = __doc__[__doc__.index("usage:") :].split("\n\n", 1)[0]
        print(f"{as_called(usage)}\nodds: {message}", file=sys.stderr)
        sys.exit(2)


def number(text):
    """A number that is one: neither an infinity nor past what a float holds."""
    try:
        value = float(text)
    except ValueError:
        raise argparse.ArgumentTypeError(f"{text}: a number") from None
    if not math.isfinite(value) or value < 0:
        raise argparse.ArgumentTypeError(f"{text}: a number from 0 on that a float holds")
    return value


def whole(text):
    if not text.isdecimal() or len(text) > 9 or int(text) == 0:
        raise argparse.ArgumentTypeError(f"{text}: a whole number from 1 on")
    return int(text)


def runs_of(text):
    """A table of runs, with the size of the configuration that it is of, or None."""
    size, equals, name = text.partition("=")
    return (int(size), name) if equals and size in {"4", "5", "6", "7", "8"} else (None, text)


def weight_of(text):
    pattern, equals, value = text.rpartition("=")
    if not equals:
        raise argparse.ArgumentTypeError(f"{text}: a pattern, =, and a number")
    return pattern, number(value)


def values_of(text):
    name, equals, values = text.partition("=")
    if not equals or name not in VARIED:
        raise argparse.ArgumentTypeError(f"{text}: one of {', '.join(VARIED)}, =, and numbers with commas between")
    return name, [number(value) for value in values.split(",")]


def options_of(words):
    parser = Words(allow_abbrev=False)
    parser.add_argument("mission")
    parser.add_argument("--permanent", type=number, required=True)
    parser.add_argument("--transient", type=number, default=0.0)
    parser.add_argument("--lasts", type=whole, default=1)
    length = parser.add_mutually_exclusive_group(required=True)
    length.add_argument("--frame", type=number)
    length.add_argument("--tick", type=number)
    parser.add_argument("--hours", type=number, required=True)
    parser.add_argument("--runs", type=runs_of, action="append", default=[])
    parser.add_argument("--weight", type=weight_of, action="append", default=[], dest="weights")
    parser.add_argument("--units", type=whole)
    parser.add_argument("--vary", type=values_of, action="append", default=[])
    parser.add_argument("--by", choices=LEVELS, default=LEVELS[0])
    parser.add_argument("--causes", type=whole, default=10)
    parser.add_argument("--plot")
    parser.add_argument("--json", action="store_true")
    options = parser.parse_args(words)
    options.vary = dict(options.vary)
    return options


def mission_of(name):
    """The mission of a file."""
    with open(name, "rb") as source:
        raw = source.read()
    try:
        return load(raw)[2]
    except Refused as refused:
        raise NoOdds(refusal(name, refused)) from None


def flown(mission):
    """The text of the runs of a campaign that is flown now."""
    with tempfile.TemporaryDirectory(prefix="sift-odds-") as folder:
        sweep = [sys.executable, "-m", "sift.tools.sweep", mission, "--out", os.path.join(folder, "sweep")]
        path = os.pathsep.join([os.path.dirname(where.PACKAGE), *filter(None, [os.environ.get("PYTHONPATH")])])
        ran = subprocess.run(sweep, stdout=subprocess.DEVNULL, env={**os.environ, "PYTHONPATH": path}, check=False)
        if ran.returncode not in (0, 1):
            raise NoOdds("the campaign wasn't flown")
        with open(os.path.join(folder, "sweep", "runs.tsv"), encoding="utf-8") as rows:
            return rows.read()


def read(name):
    try:
        with open(name, encoding="utf-8") as rows:
            return rows.read()
    except UnicodeDecodeError:
        raise NoOdds(f"{name}: it isn't UTF-8") from None


class Ways:
    """Of each size of the configuration the ways of failing, and by how many runs they were seen."""

    def __init__(self, options, units):
        tables = {size: self.rows(name, read(name)) for size, name in options.runs}
        if not tables:
            tables[None] = self.rows("the campaign", flown(options.mission))
        sizes = [size for size in range(FEWEST, max(units, FEWEST) + 1) if size in tables or None in tables]
        self.runs = sum(map(len, tables.values()))
        self.shared = None in tables
        self.of_size = {size: self.ways(tables.get(size, tables.get(None)), units, options.weights) for size in sizes}

    @staticmethod
    def rows(name, text):
        try:
            return rows_of(text)
        except NoRows as why:
            raise NoOdds(f"{name}: {why}") from None

    @staticmethod
    def ways(rows, units, weights):
        try:
            return ways_of(rows, units, weights)
        except NoWays as why:
            raise NoOdds(str(why)) from None


def setting_of(options, mission):
    """What is asked."""
    frame = options.frame
    if frame is None:
        frame = options.tick * mission.integer("subframes") * (mission.clock("length") or 1)
    rates = Rates(options.permanent, options.transient, frame, options.lasts)
    return Setting(rates, options.units or mission.units, options.hours)


def assumptions(ways, setting):
    """What is taken for granted."""
    yield from ASSUMED
    if ways.shared and setting.units > FEWEST:
        yield "in smaller configurations units fail in the same ways"


def measured(ways):
    """What a campaign saw."""
    return f"how long each way of failing takes until its unit is out, and whether an output is lost: by {ways.runs:,} runs"


def told(setting, solution, bounds, ways, parts):
    """The odds in words."""
    rates = setting.rates
    yield f"{setting.units} units, frames of {rates.frame:g} s, {setting.hours:g} hours"
    frames = "frame" if rates.lasts == 1 else "frames"
    transient = f", {rates.transient:g} of {rates.lasts} {frames}" if rates.transient else ""
    yield f"failures of a unit in an hour: {rates.permanent:g} that last{transient}"
    yield ""
    yield f"the promise ends with a probability of {solution.loss:.5g}"
    yield f"  but for a share of {solution.error:.1g} of it; White's bounds are {bounds.low:.5g} and {bounds.high:.5g}"
    for death in DEATHS:
        yield f"  {solution.death(death):11.4g}  {death}"
    yield ""
    yield "what contributes most"
    for row in parts:
        share = 100 * row.probability / solution.loss if solution.loss else 0
        yield f"  {share:5.1f}%  {row}: {row.death}"
    yield ""
    yield f"proved    {PROVED}"
    yield f"measured  {measured(ways)}"
    for words in assumptions(ways, setting):
        yield f"assumed   {words}"


def data_of(setting, solution, bounds, ways, parts):
    """The same as values."""
    return {
        "units": setting.units,
        "hours": setting.hours,
        "frame_seconds": setting.rates.frame,
        "permanent": setting.rates.permanent,
        "transient": setting.rates.transient,
        "transient_frames": setting.rates.lasts,
        "loss": solution.loss,
        "relative_error": solution.error,
        "white_bounds": list(bounds),
        "deaths": {death: solution.death(death) for death in DEATHS},
        "contributions": [row._asdict() for row in parts],
        "proved": PROVED,
        "measured": measured(ways),
        "assumed": list(assumptions(ways, setting)),
    }


def one(options, setting, ways):
    """Tells the odds of one setting, and draws them over time."""
    solution = setting.solve(ways.of_size)
    bounds = white_bounds(solution.chain, setting.hours, solution.loss)
    parts = contributions(solution, options.by)[: options.causes]
    if options.json:
        print(json.dumps(data_of(setting, solution, bounds, ways, parts), indent=2))
    else:
        print(*told(setting, solution, bounds, ways, parts), sep="\n")
    if options.plot:
        hours = [setting.hours * 10 ** (3 * (place / (POINTS - 1) - 1)) for place in range(POINTS)]
        solutions = [setting.with_value("hours", each).solve(ways.of_size) for each in hours]
        with open(options.plot, "wb") as out:
            over_time(solutions, f"{options.mission}, {setting.units} units", out)


def many(options, setting, ways):
    """Tells the odds of all settings as a table, and draws them over the values of what was named last."""
    names = list(options.vary)
    solved = [(values, each.solve(ways.of_size)) for values, each in settings_of(setting, options.vary)]
    rows = [
        {**dict(zip(names, values)), "loss": solution.loss, **{death.replace(" ", "_"): solution.death(death) for death in DEATHS},
         "relative_error": solution.error}
        for values, solution in solved
    ]
    if options.json:
        print(json.dumps(rows, indent=2))
    else:
        print(*rows[0], sep="\t")
        for row in rows:
            print(*(f"{value:.6g}" for value in row.values()), sep="\t")
    if options.plot:
        *others, last = names
        lines = {}
        for values, solution in solved:
            lines.setdefault(values[:-1], []).append((values[-1], solution.loss))
        labelled = [
            (", ".join(f"{name} {value:g}" for name, value in zip(others, values)), *zip(*points)) for values, points in lines.items()
        ]
        with open(options.plot, "wb") as out:
            over_values(last, labelled, f"{options.mission}, {setting.hours:g} hours", out)


def main(words):
    options = options_of(words)
    try:
        mission = mission_of(options.mission)
        setting = setting_of(options, mission)
        ways = Ways(options, mission.units)
        (many if options.vary else one)(options, setting, ways)
    except (NoOdds, ValueError) as why:
        print(f"odds: {why}", file=sys.stderr)
        return 1
    return 0


def entry():
    sys.exit(run("odds", main, sys.argv[1:], 1, 9))


if __name__ == "__main__":
    entry()
