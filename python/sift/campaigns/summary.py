"""The summary of a campaign: its rows in groups, the worst first. It is made row by row, and keeps none but the worst of each group."""
import math
from collections import Counter
from functools import lru_cache

from sift.campaigns.rows import counted, promised_of, short
from sift.campaigns.shares import told

MOST_GROUPS = 40  # lines of the summary
KINDS = ("a single fault", "a pair of faults", "drawn faults", "faults")


class Count:
    """How many rows of a kind there are, in how many an output was lost, the margin, and one or both."""

    def __init__(self):
        self.runs = self.outputs = self.margins = self.either = 0

    def add(self, row):
        self.runs += 1
        self.outputs += row.harmed
        self.margins += row.lost
        self.either += row.harmed or row.lost


class Counts:
    """What rows come to."""

    def __init__(self, required=()):
        self.required = required  # the names of what is required of outputs
        self.kinds = {}
        self.broken = [0] * len(required)
        self.promised = Counter()

    def add(self, row):
        kind = 2 if row.drawn else {1: 0, 2: 1}.get(len(row.faults), 3)
        self.kinds.setdefault(kind, Count()).add(row)
        for promise in row.promised:
            if promise:
                self.promised[short(promise)] += 1
        if self.broken:
            self.broken = [count + broken for count, broken in zip(self.broken, row.broken)]

    @property
    def runs(self):
        return sum(count.runs for count in self.kinds.values())

    @property
    def harm(self):
        """What it is called where outputs aren't as they must be."""
        return "a requirement was broken" if self.required else "an output was lost"

    def lines(self):
        """A line for each kind of runs, and one for each requirement."""
        for kind, count in sorted(self.kinds.items()):
            head = f"{counted(count.runs, 'run', 'runs')} with {KINDS[kind]}: {self.harm} in"
            if kind == 2:
                parts = [told(some, count.runs) for some in (count.outputs, count.margins, count.either)]
                yield f"{head} {parts[0]}; the margin was lost in {parts[1]}; one or both in {parts[2]}"
            else:
                yield f"{head} {count.outputs:,}, the margin in {count.margins:,}"
        for name, count in zip(self.required, self.broken):
            yield f"broken in {counted(count, 'run', 'runs')}: {name}"


@lru_cache(maxsize=4096)  # a fault comes in many pairs
def what_of(fault):
    """What was said wrong, and in which way; of relayed reports not whose they are."""
    return f"{'relay-report' if fault.slot.startswith('relay-report') else fault.slot} {fault.way}"


def drawn_what_of(faults):
    """The same of drawn faults, which are of so many sorts that those of several units are told by their number alone."""
    units = {fault.unit for fault in faults}
    if len(units) != 1:
        return f"{len(units)} units" if faults else "no fault"
    return f"{faults[0].slot.split(' ')[0] if len(faults) == 1 else 'several'} {faults[0].way}"


class Group:
    """Rows that are alike in what was said wrong, in which way, and what became of it: how many, of which units, and the worst."""

    def __init__(self, what):
        self.what = what
        self.runs, self.units = 0, set()
        self.worst, self.badness = None, None
        self.promised = set()  # what is promised of a row of them, in words

    def add(self, row):
        self.runs += 1
        self.units |= row.units
        self.promised.add(any(row.promised) if row.drawn else " + ".join([short(promise) or "-" for promise in row.promised]))
        badness = row.badness()
        if self.worst is None or (badness, -row.number) > (self.badness, -self.worst.number):
            self.worst, self.badness = row, badness

    def order(self):
        """Where it stands: the worst first, of equals the one that was flown first."""
        return [-part for part in self.badness], self.worst.number

    def promise(self):
        """What is promised of all of them, or of some. Of drawn ones no two are alike, and it is told whether anything is."""
        if len(self.promised) > 1 or self.promised == {True}:
            return "some"
        only = next(iter(self.promised))
        return "-" if only is False else only

    def line(self):
        worst = self.worst
        after = "-" if worst.fate == "inert" else "stays" if worst.lasting == math.inf else worst.lasting
        units = "".join(sorted(self.units))
        return f"{self.runs:>6}  {worst.fate:<17}  {self.promise():<11}  {worst.wrong:>11}  {after:>9}  {units:<8}  {worst.number:>5}  {self.what}"


class Summary:
    """The counts and the groups of rows, of which there are as many as ways to lie, and not as many as runs."""

    def __init__(self, required=()):
        self.counts = Counts(required)
        self.groups = {}
        self.failures = 0  # rows for which a campaign ends with status 1

    def add(self, row):
        self.counts.add(row)
        self.failures += row.is_failure()
        what = drawn_what_of(row.faults) if row.drawn else " + ".join(sorted(map(what_of, row.faults)))
        key = row.harmed, row.fate, what
        if key not in self.groups:
            self.groups[key] = Group(what)
        self.groups[key].add(row)

    def ordered(self):
        return sorted(self.groups.values(), key=Group.order)

    def worst(self):
        """The row that lost an output or the margin worst, or None."""
        rows = [group.worst for group in self.ordered()]
        return next((row for row in rows if row.harmed or row.lost), None)

    def lines(self):
        """The lines of the summary."""
        yield from self.counts.lines()
        promised = promised_of(self.counts.promised)
        if promised:
            yield promised
        yield ""
        yield "  runs  what became of it  promised     wrong words  out after  units     row  fault"
        groups = self.ordered()
        for group in groups[:MOST_GROUPS]:
            yield group.line()
        if len(groups) > MOST_GROUPS:
            yield f"and {len(groups) - MOST_GROUPS:,} groups more, which runs.tsv has"


def summary_of(rows):
    """The lines of the summary of rows of which nothing is required."""
    summary = Summary()
    for row in rows:
        summary.add(row)
    return summary.lines()
