"""Two campaigns compared, as before and after a mend: what got better and what got worse, run by run. Runs are one where their faults are.

Rows are read side by side, and none is kept but those that the other campaign hasn't had yet.
"""
import math
from collections import Counter
from itertools import zip_longest

from sift.campaigns.rows import counted

MOST_LISTED = 10_000  # lines of runs that got worse, and of those that got better
VERDICTS = ("worse", "better", "same", "before", "after")  # the last two: the run is in that campaign alone


def joined(before, after):
    """Pairs of the rows of two campaigns with the same faults; None where a campaign hasn't the run."""
    waiting = ({}, {})
    for pair in zip_longest(before, after):
        for side, row in enumerate(pair):
            if row is None:
                continue
            other = waiting[1 - side].pop(row.name, None)
            if other is None:
                waiting[side][row.name] = row
            else:
                yield (row, other) if side == 0 else (other, row)
    yield from ((row, None) for row in waiting[0].values())
    yield from ((None, row) for row in waiting[1].values())


def verdict_of(before, after):
    """What became of a run by the mend. One whose fault is inert is as good as none: its unit says nothing wrong."""
    there = [row is not None and row.fate != "inert" for row in (before, after)]
    if not all(there):
        return "same" if not any(there) else "before" if there[0] else "after"
    if before.badness() == after.badness():
        return "same"
    return "worse" if after.badness() > before.badness() else "better"


def told(row):
    """What came of a run, in a few words."""
    lasting = row.lasting
    out = "" if row.fate != "out" else f" after {lasting}" if lasting != math.inf else ""
    harm = ", a requirement broken" if row.findings and row.harmed else f", {counted(row.wrong, 'wrong word', 'wrong words')}" if row.wrong else ""
    return f"{row.fate}{out}{harm}"


class Comparison:
    """What two campaigns come to, side by side."""

    def __init__(self):
        self.counts = Counter()
        self.listed = {"worse": [], "better": []}

    def add(self, before, after):
        """One more run; what became of it."""
        verdict = verdict_of(before, after)
        self.counts[verdict] += 1
        if verdict in self.listed and len(self.listed[verdict]) < MOST_LISTED:
            self.listed[verdict].append((before.number, after.number, told(before), told(after), after.name))
        return verdict

    def headline(self):
        counts = self.counts
        both = counts["worse"] + counts["better"] + counts["same"]
        alone = [f"{counts[side]:,} {'is' if counts[side] == 1 else 'are'} {side} alone" for side in ("before", "after") if counts[side]]
        head = f"{counted(both, 'run', 'runs')} in both campaigns: {counts['worse']:,} got worse, {counts['better']:,} better, {counts['same']:,} stayed"
        return "; ".join([head, *alone])

    def lines(self):
        """The comparison in lines: what got worse comes first."""
        yield self.headline()
        for verdict, listed in self.listed.items():
            if not listed:
                continue
            yield ""
            yield f"{verdict}:"
            wide = [max(len(str(row[place])) for row in listed) for place in range(4)]
            for row in listed:
                yield "  " + "  ".join(str(cell).rjust(wide[place]) if place < 2 else str(cell).ljust(wide[place]) for place, cell in enumerate(row[:4])) + f"  {row[4]}"
            more = self.counts[verdict] - len(listed)
            if more:
                yield f"  and {more:,} more"


def compared(before, after, see=lambda verdict, before, after: None):
    """The comparison of the rows of two campaigns. Each run is shown to `see` as well."""
    comparison = Comparison()
    for pair in joined(before, after):
        see(comparison.add(*pair), *pair)
    return comparison
