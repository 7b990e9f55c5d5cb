"""The rows of runs.tsv: what came of each run, as it is written, and as it is read back."""
import math
from collections import Counter
from functools import lru_cache

from sift.campaigns.faults import told_of
from sift.campaigns.outcomes import Trace
from sift.campaigns.promised import contradictions
from sift.reports.reading import set_of

COLUMNS = ("row", "fault", "said", "caught", "by", "out", "margin", "wrong", "first", "words", "judge", "last", "promised")
BEFORE = COLUMNS[:-1]  # those of a campaign that an earlier tool began
CONTRADICTED = "!"  # behind what is promised, where the run shows something else
NO_FAULT = "none"  # what a row tells of a run without a fault, as some of those that are drawn by a rate are
# What can become of a unit that goes wrong, and of a run, from the mildest to the worst.
FATES = ("inert", "out", "caught by one", "never caught", "margin lost")


def cell(value):
    """A value in a row, where none is a -."""
    return "-" if value is None else str(value)


told_as = lru_cache(maxsize=4096)(str)  # a fault comes in many pairs


@lru_cache(maxsize=4096)
def cells_of(traces):
    """What a row tells of the traces of its faults."""
    told = (
        ["said" if trace.said else "inert" for trace in traces],
        [cell(trace.caught) for trace in traces],
        [set_of(trace.by) for trace in traces],
        [cell(trace.out) for trace in traces],
    )
    return tuple(["+".join(parts) or "-" for parts in told])


def row_of(number, faults, outcome, verdict, promises, findings=()):
    """The row of a run. What is told of several faults stands side by side, with a + between."""
    traces = outcome.traces
    cells = (
        str(number),
        " + ".join(map(told_as, faults)) or NO_FAULT,
        *cells_of(traces),
        "ok" if outcome.margin else "lost",
        str(outcome.wrong),
        cell(outcome.first),
        ",".join(outcome.words) or "-",
        verdict,
        outcome.last,
        ("+".join(map(str, promises)) or "-") + (CONTRADICTED if any(contradictions(promises, traces)) else ""),
        *map(str, findings),
    )
    return "\t".join(cells)


class NoRows(Exception):
    """Why a text is no table of runs."""


@lru_cache(maxsize=4096)  # most runs show what others showed
def shown_in(said, caught, by, out):
    """What a row tells that its run showed of the faults, and what became of their units."""
    traces = tuple([trace_in(*parts) for parts in zip(said.split("+"), caught.split("+"), by.split("+"), out.split("+"))])
    return traces, tuple(map(fate_of, traces))


def trace_in(said, caught, by, out):
    """What a run showed of a fault."""
    caught, out = (None if frame == "-" else int(frame) for frame in (caught, out))
    return Trace(said != "inert", caught, tuple(int(unit) for unit in by if unit != "-"), out)


def fate_of(trace):
    """What became of a faulty unit."""
    if not trace.said:
        return "inert"
    if trace.out is not None:
        return "out"
    return "never caught" if trace.caught is None else "caught by one"


@lru_cache(maxsize=4096)
def promised_in(told, count):
    """What is promised of so many faults, of each in words or None, and whether the run contradicts it."""
    parts = told.rstrip(CONTRADICTED).split("+") if count else []
    promised = [None if promise == "-" else promise for promise in parts]
    return tuple(promised + [None] * (count - len(promised))), told.endswith(CONTRADICTED)


class Row:
    """A row that was read back. Behind the columns of all tables stand those of what is required."""

    def __init__(self, line):
        self.cells = line.split("\t")
        number, fault, *shown, margin, wrong, first, _, self.judge, _ = self.cells[: len(BEFORE)]
        self.number = int(number)
        self.faults = [] if fault == NO_FAULT else [told_of(each) for each in fault.split(" + ")]
        if None in self.faults:
            raise ValueError(fault)
        self.drawn = all([fault.drawn for fault in self.faults])  # so that each run is one of many like it
        self.lost = {"ok": False, "lost": True}[margin]
        self.wrong = int(wrong)
        self.first = None if first == "-" else int(first)
        self.findings = self.cells[len(COLUMNS) :]
        self.traces, self.fates = shown_in(*shown) if self.faults else ((), ())
        # Of each fault what is promised of it, or None; and whether the run contradicts it.
        self.promised, self.contradicted = promised_in(self.cells[len(BEFORE)] if self.cells[len(BEFORE) :] else "-", len(self.faults))

    @property
    def removals(self):
        """Of each fault how many frames it took until its unit was out, or None."""
        return [None if trace.out is None else max(0, trace.out - fault.begin) for trace, fault in zip(self.traces, self.faults)]

    @property
    def name(self):
        """The run's fault, by which two campaigns know it."""
        return self.cells[1]

    @property
    def units(self):
        """The units that go wrong."""
        return {fault.unit for fault in self.faults}

    @property
    def broken(self):
        """Of each requirement whether it is broken."""
        return [finding.startswith("broken ") for finding in self.findings]

    @property
    def harmed(self):
        """Whether an output was lost: where something is required of outputs, that is broken; else a word is another one."""
        return any(self.broken) if self.findings else self.wrong > 0

    @property
    def fate(self):
        """What became of the run: of its faults the worst, and where the margin is lost, that."""
        return "margin lost" if self.lost else max(self.fates, key=FATES.index, default=FATES[0])

    @property
    def lasting(self):
        """The most frames that a fault that was said took until its unit was out: without an end where it stays."""
        return max(map(self.lasting_at, range(len(self.faults))), default=0)

    def lasting_at(self, place):
        """The same of one of its faults: 0 where it is inert."""
        if self.fates[place] == "inert":
            return 0
        return math.inf if self.removals[place] is None else self.removals[place]

    def badness(self):
        """What the worst rows have the greatest of: a lost output, what became of it, how long it lasts, and wrong words."""
        return self.harmed, FATES.index(self.fate), self.lasting, self.wrong

    def is_failure(self):
        """Whether one unit alone lost the margin or an output, the judge didn't take the report, or the run isn't as promised."""
        return self.is_misjudged() or self.contradicted or len(self.units) == 1 and (self.lost or self.harmed)

    def is_misjudged(self):
        return self.judge not in ("yes", "-")


def read_rows(lines):
    """The names of what is required, and then the rows of a table, one by one."""
    lines = iter(lines)
    names = next(lines, "").rstrip("\n").split("\t")
    if tuple(names) != BEFORE and tuple(names[: len(COLUMNS)]) != COLUMNS:
        raise NoRows("line 1: the names of the columns are due")
    yield names[len(COLUMNS) :]
    for number, line in enumerate(lines, 2):
        try:
            row = Row(line.rstrip("\n"))
        except (KeyError, TypeError, ValueError):
            raise NoRows(f"line {number}: it isn't a run's") from None
        if len(row.cells) != len(names):
            raise NoRows(f"line {number}: it has {len(row.cells)} columns, and {len(names)} are named")
        yield row


def rows_of(text):
    """The rows of a table of runs."""
    return list(read_rows(text.splitlines()))[1:]


PROMISED = {"out": "to be out in the next frame", "caught": "to be caught by one unit", "never": "to be caught by nobody"}


def promised_line(rows):
    """What is promised of the faults of rows, in words, or None where nothing is."""
    return promised_of([promise for row in rows for promise in row.promised if promise])


def promised_of(promises):
    """The same of promises, or of how many of each sort there are."""
    sorts = Counter(short(promise) for promise in promises) if isinstance(promises, list) else promises
    parts = [f"{sorts[sort]:,} {what}" for sort, what in PROMISED.items() if sorts[sort]]
    return f"promised: {', '.join(parts)}; all else was only seen" if parts else None


def short(promise):
    """A promise without its frame."""
    return promise and promise.split(" ")[0]


def counted(number, one, many):
    """A number of things."""
    return f"{number:,} {one if number == 1 else many}"
