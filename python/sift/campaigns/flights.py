"""Flies a batch of a campaign's runs, and writes their rows."""
import gc
import sys
from collections import deque
from itertools import chain, islice

from sift.campaigns.campaign import Campaign
from sift.campaigns.flyer import Flyer, NoFlight
from sift.campaigns.journal import append, entry, places_in
from sift.campaigns.outcomes import outcome_of
from sift.campaigns.promised import promises_of
from sift.campaigns.quick import read_quickly
from sift.campaigns.rows import row_of
from sift.reports.reading import NoReport, blanked_stretch_of, read_report

IN_A_ROW = 16  # runs whose documents are made, and whose reports are read, one behind the other: the next one goes faster


class NoRow(Exception):
    """Why a run has no row."""


class Run:
    """A run of a campaign: its document, and when it has flown its report and what the judge says of it."""

    def __init__(self, campaign, number):
        self.number = number
        self.faults = campaign.faults[number - 1]
        self.document = campaign.document(self.faults)
        self.flight = None
        self.report = b""
        self.verdict = "-"

    def begin(self, flyer):
        """Begins to fly."""
        try:
            self.flight = flyer.begin_flight(self.document)
        except OSError as fault:
            raise self.no_row(fault) from None

    def end(self, flyer, judged):
        """Waits for the report, and has it judged where that is wanted."""
        try:
            self.report = flyer.end_flight(self.flight)
            if judged:
                self.verdict = flyer.judge(self.document, self.report)
        except (NoFlight, OSError) as fault:
            raise self.no_row(fault) from None

    def read(self):
        """What the report tells, and its last line."""
        if self.verdict == "yes":
            flight = read_quickly(self.report)
            return flight, flight.end
        text = self.report.decode("ascii")
        return read_report(text, blanked_stretch_of), text.rstrip("\n").rsplit("\n", 1)[-1]

    def row(self, campaign, reader=None):
        """The row of the run, which has flown. The C reader, where there is one, finds nothing of what is required."""
        outcome = reader.outcome_of(self.faults, self.report) if reader and not campaign.required else None
        outcome, findings = (outcome, ()) if outcome else self.found(campaign)
        promises = promises_of(campaign.schedule, self.faults, campaign.own)
        return row_of(self.number, self.faults, outcome, self.verdict, promises, findings)

    def found(self, campaign):
        """What came of the run, and what is found of each requirement."""
        try:
            flight, last = self.read()
        except (NoReport, UnicodeDecodeError) as fault:
            raise self.no_row(fault) from None
        outcome = outcome_of(self.faults, flight, last, campaign.schedule)
        return outcome, [requirement.find(flight, campaign.schedule) for requirement in campaign.required]

    def no_row(self, fault):
        return NoRow(f"row {self.number}: {fault}")


def in_rows(things):
    """The same things, some at a time."""
    things = iter(things)
    while some := list(islice(things, IN_A_ROW)):
        yield some


def flown(runs, flyer, judged, more):
    """The runs, each when it has flown and was judged, while so many more fly."""
    flying = deque()
    for run in runs:
        run.begin(flyer)
        flying.append(run)
        if len(flying) > more:
            flying[0].end(flyer, judged)
            yield flying.popleft()
    for run in flying:
        run.end(flyer, judged)
        yield run


def flyer_of(campaign):
    """What flies a campaign's runs in this process: the library where the kit has it, else the program."""
    if not campaign.has_library():
        return Flyer(campaign.program)
    from sift.campaigns.library import LibraryFlyer  # ctypes, which jobs that start the program do without

    return LibraryFlyer(campaign.library)


def flyer_of_job(campaign):
    """The same for a process that does nothing but fly."""
    if campaign.has_library():
        from sift.campaigns.library import keep_memory

        keep_memory()
    return flyer_of(campaign)


def batches_text(campaign, flyer, batches, more=0):
    """What a job writes of some batches: the rows of each between a line that begins it and one that ends it; or NoRow. The time of
    all flights is told with the first of them."""
    numbers = [campaign.batch(batch) for batch in batches]
    runs = (run for some in in_rows(chain(*numbers)) for run in [Run(campaign, number) for number in some])
    reader = flyer.reader_of(campaign.schedule)
    before, rows = flyer.seconds, []
    for some in in_rows(flown(runs, flyer, campaign.options["judge"], more)):
        rows += [run.row(campaign, reader) for run in some]
    texts, left = [], iter(rows)
    for batch, own in zip(batches, numbers):
        texts.append(entry(batch, list(islice(left, len(own))), 0 if texts else flyer.seconds - before))
    return "".join(texts)


def batch_text(campaign, flyer, batch, more=0):
    """The same of one batch."""
    return batches_text(campaign, flyer, [batch], more)


def main(kit, batch, more=0):
    """The status of a job: a batch of the campaign of a kit, of which so many more runs fly while one is waited for."""
    gc.disable()  # nothing that is read of a report refers to itself, and what is kept of reports is bounded
    campaign = Campaign(kit)
    try:
        sys.stdout.write(batch_text(campaign, flyer_of_job(campaign), batch, more))
        sys.stdout.flush()
    except NoRow as fault:
        print(fault, file=sys.stderr)
        return 1
    return 0


def share(kit, batches, output, place, of):
    """The status of a job that flies each so many-th of the batches that a file lists, from a place on, and appends them to its own
    output. Those that it has there, as a job that is begun anew may, aren't flown again."""
    gc.disable()
    campaign = Campaign(kit)
    flyer, status = flyer_of_job(campaign), 0
    with open(batches, encoding="utf-8") as lines:
        wanted = [int(line) for line in lines][place::of]
    append(output, "\n")  # behind what may be cut off
    flown = places_in(output)
    for batch in wanted:
        try:
            if batch not in flown:
                append(output, batch_text(campaign, flyer, batch))
        except NoRow as fault:
            print(fault, file=sys.stderr, flush=True)
            status = 1
    return status
