"""Faults that are drawn from a number: units, moments, slots, words, hearers, one or several, storms too.

    from sift.random_faults import Drawn, schedule_of

    drawn = Drawn(schedule_of(document), runs=1000, number=7)
    drawn[41]                    # the faults of run 42: a tuple, which may be empty where rates are given
    drawn.schedule.tables_of(drawn[41])   # the same as the tables [[fault]] of a document

or, for a document and one draw, `draw(document, number)`.

The same number gives the same faults, with every Python: of Python's generator only `random()` is used, whose sequence is kept from
version to version. A run's faults come from the number and the run's own number alone, so any of them can be drawn by itself.
"""
import math
import random
from collections.abc import Sequence

from sift.campaigns.faults import ALL, CELLS, Fault, Schedule
from sift.campaigns.ways import MOST_ITEMS, VALUES, is_made
from sift.documents.slots import ALL_KINDS, HAPPENING

KINDS = (*ALL_KINDS, "storm")
MOST_STRAYS = 100_000
MORE = 0.5  # the chance that one more unit goes wrong, or that a unit says one more slot wrong
DEAD = 0.25  # the chance that a unit that is silent is so in all slots that it says
ALL_HEAR = 0.5  # the chance that all hear the same
LASTS = 0.5  # the chance that a fault lasts to the end


class Draws:
    """What is drawn of one generator."""

    def __init__(self, number, run):
        self.generator = random.Random(f"{number}/{run}")

    def chance(self, share):
        return self.generator.random() < share

    def below(self, count):
        """One of the numbers below a count."""
        return int(self.generator.random() * count)

    def one_of(self, things):
        return things[self.below(len(things))]

    def some_of(self, things, count):
        """So many of some things, in their order."""
        left, taken = list(things), []
        for _ in range(min(count, len(left))):
            taken.append(left.pop(self.below(len(left))))
        return [thing for thing in things if thing in taken]

    def more(self, most):
        """A count from 1 on: one more each time that the chance is met, and at most so many."""
        count = 1
        while count < most and self.chance(MORE):
            count += 1
        return count

    def frame(self, rate):
        """The frame in which a unit goes wrong that does so by a rate a frame: the floor of an exponential time."""
        return math.floor(-math.log(1 - self.generator.random()) / rate) if rate > 0 else math.inf


class Drawn(Sequence):
    """The faults of so many runs, drawn from a number.

    Without a `rate` in each run one unit goes wrong, or with a half's chance one more each time, as long as one works; the moment
    is any frame. With a rate each unit goes wrong by itself, with that many failures a frame, and many runs may be without a fault.
    `kinds` are those that are drawn, each as often; `transient` is the chance that a fault ends, where it isn't the half.
    """

    def __init__(self, schedule, runs, number, kinds=KINDS, rate=None, transient=1 - LASTS, left_out=()):
        self.schedule = schedule
        self.runs, self.number = runs, number
        self.kinds, self.rate, self.transient = tuple(kinds), rate, transient
        self.units = [unit for unit in schedule.units if unit not in left_out]
        self.most = min(len(self.units), len(schedule.units) - len(left_out) - 1)  # units that may go wrong: one works
        self.frames = len(schedule.ideal)
        self.slots = {unit: schedule.slots_of(unit) for unit in self.units}

    def __len__(self):
        return self.runs

    def __getitem__(self, run):
        """The faults of a run, which is numbered from 0."""
        if not 0 <= run < self.runs:
            raise IndexError(run)
        draws = Draws(self.number, run + 1)
        return tuple(fault for unit, begin in self.failures(draws) for fault in self.faults_of(draws, unit, begin))

    def failures(self, draws):
        """The units that go wrong, each with its first frame."""
        if self.rate is None:
            units = draws.some_of(self.units, draws.more(self.most))
            return [(unit, draws.below(self.frames)) for unit in units]
        moments = [(draws.frame(self.rate), unit) for unit in self.units]
        early = sorted((begin, unit) for begin, unit in moments if begin < self.frames)
        return sorted((unit, begin) for begin, unit in early[: self.most])

    def faults_of(self, draws, unit, begin):
        """How a unit goes wrong from a frame on: stray, or by what it says in some slots."""
        kind = draws.one_of(self.kinds)
        if kind == "storm":
            strays, number = draws.below(MOST_STRAYS + 1), draws.below(1 << 53)
            return [Fault(unit, CELLS, kind, begin, strays, number=number)]
        slots = [slot for slot in self.slots[unit] if is_made(slot, kind)]
        if not slots:
            kind, slots = "silence", self.slots[unit]
        frames = 1 + draws.below(self.frames - begin) if draws.chance(self.transient) else None
        if kind == "silence" and draws.chance(DEAD) and len(slots) <= MOST_ITEMS:
            return [self.schedule.lasting(Fault(unit, ALL, kind, begin, None, tuple(self.schedule.hearers(unit, ALL)), frames))]
        all_hear = draws.chance(ALL_HEAR)
        chosen = draws.some_of(slots, draws.more(min(len(slots), MOST_ITEMS // 2)))
        room = MOST_ITEMS // len(chosen)  # items of each, so that all of them fit
        if frames is None and kind in HAPPENING and len(chosen) > 1:
            frames = self.frames - begin
        return [self.fault(draws, unit, slot, kind, begin, frames, room, all_hear) for slot in chosen]

    def fault(self, draws, unit, slot, kind, begin, frames, room, all_hear):
        """What a unit says in a slot, to whom, and how long."""
        hearers = self.schedule.hearers(unit, slot)
        least = 2 if kind == "two-faces" else 1
        to = hearers if all_hear else draws.some_of(hearers, least + draws.below(len(hearers) + 1 - least))
        if frames is not None:
            frames = min(frames, room // 2 if kind == "two-faces" else 2 * room if kind == "intermittent" else room)
        return self.schedule.lasting(Fault(unit, slot, kind, begin, self.value(draws, kind), tuple(to), frames))

    @staticmethod
    def value(draws, kind):
        """A value of a kind, where it has one."""
        if kind not in VALUES:
            return None
        _, low, high = VALUES[kind]
        # Half of the numbers that are added are small, as those of a sensor that ages.
        if kind in ("offset", "drift"):
            low, high = (-16, 16) if draws.chance(0.5) else (-32768, 32767)
            return low + draws.below(high - low + 1) or 1  # to add nothing is no fault
        return low + draws.below(high - low + 1)


def schedule_of(document):
    """The schedule of a document, which is its text, its bytes, a path or a Mission, with the words that the program gives for
    `ideal`. The document's own faults play no part in it."""
    from sift.campaigns.faults import outline_of
    from sift.commands import asked, bytes_of
    from sift.reports.reading import read_ideal
    from sift.rules.loading import load

    raw = bytes_of(document)
    return Schedule(outline_of(load(raw)[2]), read_ideal(asked(["ideal"], raw)))


def draw(document, number, run=1, **chosen):
    """The faults that are drawn for a run of a document, as tables [[fault]]; the choices are those of `Drawn`."""
    drawn = Drawn(schedule_of(document), run, number, **chosen)
    return drawn.schedule.tables_of(drawn[run - 1])
