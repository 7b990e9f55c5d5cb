"""The odds against the simulator itself: missions fly with faults that are drawn by a high rate, and as many lose their margin as
the chain says."""
import random
from dataclasses import replace
from pathlib import Path

import pytest
from scipy.stats import binom

import sift
from sift import where
from sift.campaigns.faults import Faults
from sift.campaigns.rows import rows_of
from sift.documents.printing import faults_text
from sift.documents.slots import KINDS
from sift.odds import FEWER, SECOND, Chain, Rates, ways_of
from sift.random_faults import schedule_of

TOP = Path(where.TOP)
NAME, UNITS, FRAMES = "first_5_liar", 5, 60
RATE = 0.006  # failures of a unit in a frame
FLIGHTS = 40  # of each seed
SECONDS = 3600.0  # of a frame, so that an hour is one frame

needs_program = pytest.mark.skipif(not Path(where.program()).exists(), reason="no program is built to fly missions with")


def mission():
    """The mission without its fault, and with more frames."""
    changed = sift.Mission.read(TOP / "missions" / f"{NAME}.toml")
    changed.clear("fault")
    changed.frames = FRAMES
    return str(changed)


def measured():
    """The ways of failing that the stored campaign shows. Which outputs are lost doesn't matter to the margin."""
    rows = rows_of((TOP / "cases" / "sweeps" / f"{NAME}.tsv").read_text())
    return [replace(way, lost=None) for way in ways_of(rows, UNITS)]


class Flights:
    """Flights with faults that are drawn by the rate, each in one of the ways."""

    def __init__(self, ways):
        self.document = mission()
        self.schedule = schedule_of(self.document)
        single = Faults(self.schedule, KINDS, [0], True, False)
        self.faults = {str(fault).partition(" from ")[0]: fault for (fault,) in (single[number] for number in range(len(single)))}
        self.ways = [[way for way in ways if way.unit == unit] for unit in range(UNITS)]

    def drawn(self, chance):
        """A fault for each unit, at the moment at which it fails."""
        for own in self.ways:
            way = chance.choices(own, [way.share for way in own])[0]
            yield self.faults[way.name]._replace(begin=int(chance.expovariate(RATE)))

    def loses(self, chance):
        """Whether the margin is lost in one such flight. A document lets one unit work; by then the margin is long lost."""
        failures = sorted((fault for fault in self.drawn(chance) if fault.begin < FRAMES), key=lambda fault: fault.begin)
        tables = self.schedule.tables_of(failures[: UNITS - 1])
        report = sift.run(self.document + "\n" + faults_text(tables), workers=1)
        return report.text.rstrip().endswith("margin=lost")


@needs_program
def test_as_many_margins_are_lost_as_the_chain_says():
    ways = measured()
    rates = Rates(RATE, 0.0, SECONDS, begun=-0.5, phases=4)
    solution = Chain(rates, UNITS, {size: ways for size in (4, 5)}).solve(FRAMES)
    due = solution.death(SECOND) + solution.death(FEWER)
    assert 0.2 < due < 0.8
    flights, lost = Flights(ways), []
    for seed in range(10):
        chance = random.Random(seed)
        lost.append(sum(flights.loses(chance) for _ in range(FLIGHTS)))
        low, high = binom.interval(0.999, FLIGHTS, due)
        assert low <= lost[-1] <= high, f"seed {seed}: {lost[-1]} of {FLIGHTS} flights, and {due:.3f} of them are due"
    low, high = binom.interval(0.999, 10 * FLIGHTS, due)
    assert low <= sum(lost) <= high
