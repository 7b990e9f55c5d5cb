"""A Markov chain in continuous time over the size of the configuration and the fault that is latent in it.

Its states, for each size n from the one at the start down to 4:

    well        n units are in the configuration, and all of them work
    out, i      one of them is faulty; i phases are left until it is out, and n - 1 are in the configuration
    well, i     one of them is faulty; i phases are left until it has recovered
    stays       one of them is faulty and stays: nobody catches it, or one unit alone

and the states in which the promise has ended: a second unit failed in one of the last three (`second fault`, told apart by
which of the three it was), a unit failed among four (`fewer than four`), or an output was lost (`output lost`).

A frame is some phases of exponential length: a time of k frames has the mean that it ought to have, and a variance that is the
smaller the more phases there are. Units that are out after several frames go the same last phases as those that are out after one.
"""
import math
from dataclasses import dataclass
from functools import cached_property
from typing import Iterator, Mapping, Optional, Sequence

import numpy as np

from sift.odds.exponential import exponential, relative_error
from sift.odds.ways import KINDS, Fate, Way, Ways, fate_of

FEWEST = 4  # working units that the promise wants
SECONDS_OF_AN_HOUR = 3600.0
SECOND, FEWER, OUTPUT = DEATHS = ("second fault", "fewer than four", "output lost")
SPREAD = 1e-5  # the share of a result by which phases in place of fixed times may change it
MOST_PHASES = 8  # of a frame


@dataclass(frozen=True)
class Rates:
    """How often a unit fails in an hour, for ever and for a while, and how long a frame and a transient failure last.

    `begun` is how many frames are counted for the one in whose middle the unit fails: 1 is careful; -0.5 is the mean where a
    failure counts from the beginning of its frame, as a scripted one does. `phases` is how many a frame has; where it isn't
    given, as many as it takes.
    """

    permanent: float
    transient: float
    frame: float  # seconds
    lasts: int = 1  # frames
    begun: float = 1
    phases: Optional[int] = None

    def __post_init__(self) -> None:
        for name in KINDS:
            rate = getattr(self, name)
            if not (math.isfinite(rate) and rate >= 0):
                raise ValueError(f"the {name} rate {rate}: a rate is a number of failures an hour from 0 on")
        if not (math.isfinite(self.frame) and self.frame > 0):
            raise ValueError(f"a frame of {self.frame} s: a frame has a number of seconds above 0")
        if self.lasts < 1 or self.begun < -1 or (self.phases is not None and self.phases < 1):
            raise ValueError("a transient failure lasts a frame or more, and a frame has a phase or more")

    @property
    def failing(self) -> float:
        """How often a unit fails in an hour, in either kind."""
        return self.permanent + self.transient

    @property
    def kinds(self) -> tuple[tuple[float, Optional[int]], ...]:
        """Of each of KINDS how often, and how many frames such a failure lasts, None for ever."""
        return (self.permanent, None), (self.transient, self.lasts)

    def hours(self, frames: int) -> float:
        """The hours from a failure until so many frames behind the one that it fell in are over."""
        return (frames + self.begun) * self.frame / SECONDS_OF_AN_HOUR


@dataclass(frozen=True)
class Cause:
    """A way of failing for one kind of failure: how often, over all units of the configuration, and what becomes of it."""

    way: Way
    kind: str
    rate: float  # an hour
    fate: Fate


def causes_of(rates: Rates, size: int, ways: Sequence[Way]) -> list[Cause]:
    """What happens in a configuration of this size in which all work, each unit failing alike."""
    units = len({way.unit for way in ways})
    return [
        Cause(way, kind, size * rate * way.share / units, fate_of(way, lasts))
        for kind, (rate, lasts) in zip(KINDS, rates.kinds)
        if rate > 0
        for way in ways
    ]


def as_ways(ways: Sequence[Way]) -> Ways:
    """The same ways, with what they keep where they are such already."""
    return ways if isinstance(ways, Ways) else Ways(ways)


class Chain:
    """The chain of a mission: of each size the ways of failing, and the rates."""

    def __init__(self, rates: Rates, start: int, ways: Mapping[int, Sequence[Way]]):
        if start < FEWEST:
            raise ValueError(f"{start} units: the promise wants {FEWEST} at least")
        self.rates, self.start = rates, start
        self.ways: dict[int, Ways] = {size: as_ways(ways[size]) for size in range(FEWEST, start + 1)}
        # How likely a second failure is before the longest recovery is over: of that size is what a spread of its time changes.
        overlap = start * rates.failing * rates.hours(max(map(self.longest, self.ways)))
        self.phases = rates.phases or min(MOST_PHASES, max(1, math.ceil(overlap / SPREAD)))
        self.spread = overlap / self.phases
        self.speed = self.phases * SECONDS_OF_AN_HOUR / rates.frame  # phases an hour
        self.names: list[tuple] = []
        self.moves: dict[tuple[tuple, tuple], float] = {}
        for size in range(start, FEWEST - 1, -1):
            self.add_size(size)

    @cached_property
    def causes(self) -> dict[int, list[Cause]]:
        """Of each size what happens in a configuration in which all work."""
        return {size: causes_of(self.rates, size, ways) for size, ways in self.ways.items()}

    def fates(self, size: int) -> Iterator[tuple[Fate, float]]:
        """What becomes of failures in a configuration in which all work, and how often in an hour."""
        for rate, lasts in self.rates.kinds:
            for fate, share in self.ways[size].fates(lasts).items() if rate > 0 else ():
                yield fate, size * rate * share

    def longest(self, size: int) -> int:
        """The most frames that a unit takes until it is out or well."""
        return max((fate.out_after or fate.well_after or 0 for fate, _ in self.fates(size)), default=0)

    def add_size(self, size: int) -> None:
        """The moves of a configuration of this size in which all work."""
        well = ("well", size)
        if size == FEWEST:
            self.move(well, (FEWER, size), size * self.rates.failing)
            return
        for fate, rate in self.fates(size):
            self.move(well, self.latent_after(size, fate), rate)

    def latent_after(self, size: int, fate: Fate) -> tuple:
        """The state behind a failure, with its own moves."""
        if fate.lost:
            return OUTPUT, size
        if fate.out_after is not None:
            return self.waiting("out", size, fate.out_after, ("well", size - 1))
        if fate.well_after is not None:
            return self.waiting("recovers", size, fate.well_after, ("well", size))
        stays = ("stays", size, 0)
        self.moves[stays, (SECOND, size, "stays")] = (size - 1) * self.rates.failing
        return stays

    def phases_of(self, frames: int) -> int:
        """How many phases so many frames have, with what counts of the one in which the unit failed."""
        return round((frames + self.rates.begun) * self.phases)

    def waiting(self, what: str, size: int, frames: int, then: tuple) -> tuple:
        """A faulty unit that is out, or well, after so many frames, phase by phase."""
        count = self.phases_of(frames)
        for left in range(1, count + 1):
            state = (what, size, left)
            self.moves[state, then if left == 1 else (what, size, left - 1)] = self.speed
            self.moves[state, (SECOND, size, what)] = (size - 1) * self.rates.failing
        return (what, size, count) if count else then

    def move(self, one: tuple, other: tuple, rate: float) -> None:
        """One more way from a state to another."""
        self.moves[one, other] = self.moves.get((one, other), 0.0) + rate

    @cached_property
    def states(self) -> list[tuple]:
        """All states, the first one first."""
        found: dict[tuple, None] = {("well", self.start): None}
        for one, other in self.moves:
            found.setdefault(one)
            found.setdefault(other)
        for size in range(FEWEST, self.start + 1):
            found.setdefault(("well", size))
        return list(found)

    @cached_property
    def matrix(self) -> np.ndarray:
        """The rates from each state to each other, and how often each size was well and failed, which counts and takes nothing."""
        states = {state: place for place, state in enumerate(self.states)}
        sizes = range(FEWEST, self.start + 1)
        whole = len(states) + len(sizes)
        matrix = np.zeros((whole, whole))
        for (one, other), rate in self.moves.items():
            matrix[states[one], states[other]] += rate
            matrix[states[one], states[one]] -= rate
        for place, size in enumerate(sizes, len(states)):
            matrix[states["well", size], place] = 1.0
        return matrix

    def solve(self, hours: float) -> "Solution":
        """Where the chain is after so many hours."""
        if not (math.isfinite(hours) and hours >= 0):
            raise ValueError(f"hours {hours}: a number from 0 on")
        row = exponential(self.matrix, hours)[0]
        found = dict(zip(self.states, row))
        well = dict(zip(range(FEWEST, self.start + 1), row[len(self.states) :]))
        fastest = -self.matrix.diagonal().min(initial=0.0) * hours
        return Solution(self, hours, found, well, relative_error(fastest, len(row)) + self.spread)


@dataclass(frozen=True)
class Solution:
    """The probability of each state after some hours, the hours that each size was well for, and the relative error.

    The error is what rounding and phases in place of fixed times may change of each probability, as a share of it.
    """

    chain: Chain
    hours: float
    states: Mapping[tuple, float]
    well: Mapping[int, float]
    error: float

    def death(self, name: str) -> float:
        """The probability that the promise has ended in this way."""
        return math.fsum(value for state, value in self.states.items() if state[0] == name)

    @property
    def loss(self) -> float:
        """The probability that the promise has ended."""
        return math.fsum(map(self.death, DEATHS))
