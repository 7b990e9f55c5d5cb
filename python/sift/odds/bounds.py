"""White's bounds of the probability of a death state, path by path, as the program SURE has them.

They need of a time to reconfigure only its mean and its variance. R. W. Butler, The SURE Approach to Reliability Analysis, NASA
RP-1242 (1992; also IEEE Transactions on Reliability 41), after A. L. White, NASA CR-172494 (1984). A path is a row of steps of
three kinds:

    slow        the path takes an exponential transition, and so do all others that leave the state
    recovery    the path takes the fast transition, and a slow one may leave the path
    overtaken   the path takes a slow transition while a fast one is under way
"""
import math
from dataclasses import dataclass
from typing import Iterator, NamedTuple

import numpy as np

from sift.odds.chain import FEWEST, FEWER, OUTPUT, SECOND, Chain
from sift.odds.exponential import exponential

LEAST = 1e-7  # of what was found: a path that is less likely is counted whole, above, and not followed


class Slow(NamedTuple):
    """A slow step: the rate of the path, and of all that leaves the state."""

    taken: float
    leaving: float


class Fast(NamedTuple):
    """A state with a recovery under way: the mean and the variance of its time, and the rate of a second failure."""

    mean: float
    variance: float
    failing: float

    @property
    def square(self) -> float:
        return self.mean**2 + self.variance


@dataclass(frozen=True)
class Path:
    """Steps in no particular order, which the bounds don't ask for."""

    slow: tuple[Slow, ...] = ()
    recovered: tuple[Fast, ...] = ()
    overtaken: tuple[Fast, ...] = ()

    def with_slow(self, taken: float, leaving: float) -> "Path":
        return Path((*self.slow, Slow(taken, leaving)), self.recovered, self.overtaken)

    def recovering(self, fast: Fast) -> "Path":
        return Path(self.slow, (*self.recovered, fast), self.overtaken)

    def overtaking(self, fast: Fast) -> "Path":
        return Path(self.slow, self.recovered, (*self.overtaken, fast))


class Bounds(NamedTuple):
    """At least, and at most."""

    low: float
    high: float


def traversed(slow: tuple[Slow, ...], hours: float) -> float:
    """The probability that a row of slow steps is taken in these hours."""
    if hours <= 0:
        return 0.0
    if not slow:
        return 1.0
    row = np.zeros((len(slow) + 1, len(slow) + 1))
    for place, step in enumerate(slow):
        row[place, place], row[place, place + 1] = -step.leaving, step.taken
    return float(exponential(row, hours)[0, -1])


def bounds_of(path: Path, hours: float) -> Bounds:
    """White's bounds of the probability that the path is gone to its end in these hours."""
    high = traversed(path.slow, hours) * math.prod(step.failing * step.mean for step in path.overtaken)
    spent, low = 0.0, 1.0
    for step in path.recovered:
        if step.square > 0:
            part = (2 * hours * step.square) ** (1 / 3)
            spent += part
            low *= max(0.0, 1 - step.failing * step.mean - step.square / part**2)
    for step in path.overtaken:
        if step.mean > 0:
            part = math.sqrt(hours * step.square / step.mean)
            spent += part
            low *= step.failing * max(0.0, step.mean - step.failing * step.square / 2 - step.square / part)
    return Bounds(low * traversed(path.slow, hours - spent), high)


def exits_of(chain: Chain, size: int) -> dict[tuple, float]:
    """Where a failure leads from a configuration of this size in which all work: to an end, or to a latent fault, and how often."""
    found: dict[tuple, float] = {}
    for cause in chain.causes[size]:
        if size == FEWEST:
            key: tuple = (FEWER,)
        elif cause.fate.lost:
            key = (OUTPUT,)
        elif cause.fate.out_after is not None:
            key = ("out", cause.fate.out_after)
        elif cause.fate.well_after is not None:
            key = ("recovers", cause.fate.well_after)
        else:
            key = ("stays",)
        found[key] = found.get(key, 0.0) + cause.rate
    return found


def ends_of(chain: Chain, hours: float, least: float) -> Iterator[tuple[str, Bounds]]:
    """The ends of all paths with their bounds. What isn't followed counts to `pruned`."""
    exits = {size: exits_of(chain, size) for size in chain.causes}
    todo = [(chain.start, Path())]
    while todo:
        size, path = todo.pop()
        leaving = sum(exits[size].values())
        failing = (size - 1) * chain.rates.failing
        for (what, *frames), rate in exits[size].items():
            gone = path.with_slow(rate, leaving)
            likely = bounds_of(gone, hours)
            if what in (OUTPUT, FEWER):
                yield what, likely
            elif likely.high < least:
                yield "pruned", likely
            elif what == "stays":
                yield SECOND, bounds_of(gone.with_slow(failing, failing), hours)
            else:
                fast = Fast(chain.rates.hours(frames[0]), 0.0, failing)
                yield SECOND, bounds_of(gone.overtaking(fast), hours)
                todo.append((size - 1 if what == "out" else size, gone.recovering(fast)))


def white_bounds(chain: Chain, hours: float, loss: float) -> Bounds:
    """The bounds of the probability that the promise has ended, where it is about `loss`."""
    low = high = 0.0
    for what, bounds in ends_of(chain, hours, loss * LEAST):
        high += bounds.high
        if what != "pruned":
            low += bounds.low
    return Bounds(low, min(1.0, high))
