"""What contributes to the end of the promise: which unit, slot and way, by which kind of failure."""
import math
from collections import defaultdict
from typing import NamedTuple, Optional

from sift.odds.chain import FEWER, OUTPUT, SECOND, Cause, Solution


class Contribution(NamedTuple):
    """A way of failing, or several together; how the promise ended by it; and the probability that it did.

    What isn't told apart is None: the way where ways of lying are put together, the unit where units are.
    """

    unit: Optional[int]
    slot: str
    way: Optional[str]
    kind: Optional[str]
    death: str
    probability: float

    def __str__(self) -> str:
        unit = None if self.unit is None else f"unit {self.unit}"
        kind = None if self.kind is None else f"({self.kind})"
        return " ".join(word for word in (unit, self.slot, self.way, kind) if word)


ANY = "any slot"  # what is said of the slot where each failure of one of four units ends the promise
LEVELS = ("slot", "unit", "way")


def overtaken(solution: Solution, size: int, frames: int) -> float:
    """The probability that a second unit fails before so many frames are over."""
    chain = solution.chain
    return -math.expm1(-chain.phases_of(frames) * math.log1p((size - 1) * chain.rates.failing / chain.speed))


def group_of(cause: Cause, size: int) -> tuple:
    """The end that a cause leads to, where it leads to one."""
    if cause.fate.lost:
        return OUTPUT, size
    if cause.fate.out_after is not None:
        return SECOND, size, "out"
    return (SECOND, size, "stays") if cause.fate.well_after is None else (SECOND, size, "recovers")


def at_level(level: str, cause: Cause) -> tuple:
    """What a cause counts to: its slot of any unit, that of its unit, or the way itself."""
    way = cause.way
    if level == "slot":
        return None, way.slot, None, None
    return (way.unit, way.slot, None, None) if level == "unit" else (way.unit, way.slot, way.way, cause.kind)


def contributions(solution: Solution, level: str = "way") -> list[Contribution]:
    """The parts of the loss, the largest first; together they are the loss.

    They are told by slot (of all units), by unit and slot, or by way: unit, slot, way of lying, and kind of failure. Where
    several lead to one end, it is shared by how often each comes and how likely a second failure overtakes it.
    """
    shares: dict[tuple, dict[tuple, float]] = defaultdict(lambda: defaultdict(float))
    for size, causes in solution.chain.causes.items():
        for cause in causes:
            group = group_of(cause, size)
            frames = cause.fate.out_after if cause.fate.out_after is not None else cause.fate.well_after
            weight = cause.rate if frames is None else cause.rate * overtaken(solution, size, frames)
            shares[group][at_level(level, cause)] += weight
    found: dict[tuple, float] = defaultdict(float)
    for state, probability in solution.states.items():
        if state[0] == FEWER:
            found[None, ANY, None, None, FEWER] += probability
        elif state[0] in (SECOND, OUTPUT):
            whole = math.fsum(shares[state].values())
            for key, weight in shares[state].items():
                found[(*key, state[0])] += probability * weight / whole if whole > 0 else 0.0
    rows = [Contribution._make((*key, probability)) for key, probability in found.items() if probability > 0]
    return sorted(rows, key=lambda row: (-row.probability, str(row)))
