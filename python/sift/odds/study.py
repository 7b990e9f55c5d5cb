"""Solutions for many settings: what if the rates, the hours, the frame or the units were others?"""
from dataclasses import dataclass, replace
from itertools import product
from typing import Iterator, Mapping, Sequence

from sift.odds.chain import FEWEST, Chain, Rates, Solution
from sift.odds.ways import Way

VARIED = ("permanent", "transient", "frame", "hours", "units")


@dataclass(frozen=True)
class Setting:
    """The rates, how many units are in the configuration at the start, and for how many hours."""

    rates: Rates
    units: int
    hours: float

    def with_value(self, name: str, value: float) -> "Setting":
        """The same, but for one of VARIED."""
        if name == "hours":
            return replace(self, hours=value)
        if name == "units":
            if value != int(value):
                raise ValueError(f"units {value}: a whole number")
            return replace(self, units=int(value))
        return replace(self, rates=replace(self.rates, **{name: value}))

    def solve(self, ways: Mapping[int, Sequence[Way]]) -> Solution:
        """The solution, where these are the ways of failing of each size."""
        lacking = [size for size in range(FEWEST, self.units + 1) if size not in ways]
        if lacking:
            raise ValueError(f"units {self.units}: no campaign tells how units fail in a configuration of {lacking[-1]}")
        return Chain(self.rates, self.units, ways).solve(self.hours)


def settings_of(setting: Setting, varied: Mapping[str, Sequence[float]]) -> Iterator[tuple[tuple[float, ...], Setting]]:
    """Each choice of the values that vary, with its setting; the last one varies fastest."""
    for values in product(*varied.values()):
        changed = setting
        for name, value in zip(varied, values):
            changed = changed.with_value(name, value)
        yield values, changed
