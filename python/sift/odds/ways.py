"""The ways in which a unit goes wrong, and what a campaign saw come of each."""
import math
from dataclasses import dataclass, replace
from fnmatch import fnmatchcase
from functools import cached_property
from typing import Iterable, Optional, Sequence

KINDS = ("permanent", "transient")


class NoWays(ValueError):
    """Why a campaign says nothing of how units fail."""


@dataclass(frozen=True)
class Way:
    """A way of failing of one unit, in a slot: the share of that unit's failures that it is, and what came of it.

    `frames` is after how many frames the unit is out of the configuration, None where it stays. `lost` is in which frame of
    the fault an output was lost for the first time, from 0, None where none was.
    """

    unit: int
    slot: str
    way: str
    share: float
    frames: Optional[int]
    lost: Optional[int]

    @property
    def name(self) -> str:
        """As a campaign's rows have it, and weights name it."""
        return f"unit {self.unit} {self.slot} {self.way}"


@dataclass(frozen=True)
class Fate:
    """What becomes of a failure: an output is lost, or the unit is out after so many frames, or it stays, or it recovers."""

    lost: bool = False
    out_after: Optional[int] = None
    well_after: Optional[int] = None


def fate_of(way: Way, lasts: Optional[int]) -> Fate:
    """The fate of a failure in this way that lasts so many frames, None for ever.

    A unit that is caught in time is out, whether or not it has recovered by then.
    """
    if way.lost is not None and (lasts is None or way.lost < lasts):
        return Fate(lost=True)
    if way.frames is not None and (lasts is None or way.frames <= lasts):
        return Fate(out_after=way.frames)
    return Fate(well_after=lasts)


class Ways(tuple):
    """Ways of failing, of all units."""

    @cached_property
    def memory(self) -> dict[Optional[int], dict[Fate, float]]:
        return {}

    def fates(self, lasts: Optional[int]) -> dict[Fate, float]:
        """Of the failures of any unit, each as likely to fail, that last so many frames: the share of each fate."""
        if lasts not in self.memory:
            shares: dict[Fate, float] = {}
            for way in self:
                fate = fate_of(way, lasts)
                shares[fate] = shares.get(fate, 0.0) + way.share
            units = len({way.unit for way in self})
            self.memory[lasts] = {fate: share / units for fate, share in shares.items()}
        return self.memory[lasts]


def weight_of(name: str, weights: Sequence[tuple[str, float]]) -> float:
    """How much a way counts: the product of the weights whose pattern its name fits."""
    return math.prod(weight for pattern, weight in weights if fnmatchcase(name, pattern))


def ways_of(rows: Iterable, units: int, weights: Sequence[tuple[str, float]] = ()) -> Ways:
    """The ways that a campaign's single faults show, where each unit fails alike.

    Within a unit each slot counts alike, within a slot each way of lying, and within that each moment at which it was tried;
    weights, patterns of `unit 0 sense pitch wrong` each with a factor, change that. Rows of pairs and faults that say nothing
    (`inert`) aren't counted.
    """
    tried: dict[int, dict[str, dict[str, list]]] = {}
    for row in rows:
        if len(row.faults) != 1 or row.fates[0] == "inert":
            continue
        fault = row.faults[0]
        slots = tried.setdefault(int(fault.unit), {})
        slots.setdefault(fault.slot, {}).setdefault(fault.way, []).append((row, int(fault.begin)))
    lacking = [str(unit) for unit in range(units) if unit not in tried]
    if lacking:
        raise NoWays(f"no single fault of unit {', '.join(lacking)} was flown that says anything")
    return Ways(way for unit in range(units) for way in ways_of_unit(unit, tried[unit], weights))


def ways_of_unit(unit: int, slots: dict[str, dict[str, list]], weights: Sequence[tuple[str, float]]) -> list[Way]:
    """The ways of one unit; their shares come to 1."""
    found = []
    for slot, kinds in slots.items():
        for kind, rows in kinds.items():
            for row, begin in rows:
                share = 1 / len(slots) / len(kinds) / len(rows)
                found.append(Way(unit, slot, kind, share, row.removals[0], None if row.wrong == 0 else row.first - begin))
    found = [replace(way, share=way.share * weight_of(way.name, weights)) for way in found]
    whole = math.fsum(way.share for way in found)
    if not whole > 0 or not math.isfinite(whole):
        raise NoWays(f"the weights leave nothing of unit {unit}")
    return [replace(way, share=way.share / whole) for way in found]
