"""The SIFT computer's simulator `sift`, for Python: its commands as functions, missions, reports and campaigns as values."""
# Names are loaded when they are asked for: a campaign's jobs import this package, and need none of them.
from __future__ import annotations

TYPE_CHECKING = False  # as typing has it, which takes as long to load as a flight
if TYPE_CHECKING:
    from typing import Any, List

    from sift.campaign import Campaign as Campaign, NotFlown as NotFlown
    from sift.callers import Library as Library, NotAnswered as NotAnswered, Program as Program, use as use
    from sift.commands import buses as buses, byz as byz, check as check, clocks as clocks, gen as gen, ideal as ideal
    from sift.commands import judge as judge, plan as plan, run as run, trial as trial, votes as votes
    from sift.mission import Mission as Mission, NoSuchName as NoSuchName
    from sift.refusal import Refusal as Refusal
    from sift.report import NoReport as NoReport, Report as Report

MODULES = {
    "campaign": ("Campaign", "NotFlown"),
    "callers": ("Library", "NotAnswered", "Program", "use"),
    "commands": ("buses", "byz", "check", "clocks", "gen", "ideal", "judge", "plan", "run", "trial", "votes"),
    "mission": ("Mission", "NoSuchName"),
    "refusal": ("Refusal",),
    "report": ("NoReport", "Report"),
}
PLACES = {name: module for module, names in MODULES.items() for name in names}
__all__ = sorted(PLACES)


def __getattr__(name: str) -> Any:
    if name not in PLACES:
        raise AttributeError(f"module 'sift' has no attribute {name!r}")
    from importlib import import_module

    value = getattr(import_module(f"sift.{PLACES[name]}"), name)
    globals()[name] = value
    return value


def __dir__() -> List[str]:
    return sorted({*globals(), *PLACES})
