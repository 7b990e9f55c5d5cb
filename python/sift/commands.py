"""The commands of `sift`, as functions. Each gives a value, which keeps the text of the program.

A document is its text, its bytes, a path (pathlib.Path), or a Mission. `workers` is how many workers fly it, from 1 to 8, and `order` a
number for the order in which one worker takes the units' steps: neither changes the value, but where a document has a storm, and then
it is that of one of the flights that there may be.

All of them raise sift.Refusal where the program refuses the words or the document, sift.NotAnswered where there is no program that
could be asked, or it ended before it had an answer, and MemoryError where memory is wanting.
"""
from __future__ import annotations

import os
from typing import TYPE_CHECKING, Optional, Sequence, Union

from sift import callers
from sift.refusal import Refusal
from sift.texts import Buses, Ending, Ideal, Plan, Skews, Vectors, Verdict, Votes

if TYPE_CHECKING:
    from sift.mission import Mission
    from sift.report import Report

Document = Union[str, bytes, "os.PathLike[str]", "Mission"]


def bytes_of(document: Document) -> bytes:
    """The bytes of a document. OSError comes where its file can't be read; TypeError where a text only names a file, which is a slip."""
    if isinstance(document, bytes):
        return document
    if isinstance(document, str):
        if document.endswith(".toml") and "\n" not in document:
            raise TypeError(f"a string is a document's own text; of a file it is pathlib.Path({document!r})")
        return document.encode(errors="surrogateescape")
    if isinstance(document, os.PathLike):
        with open(document, "rb") as file:
            return file.read()
    return document.text.encode()


def options(**given: Optional[int]) -> Sequence[str]:
    """The options that are given, as words."""
    return [word for name, value in given.items() if value is not None for word in (f"--{name}", str(value))]


def asked(words: Sequence[str], given: bytes = b"", answers: Sequence[int] = (0,)) -> str:
    """The text that the program writes for command words, where its exit status is among these answers; else its Refusal."""
    status, text = callers.used().answer(words, given)
    told = text.decode()
    if status not in answers:
        raise Refusal(told.rstrip("\n"), status, words, given)
    return told


def run(document: Document, *, workers: Optional[int] = None, order: Optional[int] = None, report: Optional[int] = None) -> Report:
    """Flies a mission: its report, in version 2, or in the one that `report` says, 1 or 2."""
    from sift.report import Report

    given = bytes_of(document)
    return Report(asked(["run", *options(workers=workers, order=order, report=report)], given), given)


def votes(document: Document, *, workers: Optional[int] = None, order: Optional[int] = None) -> Votes:
    """Flies a mission: every vote, and how the flight ends."""
    return Votes(asked(["votes", *options(workers=workers, order=order)], bytes_of(document)))


def ideal(document: Document) -> Ideal:
    """The output words, frame by frame, of a machine that never fails and reads the same sensors. Nothing is flown."""
    return Ideal(asked(["ideal"], bytes_of(document)))


def check(document: Document) -> Mission:
    """Tests a document: the mission that it states, or the Refusal that tells why it states none. Nothing is flown."""
    from sift.mission import Mission

    given = bytes_of(document)
    asked(["check"], given)
    return document if isinstance(document, Mission) else Mission(given.decode())


def judge(document: Document, told: Union[str, bytes, Report], *, report: Optional[int] = None) -> Verdict:
    """Judges whether a mission may have a report, by its text or its bytes: `report` says its version, 1 or 2, where it isn't to be the
    one that the report itself shows. A verdict is true or false; what isn't in the form of a report is refused."""
    from sift.reports.judging import joined
    from sift.rules.verdicts import version_of

    raw = told if isinstance(told, bytes) else str(told).encode()
    version = report if report is not None or version_of(raw) == 2 else 1
    return Verdict(asked(["judge", *options(report=version)], joined(bytes_of(document), raw), (0, 13)))


def plan(document: Document, *, copies: int, subframes: int) -> Plan:
    """Plans tables for a mission's tasks: so many copies of each, 3 to 8, in frames of so many subframes, 12 to 64. Where a task has no
    room the Refusal is of kind "no room"."""
    return Plan(asked(["plan", *options(copies=copies, subframes=subframes)], bytes_of(document)))


def buses(document: Document, *, bus: int, begin: int, value: Optional[int] = None) -> Buses:
    """Flies a mission over three buses, of which one, 0 to 2, is faulty from the frame `begin` on. Then it carries the word `value`, 0 to
    65535, in place of each one, or nothing."""
    return Buses(asked(["buses", *options(bus=bus, **{"from": begin}, value=value)], bytes_of(document)))


def byz(lies: Union[str, bytes, "os.PathLike[str]"]) -> Vectors:
    """What units agree on by a plan of lies, which comes as a document does: of each unit the vector of what it takes the others for."""
    return Vectors(asked(["byz"], bytes_of(lies)))


def clocks(*, n: int, m: int, skew: int, error: int, rate: int, rounds: int, number: int) -> Skews:
    """Runs `n` clocks, 1 to 32, for so many rounds, 1 to 1,000; `m` of them are faulty, and all else is drawn from a number. Working clocks
    may be `skew` ticks apart, misread each other by `error` ticks, and drift by `rate` ticks in a round, at most. With too few clocks
    that work, or too small a skew, it is refused as "not admitted"."""
    return Skews(asked(["clocks", *options(n=n, m=m, skew=skew, error=error, rate=rate, rounds=rounds, number=number)]))


def gen(number: int) -> Mission:
    """The mission that is drawn from a number, 0 to 2**64 - 1. Nothing is flown."""
    from sift.mission import Mission

    return Mission(asked(["gen", *options(number=number)]))


def trial(number: int, *, workers: Optional[int] = None, order: Optional[int] = None) -> Ending:
    """Flies the mission that `gen` draws from a number: how its flight ends."""
    return Ending(asked(["trial", *options(number=number, workers=workers, order=order)]))
