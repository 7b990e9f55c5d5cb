"""The refusal of a document, of a report or of a command: what the program answers in place of a text."""
from __future__ import annotations

import re
from functools import cached_property
from typing import Any, Optional, Sequence, Tuple

# Of each form of line: what is refused, which group tells the rule, and which one the entry.
FORMS = (
    (re.compile(r"scenario rule (\d+) at (\d+)"), "scenario", 1, 2),
    (re.compile(r"task (\d+) kind (\d+) at \d+"), "task", 2, 1),
    (re.compile(r"table \d+ row (\d+) rule (\d+)"), "table", 2, 1),
    (re.compile(r"script entry (\d+) rule (\d+)"), "script", 2, 1),
    (re.compile(r"byz rule (\d+) at (\d+)"), "plan", 1, 2),
    (re.compile(r"no room \d+ task (\d+)"), "no room", None, 1),
    (re.compile(r"report line (\d+)"), "report", None, 1),
)
# What to do where no document says it.
MENDS = {
    "usage": "a command and its options, each number in its range: the page on commands tells of each",
    "storm": "leave out the storm, or fly it by `run`",
    "not admitted": "more clocks, or a larger skew",
    "report": "the report as `run` writes it, in the version that was asked for",
}


class Refusal(Exception):
    """What the program refuses, and why.

    `line` is what it answers, `status` its exit status, and `kind` what is refused: "usage", "too long", "not a document",
    "scenario" (keys and values), "task", "table", "script" (faults), "plan" (of lies), "report", "no room", "storm", or "not admitted".
    """

    def __init__(self, line: str, status: int, words: Sequence[str] = (), given: bytes = b"") -> None:
        super().__init__(line, status, tuple(words), given)  # so that it goes from one process to another
        self.line = line
        self.status = status
        self.words = tuple(words)
        self.given = given
        self.kind, self.rule, self.entry = parts_of(line)

    @cached_property
    def explained(self) -> Any:
        """What sift-explain says of it, or None."""
        from sift.rules import explaining

        if self.kind in ("usage", "storm", "not admitted"):
            return None
        if self.words[:1] == ("byz",):
            return explaining.of_plan(self.given, self.line)
        if self.words[:1] == ("plan",):
            return explaining.of_room(self.given, self.line, *(int(self.words[place]) for place in (2, 4)))
        if self.kind == "report":
            return self.explained_report()
        return explaining.of_mission(divided(self.given)[0] if self.words[:1] == ("judge",) else self.given, self.line)

    def explained_report(self) -> Any:
        """The same of a report that is none."""
        from sift.rules import explaining

        document, report = divided(self.given)
        return explaining.of_report(document, report, self.line, lambda _: ()) if report and self.entry else None

    @property
    def place(self) -> Optional[Tuple[int, int]]:
        """The line and the column, from 1, of the place in the document or the report that shows why; or None."""
        return self.explained.place if self.explained else None

    @property
    def why(self) -> str:
        """Why, in words; the program's line where no place was found."""
        return self.explained.why if self.explained else self.line

    @property
    def mend(self) -> Optional[str]:
        """What to do."""
        return (self.explained.mend if self.explained else None) or MENDS.get(self.kind)

    def shown(self, name: str = "the document") -> str:
        """All that is known of it, with the line that shows why and a mark under it."""
        return self.explained.shown(name) if self.explained else f"{name}: {self.line}\n"

    def __str__(self) -> str:
        place = f"line {self.place[0]}, column {self.place[1]}: " if self.place else ""
        why = "" if self.why == self.line else f": {place}{self.why}"
        return f"{self.line}{why}" + (f"; mend: {self.mend}" if self.mend else "")


def parts_of(line: str) -> Tuple[str, Optional[int], Optional[int]]:
    """What a line refuses, and its rule and its entry, where it tells them."""
    for form, kind, rule, entry in FORMS:
        found = form.fullmatch(line)
        if found:
            return kind, int(found[rule]) if rule else None, int(found[entry])
    return line, None, None


def divided(given: bytes) -> Tuple[bytes, bytes]:
    """The document and the report that the judge reads: the first line that divides stands between them."""
    from sift.campaigns.flyer import DIVIDER

    document, _, report = (b"\n" + given).partition(b"\n" + DIVIDER)
    return document[1:] + b"\n" if report else document[1:], report
