"""What is to be said of a line that the program writes in place of a text: the place, why, and what to do.

What is refused, and by which rule, the program alone decides. Here the place is found that its line speaks of.
"""
from __future__ import annotations

import re
from dataclasses import dataclass, field
from typing import Any, Callable, List, Optional, Sequence, Tuple

from sift.documents import places, texts
from sift.documents.mission import Mission
from sift.documents.show import lines_of, shown
from sift.rules import pages, plans, refusals, verdicts

LARGEST = 1_048_576
MOST_OTHERS = 5
NO_ROOM = re.compile(r"no room (\d) task (\d+)")
NO_PLACE = "this tool finds no place for it; the program decides"
READERS = (
    "sift reads TOML 1.1, and readers differ: some take integers of more than 64 bits, and some refuse new lines and a last"
    " comma in `{ }`, or a byte order mark"
)


@dataclass
class Explained:
    """What is to be said: why, more in lines of their own, each with what it is, and the place in a text, where one was found."""

    why: str
    told: List[Tuple[str, str]] = field(default_factory=list)
    text: str = ""
    start: Optional[int] = None
    end: int = 0
    root: Any = None
    at: Optional[Tuple[int, int]] = None  # the line and the column, where the line itself isn't to be shown

    @property
    def place(self) -> Optional[Tuple[int, int]]:
        """The line and the column, from 1."""
        return self.at if self.start is None else places.line_and_column(self.text, self.start)

    @property
    def mend(self) -> Optional[str]:
        """What to do."""
        return next((words for what, words in self.told if what == "mend"), None)

    def shown(self, name: str) -> str:
        """All of it, in lines, of a document or a report with a name."""
        if self.start is not None:
            return shown(name, self.text, self.start, self.end, self.why, self.told, self.root)
        place = f"{self.at[0]}:{self.at[1]}:" if self.at else ""
        return f"{name}:{place} {self.why}\n" + lines_of(self.told)


def not_a_document(raw: bytes) -> Explained:
    """Where a document is none."""
    try:
        places.read(raw)
    except places.NotADocument as fault:
        told = [("mend", fault.mend), ("note", READERS)]
        return Explained(fault.why, told, raw.decode(errors="replace"), fault.place, fault.end)
    return Explained("this tool's reader takes it for a document, and finds no place; the program decides", [("note", READERS)])


def too_long(raw: bytes) -> Explained:
    """Where a document is cut off."""
    line = raw[:LARGEST].count(b"\n") + 1
    column = LARGEST - (raw.rfind(b"\n", 0, LARGEST) + 1) + 1
    why = f"here stands byte {LARGEST + 1:,}, and a document has at most {LARGEST:,} bytes"
    return Explained(why, [("mend", "see that the right file is read; shorten its comments")], at=(line, column))


def refused(raw: bytes, line: str) -> Explained:
    """Where a document breaks the rule that a line tells."""
    sort, rule = pages.sort_and_rule(line)
    general = [("rule", pages.sentence(sort, rule)), ("mend", pages.mend(sort, rule))]
    text, root = places.read(raw)
    broken = next((each for each in refusals.refusals(root) if each.line == line), None)
    if broken is None:
        return Explained(NO_PLACE, general)
    told = [("mend", broken.mend)] if broken.mend else general
    return Explained(broken.why, told + others(text, root, broken), text, broken.start, broken.end, root)


def others(text: str, root: Any, first: Any) -> List[Tuple[str, str]]:
    """What else is broken: the program answers the first refusal alone, and so this is the tool's own reading."""
    found = refusals.others(root, first)
    lines = []
    for broken in found[:MOST_OTHERS]:
        line, column = places.line_and_column(text, broken.start)
        lines.append(("also", f"{line}:{column}: {broken.why}" + (f"; mend: {broken.mend}" if broken.mend else "")))
    if len(found) > MOST_OTHERS:
        lines.append(("also", f"{len(found) - MOST_OTHERS} places more"))
    if lines:
        lines.append(("note", "the program tells the first refusal alone; what stands behind `also` is this tool's own reading"))
    return lines


def of_mission(raw: bytes, line: str) -> Optional[Explained]:
    """What is to be said of the line that the program wrote of a mission; None of a line that is no refusal."""
    if line == "not a document":
        return not_a_document(raw)
    if line == "too long":
        return too_long(raw)
    return refused(raw, line) if pages.sort_and_rule(line) else None


def of_report(document: bytes, report: bytes, line: str, ideal: Callable[[bytes], Sequence[int]]) -> Optional[Explained]:
    """What is to be said of the line that the judge wrote of a report; `ideal` tells the words of a document's first frame."""
    if line == "yes" or not (verdicts.VERDICT.fullmatch(line) or verdicts.NO_LINE.fullmatch(line)):
        return None
    text = report.decode(errors="replace").replace("\r\n", "\n")
    found = verdicts.found_in(Mission(places.read(document)[1]), text, line, ideal)
    verdict = verdicts.VERDICT.fullmatch(line)
    told = [("rule", f"{verdict[2]}: {verdicts.sentence(int(verdict[2]))}")] if verdict else []
    if not found:
        return Explained(NO_PLACE, told)
    first, *rest = found
    more = [("also", f"{each.line}: {each.why}") for each in rest[:MOST_OTHERS]]
    more += [("also", f"{len(rest) - MOST_OTHERS} places more")] if len(rest) > MOST_OTHERS else []
    return Explained(first.why, more + told, text, *span_of(text, first))


def span_of(text: str, found: verdicts.Found) -> Tuple[int, int]:
    """The start and the end of what is looked at in a line of a report."""
    lines = text.split("\n")
    number = min(found.line, len(lines))
    begin = sum(len(line) + 1 for line in lines[: number - 1])
    part = re.search(rf"(?<= ){found.part}(=\S*)?", lines[number - 1]) if found.part else None
    return (begin + part.start(), begin + part.end()) if part else (begin, begin + max(1, len(lines[number - 1])))


def of_plan(raw: bytes, line: str) -> Optional[Explained]:
    """What is to be said of the line that the program wrote of a plan of lies."""
    if line == "not a document":
        return not_a_document(raw)
    if line == "too long":
        return too_long(raw)
    if not plans.REFUSAL.fullmatch(line):
        return None
    text, root = places.read(raw)
    rule = ("rule", plans.sentence(line))
    broken = next(iter(plans.refusals(root)), None)
    if broken is None or broken.line != line:
        return Explained(NO_PLACE, [rule])
    return Explained(broken.why, [("mend", broken.mend)] if broken.mend else [rule], text, broken.start, broken.end, root)


def of_room(raw: bytes, line: str, copies: int, subframes: int) -> Optional[Explained]:
    """What is to be said of the line that the planner wrote of a mission."""
    found = NO_ROOM.fullmatch(line)
    if not found:
        return of_mission(raw, line)
    size, number = map(int, found.groups())
    text, root = places.read(raw)
    mission = Mission(root)
    task = mission.tasks[number]
    read = {part.task for part in texts.parts_of(mission.statements(number)) if isinstance(part, texts.Read) and part.now}
    names = ", ".join(mission.tasks[other].get("name").data for other in sorted(read))
    behind = f" behind the polls of {names}, which it reads by `now`," if names else ""
    runs = min(copies, size)
    why = (
        f"with {size} units there is no subframe from 4 to {subframes - 8} in which {task.get('name').data},{behind} finds {runs} free positions:"
        f" it would be polled two later, and the reports are said in {subframes - 6}"
    )
    enough = 10 + 2 * len(mission.tasks)
    mend = f"more subframes, of which {enough} are always enough for {len(mission.tasks)} tasks; fewer copies; or another order of the tasks"
    return Explained(why, [("mend", mend)], text, task.start, task.end, root)
