"""Reads a report of `sift run`, of either version, and tells what its lines say. No flight is computed."""
from __future__ import annotations

import itertools
from functools import lru_cache

from sift.forms import Form

TYPE_CHECKING = False  # as typing has it, which takes as long to load as a flight
if TYPE_CHECKING:
    from typing import Any, Dict, FrozenSet, Iterator, List, Mapping, Optional, Sequence, Set, Tuple

NUMBER = "(0|[1-9][0-9]*)"
WORDS_LISTED = "(-|[0-9a-f]{4}(?:,[0-9a-f]{4})*)"
CAUGHT_LISTED = "(-|[0-7]+|[0-7](?:pr?c?|rc?|c)(?:,[0-7](?:pr?c?|rc?|c))*)"  # in version 1 digits, in version 2 with kinds
# Forms of lines.
UNIT = Form(f"f={NUMBER} u=[0-7] ")
ACCOUNT = Form(f"cfg=([0-7]+) clk=(-?{NUMBER}) in={WORDS_LISTED} out={WORDS_LISTED} bad={CAUGHT_LISTED}")
# What no outcome of a run asks for: the numbers of the clocks. In place of them stands what they are blanked with.
CLOCKS = {
    " clk=0 ": Form(f" clk=-?{NUMBER} "),
    " skew=0 slack=0 ": Form(f" skew={NUMBER} slack=-?{NUMBER} "),
}
STRETCH = 10  # frames of a report that are looked for at once among those that were read before
KINDS = {"p": "poll", "r": "relay", "c": "clock"}
FRAME = Form(f"f={NUMBER} (?:skew={NUMBER} slack=(-?{NUMBER})|skew=- slack=-) margin=(ok|lost)")
END = Form(f"end frames={NUMBER} cfg=([0-7]+) margin=(ok|lost)")


class NoReport(ValueError):
    """Why a text is no report."""

    def __init__(self, why, line=0):
        super().__init__(why)
        self.line = line  # below the place from which it was read


class Frame:
    """What the lines of one frame say. It is the same object for the same lines, and isn't changed.

    Of each unit, by its number: `states`, which are "works", "faulty" or "idle"; and of those that work, else None, `configurations`, the
    units of its own; `clocks`, what its clock shows, in ticks; `inputs` and `outputs`, words from 0 to 65535. `catches` are the units that
    it caught, each with letters for what they were caught by: p, r and c for poll, relay and clock, in version 1 none.

    Of the frame as a whole: `skew` and `slack` in ticks, or None where no working unit is in the configuration, and whether it has
    `margin`.
    """

    def __init__(self, units: Sequence[Sequence[Any]], figures: Tuple[Optional[int], Optional[int], bool]) -> None:
        told: List[List[Any]] = [list(values) for values in zip(*units)] or [[]] * 6
        self.states: List[str] = told[0]
        self.configurations: List[Optional[Tuple[int, ...]]] = told[1]
        self.clocks: List[Optional[int]] = told[2]
        self.inputs: List[Optional[Tuple[int, ...]]] = told[3]
        self.outputs: List[Optional[Tuple[int, ...]]] = told[4]
        self.catches: List[Dict[int, str]] = told[5]
        self.skew, self.slack, self.margin = figures
        # The configuration of the lowest unit that tells one, or None; the units that some unit caught; the versions in which
        # they are told; the greatest unit that is named; and the words of the outs, each once.
        self.configuration = next(filter(None, self.configurations), None)
        self.caught: FrozenSet[int] = frozenset().union(*self.catches)
        self.versions = {unit: 2 if any(caught.values()) else 1 for unit, caught in enumerate(self.catches) if caught}
        self.greatest = max(self.caught.union(*filter(None, self.configurations)), default=0)
        self.votes = frozenset(self.outputs) - {None}

    def split(self) -> bool:
        """Whether two units tell different configurations."""
        return len({told for told in self.configurations if told is not None}) > 1

    def caught_by(self, unit: int) -> List[int]:
        """The units that caught this one in the frame."""
        return [by for by, caught in enumerate(self.catches) if unit in caught]

    def without_kinds(self) -> Frame:
        """What version 1 tells of the frame."""
        units = zip(self.states, self.configurations, self.clocks, self.inputs, self.outputs, self.catches)
        plain = [(*told, dict.fromkeys(caught, "")) for *told, caught in units]
        return Frame(plain, (self.skew, self.slack, self.margin))


class Flight:
    """A report as it was read."""

    def __init__(self, frames: List[Frame], last: Tuple[int, ...]) -> None:
        self.frames = frames
        self.last = last  # the configuration after the last frame
        self.units = len(frames[0].states)
        self.memory: Dict[Any, Any] = {}  # what was found in it before

    def version(self) -> Optional[int]:
        """The version of the report, or None where nobody was caught, so that it is one of both."""
        return next((version for frame in self.frames for version in frame.versions.values()), None)

    def without_kinds(self) -> Flight:
        """What version 1 tells of the flight."""
        return Flight([frame.without_kinds() for frame in self.frames], self.last)

    def held(self, tables: Mapping[int, Sequence[int]]) -> Iterator[Set[int]]:
        """Of each frame the tasks whose words may differ from the ideal machine's since a table sheds tasks, in it or in one
        before it, where it is told of each size which tasks these are."""
        held: Set[int] = set()
        for frame in self.frames:
            held = held.union(*(tables.get(len(units), ()) for units in frame.configurations if units))
            yield held

    def configurations(self) -> List[Tuple[int, ...]]:
        """The configuration of each frame and after the last; where no unit tells one, the next that is told."""
        told = [self.last]
        for frame in reversed(self.frames):
            told.append(frame.configuration or told[-1])
        return told[::-1]

    @property
    def margin(self) -> bool:
        """Whether the last frame has it."""
        return self.frames[-1].margin

    def other_votes(self, schedule: Any) -> Dict[int, FrozenSet[Any]]:
        """Of the frames in which some unit votes other words than a schedule has due the words of each, by the frame's number."""
        votes = [frame.votes for frame in self.frames]
        return {number: told for number, (told, due) in enumerate(zip(votes, schedule.due)) if told != due and told}

    def first_catch(self, unit: int, begin: int) -> Tuple[Optional[int], Tuple[int, ...]]:
        """The first frame from one on in which a unit was caught, or None, and those who did so."""
        caught = next((frame for frame in range(begin, len(self.frames)) if unit in self.frames[frame].caught), None)
        return caught, tuple(self.frames[caught].caught_by(unit)) if caught is not None else ()


@lru_cache(maxsize=256)
def units_of(text):
    """A set of units, written by its digits in ascending order."""
    if text == "-":
        return ()
    units = tuple(int(digit) for digit in text)
    if list(units) != sorted(set(units)):
        raise NoReport("units that don't ascend: " + text)
    return units


@lru_cache(maxsize=4096)
def catches_of(text):
    """The units that were caught, each with the letters of the kinds; without letters in version 1. It isn't changed."""
    parts = [] if text == "-" else text.split(",") if text.strip("01234567") else list(text)
    units_of("".join(part[0] for part in parts) or "-")
    return {int(part[0]): part[1:] for part in parts}


@lru_cache(maxsize=16384)
def words_of(text):
    """A list of words, written as hexadecimal digits."""
    return () if text == "-" else tuple(int(word, 16) for word in text.split(","))


@lru_cache(maxsize=16384)
def account_of(text):
    """What the line of a unit tells behind the frame and the unit: its state, and its cfg, clk, in, out and bad; or None."""
    if text in ("faulty", "idle"):
        return text, None, None, None, None, {}
    found = ACCOUNT.fullmatch(text)
    if not found:
        return None
    return "works", units_of(found[1]), int(found[2]), words_of(found[4]), words_of(found[5]), catches_of(found[6])


def unit_of(line, number, unit):
    """What the line of a unit in a frame tells, or None where it is no unit's."""
    begin = f"f={number} u={unit} "
    if line.startswith(begin):
        return account_of(line[len(begin) :])
    other = UNIT.match(line)
    if other and account_of(line[other.end() :]):
        raise NoReport(f"frame {number} and unit {unit} are due")
    return None


def figures_of(line, number):
    """The skew and the slack, or None, and whether the margin holds, as the line of the frame as a whole tells them."""
    found = FRAME.fullmatch(line)
    if not found or int(found[1]) != number:
        raise NoReport(f"a line of frame {number} is due")
    return int(found[2]) if found[2] else None, int(found[3]) if found[3] else None, found[5] == "ok"


def check_units(frame, count):
    """Tests that a frame has so many units, or where none is told as many as can fly, and names no others."""
    units = len(frame.states)
    if not 4 <= units <= 8 or count not in (units, None):
        raise NoReport("a frame has another number of units")
    if frame.greatest >= units:
        raise NoReport("the frame names a unit that isn't there")


@lru_cache(maxsize=16384)
def frame_of(text, number, count):
    """The frame that lines tell: of each unit one, and the line of the frame; None where that one is missing."""
    units = []
    for place, line in enumerate(lines_of(text)):
        try:
            told = unit_of(line, number, place)
            if told is None:
                frame = Frame(units, figures_of(line, number))
                check_units(frame, count)
                return frame
            units.append(told)
        except NoReport as fault:
            raise NoReport(str(fault), place) from None
    return None


def read_end(line, is_last, number, count):
    """The configuration after so many frames of so many units, where a line is the end of the report; or None."""
    end = END.fullmatch(line)
    if not end or not number:
        return None
    if int(end[1]) != number or not is_last:
        raise NoReport(f"the end of {number} frames is due, and nothing after it")
    last = units_of(end[2])
    if last[-1] >= count:
        raise NoReport("the configuration has a unit that isn't there")
    return last


def whole_lines(text):
    """A text of whole lines, which end as the program's do, or with CR LF as some copies' do."""
    if "\r" in text:
        text = text.replace("\r\n", "\n")
    if text and not text.endswith("\n"):
        raise NoReport(f"line {line_number(text, len(text))}: the last line has no end")
    return text


def lines_of(text):
    """The lines of a text of whole lines."""
    return text.split("\n")[:-1]


def line_number(text, place):
    """The number of the line at a place of a text, from 1."""
    return text.count("\n", 0, place) + 1


def stretches(text):
    """The parts of a report of whole lines, each of them so many frames, the last one with the end."""
    place = 0
    for number in itertools.count(STRETCH, STRETCH):
        cut = text.find(f"\nf={number} u=0 ", place) + 1
        before = text.rfind("\n", place, cut - 1) + 1 or place
        # No frame goes on behind the line of its margin.
        if not cut or not text.startswith("f=", before) or text.find(" margin=", before, cut) < 0:
            break
        yield text[place:cut]
        place = cut
    yield text[place:]


@lru_cache(maxsize=512)
def stretch_of(text, number, count, version):
    """What a part of a report tells, from the frame with this number on: its frames, the configuration after the last, or None,
    and the number of units and the version of the report, which may be known from before."""
    frames, place = [], 0
    try:
        while place < len(text):
            # The lines of a frame end with the one that tells its margin; so does the end of the report.
            margin = text.find(" margin=", place)
            end = text.index("\n", margin) + 1 if margin >= 0 else len(text)
            lines = text[place:end]
            if lines.startswith("end "):
                last = read_end(lines[:-1], end == len(text), number + len(frames), count)
                if last:
                    return tuple(frames), last, count, version
            frame = frame_of(lines, number + len(frames), count)
            if not frame:
                break
            for unit, told in frame.versions.items():
                version = version or told
                if told != version:
                    raise NoReport(f"a report of version {version} tells other units that were caught", unit)
            frames.append(frame)
            count = len(frame.states)
            place = end
    except NoReport as fault:
        raise NoReport(str(fault), text.count("\n", 0, place) + fault.line) from None
    return tuple(frames), None, count, version


@lru_cache(maxsize=512)
def blanked_stretch_of(text, *before):
    """The same with 0 for what the clocks show. Most reports of a mission differ in that alone from one that was read before."""
    for blank, clock in CLOCKS.items():
        text = clock.sub(blank, text)
    return stretch_of(text, *before)


def read_report(text: str, stretch: Any = stretch_of) -> Flight:
    """The flight that a report tells; with `blanked_stretch_of` without what the clocks show, and sooner."""
    text = whole_lines(text)
    frames: List[Frame] = []
    place, last, count, version = 0, None, None, None
    try:
        for part in stretches(text):
            told, last, count, version = stretch(part, len(frames), count, version)
            frames += told
            place += len(part)
    except NoReport as fault:
        raise NoReport(f"line {line_number(text, place) + fault.line}: {fault}") from None
    if not last:
        raise NoReport(f"line {line_number(text, len(text))}: the line of the mission's end is missing")
    return Flight(frames, last)


def are_words(text: str) -> bool:
    """Whether a text is a list of words, of four hexadecimal digits each."""
    return text == "-" or all(len(word) == 4 and not word.strip("0123456789abcdef") for word in text.split(","))


def read_ideal(text: str) -> List[Tuple[int, ...]]:
    """Of each frame the output words of the ideal machine, from the text of `sift ideal`."""
    lines = lines_of(whole_lines(text))
    frames = []
    for number, line in enumerate(lines[:-1]):
        head, _, words = line.partition(" out=")
        if head != f"f={number}" or not are_words(words):
            raise NoReport(f"line {number + 1}: a line of frame {number} is due")
        frames.append(words_of(words))
    if not frames or lines[-1] != f"end frames={len(frames)}":
        raise NoReport(f"line {len(lines)}: the line of the mission's end is missing")
    return frames


# Units, frames and stretches of them in words.


def digits(units, between=" "):
    """Units as words name them, or as a report does."""
    return between.join(str(unit) for unit in units)


def set_of(units):
    """Units as a report writes a set of them."""
    return digits(sorted(units), "") or "-"


def bad_of(caught):
    """Units that were caught, as a report of their version writes them."""
    between = "," if any(caught.values()) else ""
    return between.join(f"{unit}{letters}" for unit, letters in caught.items()) or "-"


def kinds_of(letters):
    """The kinds of catches in words, behind the units; nothing in version 1."""
    return f" ({', '.join(KINDS[letter] for letter in letters)})" if letters else ""


def stretches_of(values):
    """The stretches of equal values: first place, last place, value."""
    stretches = []
    for place, value in enumerate(values):
        if stretches and stretches[-1][2] == value:
            stretches[-1][1] = place
        else:
            stretches.append([place, place, value])
    return stretches


def when(first, last):
    """A stretch of frames in words."""
    return f"frame {first}" if first == last else f"frames {first} to {last}"


def named(units, verb, verbs):
    """Units with the verb that fits their number."""
    return f"unit {units[0]} {verb}" if len(units) == 1 else f"units {digits(units)} {verbs}"
