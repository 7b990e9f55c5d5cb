"""What the commands write, as values. Each keeps its text, byte for byte."""
from __future__ import annotations

import re
from dataclasses import dataclass
from typing import TYPE_CHECKING, Dict, List, NamedTuple, Optional, Tuple

if TYPE_CHECKING:
    import matplotlib.axes

END = re.compile(r"end frames=(\d+) cfg=([0-7]+) margin=(ok|lost)")
VOTE = re.compile(r"f=(\d+) u=(\d) t=([a-z0-9_]+)\.(\d+) words=(\S+) vote=(\S+)")
COUNT = re.compile(r"f=(\d+) bus=\d words=(\d+)")
SKEW = re.compile(r"round=(\d+) skew=(\d+)")
LAST_OF_CLOCKS = re.compile(r"clocks n=(\d+) m=(\d+) most=(\d+) bound=(\d+)")
VERDICT = re.compile(r"no frame (\d+) rule (\d)")


class NoText(ValueError):
    """Why a text is none of a command's."""


def signed(word: int) -> int:
    """A word of 16 bits as a number with its sign."""
    return word - 65536 if word > 32767 else word


def word_of(digits: str) -> Optional[int]:
    """A word as it is written, or None for a -."""
    return None if digits == "-" else int(digits, 16)


def found(form: re.Pattern[str], line: str) -> re.Match[str]:
    """A line of a form."""
    match = form.fullmatch(line)
    if not match:
        raise NoText(f"this line isn't due: {line}")
    return match


@dataclass(frozen=True)
class Text:
    """A text of the program."""

    text: str

    def __str__(self) -> str:
        return self.text

    @property
    def lines(self) -> List[str]:
        """Its lines."""
        return self.text.splitlines()


class Vote(NamedTuple):
    """A vote: which unit votes in which frame on which output word of a task; the word, 0 to 65535, that it has of each unit that runs the
    task, None where it has none; and what it votes."""

    frame: int
    unit: int
    task: str
    word: int
    words: Dict[int, Optional[int]]
    vote: Optional[int]


@dataclass(frozen=True)
class Ending(Text):
    """The last line of a report: how many frames were flown, the configuration after them, and whether the margin holds."""

    @property
    def frames(self) -> int:
        """How many frames were flown."""
        return int(found(END, self.lines[-1])[1])

    @property
    def configuration(self) -> Tuple[int, ...]:
        """The units of the configuration after the last frame."""
        return tuple(map(int, found(END, self.lines[-1])[2]))

    @property
    def margin(self) -> bool:
        """Whether the margin holds to the end."""
        return found(END, self.lines[-1])[3] == "ok"


@dataclass(frozen=True)
class Votes(Ending):
    """All votes of a flight, and how it ends."""

    @property
    def votes(self) -> List[Vote]:
        """Each vote, in the order of the text."""
        told = []
        for line in self.lines[:-1]:
            frame, unit, task, word, words, vote = found(VOTE, line).groups()
            places = [] if words == "-" else [part.split(":") for part in words.split(",")]
            told.append(Vote(int(frame), int(unit), task, int(word), {int(by): word_of(said) for by, said in places}, word_of(vote)))
        return told


@dataclass(frozen=True)
class Ideal(Text):
    """The words of a machine that never fails."""

    @property
    def words(self) -> List[Tuple[int, ...]]:
        """Of each frame the output words of all tasks, from 0 to 65535."""
        from sift.reports.reading import read_ideal

        return [tuple(words) for words in read_ideal(self.text)]


@dataclass(frozen=True)
class Verdict(Text):
    """Whether a mission may have a report: true or false as it is, and else the first frame and rule that it breaks."""

    def __bool__(self) -> bool:
        return self.text == "yes\n"

    @property
    def frame(self) -> Optional[int]:
        """The first frame that breaks a rule; None where none does."""
        return None if self else int(found(VERDICT, self.lines[0])[1])

    @property
    def rule(self) -> Optional[int]:
        """The rule that it breaks, as docs/judge.md numbers them; None where it breaks none."""
        return None if self else int(found(VERDICT, self.lines[0])[2])


@dataclass(frozen=True)
class Plan(Text):
    """Planned tables, as a document has them."""

    @property
    def tables(self) -> List[Dict[str, object]]:
        """The tables, the smallest configuration first."""
        from sift.documents import places

        tables: List[Dict[str, object]] = places.plain(places.read(self.text.encode())[1])["table"]
        return tables


@dataclass(frozen=True)
class Buses(Text):
    """A flight over three buses: its report, and what the faulty bus got wrong."""

    @property
    def report(self) -> str:
        """The report, as `run` writes it."""
        lines = self.text.splitlines(keepends=True)
        return "".join(lines[: next(place for place, line in enumerate(lines) if line.startswith("end ")) + 1])

    @property
    def wrong(self) -> Dict[int, int]:
        """Of each frame in which the bus got words wrong, how many."""
        return {int(match[1]): int(match[2]) for match in map(COUNT.fullmatch, self.lines) if match}

    @property
    def bad(self) -> Optional[int]:
        """The bus that is bad, or None."""
        told = self.lines[-1].removeprefix("buses bad=")
        return None if told == "-" else int(told)


@dataclass(frozen=True)
class Vectors(Text):
    """What units agree on of which some lie."""

    @property
    def vectors(self) -> List[Optional[Tuple[int, ...]]]:
        """Of each unit its vector, a word for each unit; of a liar None."""
        told: List[Optional[Tuple[int, ...]]] = []
        for line in self.lines:
            _, _, vector = line.partition(" vector=")
            told.append(tuple(int(word, 16) for word in vector.split(",")) if vector else None)
        return told


@dataclass(frozen=True)
class Skews(Text):
    """A run of clocks: how far apart the working ones are in each round, the most that they ever are, and their bound."""

    @property
    def skews(self) -> List[int]:
        """Of each round how many ticks the working clocks are apart."""
        return [int(found(SKEW, line)[2]) for line in self.lines[:-1]]

    @property
    def most(self) -> int:
        """The most ticks that they are ever apart."""
        return int(found(LAST_OF_CLOCKS, self.lines[-1])[3])

    @property
    def bound(self) -> int:
        """The ticks that they are apart at most, by the theorem."""
        return int(found(LAST_OF_CLOCKS, self.lines[-1])[4])

    def plot(self, axes: Optional[matplotlib.axes.Axes] = None) -> matplotlib.axes.Axes:
        """Plots the skews over the rounds, with their bound, with matplotlib."""
        from matplotlib import pyplot, ticker

        chosen = axes if axes is not None else pyplot.subplots()[1]
        chosen.step(range(len(self.skews)), self.skews, where="mid", label="skew")
        chosen.axhline(self.bound, linestyle="--", color="tab:red", label="bound")
        chosen.set_xlabel("round")
        chosen.xaxis.set_major_locator(ticker.MaxNLocator(integer=True))
        chosen.legend()
        return chosen
