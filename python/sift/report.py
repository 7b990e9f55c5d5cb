"""A report as a value: what each unit did in each frame."""
from __future__ import annotations

import os
from functools import cached_property
from typing import TYPE_CHECKING, Any, Dict, Iterator, List, NamedTuple, Optional, Sequence, Tuple

from sift.commands import Document, bytes_of
from sift.reports.named import Named
from sift.reports.reading import KINDS, Flight, Frame, NoReport as NoReport, bad_of, read_report, set_of

if TYPE_CHECKING:
    import matplotlib.axes
    import pandas


class Catch(NamedTuple):
    """A catch: in which frame the unit `by` caught the unit `caught`, and by what, "poll", "relay" or "clock", which version 1 doesn't
    tell."""

    frame: int
    by: int
    caught: int
    kinds: Tuple[str, ...]


class Report:
    """A report of `sift run`, of either version.

    With the document that was flown its words have the names that the document gives them.
    """

    def __init__(self, text: str, document: Optional[Document] = None) -> None:
        """Reads a text. NoReport, a ValueError, comes where it is none, or none of this document's."""
        self.text = text
        self.document = None if document is None else bytes_of(document)
        self._flight: Flight = read_report(text)
        if self.named:
            self.named.check(self._flight)

    @classmethod
    def read(cls, path: "os.PathLike[str] | str", document: Optional[Document] = None) -> Report:
        """The report of a file, which may be that of this document."""
        with open(path, encoding="ascii", newline="") as file:
            return cls(file.read(), document)

    def __str__(self) -> str:
        return self.text

    def __repr__(self) -> str:
        return f"<Report: {self.units} units, {len(self.frames)} frames, {'margin kept' if self.margin else 'margin lost'}>"

    def __eq__(self, other: object) -> bool:
        return isinstance(other, Report) and self.text == other.text

    def __hash__(self) -> int:
        return hash(self.text)

    @property
    def frames(self) -> List[Frame]:
        """What the lines of each frame say."""
        return self._flight.frames

    @property
    def units(self) -> int:
        """How many units fly."""
        return self._flight.units

    @property
    def version(self) -> Optional[int]:
        """The version, or None where nobody was caught, so that it is a report of both."""
        return self._flight.version()

    @property
    def margin(self) -> bool:
        """Whether the margin holds to the end."""
        return self.frames[-1].margin

    @property
    def configurations(self) -> List[Tuple[int, ...]]:
        """The configuration of each frame, and the one after the last."""
        return self._flight.configurations()

    @property
    def catches(self) -> List[Catch]:
        """Who caught whom, by frame."""
        return [
            Catch(number, by, unit, tuple(KINDS[letter] for letter in letters))
            for number, frame in enumerate(self.frames)
            for by, caught in enumerate(frame.catches)
            for unit, letters in caught.items()
        ]

    @cached_property
    def named(self) -> Optional[Named]:
        """The names of the words, where the document is known."""
        if self.document is None:
            return None
        from sift.documents import places
        from sift.documents.mission import Mission

        return Named(Mission(places.read(self.document)[1]))

    @property
    def names(self) -> List[str]:
        """The names of the words, outputs first: `target.0`, `sense.pitch`; `out.0`, `in.0` where the document isn't known."""
        if self.named:
            return list(self.named.words())
        for frame in self.frames:
            for outputs, inputs in zip(frame.outputs, frame.inputs):
                if outputs is not None and inputs is not None:
                    return [f"out.{word}" for word in range(len(outputs))] + [f"in.{word}" for word in range(len(inputs))]
        return []

    def words(self, name: str) -> List[Optional[int]]:
        """Of each frame a word, by its name, as the lowest unit tells it that tells one, from -32768 to 32767; None where none does. For a
        name that isn't among `names` a KeyError comes."""
        if name not in self.names:
            raise KeyError(f"there is no word {name}; there are {', '.join(self.names)}")
        place = self.names.index(name)
        return [next((row[place] for row in self.told(frame) if row[place] is not None), None) for frame in self.frames]

    def told(self, frame: Frame) -> Iterator[Sequence[Optional[int]]]:
        """Of each unit its words in a frame, in the order of `names`, from -32768 to 32767."""
        from sift.texts import signed

        for outputs, inputs in zip(frame.outputs, frame.inputs):
            known = outputs is not None and inputs is not None
            yield [signed(word) for word in (*(outputs or ()), *(inputs or ()))] if known else [None] * len(self.names)

    @property
    def events(self) -> List[str]:
        """What happened, in sentences; with the document also what it states of faults and of tasks that are shed."""
        from sift.reports.events import events_of

        return events_of(self._flight, self._stated())

    def _stated(self) -> Sequence[Any]:
        from sift.reports.stated import stated

        return stated(self.named.mission, self._flight) if self.named else ()

    def differences(self, other: Report) -> List[str]:
        """Where two reports first differ, which frames do, and the events of one alone, in lines; none where they are the same."""
        from sift.reports.differences import differences

        return differences(self._flight, other._flight)

    def to_pandas(self) -> pandas.DataFrame:
        """A data frame with a row for each frame and unit: its state, configuration, clock in ticks, words by name with their signs, whom it
        caught, and of the frame skew and slack in ticks and the margin. ImportError comes where there is no pandas."""
        import pandas

        words: Dict[str, List[Optional[int]]] = {name: [] for name in self.names}
        rest: Dict[str, List[Any]] = {name: [] for name in ("frame", "unit", "state", "cfg", "clk", "bad", "skew", "slack", "margin")}
        for number, frame in enumerate(self.frames):
            for unit, told in enumerate(self.told(frame)):
                for name, word in zip(words, told):
                    words[name].append(word)
                units = frame.configurations[unit]
                row = (number, unit, frame.states[unit], units and set_of(units), frame.clocks[unit], bad_of(frame.catches[unit]), frame.skew, frame.slack, frame.margin)
                for cells, cell in zip(rest.values(), row):
                    cells.append(cell)
        whole = {name: pandas.array(cells, dtype="Int64") for name, cells in {**words, **{name: rest.pop(name) for name in ("clk", "skew", "slack")}}.items()}
        table = pandas.DataFrame({**rest, **whole})
        return table[["frame", "unit", "state", "cfg", "clk", *words, "bad", "skew", "slack", "margin"]]

    def picture(self, frames: Optional[Tuple[int, int]] = None, name: str = "") -> str:
        """The drawing of the flight, or of its frames from one to another: an SVG."""
        from sift.pictures import flight

        return flight.svg_of(flight.Drawn(self._flight, name, frames, self._stated()))

    def _repr_svg_(self) -> str:
        return self.picture()

    def plot(self, *names: str, axes: Optional[matplotlib.axes.Axes] = None) -> matplotlib.axes.Axes:
        """Plots words by their names, or the skew of the clocks where none is named, over the frames, with matplotlib."""
        from matplotlib import pyplot, ticker

        chosen = axes if axes is not None else pyplot.subplots()[1]
        frames = range(len(self.frames))
        if not names:
            chosen.step(frames, [frame.skew if frame.skew is not None else float("nan") for frame in self.frames], where="post", label="skew")
        for name in names:
            chosen.step(frames, [float("nan") if word is None else word for word in self.words(name)], where="post", label=name)
        chosen.set_xlabel("frame")
        chosen.xaxis.set_major_locator(ticker.MaxNLocator(integer=True))
        chosen.legend()
        return chosen
