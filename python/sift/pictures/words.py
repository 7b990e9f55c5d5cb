"""Plots words of a flight over those of the ideal machine."""
from sift.pictures.drawing import Drawing, ticks
from sift.reports.reading import stretches_of, when

LEFT, HEIGHT, GAP = 104, 130, 70
FLIGHT, IDEAL, MARK, HELD = "#1f78b4", "#fdbf6f", "#d7301f", "#eeeeee"


class Series:
    """A word over the frames of a flight: as each unit votes it, and as it is due, where that is known."""

    def __init__(self, name, of_units, due, held):
        self.name = name
        self.held = held  # of each frame whether its task is shed, so that the word is one of before
        self.of_units = of_units  # of each frame the words of all units, None where one tells none
        self.due = due  # of each frame the word, or None from the first frame on in which its task is shed, or one that it reads
        # The word of the lowest unit that tells one, or None.
        self.lead = [next((word for word in words if word is not None), None) for words in of_units]

    def differs(self, frame):
        """Whether a unit has another word in a frame than is due."""
        return self.due[frame] is not None and any(word not in (None, self.due[frame]) for word in self.of_units[frame])

    def first(self):
        """The first frame in which the flight's word isn't the one that is due, or None."""
        return next((frame for frame in range(len(self.due)) if self.differs(frame)), None)

    def told(self):
        """What the series shows, in words."""
        first, known = self.first(), len(self.due) - self.due.count(None)
        whole = known == len(self.due)
        rest = "" if whole else f"; from frame {known} on not compared, since its task is shed, or one that it reads"
        if first is None:
            when = "in every frame" if whole else f"before frame {known}"
            return f"{self.name}: as the ideal machine has it, {when}{rest}" if known else f"{self.name}:{rest[1:]}"
        words = sorted({word for word in self.of_units[first] if word not in (None, self.due[first])})
        frames = f"{sum(map(self.differs, range(known)))} of {known} frames"
        return f"{self.name}: first differs in frame {first}: {', '.join(map(str, words))}, and not {self.due[first]}; in {frames}{rest}"


def series_of(named, names, flight, text):
    """The chosen words of a flight, and those that are due by the text of the ideal machine."""
    due = list(named.ideal(text, flight))
    for name in names:
        place = named.words().index(name)
        of_units = [[named.told(frame, unit)[place] for unit in range(flight.units)] for frame in flight.frames]
        held = [any(name in named.shed(frame, unit) for unit in range(flight.units)) for frame in flight.frames]
        yield Series(name, of_units, [words[place] for words in due], held)


class Panel:
    """Where a series stands in the drawing."""

    def __init__(self, page, series, cell):
        self.page = page
        self.series = series
        self.cell = cell
        self.top = page.bottom + GAP
        words = [word for words in [*series.of_units, series.due] for word in words if word is not None]
        self.low, self.high = min(words), max(words)

    def at(self, frame):
        return round(LEFT + self.cell * frame, 2)

    def height_of(self, word):
        """How far down a word stands."""
        share = (self.high - word) / (self.high - self.low) if self.high > self.low else 0.5
        return round(self.top + HEIGHT * share, 2)

    def steps(self, words):
        """The path of a line that holds each word for a frame."""
        path, pen = "", False
        for frame, word in enumerate(words):
            if word is not None:
                y = self.height_of(word)
                path += f"V{y:g}" if pen else f"M{self.at(frame):g} {y:g}"
                path += f"H{self.at(frame + 1):g}"
            pen = word is not None
        return path

    def draw(self):
        page, series = self.page, self.series
        page.words(24, self.top - 22, series.told(), 14)
        for first, last, held in stretches_of(series.held):
            if held:
                width = round(self.at(last + 1) - self.at(first), 2)
                page.bar(self.at(first), self.top - 8, width, HEIGHT + 16, HELD, f"{when(first, last)}: held, since its task is shed")
                page.words(self.at(first) + 4, self.top + HEIGHT + 20, "held", 11)
        for word in ticks(self.low, self.high):
            page.words(LEFT - 10, self.height_of(word) + 4, word, 11, ' text-anchor="end"')
            page.line(LEFT, self.height_of(word), self.at(len(series.due)), self.height_of(word), 'stroke="#cccccc"')
        for words, colour, width in ((series.due, IDEAL, 6), (series.lead, FLIGHT, 2)):
            page.add(f'<path d="{self.steps(words)}" fill="none" stroke="{colour}" stroke-width="{width}"/>')
        for frame, words in enumerate(series.of_units):
            for word in sorted({word for word in words if word not in (None, series.lead[frame])}):
                page.add(f'<circle cx="{self.at(frame) + self.cell / 2:g}" cy="{self.height_of(word):g}" r="3" fill="{FLIGHT}"/>')
        first = series.first()
        if first is not None:
            page.line(self.at(first), self.top - 10, self.at(first), self.top + HEIGHT + 6, f'stroke="{MARK}" stroke-dasharray="4 2"')
            page.words(self.at(first) + 4, self.top + HEIGHT + 16, f"frame {first}", 11, f' fill="{MARK}"')
        page.bottom = self.top + HEIGHT


def draw_axis(page, frames, cell):
    """The numbers of the frames, below all."""
    step = next((step for step in (1, 2, 5, 10, 20, 50, 100) if step * cell >= 36), 200)
    y = page.bottom + 36
    page.words(LEFT - 10, y, "frame", more=' text-anchor="end"')
    for frame in range(0, frames, step):
        page.words(LEFT + cell * (frame + 0.5), y, frame, 12, ' text-anchor="middle"')
    page.bottom = y


def draw_key(page):
    y = page.bottom + 28
    for x, colour, width, words in (
        (LEFT, FLIGHT, 2, "the flight: the lowest unit that tells the word; dots are other units"),
        (LEFT + 500, IDEAL, 6, "the ideal machine, or the sensor itself"),
    ):
        page.line(x, y - 4, x + 26, y - 4, f'stroke="{colour}" stroke-width="{width}"')
        page.words(x + 34, y, words, 12)
    page.bottom = y


def svg_of(listed, name):
    """The plot of some series, one below the other."""
    page = Drawing()
    page.name(name)
    page.bottom -= 18
    frames = len(listed[0].due)
    cell = max(0.86, min(110.0, 860 / frames))
    for series in listed:
        Panel(page, series, cell).draw()
    draw_axis(page, frames, cell)
    draw_key(page)
    width = max(LEFT + cell * frames + 32, 940)
    return page.svg("words of a flight, and the ideal machine's", width, page.bottom + 16)
