"""Draws a flight: units by frames."""
from collections import namedtuple

from sift.pictures.drawing import INK, Drawing, ticks
from sift.reports.events import events_of
from sift.reports.reading import bad_of, digits, kinds_of, stretches_of, when

MOST = 240  # frames that have a column each; where there are more, some are folded
KEPT = 4  # frames on both sides of a fold, of those that look alike

Stretch = namedtuple("Stretch", "first last")


class Drawn:
    """A flight with what is drawn of it: its name, the frames from first to last, which of them are folded, and what its mission
    states."""

    def __init__(self, flight, name="", frames=None, stated=()):
        self.flight = flight
        self.name = name
        self.first, self.last = frames or (0, len(flight.frames) - 1)
        self.stated = stated
        self.told = flight.configurations()
        self.frames = range(self.first, self.last + 1)
        self.folds = list(self.alike()) if len(self.frames) > MOST else []

    def alike(self):
        """The stretches of frames in which nothing changes but clocks and words, less those that stay at their ends."""
        looks = [(frame.states, frame.catches, told, frame.margin) for frame, told in zip(self.flight.frames, self.told)]
        for first, last, _ in self.stretches(looks):
            if last - first > 3 * KEPT:
                yield Stretch(first + KEPT, last - KEPT)

    def stretches(self, values):
        """The stretches of equal values of those of all frames, in what is drawn."""
        return [(self.first + first, self.first + last, value) for first, last, value in stretches_of(values[self.first : self.last + 1])]

    def columns(self):
        """The frames that have a column each, in order, and the folds between them."""
        frame, folds = self.first, {fold.first: fold for fold in self.folds}
        while frame <= self.last:
            column = folds.get(frame, frame)
            yield column
            frame = column.last + 1 if frame in folds else frame + 1

    def headline(self):
        """What the report is of, in a line."""
        flight = self.flight
        margin = "margin kept" if flight.frames[-1].margin else "margin lost"
        return f"{flight.units} units, {len(flight.frames)} frames, {margin}; at the end the configuration is {digits(flight.last, '')}"

    def shown(self):
        """Which frames are drawn, where not all of them are, and which are folded."""
        if len(self.frames) < len(self.flight.frames):
            yield f"drawn here: {when(self.first, self.last)}"
        if self.folds:
            yield f"folded: {', '.join(f'{fold.first} to {fold.last}' for fold in self.folds)}, in which only clocks and words change"

    def events(self):
        return events_of(self.flight, self.stated, self.first, self.last + (self.last + 1 == len(self.flight.frames)))


# A drawing for a terminal.

TEXT_KEY = [
    ".  works                       #  faulty             -  faulty, and out",
    "o  works, and catches a unit   X  faulty, caught     i  idle: works, and out",
    "x  works, and is caught        |  from here on a new configuration",
    "margin: . kept, L lost         skew: # reaches the number, . is below it",
]
BLOCK = 100  # columns side by side, where the terminal isn't known or is wide
LABEL = 8  # letters in front of them
FOLD = "~~~"  # what stands for a fold


def mark_of(frame, unit, configuration):
    """The letter for a unit in a frame."""
    caught = bool(frame.caught_by(unit))
    if frame.states[unit] == "idle":
        return "i"
    if frame.states[unit] == "faulty":
        return "X" if caught else "#" if unit in configuration else "-"
    return "x" if caught else "o" if frame.catches[unit] else "."


def marks(columns, mark):
    """The letters of some columns, where a function tells that of a frame."""
    return "".join(FOLD if isinstance(column, Stretch) else mark(column) for column in columns)


def scale_line(columns):
    """The numbers over the frames, at every tenth and behind a fold."""
    line, place, behind = "", 0, False
    for column in columns:
        folded = isinstance(column, Stretch)
        if not folded and (column % 10 == 0 or behind) and (not line or len(line) < place):
            line = line.ljust(place) + str(column)
        place += len(FOLD) if folded else 1
        behind = folded
    return line


def skew_rows(columns, skews, rows, greatest):
    """Columns of skew: in the row of a height stands a # where the skew reaches it, and a . where it only begins to."""
    for row in range(rows, 0, -1):
        height = -(-row * greatest // rows)
        below = -(-(row - 1) * greatest // rows)

        def mark(frame):
            skew = skews[frame]
            return "?" if skew is None else "#" if skew >= height else "." if skew > below else " "

        yield f"{height:>6} |" + marks(columns, mark)


def text_block(drawn, columns):
    """The drawing of some columns."""
    frames, told = drawn.flight.frames, drawn.told
    lines = ["frame   " + scale_line(columns)]
    for unit in range(drawn.flight.units):
        lines.append(f"unit {unit}  " + marks(columns, lambda frame: mark_of(frames[frame], unit, told[frame])))
    lines.append("change  " + marks(columns, lambda frame: "|" if frame > 0 and told[frame] != told[frame - 1] else " "))
    lines.append("margin  " + marks(columns, lambda frame: "." if frames[frame].margin else "L"))
    skews = [frame.skew for frame in frames]
    greatest = max((skews[frame] for frame in drawn.frames if skews[frame] is not None), default=0)
    if greatest:
        lines.append("skew, in ticks")
        lines += skew_rows(columns, skews, min(greatest, 5), greatest)
    return [line.rstrip() for line in lines]


def blocks_of(columns, width):
    """The columns in blocks that are as wide as a terminal, or 100 columns."""
    room = max(10, (min(width, BLOCK + LABEL) - LABEL) // 10 * 10) if width else BLOCK
    block, used = [], 0
    for column in columns:
        wide = len(FOLD) if isinstance(column, Stretch) else 1
        if used + wide > room:
            yield block
            block, used = [], 0
        block.append(column)
        used += wide
    yield block


def text_of(drawn, width):
    """The drawing for a terminal."""
    lines = [*([drawn.name] if drawn.name else []), drawn.headline(), *drawn.shown(), ""]
    for columns in blocks_of(drawn.columns(), width):
        lines += [*text_block(drawn, columns), ""]
    if not any(drawn.flight.frames[frame].skew for frame in drawn.frames):
        lines += ["skew is 0 in every frame", ""]
    return "\n".join(lines + TEXT_KEY + [""] + drawn.events()) + "\n"


# A drawing for a browser.

LEFT, ROW, BAR = 104, 30, 22
FOLD_CELLS = 4  # how wide a fold is
COLOURS = {
    "works": "#a6cee3",
    "faulty": "#d7301f",
    "out": "url(#out)",
    "idle": "#bdbdbd",
}
WORDS = {
    "works": "works",
    "faulty": "faulty",
    "out": "faulty, and out of the configuration",
    "idle": "idle: works, and out of the configuration",
}
CATCH = "#08306b"
MOST_EVENTS = 60


class Page(Drawing):
    """The drawing of a flight: its elements, and where a frame and a row are."""

    def __init__(self, drawn):
        super().__init__()
        self.drawn = drawn
        self.flight = drawn.flight
        self.told = drawn.told
        cells = len(drawn.frames) + sum(FOLD_CELLS - (fold.last + 1 - fold.first) for fold in drawn.folds)
        self.cell = max(1.0, min(110.0, 960 / cells))
        self.lefts = self.lefts_of()
        self.right = self.at(drawn.last + 1)
        self.folded = {frame for fold in drawn.folds for frame in range(fold.first, fold.last + 1)}
        self.name(drawn.name)
        self.bottom += 20
        self.words(24, self.bottom, drawn.headline(), 17, ' font-weight="bold"')
        for line in (*drawn.shown(), least_slack(self.flight)):
            self.bottom += 19
            self.words(24, self.bottom, line, 12)
        self.top = self.bottom + 36
        self.bottom = self.top + ROW * self.flight.units

    def lefts_of(self):
        """Where each frame begins, from the left; and at last where the last one ends."""
        lefts, x, folds = {}, float(LEFT), {fold.first: fold for fold in self.drawn.folds}
        for column in self.drawn.columns():
            first, last = column if isinstance(column, Stretch) else (column, column)
            wide = self.cell * (FOLD_CELLS if first in folds else 1)
            for frame in range(first, last + 1):
                lefts[frame] = x + wide * (frame - first) / (last + 1 - first)
            x += wide
        return {**lefts, self.drawn.last + 1: x}

    def at(self, frame):
        """Where a frame begins, from the left."""
        return round(self.lefts[frame], 2)

    def middle_of(self, frame):
        """The middle of a frame that has a column of its own."""
        return round(self.lefts[frame] + self.cell / 2, 2)

    def wide(self, first, last):
        """How wide a stretch of frames is."""
        return round(self.lefts[last + 1] - self.lefts[first], 2)

    def row(self, unit):
        """The top of a unit's bar."""
        return self.top + ROW * unit

    def middle(self, unit):
        """The middle of a unit's bar."""
        return self.row(unit) + BAR / 2

    def shown_frames(self):
        """The frames that have a column of their own."""
        return [frame for frame in self.drawn.frames if frame not in self.folded]


def state_in(frame, unit, configuration):
    """What a unit's bar shows in a frame."""
    if frame.states[unit] == "faulty" and unit not in configuration:
        return "out"
    return frame.states[unit]


def draw_axis(page):
    """The numbers of the frames, over the units, with room between them."""
    page.words(LEFT - 10, page.top - 8, "frame", more=' text-anchor="end"')
    step = next((step for step in (1, 2, 5, 10, 20, 50, 100) if step * page.cell >= 36), 200)
    behind, free = {fold.last + 1 for fold in page.drawn.folds}, 0
    for frame in page.shown_frames():
        middle = page.middle_of(frame)
        if (frame % step == 0 or frame in behind or frame == page.drawn.first) and middle >= free:
            page.words(middle, page.top - 8, frame, 12, ' text-anchor="middle"')
            page.line(middle, page.top - 5, middle, page.top - 1, f'stroke="{INK}"')
            free = middle + 34


def draw_units(page):
    """A bar for each unit, in pieces of one state, with a thin line between frames where there is room."""
    for unit in range(page.flight.units):
        page.words(LEFT - 10, page.middle(unit) + 4.5, f"unit {unit}", more=' text-anchor="end"')
        states = [state_in(frame, unit, told) for frame, told in zip(page.flight.frames, page.told)]
        for first, last, state in page.drawn.stretches(states):
            told = f"unit {unit}, {when(first, last)}: {WORDS[state]}"
            page.bar(page.at(first), page.row(unit), page.wide(first, last), BAR, COLOURS[state], told)
    if page.cell >= 8:
        page.bar(LEFT, page.top, page.right - LEFT, page.bottom - page.top, "url(#frames)", more=' pointer-events="none"')


def draw_folds(page):
    """A torn edge where frames are folded."""
    for fold in page.drawn.folds:
        x, wide = page.at(fold.first), page.wide(fold.first, fold.last)
        told = f"{when(*fold)} are folded: only clocks and words change in them"
        page.bar(x, page.top - 4, wide, page.bottom - page.top, "white", told, ' fill-opacity="0.75"')
        for edge in (x, x + wide):
            path = f"M{edge:g} {page.top - 4:g}" + "".join(f"l{3 if turn % 2 else -3} 6" for turn in range(int(page.bottom - page.top) // 6))
            page.add(f'<path d="{path}" fill="none" stroke="#777777"/>')


def draw_catcher(page, x, unit, caught):
    """A unit that caught others: their digits, with the kinds where there is room for them, else a dot."""
    told = f"unit {unit} catches " + ", ".join(f"{whom}{kinds_of(letters)}" for whom, letters in caught.items())
    words = next((words for words in (bad_of(caught), digits(caught, "")) if 8 * len(words) + 8 <= page.cell), None)
    if words:
        width = 8 * len(words) + 6
        page.bar(x - width / 2, page.middle(unit) - 8, width, 16, CATCH, told, ' rx="5"')
        page.words(x, page.middle(unit) + 4.5, words, 12, ' text-anchor="middle" fill="white"')
    else:
        radius = round(max(1.0, min(4.5, page.cell * 0.48)), 2)
        page.add(f'<circle cx="{x:g}" cy="{page.middle(unit):g}" r="{radius:g}" fill="{CATCH}"><title>{told}</title></circle>')


def draw_catches(page):
    """In each frame the units that caught, a line from them to those whom they caught, and a white box there."""
    for number in page.shown_frames():
        frame, x = page.flight.frames[number], page.middle_of(number)
        caught = [unit for unit in range(page.flight.units) if frame.caught_by(unit)]
        for unit in caught:
            rows = frame.caught_by(unit) + [unit]
            page.line(x, page.middle(min(rows)), x, page.middle(max(rows)), f'stroke="{CATCH}" stroke-opacity="0.55"')
        for unit in caught:
            width = round(min(18, page.cell * 0.7), 2)
            told = f"frame {number}: unit {unit} is caught by {digits(frame.caught_by(unit))}"
            box = f' stroke="{INK}" stroke-width="1.2"'
            page.bar(x - width / 2, page.row(unit) + 3, width, BAR - 6, "white", told, box)
        for unit, whom in enumerate(frame.catches):
            if whom:
                draw_catcher(page, x, unit, whom)


def draw_band(page, y, label, values, fills):
    """A band of pieces, each with its words where there is room."""
    page.words(LEFT - 10, y + 13, label, more=' text-anchor="end"')
    for place, (first, last, value) in enumerate(page.drawn.stretches(values)):
        width = page.wide(first, last)
        page.bar(page.at(first), y, width, 18, fills(place, value), f"{when(first, last)}: {value}", ' stroke="white"')
        if 8 * len(value) + 6 <= width:
            page.words(page.at(first) + 4, y + 13.5, value, 12)


def draw_changes(page):
    """The configuration and the margin below the units, and a line through them where the configuration is a new one."""
    y = page.bottom + 6
    configurations = [digits(told, "") for told in page.told[:-1]]
    draw_band(page, y, "configuration", configurations, lambda place, _: ("#e3e3e3", "#f3f3f3")[place % 2])
    margins = ["ok" if frame.margin else "lost" for frame in page.flight.frames]
    draw_band(page, y + 24, "margin", margins, lambda _, value: "#c7e9c0" if value == "ok" else "#fc9272")
    for frame in page.drawn.frames:
        if frame > 0 and page.told[frame] != page.told[frame - 1]:
            dashes = f'stroke="{INK}" stroke-width="1.5" stroke-dasharray="4 2"'
            page.line(page.at(frame), page.top - 2, page.at(frame), y + 18, dashes)
    page.bottom = y + 24 + 18


def draw_skew(page):
    """The skew of each frame as steps over the frames."""
    skews = [frame.skew for frame in page.flight.frames]
    greatest = max((skews[frame] for frame in page.drawn.frames if skews[frame] is not None), default=0)
    height, top = 80 if greatest else 44, page.bottom + 22
    scale = height / max(greatest, 1)
    base = top + height
    page.words(LEFT - 46, top + height / 2 - 3, "skew", more=' text-anchor="end"')
    page.words(LEFT - 46, top + height / 2 + 12, "in ticks", 11, ' text-anchor="end"')
    for value in ticks(0, greatest):
        page.words(LEFT - 10, base - value * scale + 4, value, 11, ' text-anchor="end"')
        page.line(LEFT, base - value * scale, page.right, base - value * scale, 'stroke="#dddddd"')
    path, pen = "", False
    for first, last, skew in page.drawn.stretches(skews):
        if skew is not None:
            y = round(base - skew * scale, 2)
            path += f"V{y:g}" if pen else f"M{page.at(first):g} {y:g}"
            path += f"H{page.at(last + 1):g}"
            page.bar(page.at(first), y, page.wide(first, last), round(base - y, 2), "#dadaeb", f"{when(first, last)}: skew {skew}")
        pen = skew is not None
    page.add(f'<path d="{path}" fill="none" stroke="#54278f" stroke-width="2"/>')
    page.bottom = base


def draw_key(page):
    """What the colours and marks mean."""
    y = page.bottom + 34
    x = LEFT
    for state, words in WORDS.items():
        page.bar(x, y - 12, 22, 15, COLOURS[state])
        page.words(x + 28, y, words, 12)
        x += 28 + 6.6 * len(words) + 18
    y += 24
    page.bar(LEFT + 2, y - 12, 18, 15, CATCH, more=' rx="5"')
    page.words(LEFT + 11, y, "1", 12, ' text-anchor="middle" fill="white"')
    page.words(LEFT + 28, y, "or a dot: catches unit 1 (p poll, r relay, c clock), to whose white box its line goes", 12)
    page.line(LEFT + 570, y - 14, LEFT + 570, y + 4, f'stroke="{INK}" stroke-width="1.5" stroke-dasharray="4 2"')
    page.words(LEFT + 580, y, "from here on a new configuration", 12)
    page.bottom = y


def draw_events(page):
    """What happened, in words."""
    events = page.drawn.events()
    if len(events) > MOST_EVENTS:
        events[MOST_EVENTS - 1:] = [f"and {len(events) - MOST_EVENTS + 1} more, which --text tells"]
    for place, words in enumerate(events):
        page.words(LEFT, page.bottom + 32 + 19 * place, words)
    page.bottom += 32 + 19 * len(events)


def svg_of(drawn):
    """The drawing for a browser."""
    page = Page(drawn)
    draw_axis(page)
    draw_units(page)
    draw_catches(page)
    draw_folds(page)
    draw_changes(page)
    draw_skew(page)
    draw_key(page)
    draw_events(page)
    patterns = [
        '<pattern id="out" width="6" height="6" patternUnits="userSpaceOnUse" patternTransform="rotate(45)">'
        '<rect width="6" height="6" fill="#fde0dd"/><rect width="2" height="6" fill="#fc9272"/></pattern>',
        f'<pattern id="frames" x="{LEFT}" width="{page.cell:g}" height="{ROW}" patternUnits="userSpaceOnUse">'
        f'<rect width="1" height="{ROW}" fill="white"/></pattern>',
    ]
    return page.svg(drawn.headline(), max(page.right + 32, 940), page.bottom + 8, patterns)


def least_slack(flight):
    """Where the clocks came nearest to a word that is asked for too early."""
    slacks = [(frame.slack, number) for number, frame in enumerate(flight.frames) if frame.slack is not None]
    if not slacks:
        return "no frame tells a slack"
    least, number = min(slacks)
    return f"the least slack is {least} {'tick' if least == 1 else 'ticks'}, first in frame {number}"
