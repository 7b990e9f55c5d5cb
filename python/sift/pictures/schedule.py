"""Draws the schedule of a mission: for each size of a configuration its positions by subframes."""
import colorsys
from collections import namedtuple

from sift.documents import texts
from sift.documents.slots import FEWEST
from sift.pictures.drawing import Drawing

FIRST_RUN = 4  # the first subframe in which a task may run
LAST_RUN, LAST_POLL = -8, -6  # the last ones, counted from the frame's end
# What every unit does in the fixed subframes, which are counted from the frame's begin or end: a letter, a word, all of it.
FIXED = (
    (0, "s", "say", "says its clock, and the sensors that it reads"),
    (2, "r", "relay", "hears clocks and sensors, and relays the sensors"),
    (4, "a", "agree", "hears the relays, and agrees on the sensors' words"),
    (-6, "b", "report", "says whom it caught"),
    (-4, "r", "relay", "hears the reports, and relays them"),
    (-2, "e", "end", "hears the relays, removes whom two caught, and sets its clock"),
)

Task = namedtuple("Task", "letter name run poll positions reads")


def reads_of(mission, number):
    """What a task reads, as its text names it."""
    sensors = [sensor.get("name").data for sensor in mission.sensors]
    names = [task.get("name").data for task in mission.tasks]
    found = []
    for part in texts.parts_of(mission.statements(number)):
        if isinstance(part, texts.Sense):
            found.append(f"sense {sensors[part.sensor]}")
        elif isinstance(part, texts.Read):
            found.append(f"{'now' if part.now else 'last'} {names[part.task]}.{part.word}")
    return list(dict.fromkeys(found))


class Grid:
    """The schedule for one size of a configuration."""

    def __init__(self, mission, size):
        self.size = size
        self.subframes = mission.subframes
        self.sensors = [sensor.get("name").data for sensor in mission.sensors]
        shed = mission.shed(size)
        self.shed = [mission.tasks[number].get("name").data for number in sorted(shed)]
        self.tasks = [
            Task(chr(ord("A") + number), mission.tasks[number].get("name").data, run, poll, positions, reads_of(mission, number))
            for number, (run, poll, positions) in enumerate(mission.rows_of(size))
            if number not in shed
        ]

    def head(self):
        return f"a configuration of {self.size} units"

    def fixed(self):
        """The fixed subframes with what every unit does there."""
        return {subframe % self.subframes: words for subframe, *words in FIXED}

    def runs(self):
        """The subframes in which tasks may run."""
        return range(FIRST_RUN, self.subframes + LAST_RUN + 1)

    def task_at(self, position, subframe):
        """The task that a position runs in a subframe, or None."""
        return next((task for task in self.tasks if task.run == subframe and position in task.positions), None)

    def polled_in(self, subframe):
        return [task for task in self.tasks if task.poll == subframe]

    def notes(self):
        """What each task reads, which tasks are shed, who reads each sensor, and what is free, in lines."""
        for task in self.tasks:
            at = "".join(map(str, task.positions))
            reads = f"; reads {', '.join(task.reads)}" if task.reads else "; reads nothing"
            yield f"{task.letter} {task.name}: runs in {task.run} at {at}, polled in {task.poll}{reads}"
        if self.shed:
            yield f"shed: {', '.join(self.shed)}"
        for number, name in enumerate(self.sensors):
            reader = number % self.size
            users = [task.name for task in self.tasks if f"sense {name}" in task.reads and reader in task.positions]
            read = "reads" if len(users) == 1 else "read"
            uses = f"runs {', '.join(users)}, which {read} it" if users else "runs no task that reads it"
            yield f"sensor {name}: position {reader} reads it, and {uses}"
        places = len(self.runs()) * self.size
        free = places - sum(len(task.positions) for task in self.tasks)
        yield f"free: {free} of {places} places, in the subframes {self.runs()[0]} to {self.runs()[-1]}"


class Schedule:
    """The grids of all sizes, the largest first, as a flight comes by them."""

    def __init__(self, mission, name):
        self.name = name
        self.subframes = mission.subframes
        self.grids = [Grid(mission, size) for size in range(mission.units, FEWEST - 1, -1)]


# For a terminal.

TEXT_KEY = (
    "A .. runs the task of this letter; . is free; in the row `polls` all vote on it.",
    "In the row `fixed`, what every unit does: s says clocks and sensors, r relays,",
    "a agrees on sensors, b says whom it caught, e removes, and sets its clock.",
)


def text_line(label, marks):
    return (label.ljust(11) + "".join(f"{mark:>3}" for mark in marks)).rstrip()


def text_grid(grid, subframes):
    """The lines of some subframes of a size."""
    fixed = grid.fixed()
    yield text_line("subframe", subframes)
    yield text_line("fixed", [fixed[subframe][0] if subframe in fixed else "" for subframe in subframes])
    for position in range(grid.size):
        tasks = [grid.task_at(position, subframe) for subframe in subframes]
        marks = [task.letter if task else "." if subframe in grid.runs() else "" for subframe, task in zip(subframes, tasks)]
        yield text_line(f"position {position}", marks)
    for row in range(max(1, *(len(grid.polled_in(subframe)) for subframe in subframes))):
        polled = [grid.polled_in(subframe)[row:] for subframe in subframes]
        yield text_line("polls" if row == 0 else "", [tasks[0].letter if tasks else "" for tasks in polled])


def text_of(schedule, width):
    """The grids, with as many subframes side by side as the width holds."""
    side_by_side = max(1, (width - 11) // 3) if width else schedule.subframes
    lines = [schedule.name, ""] if schedule.name else []
    for grid in schedule.grids:
        lines.append(grid.head())
        for first in range(0, schedule.subframes, side_by_side):
            lines += text_grid(grid, range(first, min(first + side_by_side, schedule.subframes)))
        lines += [*grid.notes(), ""]
    return "\n".join([*lines, *TEXT_KEY]) + "\n"


# For a browser.

LEFT, ROW, BAR = 104, 26, 22
SIZES = (11, 10, 9)  # of the names in the boxes, where they fit


def colour_of(task):
    """A colour for a task, far from those of its neighbours."""
    red, green, blue = colorsys.hls_to_rgb((0.55 + 0.382 * (ord(task.letter) - ord("A"))) % 1, 0.78, 0.6)
    return "#%02x%02x%02x" % (round(red * 255), round(green * 255), round(blue * 255))


class Page(Drawing):
    """The drawing of all grids, and where a subframe is."""

    def __init__(self, subframes, grids, room=960, bottom=0):
        super().__init__(bottom)
        self.cell = max(15.0, min(62.0, room / subframes))
        # The size in which each box has its whole name, or None where they all have letters.
        self.for_tasks = self.size_of(task.name for grid in grids for task in grid.tasks)
        self.for_fixed = self.size_of(word for _, _, word, _ in FIXED)

    def size_of(self, names):
        """The largest size in which all names fit into a subframe, or None."""
        longest = max(map(len, names), default=0)
        return next((size for size in SIZES if 0.58 * size * longest + 4 <= self.cell), None)

    def at(self, subframe):
        return round(LEFT + self.cell * subframe, 2)

    def label(self, y, words):
        self.words(LEFT - 10, y + 15, words, more=' text-anchor="end"')

    def box(self, subframe, y, fill, words, size, told, more=""):
        """A bar in a subframe with its words."""
        self.bar(self.at(subframe) + 1, y, round(self.cell - 2, 2), BAR, fill, told, more)
        self.words(round(self.at(subframe) + self.cell / 2, 2), y + 15, words, size or SIZES[0], ' text-anchor="middle" pointer-events="none"')

    def task_box(self, subframe, y, fill, task, told, more=""):
        """A bar with the name of a task, or its letter."""
        self.box(subframe, y, fill, task.name if self.for_tasks else task.letter, self.for_tasks, told, more)


def draw_grid(page, grid, notes):
    """The drawing of one size with notes in lines, below what is drawn."""
    y, fixed = page.bottom, grid.fixed()
    page.words(24, y, grid.head(), 15, ' font-weight="bold"')
    y += 20
    page.words(LEFT - 10, y, "subframe", more=' text-anchor="end"')
    for subframe in range(grid.subframes):
        page.words(round(page.at(subframe) + page.cell / 2, 2), y, subframe, 11 if page.cell >= 20 else 9, ' text-anchor="middle"')
    y += 6
    page.label(y, "fixed")
    for subframe, (letter, word, told) in sorted(fixed.items()):
        page.box(subframe, y, "#e3e3e3", word if page.for_fixed else letter, page.for_fixed, f"subframe {subframe}: every unit {told}")
    for position in range(grid.size):
        y += ROW
        page.label(y, f"position {position}")
        for subframe in grid.runs():
            task = grid.task_at(position, subframe)
            if task:
                told = f"position {position} runs {task.name} in subframe {subframe}; it reads {', '.join(task.reads) or 'nothing'}"
                page.task_box(subframe, y, colour_of(task), task, told)
            else:
                told = f"position {position} is free in subframe {subframe}"
                page.bar(page.at(subframe) + 1, y, round(page.cell - 2, 2), BAR, "white", told, ' stroke="#cccccc"')
    y += ROW
    page.label(y, "polls")
    for task in grid.tasks:
        above = [other for other in grid.polled_in(task.poll) if other.letter < task.letter]
        more = f' stroke="{colour_of(task)}" stroke-width="2"'
        page.task_box(task.poll, y + ROW * len(above), "white", task, f"all vote on {task.name} in subframe {task.poll}", more)
    y += ROW * max((len(grid.polled_in(task.poll)) for task in grid.tasks), default=1)
    for note in notes:
        y += 17
        page.words(LEFT, y, note, 12)
    page.bottom = y + 40


def draw_key(page):
    """What the letters of the fixed subframes mean, where they have no room for words."""
    if not page.for_fixed:
        said = "; ".join(f"{letter} {word}" for letter, word in dict((letter, word) for _, letter, word, _ in FIXED).items())
        page.words(LEFT, page.bottom - 16, f"in the row `fixed`: {said}", 12)
        page.bottom += 17


def svg_of(schedule):
    page = Page(schedule.subframes, schedule.grids)
    page.name(schedule.name)
    page.bottom += 16
    for grid in schedule.grids:
        draw_grid(page, grid, grid.notes())
    draw_key(page)
    width = max(page.at(schedule.subframes) + 32, 940)
    return page.svg("a schedule: positions by subframes", width, page.bottom - 16)
