"""Draws how the time of a flight grows, from the rows of tools/growth: bars for a browser, lines for a terminal."""
from collections import namedtuple

from sift.pictures.drawing import INK, Drawing

COLUMNS = ("grows", "value", "workers", "wall", "processor")
# What grows, what is said of its picture, and the words behind a value: one of them, and more.
GROWTHS = {
    "frames": ("by frames", "8 units, one worker", "frame", "frames"),
    "units": ("by units", "1,000 frames, one worker", "unit", "units"),
    "workers": ("by workers", "8 units, 1,000 frames", "worker", "workers"),
}
WALL, PROCESSOR = "#3182bd", "#bdbdbd"
LONGEST = 360  # the width of the longest bar
COLUMN, ROW, LEFT, TOP = 130, 22, 20, 70

Time = namedtuple("Time", "value wall processor")


class NoRows(Exception):
    """Why a text has no times."""


def read_rows(text):
    """Of each thing that grows its times, in milliseconds."""
    lines = text.splitlines()
    if not lines or lines[0] != "\t".join(COLUMNS):
        raise NoRows("line 1: the names of the columns are due")
    times = {what: [] for what in GROWTHS}
    for number, line in enumerate(lines[1:], 2):
        try:
            what, value, _, wall, processor = line.split("\t")
            times[what].append(Time(int(value), float(wall), float(processor)))
        except (KeyError, ValueError):
            raise NoRows(f"line {number}: it isn't a time's") from None
    if not any(times.values()):
        raise NoRows("there is no time")
    return {what: some for what, some in times.items() if some}


def named(what, value):
    """A value with what it counts."""
    return f"{value:,} {GROWTHS[what][2 if value == 1 else 3]}"


def text_of(times, _width):
    """The times as lines: a # for each fortieth of the longest wall time."""
    lines, most = [], max(time.wall for some in times.values() for time in some) or 1
    for what, some in times.items():
        lines += [""] if lines else []
        lines.append(f"{GROWTHS[what][0]}: {GROWTHS[what][1]}")
        for time in some:
            bar = "#" * round(40 * time.wall / most)
            lines.append(f"  {named(what, time.value):>12}  {time.wall:5.0f} ms wall  {time.processor:5.0f} ms processor  {bar}".rstrip())
    return "\n".join(lines) + "\n"


def svg_of(times):
    """The times as bars: wall time above processor time."""
    drawing, most = Drawing(TOP), max(max(time[1:]) for some in times.values() for time in some) or 1
    drawing.words(LEFT, 26, "How the time of a flight grows", 17)
    drawing.bar(LEFT, 38, 12, 12, WALL)
    drawing.words(LEFT + 18, 48, "wall time")
    drawing.bar(LEFT + 110, 38, 12, 12, PROCESSOR)
    drawing.words(LEFT + 128, 48, "processor time, of all workers together")
    for what, some in times.items():
        drawing.bottom += 24
        drawing.words(LEFT, drawing.bottom, f"{GROWTHS[what][0]}: {GROWTHS[what][1]}", 14)
        drawing.bottom += 10
        for time in some:
            drawing.words(LEFT + COLUMN - 8, drawing.bottom + 13, named(what, time.value), 13, ' text-anchor="end"')
            for place, (length, fill) in enumerate(((time.wall, WALL), (time.processor, PROCESSOR))):
                drawing.bar(LEFT + COLUMN, drawing.bottom + 8 * place + 1, LONGEST * length / most, 8, fill, f"{length:,.0f} ms")
            drawing.words(LEFT + COLUMN + LONGEST * max(time.wall, time.processor) / most + 6, drawing.bottom + 13, f"{time.wall:,.0f} ms")
            drawing.bottom += ROW
        drawing.line(LEFT + COLUMN, drawing.bottom - ROW * len(some), LEFT + COLUMN, drawing.bottom, f'stroke="{INK}"')
    return drawing.svg("How the time of a flight grows", LEFT + COLUMN + LONGEST + 80, drawing.bottom + 20)
