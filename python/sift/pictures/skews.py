"""The drawing of a run of `sift clocks`: the skew of each round, and the bound that none is over."""
import re

from sift.pictures.drawing import ticks

NUMBER = "(0|[1-9][0-9]*)"
ROUND = re.compile(f"round={NUMBER} skew={NUMBER}")
LAST = re.compile(f"clocks n={NUMBER} m={NUMBER} most={NUMBER} bound={NUMBER}")
LEFT, TOP, HEIGHT = 104, 76, 200
INK, FILL, LIMIT = "#222222", "#dadaeb", "#d7301f"
BLOCK, ROWS = 100, 8


class NoRun(Exception):
    """Why the input is no run of clocks."""


class Run:
    """A run: how many clocks, how many of them faulty, the skew of each round, and the bound."""

    def __init__(self, skews, last):
        self.skews = skews
        self.n, self.m, self.most, self.bound = map(int, last.groups())

    def headline(self):
        faulty = f"{self.m or 'none'} of them faulty"
        rounds = len(self.skews) - 1
        clocks = f"{self.n} {'clock' if self.n == 1 else 'clocks'}, {faulty}, {rounds} {'round' if rounds == 1 else 'rounds'}"
        return f"{clocks}; the greatest skew is {self.most}, first in round {self.skews.index(self.most)}, and the bound {self.bound}"


def read_run(text):
    """The run that a text tells, whose lines end as the program's do, or with CR LF as some copies' do."""
    lines = text.replace("\r\n", "\n").split("\n")
    if lines.pop() != "":
        raise NoRun(f"line {len(lines) + 1}: the last line has no end")
    skews = []
    for place, line in enumerate(lines, 1):
        last = LAST.fullmatch(line)
        if last and skews:
            run = Run(skews, last)
            if place != len(lines) or run.most != max(skews):
                raise NoRun(f"line {place}: the greatest skew of all rounds is due, and nothing after it")
            return run
        found = ROUND.fullmatch(line)
        if not found or int(found[1]) != len(skews):
            raise NoRun(f"line {place}: the skew of round {len(skews)} is due")
        skews.append(int(found[2]))
    raise NoRun(f"line {len(lines) + 1}: the last line of the run is missing")


# A drawing for a terminal.


def rows_of(run, skews):
    """Columns of skew, below the row of the bound: a # where the skew reaches the row's height, and a . where it only begins to."""
    rows = min(ROWS, max(run.bound, 1))
    lines = []
    for row in range(rows, 0, -1):
        height, below = (-(-step * run.bound // rows) for step in (row, row - 1))
        marks = ("#" if skew >= height > 0 else "." if skew > below else " " for skew in skews)
        lines.append(f"{height:>6} |" + "".join(marks))
    lines[0] = lines[0].ljust(8 + len(skews)) + "  the bound"
    return lines


def text_of(run, _width):
    """The drawing for a terminal, 100 rounds to a block."""
    lines = [run.headline(), ""]
    for first in range(0, len(run.skews), BLOCK):
        skews = run.skews[first : first + BLOCK]
        scale = ""
        for number in range(-(-first // 10) * 10, first + len(skews), 10):
            scale = scale.ljust(number - first) + str(number)
        lines += ["round   " + scale, *(line.rstrip() for line in rows_of(run, skews)), ""]
    return "\n".join([*lines, "skew, in ticks: # reaches the number, . is between it and the one below"]) + "\n"


# A drawing for a browser.


def svg_of(run):
    """The drawing for a browser: a bar for the skew of each round, and the bound as a dashed line."""
    cell = max(2.0, min(60.0, 960 / len(run.skews)))
    right, base = LEFT + cell * len(run.skews), TOP + HEIGHT
    scale = HEIGHT / max(run.bound, 1)
    width, height = max(right + 32, 940), base + 36

    def words(x, y, told, size=12, more=""):
        return f'<text x="{x:g}" y="{y:g}" font-size="{size}"{more}>{told}</text>'

    def line(y, stroke):
        return f'<line x1="{LEFT}" y1="{y:g}" x2="{right:g}" y2="{y:g}" stroke="{stroke}"/>'

    elements = [
        f'<svg xmlns="http://www.w3.org/2000/svg" width="{width:g}" height="{height:g}" viewBox="0 0 {width:g} {height:g}"'
        f' font-family="DejaVu Sans, Verdana, sans-serif" fill="{INK}">',
        f"<title>{run.headline()}</title>",
        f'<rect width="{width:g}" height="{height:g}" fill="white"/>',
        words(24, 28, run.headline(), 15, ' font-weight="bold"'),
        words(LEFT - 46, TOP + HEIGHT / 2 - 3, "skew", 13, ' text-anchor="end"'),
        words(LEFT - 46, TOP + HEIGHT / 2 + 12, "in ticks", 11, ' text-anchor="end"'),
    ]
    for number, skew in enumerate(run.skews):
        x, tall = round(LEFT + cell * number, 2), round(skew * scale, 2)
        elements.append(f'<rect x="{x:g}" y="{base - tall:g}" width="{cell:g}" height="{tall:g}" fill="{FILL}" stroke="white" stroke-width="0.3"><title>round {number}: skew {skew}</title></rect>')
    for value in ticks(0, run.bound):
        y = round(base - value * scale, 2)
        elements.append(line(y, "#cccccc") + words(LEFT - 10, y + 4, value, 11, ' text-anchor="end"'))
    if run.bound:
        elements.append(line(TOP, LIMIT + '" stroke-width="1.5" stroke-dasharray="6 3'))
    elements.append(words(LEFT, TOP - 6, f"the bound: {run.bound}", 12, f' fill="{LIMIT}"'))
    step = next((step for step in (1, 2, 5, 10, 20, 50, 100) if step * cell >= 36), 200)
    elements += [words(LEFT + cell * (number + 0.5), base + 18, number, 12, ' text-anchor="middle"') for number in range(0, len(run.skews), step)]
    elements.append(words(LEFT - 10, base + 18, "round", 13, ' text-anchor="end"'))
    return "\n".join([*elements, "</svg>"]) + "\n"
