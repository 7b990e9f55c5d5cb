"""Draws the runs of a campaign: slots by units, for each way of lying, and what became of the worst run of each."""
from sift.campaigns.comparison import compared
from sift.campaigns.rows import counted
from sift.campaigns.summary import Counts
from sift.documents.slots import ALL_KINDS
from sift.pictures.drawing import INK, Drawing

# What can become of a fault, from the mildest to the worst: its letter, or None where the frames to removal stand for it; its
# colour; and what it is. A fault that does no harm has a quiet colour.
LOOKS = {
    "inert": (".", "#e3e3e3", "inert: its unit never says the slot while it is in the configuration"),
    "out": (None, "#c7e9c0", "out: the number is how many frames that took at most"),
    "outvoted": ("n", "#efedf5", "never caught, and no {harm}: outvoted, or of no effect"),
    "caught by one": ("c", "#9ecae1", "caught, and stays: one catcher isn't enough"),
    "believed": ("b", "#fdae6b", "never caught, and {article} {harm}: believed, by itself or beside its partner"),
    "margin lost": ("L", "#fc9272", "margin lost"),
}
WORST = list(LOOKS)
THICK, THIN = 2, 0.5  # edges of the key's boxes that have no colour


class Cell:
    """The worst of the runs in which a unit says a slot wrong in one way."""

    def __init__(self):
        self.row = None
        self.badness = None  # of the worst run
        self.fate = None  # what became of the fault in it
        self.removal = None  # the most frames to removal
        self.wrong = False  # whether an output was lost in a run in which the slot was said
        self.promised = True  # whether in each run it is promised: out in the next frame, or never caught

    def add(self, row, place):
        """One more run."""
        said = row.fates[place] != "inert"
        fate = self.fate_in(row, place)
        badness = said and row.harmed, WORST.index(fate), row.lasting_at(place), row.wrong
        if self.row is None or badness > self.badness:
            self.row, self.badness, self.fate = row, badness, fate
        self.removal = max((each for each in (row.removals[place], self.removal) if each is not None), default=None)
        self.wrong = self.wrong or said and row.harmed
        self.promised = self.promised and (row.promised[place] or "").startswith(("out", "never"))

    @staticmethod
    def fate_in(row, place):
        """What became of a fault in a run. Its partner's end isn't its own."""
        if row.lost:
            return "margin lost"
        if row.fates[place] == "never caught":
            return "believed" if row.harmed else "outvoted"
        return row.fates[place]

    def mark(self):
        """What stands in it: a ! behind it tells that it is promised, a * that an output was lost."""
        letter = LOOKS[self.fate][0]
        return (str(self.removal) if letter is None else letter) + ("!" if self.promised else "") + ("*" if self.wrong else "")

    def colour(self):
        return LOOKS[self.fate][1]

    def told(self):
        """What became of it, in words."""
        wrong = counted(self.row.wrong, "wrong word", "wrong words")
        return f"{self.fate}, {wrong} in the run, row {self.row.number}{self.broken()}" + (", promised" if self.promised else "")

    def broken(self):
        """What is broken in the run of what is required: the largest deviation, and in how many frames."""
        parts = [finding.split(" ") for finding in self.row.findings if finding.startswith("broken ")]
        return "".join(f"; broken by {largest} in {frames} {'frame' if frames == '1' else 'frames'}" for _, largest, frames, _ in parts)


class Grid:
    """Cells: slots by units, for each way. Its slots come as they are ordered, where that is known."""

    def __init__(self, cell, name, ordered):
        self.cell, self.name, self.ordered = cell, name, ordered
        self.cells, self.orders, self.first = {}, {}, {}

    def cells_of(self, row):
        """The cells of a run's faults, each with its place in the row."""
        units = tuple(fault.unit for fault in row.faults)
        if row.faults:
            order = self.orders.setdefault(units, {})
            order[row.faults[0].slot] = min(row.number, order.get(row.faults[0].slot, row.number))
        for place, fault in enumerate(row.faults):
            self.first[fault.slot] = min(row.number, self.first.get(fault.slot, row.number))
            yield self.cells.setdefault((fault.slot, fault.way, int(fault.unit)), self.cell()), place

    def done(self):
        """Puts slots, ways and units into their order, when all rows are there."""
        slots = {slot for slot, _, _ in self.cells}
        self.slots = [slot for slot in self.ordered or order_in(self.orders, self.first) if slot in slots]
        self.slots += [slot for slot in sorted(slots, key=sort_of) if slot not in self.slots]
        self.kinds = sorted({way for _, way, _ in self.cells}, key=order_of_way)
        self.units = range(max((unit for _, _, unit in self.cells), default=0) + 1)
        return self


class Table(Grid):
    """The cells of a campaign."""

    def __init__(self, rows, name="", ordered=None, required=()):
        super().__init__(Cell, name, ordered)
        self.counts = Counts(required)
        for row in rows:
            self.counts.add(row)
            for cell, place in self.cells_of(row):
                cell.add(row, place)
        self.done()

    def headlines(self):
        return self.counts.lines()

    def key(self):
        """What the marks mean: of each its colour, or the edge of a box that has none, and the mark with words."""
        seen = {cell.fate for cell in self.cells.values()}
        article, harm = self.counts.harm.split(" ", 1)
        for fate in reversed(LOOKS):
            letter, colour, told = LOOKS[fate]
            if fate in seen:
                yield colour, f"{letter or '1'}  {told.format(article=article, harm=harm)}"
        if any(cell.promised for cell in self.cells.values()):
            yield THIN, "!  promised: out in the next frame, or never caught; all else was only seen"
        if any(cell.wrong for cell in self.cells.values()):
            yield THICK, f"*  behind it: {self.counts.harm}{'' if self.counts.required else ' (a unit voted another word than `ideal` has)'}"


class Change:
    """What became of the runs in which a unit says a slot wrong in one way, by a mend: the worst that came of one of them."""

    def __init__(self):
        self.verdict = None
        self.counts = dict.fromkeys(CHANGES, 0)
        self.wrong = False  # whether after the mend an output is lost

    def add(self, verdict, after):
        self.counts[verdict] += 1
        self.verdict = next(each for each in CHANGES if self.counts[each])
        self.wrong = self.wrong or after is not None and after.harmed

    def mark(self):
        return CHANGES[self.verdict][0] + ("*" if self.wrong else "")

    def colour(self):
        return CHANGES[self.verdict][1]

    def told(self):
        return ", ".join(f"{count:,} {CHANGES[verdict][2]}" for verdict, count in self.counts.items() if count)


# What can become of runs by a mend, from the worst to the best: its letter, its colour, and what it is.
CHANGES = {
    "worse": ("-", "#fc9272", "got worse"),
    "after": ("a", "#fee391", "after the mend alone"),
    "before": ("b", "#e3e3e3", "before the mend alone"),
    "better": ("+", "#c7e9c0", "got better"),
    "same": ("=", "#ffffff", "stayed as they were"),
}


class Changes(Grid):
    """The cells of two campaigns compared."""

    def __init__(self, before, after, name="", ordered=None):
        super().__init__(Change, name, ordered)
        self.comparison = compared(before, after, self.see)
        self.done()

    def see(self, verdict, before, after):
        """One more run."""
        for cell, _ in self.cells_of(after or before):
            cell.add(verdict, after)

    def headlines(self):
        yield self.comparison.headline()

    def key(self):
        """What the marks mean."""
        seen = {cell.verdict for cell in self.cells.values()}
        yield from ((colour, f"{letter}  {told}") for verdict, (letter, colour, told) in CHANGES.items() if verdict in seen)
        if any(cell.wrong for cell in self.cells.values()):
            yield THICK, "*  behind it: after the mend an output is lost"


def order_of_way(way):
    """Where a way stands: by its kind, and then by its value."""
    kind, _, value = way.partition(" ")
    return (*ALL_KINDS, "storm").index(kind), int(value or 0)


def order_in(orders, first):
    """The slots in the order in which units say them, where no mission tells it.

    Each unit's faults come in that order, and so do the first ones of the pairs of two units; but no unit says all slots.
    """
    behind = {}  # of each slot those that some unit says before it
    for slots in orders.values():
        order = sorted(slots, key=slots.get)
        for place, slot in enumerate(order):
            behind.setdefault(slot, set()).update(order[:place])
    left = sorted(sorted(first, key=first.get), key=sort_of)
    ordered = []
    while left:
        # A table that was put together of several may have them in a circle.
        free = next((slot for slot in left if not behind.get(slot, set()) & set(left)), left[0])
        left.remove(free)
        ordered.append(free)
    return ordered


def sort_of(slot):
    """Which of the sorts of slots it is, in the order of a frame; relayed reports by the unit whose they are."""
    sort = slot.split(" ")[0]
    sorts = ("clock", "sense", "relay", "out", "report", "relay-report", "all", "cells")
    return sorts.index(sort), slot if sort == "relay-report" else ""


# For a terminal.


def text_of(table, width):
    """The table, with as many ways side by side as the width holds."""
    left = max([len(slot) for slot in table.slots] + [4]) + 2
    room = 4 * len(table.units) + 2
    side_by_side = max(1, (width - left) // room) if width else len(table.kinds)
    lines = [*([table.name] if table.name else []), *table.headlines(), ""]
    for first in range(0, len(table.kinds), side_by_side):
        kinds = table.kinds[first : first + side_by_side]
        lines.append((" " * left + "".join(kind.ljust(room) for kind in kinds)).rstrip())
        lines.append(("unit".ljust(left) + ("".join(f"{unit:<4}" for unit in table.units) + "  ") * len(kinds)).rstrip())
        lines += [text_row(table, slot, kinds, left) for slot in table.slots]
        lines.append("")
    return "\n".join([*lines, *(told for _, told in table.key())]) + "\n"


def text_row(table, slot, kinds, left):
    """The marks of a slot."""
    marks = ""
    for kind in kinds:
        cells = [table.cells.get((slot, kind, unit)) for unit in table.units]
        marks += "".join((cell.mark() if cell else "").ljust(4) for cell in cells) + "  "
    return (slot.ljust(left) + marks).rstrip()


# For a browser.

ROW, BAR, COLUMN, GAP = 24, 20, 34, 26


def draw_cell(page, x, y, cell, told):
    """A cell: its colour, its mark, and a thick edge where an output was lost."""
    edge = f' stroke="{INK}" stroke-width="2"' if cell.wrong else ""
    page.bar(x, y, COLUMN - 4, BAR, cell.colour(), f"{told}: {cell.told()}", edge)
    page.words(x + (COLUMN - 4) / 2, y + 14.5, cell.mark(), 12, ' text-anchor="middle" pointer-events="none"')


def draw_table(page, table, left):
    """The cells, below the names of the ways and the units."""
    top = page.bottom + 48
    for group, kind in enumerate(table.kinds):
        begin = left + group * (COLUMN * len(table.units) + GAP)
        page.words(begin, top - 24, kind, 14)
        for unit in table.units:
            page.words(begin + COLUMN * unit + (COLUMN - 4) / 2, top - 6, unit, 12, ' text-anchor="middle"')
            for line, slot in enumerate(table.slots):
                cell = table.cells.get((slot, kind, unit))
                if cell:
                    draw_cell(page, begin + COLUMN * unit, top + ROW * line, cell, f"unit {unit}, {slot}, {kind}")
    page.words(left - 10, top - 6, "unit", 12, ' text-anchor="end"')
    for line, slot in enumerate(table.slots):
        page.words(left - 10, top + ROW * line + 14.5, slot, 13, ' text-anchor="end"')
    page.bottom = top + ROW * len(table.slots)


def draw_key(page, table, left):
    """What the marks mean."""
    for look, line in table.key():
        page.bottom += 26
        mark, told = line.split("  ", 1)
        fill, edge = (look, "") if isinstance(look, str) else ("white", f' stroke="{INK}" stroke-width="{look}"')
        page.bar(left, page.bottom - 14, COLUMN - 4, BAR, fill, more=edge)
        page.words(left + (COLUMN - 4) / 2, page.bottom + 0.5, mark, 12, ' text-anchor="middle"')
        page.words(left + COLUMN + 6, page.bottom + 0.5, told, 12)


def svg_of(table):
    page = Drawing()
    left = 40 + 7.4 * max([len(slot) for slot in table.slots] + [4])
    page.name(table.name)
    for line in table.headlines():
        page.bottom += 20
        page.words(24, page.bottom, line, 15, ' font-weight="bold"')
    draw_table(page, table, left)
    draw_key(page, table, left)
    width = max(left + len(table.kinds) * (COLUMN * len(table.units) + GAP), 940)
    return page.svg("runs of a campaign: slots by units", width, page.bottom + 26)
