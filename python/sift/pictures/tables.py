"""Draws the schedule that was found beside that of `plan`."""
import itertools
import textwrap

from sift.pictures.schedule import Page, Schedule, draw_grid, draw_key, text_grid

ROOM, GAP, LINE = 560, 48, 17  # of the subframes of a schedule; between the two; of a note


def pairs_of(schedules):
    """The grids of all sizes, the largest first, side by side."""
    return list(zip(*(Schedule(mission, "").grids for _, mission in schedules)))


def notes_of(grid):
    """What isn't seen in the grid: what is shed, and who reads each sensor."""
    return [note for note in grid.notes() if note.startswith(("shed: ", "sensor ", "free: "))]


def head_of(title, mission):
    return f"{title}: {mission.subframes} subframes"


def letters_of(mission):
    """The letters of the tasks, which stand where a name has no room."""
    return ", ".join(f"{chr(ord('A') + number)} {task.get('name').data}" for number, task in enumerate(mission.tasks))


def wrapped(words, width):
    """Lines of at most so many pixels, about, of the size of the notes."""
    return textwrap.wrap(words, int(width / 6.6), subsequent_indent="    ")


def svg_of(schedules):
    """An SVG of schedules, each a title and a mission, side by side."""
    most = max(mission.subframes for _, mission in schedules)
    pairs = pairs_of(schedules)
    grids = [grid for pair in pairs for grid in pair]
    width = max(Page(most, grids, ROOM).at(most), 620) + GAP
    letters = wrapped(letters_of(schedules[0][1]), width * len(schedules) - GAP)
    pages = [Page(most, grids, ROOM, 64 + LINE * len(letters)) for _ in schedules]
    for page, (title, mission) in zip(pages, schedules):
        page.words(24, 28, head_of(title, mission), 18, ' font-weight="bold"')
    for number, line in enumerate(letters):
        pages[0].words(24, 48 + LINE * number, line, 12)
    for pair in pairs:
        for page, grid in zip(pages, pair):
            draw_grid(page, grid, [line for note in notes_of(grid) for line in wrapped(note, width - GAP - 104)])
        for page in pages:
            page.bottom = max(each.bottom for each in pages)
    whole = pages[0]
    draw_key(whole)
    for number, page in enumerate(pages[1:], 1):
        whole.elements += [f'<g transform="translate({width * number:g},0)">', *page.elements, "</g>"]
    return whole.svg("schedules side by side: positions by subframes", width * len(pages), whole.bottom - 16)


def text_of(schedules):
    """The same in lines for a terminal."""
    heads = [[head_of(title, mission), ""] for title, mission in schedules]
    groups = [heads, *([rows_of(grid) for grid in grids] for grids in pairs_of(schedules))]
    width = max(len(line) for group in groups for line in group[0]) + 4
    lines = []
    for group in groups:
        lines += ["".join(line.ljust(width) for line in row).rstrip() for row in itertools.zip_longest(*group, fillvalue="")]
    return "\n".join([*lines, letters_of(schedules[0][1])]) + "\n"


def rows_of(grid):
    """The lines of a grid, and what is shed."""
    shed = [note for note in grid.notes() if note.startswith("shed: ")]
    return [grid.head(), *text_grid(grid, range(grid.subframes)), *shed, ""]
