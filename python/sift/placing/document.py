"""Puts tables into a document, of which every other byte stays, and reads and writes them as CSV."""
import csv
import io

from sift.documents import places
from sift.documents.printing import lines_of, value_of
from sift.documents.slots import FEWEST
from sift.placing.problem import FIRST_RUN, POLL_DELAY, SHED, Row, Tables


def rows_of_mission(mission):
    """The tables that a mission has, or its plain ones; of a size whose table hasn't one entry for each task None."""
    found = Tables(mission.subframes)
    for size in range(4, mission.units + 1):
        rows = mission.rows_of(size)
        shed = mission.shed(size)
        whole = len(rows) == len(mission.tasks)
        found.rows[size] = [
            SHED if task in shed else Row(run, poll, tuple(positions)) for task, (run, poll, positions) in enumerate(rows)
        ] if whole else None
    return found


def entries_of(size, tables):
    """The values of a table's keys."""
    rows, shed = tables.rows[size], tables.shed(size)
    entries = {"size": size, "run": [row.run for row in rows], "poll": [row.poll for row in rows]}
    entries["at"] = ["".join(map(str, row.positions)) for row in rows]
    return {**entries, "shed": shed} if shed else entries


def tables_text(tables):
    """The tables as TOML, as `plan` writes them."""
    return "".join(
        "".join(line + "\n" for line in ["[[table]]", *lines_of(entries_of(size, tables), "table.")]) for size in tables.rows
    )


def read_tables(text, subframes):
    """Tables as `plan` writes them."""
    found = Tables(subframes)
    for table in places.plain(places.read(text.encode())[1])["table"]:
        rows = zip(table["run"], table["poll"], table["at"])
        found.rows[table["size"]] = [Row(run, poll, tuple(map(int, at))) for run, poll, at in rows]
    return found


# Tables into a document.


def put(text, root, tables):
    """The text of a document with these tables in place of its own of these sizes, and with their number of subframes."""
    changes = [*root_changes(text, root, tables), *table_changes(text, root, tables)]
    for start, end, words in sorted(changes, key=lambda change: change[:2], reverse=True):
        text = text[:start] + words + text[end:]
    return text


def new_line(text):
    return "\r\n" if "\r\n" in text else "\n"


def line_end(text, place):
    """The end of the line of a place."""
    end = text.find("\n", place)
    return len(text) if end < 0 else end - (text[end - 1] == "\r")


def root_changes(text, root, tables):
    """The changes of the root's keys: pieces of the text, each from a start up to an end, with what stands there then."""
    wanted = {"subframes": tables.subframes}
    if any(tables.shed(size) for size in tables.rows):
        wanted["version"] = 2
    frames = root.get("frames")
    for name, value in wanted.items():
        old = root.get(name)
        if old is None:
            yield line_end(text, frames.end), line_end(text, frames.end), f"{new_line(text)}{name} = {value}"
        elif old.data != value:
            yield old.start, old.end, str(value)


def table_changes(text, root, tables):
    """The changes of tables; without any, theirs are added behind the last entry."""
    old = root.get("table")
    if old is None:
        end = new_line(text)
        added = "".join(["" if text.endswith("\n") else end, end, tables_text(tables).replace("\n[[", "\n\n[[").replace("\n", end)])
        yield len(text), len(text), added
        return
    for size in tables.rows:
        table, entries = old.data[size - FEWEST], {"shed": [], **entries_of(size, tables)}
        for name in ("run", "poll", "at", "shed"):
            yield from value_changes(text, table, name, entries[name])


def value_changes(text, table, name, wanted):
    """The changes of a value of a table: of its items alone, where there are as many of them."""
    value = table.get(name)
    if value is None:
        if wanted:
            end = table.get("at").end
            headed = table.origin == "header"
            place = line_end(text, end) if headed else end
            yield place, place, (new_line(text) if headed else ", ") + f"{name} = {value_of(wanted)}"
    elif len(value.data) != len(wanted):
        yield value.start, value.end, value_of(wanted)
    else:
        for item, one in zip(value.data, wanted):
            if item.data != one:
                yield item.start, item.end, value_of(one)


# CSV.

COLUMNS = ("size", "task", "subframe", "poll", "positions")


class NoTable(Exception):
    """Why a text is no table of a mission."""


def csv_text(tables, names):
    """The tables as CSV, a line for each task of each size; of a task that is shed without subframes and positions."""
    text = io.StringIO()
    lines = csv.writer(text, lineterminator="\n")
    lines.writerow(COLUMNS)
    for size, rows in tables.rows.items():
        for name, row in zip(names, rows):
            told = ["", "", ""] if row == SHED else [row.run, row.poll, " ".join(map(str, row.positions))]
            lines.writerow([size, name, *told])
    return text.getvalue()


def number_in(line, name, text):
    if not text.isdecimal() or not text.isascii() or int(text) > 63:
        raise NoTable(f"line {line}: `{name}` is \"{text}\", and is to be a number from 0 to 63")
    return int(text)


def positions_in(line, text):
    """Positions with blanks between, or one after the other; a spreadsheet makes 12 of 012, and so two are refused."""
    parts = text.replace(",", " ").replace(";", " ").split()
    parts = list(parts[0]) if len(parts) == 1 else parts
    if not all(part in "01234567" and len(part) == 1 for part in parts):
        why = "is to be digits from 0 to 7 with blanks between, as in 0 1 2"
        raise NoTable(f"line {line}: `positions` is \"{text}\", and {why}")
    positions = tuple(map(int, parts))
    if list(positions) != sorted(set(positions)):
        raise NoTable(f"line {line}: `positions` is \"{text}\", and positions ascend")
    if len(positions) < 3:
        why = "three are due; a spreadsheet makes 12 of 012, so write 0 1 2"
        raise NoTable(f"line {line}: `positions` is \"{text}\", and {why}")
    return positions


def read_csv(text, names, size, sizes):
    """Rows by size: those of the column `size`, or of the one size that is given."""
    lines = csv.reader(io.StringIO(text.lstrip("\ufeff")), delimiter=";" if ";" in text.partition("\n")[0] else ",")
    head = [name.strip() for name in next(lines, [])]
    missing = [name for name in ("task", "subframe", "positions") if name not in head]
    if missing:
        raise NoTable(f"line 1: the names of the columns are due, and `{missing[0]}` isn't among them")
    if size is None and "size" not in head:
        raise NoTable("line 1: there is no column `size`, and no --size")
    found = {}
    for cells in lines:
        if any(cell.strip() for cell in cells):
            read_line(lines.line_num, dict(zip(head, (cell.strip() for cell in cells))), names, size, sizes, found)
    for each, rows in found.items():
        left = [name for name in names if name not in rows]
        if left:
            raise NoTable(f"the table for {each} has no line for {left[0]}")
    return {each: [rows[name] for name in names] for each, rows in found.items()}


def read_line(line, cells, names, size, sizes, found):
    """A line of a task in a table."""
    here = size if size is not None else number_in(line, "size", cells.get("size", ""))
    name = cells.get("task", "")
    if here not in sizes:
        raise NoTable(f"line {line}: there is no size {here}: the mission has the sizes {sizes[0]} to {sizes[-1]}")
    if name not in names:
        raise NoTable(f"line {line}: the mission has no task `{name}`")
    rows = found.setdefault(here, {})
    if name in rows:
        raise NoTable(f"line {line}: {name} stands twice in the table for {here}")
    subframe, positions, poll = (cells.get(key, "") for key in ("subframe", "positions", "poll"))
    if not subframe and not positions:
        rows[name] = SHED
        return
    run = number_in(line, "subframe", subframe)
    if run < FIRST_RUN:
        raise NoTable(f"line {line}: {name} runs in {run}, and no task runs before {FIRST_RUN}")
    rows[name] = Row(run, number_in(line, "poll", poll) if poll else run + POLL_DELAY, positions_in(line, positions))
