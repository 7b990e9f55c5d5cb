"""The rules on schedule tables, 1 to 11: docs/tables.md has them."""
from sift.documents import texts
from sift.documents.mission import Broken, spot
from sift.documents.values import counted

FIRST_RUN = 4  # the subframe in which the sensors' words are agreed on


def broken_tables(mission):
    """What the tables break, in ascending size."""
    for size in range(4, mission.units + 1):
        yield from table_faults(mission, size)


def table_faults(mission, size):
    """What breaks a rule in the table of a size."""
    table = mission.tables[size - 4] if mission.tables else None
    for name in ("run", "poll", "at") if table else ():
        entries = table.get(name)
        if len(entries.data) != len(mission.tasks):
            tasks = counted(len(mission.tasks), "task", "tasks", "is", "are")
            why = f"`{name}` has {counted(len(entries.data), 'entry', 'entries')}, and there {tasks}"
            yield Broken(f"table {size} row 0 rule 1", *spot(entries), why, "one for each task, in their order")
            return
    for place, why, mend in shed_rules(mission, table):
        yield Broken(f"table {size} row 0 rule 10", *place, why, mend)
        return
    for row in range(len(mission.tasks)):
        rules = shed_row_rules if row in mission.shed(size) else row_rules
        for rule, name, place, why, mend in rules(mission, size, row):
            start, end = place if table else spot(mission.root.get("subframes"))
            whose = "" if table else " in the plain table, which stands for those that aren't there"
            yield Broken(f"table {size} row {row} rule {rule}", start, end, f"task {row}, {name}{whose}: {why}", mend)


def shed_rules(mission, table):
    """What breaks the rule on the list of tasks that a table sheds: the place, why and what to do."""
    value = table.get("shed") if table else None
    before = -1
    for task in value.data if value else ():
        if task.data <= before:
            listed = sorted({each.data for each in value.data})
            yield spot(task), f"{task.data} stands behind {before}, and the numbers of `shed` ascend", f"`shed = {listed}`"
        elif task.data >= len(mission.tasks):
            last = len(mission.tasks) - 1
            yield spot(task), f"there is no task {task.data}: tasks are numbered from 0, and the last one is {last}", f"`{last}` is the largest"
        before = task.data


def shed_row_rules(mission, size, row):
    """What breaks the rule on a task that is shed: the rule, the task's name, the place, why and what to do."""
    table = mission.tables[size - 4]
    name = mission.tasks[row].get("name").data
    for key, empty in (("run", 0), ("poll", 0), ("at", "")):
        value = table.get(key).data[row]
        if value.data != empty:
            shown, left = (f"\"{value.data}\"", '""') if key == "at" else (value.data, 0)
            why = f"this table sheds it, and its `{key}` is {shown}"
            yield 11, name, spot(value), why, f"`{left}`: 0, 0 and `\"\"` in its place of `run`, `poll` and `at`; or no {row} in `shed`"


def row_rules(mission, size, row):
    """What breaks a rule in a row: the rule, the task's name, the place, why and what to do."""
    run, poll, at = mission.rows_of(size)[row]
    name, last = mission.tasks[row].get("name").data, mission.subframes - 6
    table = mission.tables[size - 4] if mission.tables else None
    place = {key: spot(table.get(key).data[row]) if table else None for key in ("run", "poll", "at")}
    if run < 4:
        why = f"it runs in subframe {run}, and the sensors' words are agreed on in 4"
        left_out = f"; or {row} in `shed`, where it isn't to run" if mission.version > 1 and run == 0 else ""
        yield 2, name, place["run"], why, f"`{least_run(mission, size, row)}`, or later{left_out}"
    if poll > last:
        yield 3, name, place["poll"], *late_poll(mission, poll, last)
    if poll < run + 2:
        why = f"it runs in {run} and is polled in {poll}, where its words aren't there yet"
        yield 4, name, place["poll"], why, f"`{run + 2}`, or later"
    if len(at) < 3:
        why = f"{counted(len(at), 'position runs', 'positions run')} it, and two can't outvote a liar"
        yield 5, name, place["at"], why, f"\"{three_of(at, size)}\", as an example: three positions, or more"
    for digit, position in enumerate(at):
        if position >= size:
            why = f"a configuration of {size} has the positions 0 to {size - 1}, and no {position}"
            yield 6, name, digit_spot(table, row, digit), why, f"\"{three_of(at, size)}\", as an example: positions, and no unit numbers"
    for digit in range(1, len(at)):
        if at[digit] <= at[digit - 1]:
            why = f"{at[digit]} stands behind {at[digit - 1]}, and positions ascend"
            yield 7, name, digit_spot(table, row, digit), why, f"\"{''.join(map(str, sorted(set(at))))}\""
    yield from shared_rules(mission, size, row, place)


def least_run(mission, size, row):
    """The first subframe in which a task can run: behind the sensors, and the tasks that it reads by `now`."""
    rows, shed = mission.rows_of(size), mission.shed(size)
    parts = texts.parts_of(mission.statements(row))
    read = {part.task for part in parts if isinstance(part, texts.Read) and part.now}
    return max([FIRST_RUN, *(rows[task][1] for task in read - shed)])


def three_of(at, size):
    """Positions that a configuration has: those of some that it has, and the first others up to three."""
    own = sorted({position for position in at if position < size})
    others = [position for position in range(size) if position not in own]
    return "".join(map(str, sorted(own + others[: max(0, 3 - len(own))])))


def late_poll(mission, poll, last):
    """Why a poll comes too late, and what to do."""
    least = max(row[1] for size in range(4, mission.units + 1) for row in mission.rows_of(size)) + 6
    reports = f"the reports are said in {last}, the sixth from the end of {mission.subframes}"
    mend = f"`subframes = {least}`, or more" if least <= 64 else "poll it earlier"
    if not mission.tables:
        mend += "; or leave `subframes` out: without tables a frame then has as many as all tasks need"
    return f"it is polled in subframe {poll}, and {reports}", mend


def digit_spot(table, row, digit):
    """The place of a position of a table."""
    value = table.get("at").data[row]
    return value.places[digit], value.places[digit + 1]


def shared_rules(mission, size, row, place):
    """What breaks the rules on two tasks. With one that is shed none can be broken."""
    rows, shed = mission.rows_of(size), mission.shed(size)
    run, _, at = rows[row]
    name = mission.tasks[row].get("name").data
    parts = texts.parts_of(mission.statements(row))
    for read in sorted({part.task for part in parts if isinstance(part, texts.Read) and part.now}):
        if read not in shed and rows[read][1] > run:
            other = mission.tasks[read].get("name").data
            why = f"it runs in {run} and reads `now {other}.0`, which is voted in {rows[read][1]}"
            yield 8, name, place["run"], why, f"`{least_run(mission, size, row)}`, or later; or read `last {other}.0`"
    for before in range(row):
        shared = sorted(set(at) & set(rows[before][2]))
        if before not in shed and rows[before][0] == run and shared:
            other = mission.tasks[before].get("name").data
            why = f"position {shared[0]} runs task {before}, {other}, in subframe {run} too"
            yield 9, name, place["at"], why, "other positions, or another subframe"
