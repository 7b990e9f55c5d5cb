"""What is asked of a mission's tables as place.mzn takes it, the tables that come of it, and what these are worth."""
from collections import namedtuple
from dataclasses import dataclass, field

from sift.documents import texts
from sift.documents.slots import FEWEST
from sift.placing.wishes import LEAST_EXECUTORS, LEAST_SUBFRAMES, MOST_SUBFRAMES, positions_of

FIRST_RUN, POLL_DELAY, REPORT_LEAD = 4, 2, 6  # subframes: docs/tables.md, rules 2 to 4

# The aims of the model, each of which is to be least.
AIMS = ("ROOM", "SUBFRAMES", "READERS", "SHED", "TURNS", "WORK", "CHANGES")
NO_BOUND = 9999

# A task in a table. One that is shed has 0, 0 and no positions.
Row = namedtuple("Row", "run poll positions")
SHED = Row(0, 0, ())


@dataclass
class Tables:
    """Tables for all sizes, and how many subframes a frame has."""

    subframes: int
    rows: dict = field(default_factory=dict)  # of each size the rows of all tasks

    def executors(self, size, task):
        return self.rows[size][task].positions

    def shed(self, size):
        """The tasks that the table for a size sheds."""
        return [task for task, row in enumerate(self.rows[size]) if row == SHED]


class Outline:
    """What of a mission matters for its tables."""

    def __init__(self, mission):
        self.units = mission.units
        self.sizes = range(FEWEST, mission.units + 1)
        self.tasks = range(len(mission.tasks))
        self.names = [task.get("name").data for task in mission.tasks]
        self.sensors = [sensor.get("name").data for sensor in mission.sensors]
        parts = [list(texts.parts_of(mission.statements(task))) for task in self.tasks]
        self.reads = [{part.task for part in each if isinstance(part, texts.Read) and part.now} for each in parts]
        self.senses = [{part.sensor for part in each if isinstance(part, texts.Sense)} for each in parts]

    def waiting(self, tasks):
        """Of each of some tasks how many there are in the longest chain that begins with it, each of which reads the one before."""
        longest = {}
        for task in sorted(tasks, reverse=True):
            longest[task] = 1 + max((longest[other] for other in longest if task in self.reads[other]), default=0)
        return longest

    def readers(self, sensor):
        """The tasks that read a sensor."""
        return [task for task in self.tasks if sensor in self.senses[task]]


# What tables are worth: each is to be least.


def missed(outline, tables):
    """Of each size the sensors that some task reads, but none of those that the sensor's reader runs."""
    return [
        (size, sensor)
        for size in outline.sizes
        for sensor in range(len(outline.sensors))
        if outline.readers(sensor)
        and not any(sensor % size in tables.executors(size, task) for task in outline.readers(sensor))
    ]


def work(outline, tables, size):
    """Of each position how many tasks it runs."""
    return [sum(position in row.positions for row in tables.rows[size]) for position in range(size)]


def changed(outline, tables, size, lost):
    """The tasks that change their units where the one at a position of a size is lost: those behind it move up."""
    moved = [[position - (position > lost) for position in row.positions if position != lost] for row in tables.rows[size]]
    return [task for task in outline.tasks if moved[task] != list(tables.executors(size - 1, task))]


def values_of(outline, wishes, tables):
    """What tables are worth, by the names of the model's aims."""
    turns = {task: turn for turn, task in enumerate(wishes.may_shed, 1)}
    shed = [task for size in wishes.sizes for task in tables.shed(size)]
    losses = [(size, lost) for size in outline.sizes if size > FEWEST for lost in range(size)]
    return {
        "SUBFRAMES": tables.subframes,
        "READERS": len(missed(outline, tables)),
        "SHED": len(shed),
        "TURNS": sum(turns[task] for task in shed),
        "WORK": sum(max(work(outline, tables, size)) for size in outline.sizes),
        "CHANGES": sum(len(changed(outline, tables, size, lost)) for size, lost in losses),
    }


class Problem:
    """What is asked: a mission, the wishes that are to hold, and the tables that stay."""

    def __init__(self, outline, wishes, holding, kept=None):
        self.outline = outline
        self.wishes = wishes
        keys = [(size, task) for size in outline.sizes for task in outline.tasks]
        self.subframes = (LEAST_SUBFRAMES, MOST_SUBFRAMES)
        self.executors = {key: (LEAST_EXECUTORS, key[0]) for key in keys}
        self.runs = {key: set() for key in keys}
        self.not_runs = {key: set() for key in keys}
        self.kept = {}
        for wish in holding:
            self.ask(wish, kept)

    def ask(self, wish, kept):
        """Has a wish hold."""
        keys = [(size, task) for size in wish.sizes for task in wish.tasks]
        if wish.kind == "subframes":
            self.subframes = (wish.least, wish.most)
        elif wish.kind == "keep":
            self.kept.update({size: kept.rows[size] for size in wish.sizes})
        elif wish.kind == "executors":
            self.executors.update({(size, task): (min(wish.least, size), min(wish.most, size)) for size, task in keys})
        else:
            sets = self.runs if wish.kind == "run" else self.not_runs
            for size, task in keys:
                sets[size, task] |= set(positions_of(wish.unit, size, self.outline.units))

    def running(self, size, none_shed):
        """The tasks that the table for a size runs for certain."""
        if size in self.kept:
            return [task for task in self.outline.tasks if self.kept[size][task] != SHED]
        shed = () if none_shed or size > self.wishes.most_size else self.wishes.may_shed
        return [task for task in self.outline.tasks if task not in shed]

    # Bounds that no tables can be below, where nothing is shed, or whatever is.

    def bounds(self, none_shed):
        """By the names of the model's aims."""
        found = dict.fromkeys(AIMS, 0)
        found["SUBFRAMES"] = max([self.subframes[0], *(self.least_subframes(size, none_shed) for size in self.outline.sizes)])
        found["READERS"] = sum(self.least_missed(size) for size in self.outline.sizes)
        found["WORK"] = sum(self.least_work(size, none_shed) for size in self.outline.sizes)
        found["CHANGES"] = sum(self.least_changes(size, none_shed) for size in self.outline.sizes if size > FEWEST)
        return found

    def least_subframes(self, size, none_shed):
        """By the longest chain of tasks that wait for one another, and by how many executors run at once."""
        if size in self.kept:
            return max(row.poll for row in self.kept[size]) + REPORT_LEAD
        tasks = self.running(size, none_shed)
        counts = [self.executors[size, task][0] for task in tasks]
        at_once = max(sum(2 * count > size for count in counts), -(-sum(counts) // size))
        chain = max(self.outline.waiting(tasks).values(), default=0)
        last_run = FIRST_RUN + max(POLL_DELAY * (chain - 1), at_once - 1)
        return last_run + POLL_DELAY + REPORT_LEAD if tasks else LEAST_SUBFRAMES

    def least_missed(self, size):
        """By how many readers the executors of each task can be."""
        outline = self.outline
        read = [sensor for sensor in range(len(outline.sensors)) if outline.readers(sensor)]
        caught = 0
        for task in outline.tasks:
            free = [sensor % size for sensor in outline.senses[task] if sensor % size not in self.not_runs[size, task]]
            most = self.executors[size, task][1]
            caught += sum(sorted((free.count(position) for position in set(free)), reverse=True)[:most])
        return max(0, len(read) - caught) if size not in self.kept else 0

    def least_work(self, size, none_shed):
        """By the work of all positions together, and by what one of them is to run."""
        tasks = self.running(size, none_shed)
        if size in self.kept:
            return max(sum(position in self.kept[size][task].positions for task in tasks) for position in range(size))
        shared = -(-sum(self.executors[size, task][0] for task in tasks) // size)
        return max([shared, *(sum(position in self.runs[size, task] for task in tasks) for position in range(size))])

    def least_changes(self, size, none_shed):
        """Where a task has as many executors as in the next smaller table, it gets another one for each that is lost."""
        if size in self.kept or size - 1 in self.kept:
            return 0
        both = set(self.running(size, none_shed)) & set(self.running(size - 1, none_shed))
        counts = [(self.executors[size, task], self.executors[size - 1, task]) for task in both]
        return sum(now[0] for now, then in counts if now == then and now[0] == now[1])

    def room(self, size):
        """The most executors, of some tasks the least number of each, that have room in one subframe."""
        sums = {0}
        for task in self.outline.tasks:
            sums |= {one + self.executors[size, task][0] for one in sums}
        return max(one for one in sums if one <= size)

    # The data of the model.

    def data(self, aim, least, most, same_runs=False, given=None, kept_percent=0):
        """The text of a data file: the aim that is sought, and bounds of all aims by their names."""
        outline, kept = self.outline, self.kept
        waiting = outline.waiting(outline.tasks)
        turns = {task: turn for turn, task in enumerate(self.wishes.may_shed, 1)}
        kept_rows = {(size, task): kept[size][task] if size in kept else SHED for size, task in self.executors}
        entries = {
            "units": outline.units,
            "tasks": len(outline.tasks),
            "sensors": len(outline.sensors),
            "reads_now": f"array1d(TASK, {listed(map(set_text, outline.reads))})",
            "senses": f"array1d(TASK, {listed(map(set_text, outline.senses))})",
            "least_subframes": self.subframes[0],
            "most_subframes": self.subframes[1],
            "least_executors": table_text(count for count, _ in self.executors.values()),
            "most_executors": table_text(count for _, count in self.executors.values()),
            "must_run": table_text(map(set_text, self.runs.values())),
            "must_not_run": table_text(map(set_text, self.not_runs.values())),
            "shed_turn": f"array1d(TASK, {listed(turns.get(task, 0) for task in outline.tasks)})",
            "most_size": self.wishes.most_size,
            "room": f"array1d(SIZE, {listed(map(self.room, outline.sizes))})",
            "KEPT": set_text(kept),
            "kept_run": table_text(row.run for row in kept_rows.values()),
            "kept_poll": table_text(row.poll for row in kept_rows.values()),
            "kept_at": table_text(set_text(row.positions) for row in kept_rows.values()),
            "kept_shed": table_text(str(key[0] in kept and row == SHED).lower() for key, row in kept_rows.items()),
            "aim": aim,
            "least": listed(least.get(name, 0) for name in AIMS),
            "most": listed(most.get(name, NO_BOUND) for name in AIMS),
            "same_runs": str(same_runs).lower(),
            "urgent": listed(sorted(outline.tasks, key=lambda task: (-waiting[task], task))),
            "kept_percent": kept_percent,
            "given": listed(numbers_of(given) if given else []),
        }
        return "".join(f"{name} = {value};\n" for name, value in entries.items())

    def tables_of(self, answer):
        """The tables of a solution that the model writes."""
        outline, found = self.outline, Tables(answer["value"][1])
        entries = iter(zip(answer["run"], answer["poll"], answer["shed"]))
        at = iter(answer["at"])
        for size in outline.sizes:
            found.rows[size] = []
            for run, poll, shed in (next(entries) for _ in outline.tasks):
                here = [next(at) for _ in range(outline.units)]
                row = Row(run, poll, tuple(position for position, one in enumerate(here) if one))
                found.rows[size].append(SHED if shed else row)
        return found


def numbers_of(tables):
    """Tables as the model's search takes them: all runs, and then all sets of positions."""
    rows = [row for each in tables.rows.values() for row in each]
    return [row.run for row in rows] + [sum(2**position for position in row.positions) for row in rows]


def set_text(numbers):
    return "{" + ", ".join(map(str, sorted(numbers))) + "}"


def listed(values):
    return "[" + ", ".join(map(str, values)) + "]"


def table_text(values):
    """An entry for each size and task."""
    return f"array2d(SIZE, TASK, {listed(values)})"
