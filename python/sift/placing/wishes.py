"""The wishes of tools/place: a TOML document beside the mission. docs/place.md tells what can be wished."""
from dataclasses import dataclass, field

from sift.documents import places
from sift.documents.mission import Broken, spot
from sift.documents.places import KINDS
from sift.documents.slots import FEWEST
from sift.documents.texts import choice, nearest
from sift.documents.values import wrong_array, wrong_integer

LEAST_EXECUTORS, MOST_EXECUTORS = 3, 8
LEAST_SUBFRAMES, MOST_SUBFRAMES = 12, 64
KEYS = {
    "the wishes": ("sizes", "executors", "subframes", "most_subframes", "shed", "task"),
    "[shed]": ("tasks", "most_size", "for"),
    "[[task]]": ("name", "executors", "must_run", "must_not_run", "sizes"),
}
# The aims in their order. What is shed comes behind the one that it may be shed for.
AIMS = ("rules", "subframes", "readers", "work", "changes")


@dataclass(frozen=True)
class Wish:
    """Something that is wished, which tables keep or don't: `kind` is one of executors, subframes, run, not_run and keep."""

    name: str
    kind: str
    tasks: tuple = ()
    sizes: tuple = ()
    least: int = 0  # executors or subframes; where all positions of a size are to run a task, 8 of each
    most: int = 0
    unit: int = 0


@dataclass
class Wishes:
    """All that is wished of a mission's tables."""

    sizes: tuple  # whose tables are to be found
    wishes: list = field(default_factory=list)
    may_shed: tuple = ()  # numbers of tasks, the first is shed first
    most_size: int = 0  # the largest size that may shed
    shed_for: str = "readers"
    copies: int = LEAST_EXECUTORS  # of a task of which nothing else is wished


def positions_of(unit, size, units):
    """The positions that a unit can have in configurations of a size."""
    return range(max(0, unit - (units - size)), min(unit, size - 1) + 1)


class NoWishes(Exception):
    """What is wrong with a document of wishes: its text, its root table where it has one, and each fault."""

    def __init__(self, text, root, faults):
        super().__init__(faults[0].why)
        self.text = text
        self.root = root
        self.faults = faults


class Reader:
    """Reads a document of wishes for a mission, and notes what is wrong with it."""

    def __init__(self, root, mission):
        self.root = root
        self.mission = mission
        self.names = [task.get("name").data for task in mission.tasks]
        self.all_sizes = tuple(range(FEWEST, mission.units + 1))
        self.faults = []
        self.said = {}  # which wish said what of a task at a size

    def fault(self, value, why, mend=None):
        """Notes what is wrong with a value or a key."""
        self.faults.append(Broken("", *spot(value), why, mend))

    def noted(self, value, fault):
        """Whether there is a fault, which is noted."""
        if fault:
            self.fault(value, *fault)
        return bool(fault)

    def known_keys(self, table, header):
        for name, entry in table.data.items():
            if name not in KEYS[header]:
                like = nearest(name, KEYS[header])
                known = f"{header} {'have' if header == 'the wishes' else 'has'} {choice(KEYS[header])}"
                self.fault(entry, f"`{name}` is no key of {header}", f"`{like}`; {known}" if like else known)

    # Values, each None where it isn't there or is wrong.

    def integer(self, table, name, low, high):
        value = table.get(name)
        if value is None or self.noted(value, wrong_integer(name, value, low, high)):
            return None
        return value.data

    def integers(self, table, name, low, high, what):
        """An array of different integers."""
        value = table.get(name)
        if value is None or self.noted(value, wrong_array(name, value, 0, high - low + 1, what)):
            return None
        found = []
        for item in value.data:
            if item.kind == "integer" and not low <= item.data <= high:
                one = "unit" if what == "units" else "size"
                self.fault(item, f"there is no {one} {item.data}: the mission has the {what} {low} to {high}")
            elif not self.noted(item, wrong_integer(name, item, low, high)):
                if item.data in found:
                    self.fault(item, f"{item.data} stands twice in `{name}`")
                found.append(item.data)
        return tuple(found)

    def sizes(self, table):
        """The sizes that a wish is about: all of them where it doesn't say."""
        found = self.integers(table, "sizes", FEWEST, self.mission.units, "sizes")
        return self.all_sizes if found is None else tuple(sorted(found))

    def executors(self, table):
        """How many executors a task is to have; all positions are 8."""
        value = table.get("executors")
        if value is None:
            return None
        if value.kind == "string" and value.data == "all":
            return MOST_EXECUTORS
        if value.kind != "integer" or not LEAST_EXECUTORS <= value.data <= MOST_EXECUTORS:
            shown = value.data if value.kind == "integer" else KINDS[value.kind]
            bounds = f"an integer from {LEAST_EXECUTORS} to {MOST_EXECUTORS}, or \"all\""
            self.fault(value, f"`executors` is {shown}, and is to be {bounds}", "fewer than three can't outvote a liar")
            return None
        return value.data

    def task(self, value):
        """The number of a task, by its name."""
        if value.kind != "string":
            self.fault(value, f"the name of a task is due, and this is {KINDS[value.kind]}")
            return None
        if value.data not in self.names:
            like = nearest(value.data, self.names)
            self.fault(value, f"the mission has no task `{value.data}`", f"`{like}`" if like else f"it has {choice(self.names)}")
            return None
        return self.names.index(value.data)

    # The parts of the document.

    def read(self):
        """The wishes, of which some are wrong where faults are noted."""
        self.known_keys(self.root, "the wishes")
        sizes = self.sizes(self.root)
        found = Wishes(sizes)
        found.wishes += [Wish(f"the table for {size} stays, as `sizes` doesn't name it", "keep", sizes=(size,))
                         for size in self.all_sizes if size not in sizes]
        self.read_subframes(found)
        self.read_tasks(found)
        self.read_default(found)
        self.read_shed(found)
        return found

    def read_subframes(self, found):
        exact, most = (self.integer(self.root, name, LEAST_SUBFRAMES, MOST_SUBFRAMES) for name in ("subframes", "most_subframes"))
        if self.root.get("subframes") and self.root.get("most_subframes"):
            why = "`subframes` and `most_subframes` both stand here: a frame has that many, or the fewest up to that many"
            self.fault(self.root.data["most_subframes"], why, "one of the two")
        elif exact:
            found.wishes.append(Wish(f"subframes = {exact}", "subframes", least=exact, most=exact))
        elif most:
            found.wishes.append(Wish(f"most_subframes = {most}", "subframes", least=LEAST_SUBFRAMES, most=most))

    def read_default(self, found):
        """How many executors tasks have of which nothing else is wished."""
        wished = self.executors(self.root)
        found.copies = wished or LEAST_EXECUTORS
        for sizes in sorted({self.unsaid(task, found.sizes) for task in range(len(self.names))}):
            tasks = tuple(task for task in range(len(self.names)) if self.unsaid(task, found.sizes) == sizes)
            if sizes:
                told = "executors = " + ('"all"' if found.copies == MOST_EXECUTORS else str(found.copies))
                name = told if wished else "three executors, where nothing else is wished"
                several = len({self.unsaid(task, found.sizes) for task in range(len(self.names))} - {()}) > 1
                name += f", of {', '.join(self.names[task] for task in tasks)}" if several else ""
                found.wishes.append(Wish(name, "executors", tasks, sizes, found.copies, found.copies))

    def unsaid(self, task, sizes):
        """The sizes for which nothing is wished of the executors of a task."""
        return tuple(size for size in sizes if ("executors", task, size) not in self.said)

    def read_shed(self, found):
        table = self.root.get("shed")
        if table is None:
            return
        if table.kind != "table":
            self.fault(table, f"`shed` is {KINDS[table.kind]}, and is to be a table", "`[shed]`, and below it `tasks = [..]`")
            return
        self.known_keys(table, "[shed]")
        tasks = table.get("tasks")
        if tasks is None:
            self.fault(table, "`tasks` is missing here", "the names of the tasks that may be shed, the first is shed first")
        elif not self.noted(tasks, wrong_array("tasks", tasks, 0, len(self.names), "names of tasks")):
            for item in tasks.data:
                task = self.task(item)
                if task in found.may_shed:
                    self.fault(item, f"`{item.data}` stands twice in `tasks`")
                elif task is not None:
                    found.may_shed += (task,)
        most_size = self.integer(table, "most_size", FEWEST, self.mission.units)
        found.most_size = most_size or self.mission.units
        aim = table.get("for")
        if aim is not None and (aim.kind != "string" or aim.data not in AIMS):
            self.fault(aim, f"`for` is to be one of {choice(AIMS)}: what a task may be shed for, and all before it")
        elif aim is not None:
            found.shed_for = aim.data

    def read_tasks(self, found):
        entries = self.root.get("task")
        if entries is None:
            return
        if entries.kind != "array" or any(item.kind != "table" for item in entries.data):
            self.fault(entries, "`task` is to be tables", "`[[task]]` with double brackets")
            return
        for entry in entries.data:
            self.known_keys(entry, "[[task]]")
            if entry.get("name") is None:
                self.fault(entry, "`name` is missing here", "the name of one of the mission's tasks")
                continue
            task = self.task(entry.get("name"))
            sizes = tuple(size for size in self.sizes(entry) if size in found.sizes)
            if task is not None:
                self.read_task(found, entry, task, sizes)

    def read_task(self, found, entry, task, sizes):
        """What is wished of a task at some sizes."""
        name, told = self.names[task], "" if sizes == found.sizes else f" at size {', '.join(map(str, sizes))}"
        count = self.executors(entry)
        if count:
            self.once(entry.data["executors"], "executors", task, sizes, f"how many executors {name} has")
            shown = '"all"' if count == MOST_EXECUTORS else count
            found.wishes.append(Wish(f"{name}: executors = {shown}{told}", "executors", (task,), sizes, count, count))
        for key, kind, verb in (("must_run", "run", "must run"), ("must_not_run", "not_run", "must not run")):
            for unit in self.integers(entry, key, 0, self.mission.units - 1, "units") or ():
                other = "not_run" if kind == "run" else "run"
                if any((other, task, size, unit) in self.said for size in sizes):
                    self.fault(entry.data[key], f"unit {unit} is both to run {name} and not to run it", "one of the two")
                self.said.update({(kind, task, size, unit): True for size in sizes})
                found.wishes.append(Wish(f"unit {unit} {verb} {name}{told}", kind, (task,), sizes, unit=unit))

    def once(self, place, kind, task, sizes, what):
        """Notes where something is said once more."""
        twice = [size for size in sizes if (kind, task, size) in self.said]
        if twice:
            self.fault(place, f"{what} is wished twice, for size {', '.join(map(str, twice))}", "once for each size")
        self.said.update({(kind, task, size): True for size in sizes})


def read_wishes(raw, mission):
    """The wishes of a document's bytes for a mission."""
    try:
        text, root = places.read(raw)
    except places.NotADocument as fault:
        text = raw.decode(errors="replace")
        raise NoWishes(text, None, [Broken("", fault.place, fault.end, fault.why, fault.mend)]) from None
    reader = Reader(root, mission)
    found = reader.read()
    if reader.faults:
        raise NoWishes(text, root, sorted(reader.faults, key=lambda fault: fault.start))
    return found


def nothing_wished(mission):
    """The wishes where there is no document of them."""
    return Reader(places.read(b"")[1], mission).read()
