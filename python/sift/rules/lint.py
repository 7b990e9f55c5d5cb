"""What in a mission is accepted and does nothing, or not what it seems to do."""
import itertools
from dataclasses import dataclass
from typing import Optional

from sift.documents import places, texts
from sift.documents.mission import items_of as item_tables
from sift.documents.slots import FEWEST, configurations_of, sayers
from sift.documents.texts import parts_of
from sift.reports.reading import set_of


@dataclass
class Finding:
    """What does nothing, where it stands, and what to do."""

    start: int
    end: int
    why: str
    mend: Optional[str] = None


# Configurations.


def after(states, faulty):
    """The configurations that may follow, each with whether the margin is kept. With margin none but the faulty unit goes."""
    following = set()
    for units, kept in states:
        wrong = units & faulty
        if kept and len(wrong) <= 1 and len(units - wrong) >= FEWEST:
            following |= {(units, True), (units - wrong, True)}
        else:
            following |= {(left, False) for left in configurations_of(units)}
    return following


def configurations(mission):
    """Of each frame the configurations that there may be."""
    begins = {fault.get("unit").data: fault.get("from").data for fault in mission.faults}
    states, before, frames = {(frozenset(range(mission.units)), True)}, None, []
    for frame in range(mission.frames):
        frames.append({units for units, _ in states})
        faulty = frozenset(unit for unit, begin in begins.items() if begin <= frame)
        if (states, faulty) != before:
            before = states, faulty
            states = after(states, faulty)
    return frames


# Items of faults.


@dataclass
class Item:
    """An item of a fault, with its unit and the frames in which it may be said."""

    number: int
    unit: int
    begin: int
    table: places.Value

    def get(self, name):
        value = self.table.get(name)
        return value.data if value else None

    @property
    def what(self):
        """What is said: items of one kind of word are alike in this."""
        return self.get("slot"), self.get("index"), self.get("word")

    @property
    def slot(self):
        """The kind of the word, and which sensor, task or unit."""
        return self.what[:2]

    @property
    def receivers(self):
        return {int(digit) for digit in self.get("to")}

    def frames(self, mission):
        frame = self.get("frame")
        return range(self.begin, mission.frames) if frame is None else [frame]

    def hides(self, other):
        """Whether this item, which stands first, fits whatever the other one fits, but for the receivers."""
        return self.what == other.what and self.get("frame") in (None, other.get("frame"))


def items_of(fault):
    tables = item_tables(fault)
    return [Item(number, fault.get("unit").data, fault.get("from").data, table) for number, table in enumerate(tables)]


def hearers_of(mission, item, frames):
    """Of each configuration in which the unit may say the item's word: the units that hear it."""
    for units in set().union(*(frames[frame] for frame in item.frames(mission))):
        sayer, hearer = sayers(mission, *item.slot, units)
        if item.unit in sayer:
            yield hearer


def why_unsaid(mission, item):
    """Why a unit never says a word."""
    slot, index = item.slot
    everyone = frozenset(range(mission.units))
    sayer, where = sayers(mission, slot, index, everyone)[0], f"in configuration {set_of(everyone)}"
    if slot == "sense":
        return f"unit {min(sayer)} reads sensor {index} {where}, and unit {item.unit} in none that there can be"
    if slot == "relay":
        return f"it reads sensor {index} {where} and in each other that there can be, and a reader relays nothing"
    if slot == "out" and not sayer:
        return f"task {index} is shed {where}, and is run by unit {item.unit} in none that there can be"
    if slot == "out":
        return f"task {index} is run by {set_of(sayer)} {where}, and by unit {item.unit} in none that there can be"
    return "no unit relays its own report"


def item_findings(mission):
    """Items that are never said, or not to some of their receivers, and items that are hidden."""
    frames = configurations(mission) if mission.faults else []
    for fault in mission.faults:
        items = items_of(fault)
        for item in items:
            yield from hidden_item(item, items[: item.number]) or unsaid_item(mission, item, frames)


def hidden_item(item, before):
    """The finding of an item that earlier ones leave nothing to say."""
    over = [other for other in before if other.hides(item) and other.receivers & item.receivers]
    if item.receivers - set().union(*(other.receivers for other in over)):
        return []
    by = " and ".join(str(other.number) for other in over)
    why = f"item {item.number} is hidden by item {by}: of several items that fit a word the first one counts"
    return [Finding(item.table.start, item.table.end, why, "put the special one first, or leave this one out")]


def unsaid_item(mission, item, frames):
    """The findings of an item that its unit never says, or never says to a receiver."""
    slot, to = item.table.get("slot"), item.table.get("to")
    hearers = list(hearers_of(mission, item, frames))
    if not hearers:
        why = f"unit {item.unit} never says this \"{slot.data}\": {why_unsaid(mission, item)}"
        yield Finding(slot.start, slot.end, why, "another unit, or another `index`")
        return
    for place, digit in enumerate(map(int, to.data)):
        if digit not in set().union(*hearers):
            reported = slot.data == "relay-report" and digit == item.get("index")
            because = "a report isn't relayed to the unit whose it is"
            if not reported:
                because = f"it is out wherever unit {item.unit} says it"
            why = f"unit {digit} never hears this item: {because}"
            yield Finding(to.places[place], to.places[place + 1], why, "leave the digit out")


# Tasks.


def unread(mission):
    """Sensors that no task reads."""
    parts = [part for task in range(len(mission.tasks)) for part in parts_of(mission.statements(task))]
    read = {part.sensor for part in parts if isinstance(part, texts.Sense)}
    for number, sensor in enumerate(mission.sensors):
        if number not in read:
            name = sensor.get("name")
            why = f"no task reads sensor {number}, {name.data}"
            yield Finding(name.start, name.end, why, f"`sense {name.data}` in a text, or no such sensor")


def tasks_for_the_report(mission):
    """The names of the tasks that no other task reads. A task may be there for the report alone, so they are no finding."""
    read = {
        part.task
        for reader in range(len(mission.tasks))
        for part in parts_of(mission.statements(reader))
        if isinstance(part, texts.Read) and part.task != reader
    }
    return [task.get("name").data for number, task in enumerate(mission.tasks) if number not in read]


def unset(mission):
    """Output words that are never set."""
    for number, task in enumerate(mission.tasks):
        written = {part.word for part in parts_of(mission.statements(number)) if isinstance(part, texts.Out)}
        for word, start in enumerate(task.get("start").data):
            if word not in written:
                name = task.get("name").data
                since = "as soon as it runs" if number in mission.shed(mission.units) else "from frame 0 on"
                why = f"word {word} of task {number}, {name}, is never set, and so is 0 {since}"
                yield Finding(start.start, start.end, why, f"`out {word} = ..;`, or one start word fewer")


def spare(mission):
    """Subframes at the end of a frame in which nothing happens."""
    value = mission.root.get("subframes")
    polls = [poll for size in range(4, mission.units + 1) for _, poll, _ in mission.rows_of(size)]
    least = max(12, max(polls) + 6)
    if value is not None and value.data > least:
        to_spare = f"{value.data - least} of {value.data} subframes {'is' if value.data - least == 1 else 'are'} to spare"
        last = f"the last poll in {max(polls)}" if max(polls) else "no poll"
        why = f"{to_spare}: with {last}, {least} would do"
        yield Finding(value.start, value.end, why, f"`subframes = {least}`" if mission.tables else "leave it out")


def never_run(mission):
    """Tasks that every table sheds."""
    for number in sorted(set.intersection(*(mission.shed(size) for size in range(FEWEST, mission.units + 1)))):
        name = mission.tasks[number].get("name")
        why = f"every table sheds task {number}, {name.data}: it never runs, and its words stay as they start"
        yield Finding(name.start, name.end, why, "let it run in the table of the most units, or leave it out")


# Shifts of signed words.


class Signs:
    """Which words hold numbers with a sign: of the locals of a task, of output words and of sensors."""

    def __init__(self, mission):
        self.mission = mission
        starts = [task.get("start").data for task in mission.tasks]
        words = [sensor.get("words").data for sensor in mission.sensors]
        self.words = {(task, word) for task, row in enumerate(starts) for word, start in enumerate(row) if start.data < 0}
        self.sensors = {sensor for sensor, row in enumerate(words) if any(word.data < 0 for word in row)}
        self.tasks = [mission.statements(number) for number in range(len(mission.tasks))]
        self.locals = [set() for _ in self.tasks]
        self.used = [set(map(repr, used_as_signed(statements))) for statements in self.tasks]
        while self.grow():
            pass

    def grow(self):
        """Goes through the tasks once, and tells whether more was found."""
        before = len(self.words), sum(map(len, self.locals))
        for number, statements in enumerate(self.tasks):
            for part in parts_of(statements):
                if isinstance(part, texts.Set) and self.signed(number, part.value):
                    self.locals[number].add(part.name)
                if isinstance(part, texts.Out) and self.signed(number, part.value):
                    self.words.add((number, part.word))
        return before != (len(self.words), sum(map(len, self.locals)))

    def signed(self, task, part):
        """Whether an expression of a task has a sign."""
        if repr(part) in self.used[task] or isinstance(part, texts.Minus):
            return True
        if isinstance(part, texts.Local):
            return part.name in self.locals[task]
        if isinstance(part, texts.Read):
            return (part.task, part.word) in self.words
        if isinstance(part, texts.Sense):
            return part.sensor in self.sensors
        if isinstance(part, texts.Mid):
            return any(self.signed(task, inner) for inner in part.parts)
        return isinstance(part, texts.Operation) and self.signed_operation(task, part)

    def signed_operation(self, task, part):
        left, right = self.signed(task, part.left), self.signed(task, part.right)
        masked = any(isinstance(side, texts.Number) and side.value < 32768 for side in (part.left, part.right))
        if part.operator == "-":
            return True
        if part.operator in "+*/%|^":
            return left or right
        if part.operator == "&":
            return (left or right) and not masked
        return part.operator == "<<" and left


def used_as_signed(statements):
    """The locals and read words that a text compares with 0, or takes the minus of."""
    for part in parts_of(statements):
        if isinstance(part, texts.Minus):
            yield part.inner
        elif isinstance(part, texts.Operation) and part.operator == "<" and part.right == texts.Number(0):
            yield part.left
        elif isinstance(part, texts.Operation) and part.operator == "-" and part.left == texts.Number(0):
            yield part.right


def shifts(mission):
    """Shifts to the right of words with a sign."""
    signs = Signs(mission)
    for number, statements in enumerate(signs.tasks):
        for part in parts_of(statements):
            if isinstance(part, texts.Operation) and part.operator == ">>" and signs.signed(number, part.left):
                text = mission.tasks[number].get("text")
                by = part.right.value if isinstance(part.right, texts.Number) and part.right.value < 15 else None
                why = "`>>` shifts zeros in, and this word is used as signed: a negative one becomes a large one"
                mend = f"`/ {2**by}`, which keeps the sign and rounds toward 0" if by else "divide by a power of two"
                yield Finding(text.place_of_byte(part.place), text.place_of_byte(part.end), why, mend)


# Lies that cost nothing. They are told in notes: a mission may have them on purpose.


@dataclass
class Note:
    """What may be as it ought to, and where it stands."""

    start: int
    what: str


def heard(mission, unit, item, units):
    """The units of a configuration that hear an item."""
    sayer, hearer = sayers(mission, *item.slot, units)
    return item.receivers & hearer - {unit} if unit in sayer else set()


def knowers(mission, unit, item, units):
    """Those that know better. A reader's lie shows where the reader runs a task that reads the sensor."""
    slot, index = item.slot
    hearers = heard(mission, unit, item, units)
    if slot == "relay":
        return hearers & sayers(mission, "sense", index, units)[0]
    if slot == "sense":
        return hearers if any(unit in sayers(mission, "out", task, units)[0] for task in readers_of(mission, index)) else set()
    return hearers if slot in ("clock", "out") else set()


def moments(mission, fault, items):
    """The items that the unit of a fault may say in a frame, with the working units of its configuration and itself, each once."""
    unit, begins = fault.get("unit").data, {each.get("unit").data: each.get("from").data for each in mission.faults}
    seen = set()
    for frame, several in enumerate(configurations(mission)[fault.get("from").data :], fault.get("from").data):
        working = {other for other in range(mission.units) if other == unit or begins.get(other, frame + 1) > frame}
        due = tuple(item.number for item in items if frame in item.frames(mission))
        for units in several:
            if unit in units and (due, units, frozenset(working)) not in seen:
                seen.add((due, units, frozenset(working)))
                yield [items[number] for number in due], units, working


def uncaught(mission):
    """Faults that no two working units would catch."""
    for fault in mission.faults:
        unit, said, most = fault.get("unit").data, False, set()
        for due, units, working in moments(mission, fault, items_of(fault)):
            said = said or any(heard(mission, unit, item, units) for item in due)
            found = set().union(*(knowers(mission, unit, item, units) for item in due))
            most = max(most, found & working, key=len)
            if len(most) > 1:
                break
        if said and len(most) < 2:
            who = f"unit {min(most)} alone hears a word that it knows better" if most else "no unit hears a word that it knows better"
            yield Note(fault.start, f"no two working units would catch unit {unit}: {who}")


def readers_of(mission, sensor):
    """The tasks that read a sensor."""
    for task in range(len(mission.tasks)):
        if any(isinstance(part, texts.Sense) and part.sensor == sensor for part in parts_of(mission.statements(task))):
            yield task


def unwatched(mission):
    """Sensors whose reader runs no task that reads them, in configurations of some sizes."""
    for number, sensor in enumerate(mission.sensors):
        tasks = list(readers_of(mission, number))
        sizes = [
            size
            for size in range(FEWEST, mission.units + 1)
            if all(number % size not in mission.executors(size)[task] for task in tasks)
        ]
        if tasks and sizes:
            name = sensor.get("name")
            of = " and ".join(map(str, sizes))
            yield Note(name.start, f"in configurations of {of} the reader of sensor {number}, {name.data}, runs no task that reads it: nobody would catch a lie of it")


def notes(mission):
    """All notes that have a place, in its order."""
    return sorted(itertools.chain(uncaught(mission), unwatched(mission)), key=lambda each: each.start)


LOOKS = [item_findings, unread, unset, spare, never_run, shifts]


def findings(mission):
    """All findings, in the order of their places."""
    return sorted(itertools.chain.from_iterable(look(mission) for look in LOOKS), key=lambda each: each.start)
