"""The faults that a schedule is tried with: each unit, each slot that it says, each way of lying, each moment."""
from bisect import bisect_right
from collections import namedtuple
from functools import lru_cache
from itertools import accumulate, combinations, repeat

from sift.campaigns.ways import MOST_ITEMS, Said, is_made, ways_of
from sift.documents.slots import FEWEST, HAPPENING, configurations_of, sayers
from sift.forms import Form

FAULT = Form(  # as a row tells it
    r"unit (?P<unit>[0-7]) (?P<slot>.+?) (?P<way>(?P<kind>wrong|silence|two-faces|flip|stuck|offset|drift|intermittent|storm)(?: (?P<value>-?\d+))?)"
    r"(?: to (?P<to>[0-7]+))? from (?P<begin>\d+)(?: for (?P<frames>\d+))?"
)


class Slot(namedtuple("Slot", "slot index word name", defaults=(None, None, ""))):
    """A word that a unit says, with the name that documents and votes have for its sensor, task or unit."""

    def __str__(self):
        return f"{self.slot} {self.name}".rstrip()

    def keys(self):
        """The keys of an item that speaks of it."""
        keys = {"slot": self.slot, "index": self.index, "word": self.word}
        return {key: value for key, value in keys.items() if value is not None}


CELLS = Slot("cells")  # where a stray unit stores: no slot of a document
ALL = Slot("all")  # each slot that a unit says, as one that dies is silent in


class Fault(namedtuple("Fault", "unit slot kind begin value to frames number", defaults=(None, None, None, None))):
    """A unit that goes wrong in one slot, in one way, from a frame on.

    A value says more of the way: the word, the bit, the number that is added, or the strays of a storm. `to` are the units that
    hear it so, all of them where it is None; `frames` is how long it lasts, to the end where it is None; and `number` is that
    of a storm.
    """

    def __str__(self):
        value = "" if self.value is None else f" {self.value}"
        to = "" if self.to is None else f" to {digits_of(self.to)}"
        lasting = "" if self.frames is None else f" for {self.frames}"
        return f"unit {self.unit} {self.slot} {self.kind}{value}{to} from {self.begin}{lasting}"


class Told(namedtuple("Told", "unit slot way begin drawn")):
    """What a row tells of a fault: the unit, the slot's name, the way, the frame from which on it goes wrong, and whether it was
    drawn, and so names its hearers. A value that was asked for belongs to the way, and one that was drawn doesn't.
    """


@lru_cache(maxsize=4096)  # a fault comes in many pairs
def told_of(text):
    """A fault that a row tells, or None."""
    found = FAULT.fullmatch(text)
    if not found:
        return None
    drawn = found["to"] is not None or found["kind"] == "storm"
    return Told(found["unit"], found["slot"], found["kind"] if drawn else found["way"], int(found["begin"]), drawn)


def digits_of(units):
    """Units as a document writes them."""
    return "".join(map(str, units))


def starts_of(mission):
    """The offset of each unit's clock in frame 0."""
    start = mission.clock("start")
    return [tick.data for tick in start] if start else [0] * mission.units


def outline_of(mission):
    """What a schedule has of a mission, in plain values."""
    return {
        "units": mission.units,
        **{name: mission.clock(name) for name in ("skew", "error", "rate")},
        "start": starts_of(mission),
        "sensors": [[each.get("name").data, [word.data % 65536 for word in each.get("words").data]] for each in mission.sensors],
        "tasks": [[each.get("name").data, mission.words_of(number)] for number, each in enumerate(mission.tasks)],
        "executors": {size: mission.executors(size) for size in range(FEWEST, mission.units + 1)},
        "held": {size: sorted(mission.held(size)) for size in range(FEWEST, mission.units + 1)},
    }


class Schedule:
    """The outline of a mission, with the words of the ideal machine: what can be said wrong, by whom, and how."""

    def __init__(self, outline, ideal):
        self.units = range(outline["units"])
        self.skew = outline["skew"]
        # What else is known of the clocks: nothing of a campaign that an earlier tool began.
        self.error, self.rate, self.start = (outline.get(name) for name in ("error", "rate", "start"))
        self.sensors = outline["sensors"]  # names, with the words that they show
        self.tables = {int(size): executors for size, executors in outline["executors"].items()}
        self.outputs = [(task, word) for task, (_, words) in enumerate(outline["tasks"]) for word in range(words)]
        self.names = [f"{outline['tasks'][task][0]}.{word}" for task, word in self.outputs]
        # Of each size the tasks whose words, where its table sheds some, may differ from the ideal machine's from then on.
        self.held_tasks = {int(size): set(tasks) for size, tasks in outline.get("held", {}).items()}
        self.ideal = ideal
        self.due = [frozenset((words,)) for words in ideal]  # what is voted in each frame where all is right
        self.memory = {}  # who says a slot under a configuration, and the right words of a slot
        self.texts = None

    def due_words(self):
        """The same as a report has it, of each frame all of one length."""
        return [",".join([f"{word:04x}" for word in words]) or "-" for words in self.ideal]

    def due_texts(self):
        """The same with what stands around it in a report's lines."""
        if self.texts is None:
            self.texts = [f" out={words} bad=" for words in self.due_words()]
        return self.texts

    def executors(self, size):
        """Of each task the positions that run it where a configuration has this size."""
        return self.tables[size]

    def sheds(self):
        """Whether some table sheds a task."""
        return any(self.held_tasks.values())

    def compared(self, flight):
        """Of each frame of a flight the places of the output words that are compared with the ideal machine's."""
        if not self.sheds():
            return repeat(tuple(range(len(self.outputs))))
        return (tuple(place for place, (task, _) in enumerate(self.outputs) if task not in held) for held in flight.held(self.held_tasks))

    def slots(self):
        """All slots, in the order in which a unit says them."""
        yield Slot("clock")
        yield from (Slot("sense", number, None, name) for number, (name, _) in enumerate(self.sensors))
        yield from (Slot("relay", number, None, name) for number, (name, _) in enumerate(self.sensors))
        yield from (Slot("out", *output, name) for output, name in zip(self.outputs, self.names))
        yield Slot("report")
        yield from (Slot("relay-report", unit, None, str(unit)) for unit in self.units)

    def says(self, unit, slot, configuration):
        """Whether a unit says a slot under a configuration. In its cells, and in all slots, it does so wherever it is in."""
        if slot in (ALL, CELLS):
            return unit in configuration
        key = slot.slot, slot.index, configuration
        if key not in self.memory:
            self.memory[key] = sayers(self, slot.slot, slot.index, configuration)[0]
        return unit in configuration and unit in self.memory[key]

    def slots_of(self, unit):
        """The slots that a unit says under some configuration."""
        configurations = [units for units in configurations_of(self.units) if unit in units]
        return [slot for slot in self.slots() if any(self.says(unit, slot, units) for units in configurations)]

    def hearers(self, unit, slot):
        """The units to which a unit says a slot."""
        whose = slot.index if slot.slot == "relay-report" else None
        return [other for other in self.units if other not in (unit, whose)]

    def right_word(self, slot, frame):
        """The word that a unit that works says in a slot of sensors or outputs in a frame."""
        if slot.slot == "out":
            return self.ideal[frame][self.outputs.index((slot.index, slot.word))]
        words = self.sensors[slot.index][1]
        return words[frame % len(words)]

    def right_words(self, slot):
        """The words that a unit that works may say in a slot of sensors or outputs."""
        if slot not in self.memory:
            place = self.outputs.index((slot.index, slot.word)) if slot.slot == "out" else None
            self.memory[slot] = set(self.sensors[slot.index][1]) if place is None else {words[place] for words in self.ideal}
        return self.memory[slot]

    def lasting(self, fault):
        """A fault as long as its items last."""
        if fault.slot == ALL and fault.frames is not None:
            return fault._replace(frames=min(fault.frames, MOST_ITEMS // len(self.slots_of(fault.unit))))
        return Said(self, fault).fault if fault.kind in HAPPENING or fault.frames is not None else fault

    def table(self, fault):
        """A fault as a document states it."""
        return self.tables_of([fault])[0]

    def tables_of(self, faults):
        """Faults as a document states them: those of one unit, which begin in the same frame, in one table."""
        units = {}
        for fault in faults:
            units.setdefault(fault.unit, []).append(fault)
        return [self.table_of_unit(unit, own) for unit, own in units.items()]

    def table_of_unit(self, unit, faults):
        """The faults of a unit in one table."""
        table = {"unit": unit, "from": faults[0].begin}
        if faults[0].kind == "storm":
            return {**table, "storm": {"number": faults[0].number, "strays": faults[0].value}}
        return {**table, "say": [item for fault in faults for one in self.in_slots(fault) for item in Said(self, one).items()]}

    def in_slots(self, fault):
        """A fault in all slots as one in each of them."""
        if fault.slot != ALL:
            return [fault]
        return [fault._replace(slot=slot, to=tuple(self.hearers(fault.unit, slot))) for slot in self.slots_of(fault.unit)]


class Faults:
    """What a campaign flies, by number: single faults, and then pairs of faults of two units.

    It keeps what a unit can say wrong, and not each fault: there may be a million of them.
    """

    def __init__(self, schedule, kinds, moments, single, pairs, values=None, left_out=()):
        self.schedule = schedule
        self.moments = moments
        units = [unit for unit in schedule.units if unit not in left_out]
        ways = [way for kind in kinds for way in ways_of(kind, values)]
        self.wrongs = {unit: [(slot, way) for slot in schedule.slots_of(unit) for way in ways if is_made(slot, way.kind)] for unit in units}
        self.parts = [(unit,) for unit in units] if single else []
        self.parts += list(combinations(units, 2)) if pairs else []
        self.ends = list(accumulate(map(self.count, self.parts)))
        self.fault = lru_cache(maxsize=4096)(self.fault)  # a fault comes in many pairs

    def __len__(self):
        return self.ends[-1] if self.ends else 0

    def of_unit(self, unit):
        """How many faults a unit has."""
        return len(self.wrongs[unit]) * len(self.moments)

    def count(self, part):
        """How many runs a part has: one for each choice of a fault of each of its units."""
        return self.of_unit(part[0]) * (self.of_unit(part[1]) if part[1:] else 1)

    def fault(self, unit, number):
        """The fault of a unit with a number, from 0."""
        place, moment = divmod(number, len(self.moments))
        slot, way = self.wrongs[unit][place]
        return self.schedule.lasting(Fault(unit, slot, way.kind, self.moments[moment], way.value))

    def __getitem__(self, number):
        """The faults of a run, which is numbered from 0."""
        place = bisect_right(self.ends, number)
        if number < 0 or place == len(self.ends):
            raise IndexError(number)
        part = self.parts[place]
        number -= self.ends[place] - self.count(part)
        numbers = divmod(number, self.of_unit(part[1])) if part[1:] else (number,)
        return tuple(self.fault(unit, own) for unit, own in zip(part, numbers))
