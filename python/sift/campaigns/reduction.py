"""The smallest document that still shows a failure: fewer items, hearers, frames, tasks, sensors and units.

It is delta debugging: A. Zeller, R. Hildebrandt, Simplifying and isolating failure-inducing input, IEEE Transactions on Software
Engineering 28 (2002). What is left is smallest in that nothing of it can be left out by itself.
"""
from copy import deepcopy

from sift.documents.slots import FEWEST

# Where a mission has more, so many units stay: of four, any one that goes wrong loses the margin, and that shows nothing.
FEWEST_LEFT = FEWEST + 1


def least_of(things, shows):
    """The fewest of some things that still show it, so that none of them can be left out: the algorithm ddmin."""
    parts = 2
    while len(things) > 1:
        size = -(-len(things) // parts)
        chunks = [things[begin : begin + size] for begin in range(0, len(things), size)]
        rests = [[thing for other in chunks if other is not chunk for thing in other] for chunk in chunks]
        few = next((chunk for chunk in chunks if shows(chunk)), None) if parts == 2 or len(chunks) > 2 else None
        if few is not None:
            things, parts = few, 2
            continue
        rest = next((rest for rest in rests if len(chunks) > 2 and shows(rest)), None)
        if rest is not None:
            things, parts = rest, max(parts - 1, 2)
        elif parts >= len(things):
            break
        else:
            parts = min(len(things), 2 * parts)
    return things


def least_number(low, high, shows):
    """The least number found, from a low one on, that shows it as the high one does: where all above a least one do, it is that."""
    while low < high:
        middle = (low + high) // 2
        if shows(middle):
            high = middle
        else:
            low = middle + 1
    return high


# Parts of a document are left out. Each function gives a document with those that are kept.


def with_faults(data, kept):
    return {**data, "fault": kept}


def with_items(data, place, kept):
    faults = deepcopy(data["fault"])
    faults[place]["say"] = kept
    return with_faults(data, faults)


def with_strays(data, place, strays):
    faults = deepcopy(data["fault"])
    faults[place]["storm"]["strays"] = strays
    return with_faults(data, faults)


def with_hearers(data, place, item, kept):
    items = deepcopy(data["fault"][place]["say"])
    items[item]["to"] = "".join(kept)
    return with_items(data, place, items)


def with_frames(data, frames):
    """The first frames alone."""
    return {**data, "frames": frames}


def without_begin(data, frames):
    """The document without its first frames: all that faults do comes so much earlier, and what comes before the begin is left out."""
    faults = deepcopy(data.get("fault", []))
    for fault in faults:
        fault["from"] = max(0, fault["from"] - frames)
        for item in fault.get("say", []):
            if "frame" in item:
                item["frame"] -= frames
        if "say" in fault:
            fault["say"] = [item for item in fault["say"] if item.get("frame", 0) >= 0]
    return with_faults({**data, "frames": data["frames"] - frames}, with_something(faults))


def with_something(faults):
    """Those of some faults that still do something."""
    return [fault for fault in faults if fault.get("say") or "storm" in fault]


def renumbered(faults, changed):
    """Faults whose items are changed by a function, which gives None for one that is left out."""
    made = []
    for fault in faults:
        made.append({**fault, "say": [item for item in map(changed, fault["say"]) if item]} if "say" in fault else fault)
    return with_something(made)


def with_tasks(data, kept):
    """Some of the tasks, by their numbers."""
    places = {task: place for place, task in enumerate(kept)}

    def changed(item):
        if item["slot"] != "out":
            return item
        return {**item, "index": places[item["index"]]} if item["index"] in places else None

    made = {**data, "task": [data["task"][task] for task in kept]}
    if "fault" in data:
        made["fault"] = renumbered(data["fault"], changed)
    if "table" in data:
        made["table"] = [table_with(table, places, kept) for table in data["table"]]
    return made


def table_with(table, places, kept):
    """A table of some of its tasks."""
    made = {**table, **{name: [table[name][task] for task in kept] for name in ("run", "poll", "at")}}
    if "shed" in table:
        made["shed"] = [places[task] for task in table["shed"] if task in places]
    return made


def with_sensors(data, kept):
    """Some of the sensors, by their numbers."""
    places = {sensor: place for place, sensor in enumerate(kept)}

    def changed(item):
        if item["slot"] not in ("sense", "relay"):
            return item
        return {**item, "index": places[item["index"]]} if item["index"] in places else None

    made = {**data, "sensor": [data["sensor"][sensor] for sensor in kept]}
    if not kept:
        del made["sensor"]
    if "fault" in data:
        made["fault"] = renumbered(data["fault"], changed)
    return made


def with_units(data, kept):
    """Some of the units, by their numbers. The tables of larger sizes are left out."""
    places = {unit: place for place, unit in enumerate(kept)}

    def changed(item):
        to = "".join(str(places[int(unit)]) for unit in item["to"] if int(unit) in places)
        made = {**item, "to": to}
        if item["slot"] == "relay-report":
            if item["index"] not in places:
                return None
            made["index"] = places[item["index"]]
        if item["slot"] in ("report", "relay-report") and "value" in item:
            made["value"] = sum(1 << place for unit, place in places.items() if item["value"] >> unit & 1)
        return made if to else None

    made = {**data, "units": len(kept)}
    if "fault" in data:
        working = [{**fault, "unit": places[fault["unit"]]} for fault in data["fault"] if fault["unit"] in places]
        made["fault"] = renumbered(working, changed)
    if "table" in data:
        made["table"] = [table for table in data["table"] if table["size"] <= len(kept)]
    if "clock" in data:
        made["clock"] = clock_with(data["clock"], kept)
    return made


def clock_with(clock, kept):
    """The clocks of some units."""
    made = dict(clock)
    for name in ("start", "drift", "errors"):
        if name in clock:
            made[name] = [clock[name][unit] for unit in kept]
    if "errors" in made:
        made["errors"] = [[errors[unit] for unit in kept] for errors in made["errors"]]
    return made


class Reduction:
    """Makes a document smaller as long as a test says that it shows the failure. The test gets the document's values."""

    def __init__(self, data, shows):
        self.data = data
        self.test = shows
        self.tried = 0

    def shows(self, data):
        """Whether a smaller document shows it; then it is the one to go on with."""
        self.tried += 1
        if not self.test(data):
            return False
        self.data = data
        return True

    def reduce(self):
        """The smallest document."""
        before = None
        while before != self.data:
            before = self.data
            self.faults()
            self.items()
            self.frames()
            self.numbered("task", with_tasks)
            self.numbered("sensor", with_sensors)
            self.units()
        return self.data

    def faults(self):
        least_of(self.data.get("fault", []), lambda kept: self.shows(with_faults(self.data, kept)))

    def items(self):
        for place, fault in enumerate(self.data.get("fault", [])):
            if "storm" in fault:
                least_number(0, fault["storm"]["strays"], lambda strays, place=place: self.shows(with_strays(self.data, place, strays)))
                continue
            least_of(fault["say"], lambda kept, place=place: self.shows(with_items(self.data, place, kept)))
            for item in range(len(self.data["fault"][place]["say"])):
                hearers = list(self.data["fault"][place]["say"][item]["to"])
                least_of(hearers, lambda kept, place=place, item=item: self.shows(with_hearers(self.data, place, item, kept)))

    def frames(self):
        least_number(1, self.data["frames"], lambda frames: self.shows(with_frames(self.data, frames)))
        frames = self.data["frames"]
        least_number(1, frames, lambda left: self.shows(without_begin(self.data, self.data["frames"] - left)) if left < self.data["frames"] else True)

    def numbered(self, name, kept_of):
        """Leaves out tasks or sensors, one after the other: who reads one that isn't there makes no mission."""
        for number in reversed(range(len(self.data.get(name, [])))):
            kept = [each for each in range(len(self.data[name])) if each != number]
            if kept or name == "sensor":
                self.shows(kept_of(self.data, kept))

    def units(self):
        unit = self.data["units"] - 1
        while unit >= 0 and self.data["units"] > FEWEST_LEFT:
            self.shows(with_units(self.data, [each for each in range(self.data["units"]) if each != unit]))
            unit -= 1


def size_of(data):
    """How large a document is, in words."""
    items = sum(len(fault.get("say", [])) or 1 for fault in data.get("fault", []))
    parts = ((items, "item"), (data["frames"], "frame"), (len(data.get("task", [])), "task"), (data["units"], "unit"))
    return ", ".join(f"{count:,} {name}{'' if count == 1 else 's'}" for count, name in parts)
