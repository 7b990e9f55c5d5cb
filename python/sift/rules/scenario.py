"""The rules on keys and values, 1 to 31: docs/missions.md has them."""
from sift.documents.mission import KEYS, ROOT_KEYS, SECOND_KEYS, Broken, items_of, spot
from sift.documents.places import KINDS
from sift.documents.texts import choice, nearest
from sift.documents.values import bound_of, counted, wrong_array, wrong_digits, wrong_integer, wrong_name, wrong_word

SLOTS = ("clock", "sense", "relay", "out", "report", "relay-report")
INDEXED = {"sense": "the sensor", "relay": "the sensor", "out": "the task", "relay-report": "the unit whose report it is"}
LARGEST_CLOCK = 8000
LARGEST_NUMBERS = {"number": 2**63 - 1, "strays": 1_000_000}


# The pieces of rules: each tells the faults of one key, in the order of the rule. What they yield are pairs of a place,
# as start and end, and of why and what to do.


def stray(mission, name):
    """Where a key of the root stands below a `[..]` line by mistake, and which line that is; or None."""
    for header, table in headed(mission.root):
        if name in table.data and name not in KEYS[header]:
            return table.data[name], header
    return None


def headed(root):
    """The tables that stand in a document, each with how its header is written."""
    for header in list(KEYS)[1:-2]:
        name = header.strip("[]")
        for table in tables_of(root.get(name)):
            yield header, table
            if name == "fault":
                for item in tables_of(table.get("say")):
                    yield "[[fault.say]]", item
                for storm in tables_of(table.get("storm")):
                    yield "[fault.storm]", storm


def tables_of(value):
    """The tables that a value is, or holds."""
    if value is None:
        return []
    if value.kind == "table":
        return [value]
    return [item for item in value.data if item.kind == "table"] if value.kind == "array" else []


def misplaced(name, header):
    """Why a key of the root can't stand below a header, and what to do."""
    mend = "move it above the first `[..]` line, where the keys of the document stand"
    return f"`{name}` stands below `{header}`, and so belongs to it", mend


def missing_root(mission, name):
    """The faults of a missing key of the root."""
    found = stray(mission, name)
    if found:
        entry, header = found
        yield spot(entry), misplaced(name, header)
    else:
        like = nearest(name, [key for key in mission.root.data if key not in ROOT_KEYS])
        mend = f"`{like}` isn't known" if like else None
        yield spot(mission.root), (f"`{name}` is missing", mend)


def missing_key(table, name, header):
    """The fault of a missing key of a table."""
    like = nearest(name, [key for key in table.data if key not in KEYS[header]])
    return spot(table), (f"`{name}` is missing here", f"`{like}` isn't known" if like else None)


def unknown_keys(table, header, keys=None):
    """The faults of keys that a table can't have: others than these, or than all those of its kind."""
    keys = KEYS[header] if keys is None else keys
    for name, entry in table.data.items():
        if name in keys:
            continue
        known = f"{header} has the keys {choice(keys)}"
        owners = [other for other, inner in KEYS.items() if name in inner]
        like = nearest(name, [key for key in keys if key not in table.data])
        if name in SECOND_KEYS.get(header, ()):
            why = f"`{name}` is a key of version 2, and this document is one of version 1"
            yield spot(entry), (why, f"`version = 2` above the first `[..]` line, or no `{name}`")
        elif header == "the document":
            yield spot(entry), unknown_root(name, entry.value, owners, like)
        elif header == "[[fault]]" and name in ("until", "end", "duration"):
            why = f"`{name}` is no key of {header}: a fault lasts to the end"
            yield spot(entry), (why, "an item with a `frame` for each frame in which it lies")
        elif name in ROOT_KEYS and name not in ("clock", "sensor", "task", "table", "fault"):
            yield spot(entry), misplaced(name, header)
        elif like:
            yield spot(entry), (f"`{name}` is no key of {header}", f"`{like}`; {known}")
        elif owners:
            yield spot(entry), (f"`{name}` is no key of {header}: it is one of {owners[0]}", f"move it there; {known}")
        else:
            yield spot(entry), (f"`{name}` is no key of {header}", known)


def unknown_root(name, value, owners, like):
    """Why a key can't stand at the root, and what to do."""
    known = f"the document has {choice(ROOT_KEYS)}"
    written = f"`[[{name}]]`" if value.kind == "array" and value.origin == "header" else f"`{name}`"
    if owners and not like:
        return f"`{name}` is no key of the document: it is one of {owners[0]}", f"move it below its `{owners[0]}` line"
    if like:
        like = written.replace(name, like)
        return f"{written} isn't known", f"`{like.strip('`')}`; {known}"
    return f"{written} isn't known", known


def integer_fault(mission, name, low, high, needed):
    """The faults of an integer of the root."""
    value = mission.root.get(name)
    if value is None:
        if needed:
            yield from missing_root(mission, name)
        return
    fault = wrong_integer(name, value, low, high)
    if fault:
        yield spot(value), fault


def list_faults(mission, name, least, most):
    """The faults of a list of tables as a whole, and of the keys of each: pairs of an entry and its fault."""
    value, header = mission.root.get(name), f"[[{name}]]"
    if value is None:
        return
    if value.kind == "table" and value.origin in ("header", "implicit"):
        why = f"`[{name}]` makes one table, and `{name}` is a list of them"
        yield 0, spot(value), (why, f"`{header}`, with double brackets")
    elif value.kind != "array":
        why = f"`{name}` is {KINDS[value.kind]}, and is to be a list of tables"
        yield 0, spot(value), (why, f"`{header}`, with double brackets")
    elif not least <= len(value.data) <= most:
        yield 0, spot(value), (f"there are {len(value.data)} {header} tables, and {least} to {most} can be", None)
    else:
        yield from entry_faults(value.data, name, header, mission.keys(header))


def entry_faults(entries, name, header, keys=None):
    for number, entry in enumerate(entries):
        if entry.kind != "table":
            why = f"`{name}` has {KINDS[entry.kind]} here, and is to have tables alone"
            yield number, spot(entry), (why, f"`{header}`, with double brackets")
        else:
            for place, fault in unknown_keys(entry, header, keys):
                yield number, place, fault


def name_faults(entries, header):
    """The faults of the names of tasks, or of sensors."""
    before = {}
    for number, entry in enumerate(entries):
        value = entry.get("name")
        if value is None:
            yield number, *missing_key(entry, "name", header), False
        elif value.kind != "string":
            yield number, spot(value), (f"`name` is {KINDS[value.kind]}, and is to be a string", "a name in quotes"), False
        elif wrong_name(value.data):
            yield number, spot(value), wrong_name(value.data), False
        elif value.data in before:
            first = before[value.data]
            yield number, spot(value), (f"`{value.data}` is the name of {header} number {first} already", fresh(value.data, entries)), True
        else:
            before[value.data] = number


def fresh(name, entries):
    """What to do about a name that is taken."""
    names = {value.data for value in (entry.get("name") for entry in entries) if value is not None}
    return f"\"{next(other for other in (f'{name[:14]}_{number}' for number in range(2, 100)) if other not in names)}\", or another name"


def word_list_faults(entry, name, header, least, most):
    """The faults of a list of words."""
    value = entry.get(name)
    if value is None:
        yield missing_key(entry, name, header)
        return
    fault = wrong_array(name, value, least, most, "words")
    if fault:
        yield spot(value), fault
        return
    for word in value.data:
        if wrong_word(name, word):
            yield spot(word), wrong_word(name, word)


# The rules of scenarios. Each yields, for what breaks it in order, the number of the entry, the place, why with what to
# do, and whether it shows only where several values are compared.


def rule_1(mission):
    for place, fault in unknown_keys(mission.root, "the document"):
        yield 0, place, fault, False


def rule_2(mission):
    for place, fault in integer_fault(mission, "units", 4, 8, True):
        yield 0, place, fault, False


def rule_3(mission):
    for place, fault in integer_fault(mission, "frames", 1, 1000, True):
        yield 0, place, fault, False


def rule_4(mission):
    for place, fault in integer_fault(mission, "version", 1, 2, False):
        yield 0, place, fault, False


def rule_5(mission):
    for place, (why, mend) in integer_fault(mission, "subframes", 12, 64, False):
        of_integer = mission.root.get("subframes").kind == "integer"
        yield 0, place, (why, None if of_integer else mend), False  # what the page says is more than the nearest number


def rule_6(mission):
    clock = mission.root.get("clock")
    if clock is None:
        return
    if clock.kind == "array" and clock.origin == "header":
        why = "`[[clock]]` makes a list, and there is one table of clocks"
        yield 0, spot(clock), (why, "`[clock]`, with single brackets"), False
    elif clock.kind != "table":
        why = f"`clock` is {KINDS[clock.kind]}, and is to be a table"
        yield 0, spot(clock), (why, "`[clock]`, with single brackets"), False
    else:
        for place, fault in unknown_keys(clock, "[clock]"):
            yield 0, place, fault, False


def clock_figure(mission, name, low, high, needed):
    """The faults of a figure of the clocks."""
    clock = mission.root.get("clock")
    if clock is None:
        return
    value = clock.get(name)
    if value is not None and wrong_integer(name, value, low, high):
        why, mend = wrong_integer(name, value, low, high)
        if name in ("error", "rate") and value.kind == "integer" and value.data < 0:
            mend = f"`{name} = {-value.data}`: it is a size"
        yield 0, spot(value), (why, mend), False
    elif value is None and needed:
        yield 0, *missing_key(clock, name, "[clock]"), False


def rule_7(mission):
    yield from clock_figure(mission, "skew", 0, LARGEST_CLOCK, True)


def rule_8(mission):
    yield from clock_figure(mission, "error", 0, LARGEST_CLOCK, False)
    yield from clock_figure(mission, "rate", 0, LARGEST_CLOCK, False)


def rule_9(mission):
    yield from clock_figure(mission, "length", 1, 1_000_000, True)


def rule_10(mission):
    skew, error, rate = (mission.clock(name) for name in ("skew", "error", "rate"))
    if 5 * (error + rate) > skew:
        why = f"`skew` is {skew}, and 5 * (`error` + `rate`) = 5 * ({error} + {rate}) = {5 * (error + rate)} is more"
        mend = f"`skew = {5 * (error + rate)}`, or a smaller `error` or `rate`"
        yield 0, spot(mission.root.get("clock").get("skew")), (why, mend), True


def rule_11(mission):
    if mission.root.get("clock") is None:
        return
    skew, error, rate, length = (mission.clock(name) for name in ("skew", "error", "rate", "length"))
    least = 2 * skew + error + rate + 1
    if length < least:
        figures = f"2 * `skew` + `error` + `rate` + 1 = 2 * {skew} + {error} + {rate} + 1 = {least}"
        why = f"`length` is {length}, and {figures} is more"
        yield 0, spot(mission.root.get("clock").get("length")), (why, f"`length = {least}`, or more"), True


def figure_list(mission, name, bound, mend):
    """The faults of a list of one integer for each unit."""
    clock = mission.root.get("clock")
    value = clock.get(name) if clock else None
    if value is not None:
        for place, fault, several in row_faults(name, value, mission.units, bound, mend):
            yield 0, place, fault, several


def row_faults(name, value, units, bound, mend):
    """The faults of one integer for each unit."""
    fault = wrong_array(name, value, units, units, "integers, one for each unit")
    if fault:
        yield spot(value), fault, value.kind == "array"
        return
    for unit, entry in enumerate(value.data):
        wrong = wrong_integer(f"{name}", entry, -bound, bound)
        if wrong and entry.kind == "integer":
            within = bound_of(entry.data, -bound, bound) + (f", since {mend}" if mend else "")
            wrong = f"`{name}` of unit {unit} is {entry.data}, and is to be from {-bound:,} to {bound:,}", within
        if wrong:
            yield spot(entry), wrong, entry.kind == "integer"


def near_others(starts):
    """What to write in place of a start that is none: one of another unit, since all are near one another."""
    others = [unit for unit, start in enumerate(starts.data) if start.kind == "integer" and abs(start.data) <= LARGEST_CLOCK]
    return f"`{starts.data[others[0]].data}`, as unit {others[0]} has it, or another number near the others" if others else None


def rule_12(mission):
    clock = mission.root.get("clock")
    value = clock.get("start") if clock else None
    faults = list(figure_list(mission, "start", LARGEST_CLOCK, None))
    for number, place, (why, mend), several in faults:
        yield number, place, (why, near_others(value) if place != spot(value) else mend), several
    if value is None or faults:
        return
    for second, entry in enumerate(value.data):
        for first, other in enumerate(value.data[:second]):
            apart = abs(entry.data - other.data)
            if apart > mission.clock("skew"):
                why = f"the units {first} and {second} start {apart} ticks apart, and `skew` is {mission.clock('skew')}"
                yield 0, spot(entry), (why, f"bring them together, or `skew = {apart}`"), True


def rule_13(mission):
    rate = mission.clock("rate")
    yield from figure_list(mission, "drift", rate, f"`rate` is {rate}")


def rule_14(mission):
    clock = mission.root.get("clock")
    value = clock.get("errors") if clock else None
    if value is None:
        return
    fault = wrong_array("errors", value, mission.units, mission.units, "arrays, one for each unit")
    if fault:
        yield 0, spot(value), fault, value.kind == "array"
        return
    error = mission.clock("error")
    for unit, row in enumerate(value.data):
        for place, fault, several in row_faults(f"errors[{unit}]", row, mission.units, error, f"`error` is {error}"):
            yield 0, place, fault, several


def rule_15(mission):
    for number, place, fault in list_faults(mission, "sensor", 0, 8):
        yield number, place, fault, False


def rule_16(mission):
    yield from name_faults(mission.sensors, "[[sensor]]")


def rule_17(mission):
    for number, sensor in enumerate(mission.sensors):
        for place, fault in word_list_faults(sensor, "words", "[[sensor]]", 1, 1000):
            yield number, place, fault, False


def rule_18(mission):
    if mission.root.get("task") is None:
        yield 0, spot(mission.root), ("there is no task", "`[[task]]`, with `name`, `start`, and `text` or `linear`"), False
    for number, place, fault in list_faults(mission, "task", 1, 24):
        yield number, place, fault, False


def rule_19(mission):
    yield from name_faults(mission.tasks, "[[task]]")


def rule_20(mission):
    for number, task in enumerate(mission.tasks):
        for place, fault in word_list_faults(task, "start", "[[task]]", 1, 8):
            yield number, place, fault, False


def rule_21(mission):
    words = 0
    for number, task in enumerate(mission.tasks):
        start = task.get("start")
        words += len(start.data)
        if words > 64:
            why = f"with this task there are {words} words, and all tasks together have at most 64"
            yield number, spot(start), (why, None), True


def rule_22(mission):
    for number, task in enumerate(mission.tasks):
        for place, fault, several in work_faults(task):
            yield number, place, fault, several


def work_faults(task):
    """The faults of what a task computes."""
    text, linear, start = task.get("text"), task.get("linear"), task.get("start")
    if text is None and linear is None:
        yield *missing_key(task, "text", "[[task]]"), False
    elif text is not None and linear is not None:
        later = max(task.data["text"], task.data["linear"], key=lambda entry: entry.start)
        yield spot(later), ("the task has a `text` and a `linear`", "keep one of the two"), False
    elif text is not None and text.kind != "string":
        why = f"`text` is {KINDS[text.kind]}, and is to be a string"
        yield spot(text), (why, "one string; over many lines it stands in '''"), False
    elif linear is not None and wrong_array("linear", linear, 2, 2, "words, as in `[1, 5]`"):
        yield spot(linear), wrong_array("linear", linear, 2, 2, "words, as in `[1, 5]`"), False
    elif linear is not None:
        for word in linear.data:
            if wrong_word("linear", word):
                yield spot(word), wrong_word("linear", word), False
        if len(start.data) != 1:
            why = f"`start` has {len(start.data)} words, and a `linear` makes one"
            yield spot(start), (why, "one start word, or a `text` that sets them all"), False


def rule_23(mission):
    value, units = mission.root.get("table"), mission.units
    if value is None:
        return
    sizes = ", ".join(map(str, range(4, units + 1)))
    if value.kind != "array" or len(value.data) == units - 3:
        for number, place, fault in list_faults(mission, "table", 0, 8):
            yield number, place, fault, False
    else:
        stand = counted(len(value.data), "[[table]] stands", "[[table]] stand")
        why = f"{stand} here, and {units} units ask for {units - 3}: of the sizes {sizes}"
        yield 0, spot(value), (why, "all of them, in this order, or no table at all"), 1 <= len(value.data) <= 5
    for number, table in enumerate(tables_of(value)):
        yield from size_faults(number, table)


def size_faults(number, table):
    size = table.get("size")
    if size is None:
        yield number, *missing_key(table, "size", "[[table]]"), False
    elif size.kind != "integer" or size.data != 4 + number:
        shown = size.data if size.kind == "integer" else KINDS[size.kind]
        why = f"`size` is {shown}, and table number {number} is that for {4 + number} units"
        yield number, spot(size), (why, f"`size = {4 + number}`"), size.kind == "integer" and 4 <= size.data <= 8


def rule_24(mission):
    for number, table in enumerate(mission.tables):
        for name in ("run", "poll"):
            for place, fault in subframe_faults(table, name):
                yield number, place, fault, False


def subframe_faults(table, name):
    value = table.get(name)
    if value is None:
        yield missing_key(table, name, "[[table]]")
    elif value.kind != "array":
        why = f"`{name}` is {KINDS[value.kind]}, and is to be an array: one subframe for each task"
        yield spot(value), (why, "`[` and `]` make an array")
    else:
        for entry in value.data:
            if wrong_integer(name, entry, 0, 63):
                yield spot(entry), wrong_integer(name, entry, 0, 63)


def rule_25(mission):
    for number, table in enumerate(mission.tables):
        for place, fault in position_faults(table, 4 + number):
            yield number, place, fault, False


def position_faults(table, size):
    value = table.get("at")
    if value is None:
        yield missing_key(table, "at", "[[table]]")
    elif value.kind != "array":
        mend = f"`[\"{value.data}\"]`" if value.kind == "string" else "`[` and `]` make an array"
        yield spot(value), (f"`at` is {KINDS[value.kind]}, and is to be an array of strings, one for each task", mend)
    else:
        for entry in value.data:
            wrong = wrong_digits("at", entry, [str(position) for position in range(size)], 3)
            if wrong:
                yield wrong[:2], wrong[2:]


def rule_26(mission):
    for number, place, fault in list_faults(mission, "fault", 0, 16):
        yield number, place, fault, False


def rule_27(mission):
    for number, fault in enumerate(mission.faults):
        for name, most in (("unit", 7), ("from", 999)):
            value = fault.get(name)
            if value is None:
                yield number, *missing_key(fault, name, "[[fault]]"), False
            elif wrong_integer(name, value, 0, most):
                yield number, spot(value), wrong_integer(name, value, 0, most), False


def rule_28(mission):
    for number, fault in enumerate(mission.faults):
        for place, why in way_faults(fault):
            yield number, place, why, False


def way_faults(fault):
    """The faults of the way in which a unit fails."""
    say, storm = fault.get("say"), fault.get("storm")
    if say is None and storm is None:
        mend = "`[[fault.say]]` with its keys, right behind the `[[fault]]`; or `[fault.storm]`, where it turns stray"
        yield spot(fault), ("`say` is missing here: what does the unit say?", mend)
    elif say is not None and storm is not None:
        later = max(fault.data["say"], fault.data["storm"], key=lambda entry: entry.start)
        yield spot(later), ("the fault has a `say` and a `storm`", "keep one of the two: a stray unit says nothing")
    elif say is not None:
        yield from item_list_faults(say)
    else:
        yield from storm_table_faults(storm)


def storm_table_faults(storm):
    """The faults of a storm as a whole."""
    if storm.kind == "array" and storm.origin == "header":
        why = "`[[fault.storm]]` makes a list, and a fault has one storm"
        yield spot(storm), (why, "`[fault.storm]`, with single brackets")
    elif storm.kind != "table":
        why = f"`storm` is {KINDS[storm.kind]}, and is to be a table"
        yield spot(storm), (why, "`[fault.storm]`, with `number` and `strays`")
    else:
        yield from unknown_keys(storm, "[fault.storm]")


def item_list_faults(say):
    """The faults of a fault's list of items."""
    if say.kind == "table" and say.origin in ("header", "implicit"):
        why = "`[fault.say]` makes one table, and `say` is a list of them"
        yield spot(say), (why, "`[[fault.say]]`, with double brackets")
    elif say.kind != "array":
        why = f"`say` is {KINDS[say.kind]}, and is to be a list of tables"
        yield spot(say), (why, "`[[fault.say]]`, with double brackets")
    elif not 1 <= len(say.data) <= 64:
        yield spot(say), (f"`say` has {len(say.data)} items, and 1 to 64 can be", None)
    else:
        for _, place, why in entry_faults(say.data, "say", "[[fault.say]]"):
            yield place, why


def rule_29(mission):
    for number, fault in enumerate(mission.faults):
        others = [str(unit) for unit in range(mission.units) if unit != fault.get("unit").data]
        for item in items_of(fault):
            for place, why in item_faults(item, others):
                yield number, place, why, False


def item_faults(item, others):
    """The faults of an item, in the order of its keys, where these are the other units."""
    slot = item.get("slot")
    if slot is None or slot.kind != "string" or slot.data not in SLOTS:
        yield slot_fault(item, slot)
        return
    for name, wanted in (("index", slot.data in INDEXED), ("word", slot.data == "out")):
        yield from number_faults(item, slot.data, name, wanted)
    yield from rest_faults(item, others)


def slot_fault(item, slot):
    slots = f"the slots are {choice(SLOTS)}"
    if slot is None:
        return missing_key(item, "slot", "[[fault.say]]")
    if slot.kind != "string":
        return spot(slot), (f"`slot` is {KINDS[slot.kind]}, and is to be a string", slots)
    like = nearest(slot.data, SLOTS) or {"output": "out", "sensor": "sense", "word": "out"}.get(slot.data)
    return spot(slot), (f"there is no slot \"{slot.data}\"", f"\"{like}\"; {slots}" if like else slots)


def number_faults(item, slot, name, wanted):
    """The faults of the `index` or the `word` of an item."""
    value = item.get(name)
    if wanted and value is None:
        what = INDEXED[slot] if name == "index" else "the word of the task, from 0"
        place, (why, mend) = missing_key(item, name, "[[fault.say]]")
        yield place, (f"{why}: an item for \"{slot}\" names {what}", mend or f"`{name} = 0`, or another number")
    elif not wanted and value is not None:
        yield spot(item.data[name]), (f"an item for \"{slot}\" has no `{name}`", "leave it out")
    elif value is not None and wrong_integer(name, value, 0, 63):
        yield spot(value), wrong_integer(name, value, 0, 63)


def rest_faults(item, others):
    """The faults of the receivers, the frame and the word of an item."""
    to, frame, value = item.get("to"), item.get("frame"), item.get("value")
    if to is None:
        place, (why, mend) = missing_key(item, "to", "[[fault.say]]")
        yield place, (f"{why}: to whom is it said?", mend or f"`to = \"{''.join(others)}\"`, which is to all others, or some of them")
    elif wrong_digits("to", to, others):
        wrong = wrong_digits("to", to, others)
        yield wrong[:2], wrong[2:]
    if frame is not None and wrong_integer("frame", frame, 0, 999):
        yield spot(frame), wrong_integer("frame", frame, 0, 999)
    if value is not None and wrong_word("value", value):
        why, mend = wrong_word("value", value)
        silence = "to say nothing, leave `value` out" if value.kind in ("string", "boolean") else None
        yield spot(value), (why, mend or silence)


def rule_30(mission):
    for number, fault in enumerate(mission.faults):
        storm = fault.get("storm")
        for place, why in storm_number_faults(storm) if storm else []:
            yield number, place, why, False


def storm_number_faults(storm):
    """The faults of the two numbers of a storm."""
    for name, most in LARGEST_NUMBERS.items():
        value = storm.get(name)
        if value is None:
            yield missing_key(storm, name, "[fault.storm]")
        elif wrong_integer(name, value, 0, most):
            yield spot(value), wrong_integer(name, value, 0, most)


def rule_31(mission):
    for number, table in enumerate(mission.tables):
        value = table.get("shed")
        for place, fault in shed_faults(mission, value) if value else []:
            yield number, place, fault, False


def shed_faults(mission, value):
    """The faults of a table's list of tasks that it sheds."""
    if value.kind != "array":
        mend = f"`shed = [{value.data}]`" if value.kind == "integer" else "`[` and `]` make an array"
        yield spot(value), (f"`shed` is {KINDS[value.kind]}, and is to be an array of task numbers", mend)
        return
    numbers = {task.get("name").data: number for number, task in enumerate(mission.tasks)}
    for task in value.data:
        fault = wrong_integer("shed", task, 0, 23)
        if fault and task.kind == "string" and task.data in numbers:
            fault = fault[0], f"`{numbers[task.data]}`, the number of this task"
        if fault:
            yield spot(task), fault


SCENARIO_RULES = [
    rule_1, rule_2, rule_3, rule_4, rule_5, rule_6, rule_7, rule_8, rule_9, rule_10, rule_11, rule_12, rule_13, rule_14,
    rule_15, rule_16, rule_17, rule_18, rule_19, rule_20, rule_21, rule_22, rule_23, rule_24, rule_25, rule_26, rule_27,
    rule_28, rule_29, rule_30, rule_31,
]


# Of each rule those that must hold so that it can be looked at.
RESTS_ON = {
    7: {6}, 8: {6}, 9: {6}, 10: {6, 7, 8, 9}, 11: {6, 7, 8, 9}, 12: {2, 6, 7, 10}, 13: {2, 6, 8}, 14: {2, 6, 8}, 16: {15}, 17: {15},
    19: {18}, 20: {18}, 21: {18, 20}, 22: {18, 20}, 23: {2, 4}, 24: {23}, 25: {23}, 27: {26}, 28: {26}, 29: {2, 26, 27, 28},
    30: {26, 28}, 31: {18, 19, 23},
}


def broken_by(mission, number):
    """The faults of a rule, in order."""
    for entry, (start, end), (why, mend), several in SCENARIO_RULES[number - 1](mission):
        yield Broken(f"scenario rule {number} at {entry}", start, end, why, mend, several)


def broken_rules(mission):
    """The faults of the first rule that a document breaks: the rules behind it may rest on it."""
    for number in range(1, len(SCENARIO_RULES) + 1):
        found = list(broken_by(mission, number))
        if found:
            yield from found
            return


def later_rules(mission, first):
    """The faults of rules behind the first that is broken, where nothing that they rest on is. Where the root has a key that isn't
    its own, another one may be missing for that alone."""
    root, left_out = mission.root, {first}
    elsewhere = tuple(f"`{name}` is missing" for name in root.data if name not in ROOT_KEYS) if first == 1 else ()
    for number in range(first + 1, len(SCENARIO_RULES) + 1):
        if RESTS_ON.get(number, set()) & left_out:
            left_out.add(number)
            continue
        found = list(broken_by(mission, number))
        if found:
            left_out.add(number)
        yield from [broken for broken in found if not (first == 1 and broken.start == root.start or broken.why.startswith(elsewhere))]
