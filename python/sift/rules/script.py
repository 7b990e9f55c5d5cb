"""The rules on scripts of faults, 1 to 6: docs/faults.md has them."""
from sift.documents.mission import Broken, items_of, spot


def broken_scripts(mission):
    """What the faults break, in their order."""
    for number in range(len(mission.faults)):
        for rule, place, why, mend in script_faults(mission, number):
            yield Broken(f"script entry {number} rule {rule}", *place, why, mend)


def script_faults(mission, number):
    """What breaks a rule in a fault: the rule, the place, why and what to do."""
    fault = mission.faults[number]
    unit, begin = fault.get("unit"), fault.get("from")
    before = [other.get("unit").data for other in mission.faults[:number]]
    if unit.data >= mission.units:
        why = f"there is no unit {unit.data}: the {mission.units} units are 0 to {mission.units - 1}"
        yield 1, spot(unit), why, f"`{mission.units - 1}` is the largest"
    if unit.data in before:
        why = f"fault {before.index(unit.data)} is one of unit {unit.data} already"
        yield 2, spot(unit), why, "put its items into that one, with `frame` where they differ in time"
    if begin.data >= mission.frames:
        why = f"the fault begins in frame {begin.data}, and the last frame is {mission.frames - 1}"
        yield 3, spot(begin), why, f"`{mission.frames - 1}`, or an earlier frame" + (f"; or `frames = {begin.data + 1}`" if begin.data < 1000 else "")
    if len({*before, unit.data}) >= mission.units:
        yield 4, spot(unit), f"with this fault each of the {mission.units} units has one", "let one work"
    for item, table in enumerate(items_of(fault)):
        yield from named_faults(mission, fault, item, table)
    for item, table in enumerate(items_of(fault)):
        yield from receiver_faults(mission, unit.data, item, table.get("to"))


def named_faults(mission, fault, item, table):
    """What an item names that isn't there."""
    slot, index, word, frame = (table.get(name) for name in ("slot", "index", "word", "frame"))
    sensors = "sensor", len(mission.sensors)
    counts = {"out": ("task", len(mission.tasks)), "relay-report": ("unit", mission.units)}
    if index is not None:
        what, count = counts.get(slot.data, sensors)
        if index.data >= count:
            there = f"{what}s are counted from 0, and the last is {count - 1}" if count else f"the mission has no {what}s"
            yield 5, spot(index), f"item {item}: there is no {what} {index.data}: {there}", f"`{count - 1}` is the largest" if count else None
            return
    if word is not None and word.data >= mission.words_of(index.data):
        name, last = mission.tasks[index.data].get("name").data, mission.words_of(index.data) - 1
        why = f"task {index.data}, {name}, has no word {word.data}: words are counted from 0, and its last is {last}"
        yield 5, spot(word), f"item {item}: {why}", f"`{last}` is the largest"
    if frame is not None and frame.data < fault.get("from").data:
        why = f"item {item}: frame {frame.data} is before the fault, which begins in {fault.get('from').data}"
        yield 5, spot(frame), why, f"`{fault.get('from').data}`, or a later frame; or an earlier `from`"
    if frame is not None and frame.data >= mission.frames:
        why = f"item {item}: there is no frame {frame.data}: the last is {mission.frames - 1}"
        yield 5, spot(frame), why, f"`{mission.frames - 1}`, or an earlier one"


def receiver_faults(mission, unit, item, to):
    """What is wrong with an item's receivers."""
    digits = [int(digit) for digit in to.data]
    others = "".join(str(other) for other in range(mission.units) if other != unit)
    everybody = f"\"{others}\": to all others"
    if not digits:
        yield 6, spot(to), f"item {item}: `to` is empty, and so nobody hears it", everybody
    for place, digit in enumerate(digits):
        where = to.places[place], to.places[place + 1]
        if digit >= mission.units:
            why = f"there is no unit {digit}: the {mission.units} units are 0 to {mission.units - 1}"
            yield 6, where, f"item {item}: {why}", everybody
        elif digit == unit:
            why = f"item {item}: {digit} is the faulty unit itself, which says nothing to itself"
            yield 6, where, why, everybody
        elif place and digit <= digits[place - 1]:
            why = f"item {item}: {digit} stands behind {digits[place - 1]}, and receivers ascend, each once"
            yield 6, where, why, f"\"{''.join(map(str, sorted(set(digits))))}\""
