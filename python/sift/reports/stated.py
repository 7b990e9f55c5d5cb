"""What a mission states of its flight, as events: what its faulty units say, and which tasks are shed."""
from sift.documents.mission import items_of
from sift.documents.slots import FEWEST
from sift.reports.reading import digits, named, stretches_of, when


def slot_named(mission, item):
    """The slot of an item, as docs/campaigns.md names it."""
    slot, index = item.get("slot").data, item.get("index")
    if slot == "out":
        return f"out {mission.tasks[index.data].get('name').data}.{item.get('word').data}"
    if slot in ("sense", "relay"):
        return f"{slot} {mission.sensors[index.data].get('name').data}"
    return slot if index is None else f"{slot} {index.data}"


def said_by(mission, fault):
    """Of each item of a fault its first frame, its last one, and what is said to whom."""
    for item in items_of(fault):
        frame, value = item.get("frame"), item.get("value")
        begin = frame.data if frame else fault.get("from").data
        hearers = f"{'unit' if len(item.get('to').data) == 1 else 'units'} {digits(item.get('to').data)}"
        said = "nothing" if value is None else value.data
        if value is not None and item.get("slot").data in ("report", "relay-report"):
            caught = [unit for unit in range(8) if value.data >> unit & 1]
            said = f"{value.data} ({named(caught, 'was', 'were') if caught else 'nobody was'} caught)"
        yield begin, begin if frame else mission.frames - 1, f"{said} as {slot_named(mission, item)} to {hearers}"


def faults_stated(mission):
    """What faulty units say in place of their own words."""
    for fault in mission.faults:
        unit, begin, storm = fault.get("unit").data, fault.get("from").data, fault.get("storm")
        if storm:
            words = f"unit {unit} is stray: {storm.get('strays').data:,} strays are drawn from the number {storm.get('number').data}"
            yield begin, 0.5, f"frame {begin}: {words}", mission.frames - 1
        for first, last, said in said_by(mission, fault):
            yield first, 0.5, f"{when(first, last)}: unit {unit} says {said}", last


def tasks_shed(mission, flight):
    """In which frames tasks are shed, so that their words stand still."""
    shed = {size: mission.shed(size) for size in range(FEWEST, mission.units + 1)}
    told = flight.configurations()[:-1]
    for first, last, tasks in stretches_of([shed.get(len(units), set()) for units in told]):
        if tasks:
            names = ", ".join(mission.tasks[task].get("name").data for task in sorted(tasks))
            verb = "is" if len(tasks) == 1 else "are"
            yield first, 3, f"{when(first, last)}: {names} {verb} shed; what stands in `out` is held from before", last


def stated(mission, flight):
    """All of it."""
    return [*faults_stated(mission), *tasks_shed(mission, flight)]
