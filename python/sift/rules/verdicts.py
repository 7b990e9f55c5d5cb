"""Why a mission can't have a report: which unit, which word, and what was due.

The program's judge decides whether a mission may have a report, and which rule of docs/judge.md it breaks first, in which frame.
Here the places of that frame are found that break the rule. What the tasks are due to compute the program tells.
"""
import re
from collections import namedtuple

from sift.documents import places
from sift.documents.printing import text_of
from sift.reports.named import Named, signed
from sift.reports.reading import NoReport, digits, named as units_named, read_report, set_of
from sift.rules import pages

VERDICT = re.compile(r"no frame (\d+) rule (\d)")
NO_LINE = re.compile(r"report line (\d+)")
LOST = re.compile(rb" bad=[0-7]+\n")  # units that were caught, without kinds

# A place in a report: the line, from 1, what is looked at in it, and why it breaks a rule.
Found = namedtuple("Found", "line part why")


def version_of(report):
    """The version of a report's bytes: 1 where it names units that were caught without kinds."""
    return 1 if LOST.search(report.replace(b"\r\n", b"\n")) else 2


def sentence(rule):
    """What a report keeps by a rule."""
    return next(row[1] for row in pages.rows("judge.md", "## The rules") if row[0] == str(rule))


class Case:
    """A frame of a report, and what its mission states of it."""

    def __init__(self, mission, flight, number):
        self.mission = mission
        self.flight = flight
        self.number = number
        self.frame = flight.frames[number]
        self.faulty = self.faulty_in(number)
        self.working = [unit for unit in range(mission.units) if unit not in self.faulty]
        self.lead = next(iter(self.working), None)
        self.configuration = self.frame.configurations[self.lead] if self.lead is not None else None
        self.names = Named(mission)

    def faulty_in(self, number):
        """The units that are faulty in a frame, as the document says."""
        return {fault.get("unit").data for fault in self.mission.faults if fault.get("from").data <= number}

    def line(self, unit=None):
        """The line of a unit, or of the frame, from 1."""
        return self.number * (self.mission.units + 1) + (self.mission.units if unit is None else unit) + 1

    def telling(self):
        """The working units that tell something: the others are idle."""
        return [unit for unit in self.working if self.frame.states[unit] == "works"]


def hexadecimal(word):
    """A word as a report has it, and as a number with a sign."""
    return f"{word:04x}" if word < 10 else f"{word:04x} ({signed(word)})"


def breaks_form(case):
    """Rule 1: states and words that aren't those of the mission."""
    for unit, state in enumerate(case.frame.states):
        if (state == "faulty") != (unit in case.faulty):
            said = "is faulty" if unit in case.faulty else "works"
            yield Found(case.line(unit), "faulty", f"frame {case.number}, unit {unit}: by the document it {said} in this frame")
    counts = ("in", case.frame.inputs, len(case.names.sensors), "sensors"), ("out", case.frame.outputs, len(case.names.outputs), "output words")
    for part, words, count, what in counts:
        for unit, told in enumerate(words):
            if told is not None and len(told) != count:
                yield Found(case.line(unit), part, f"frame {case.number}, unit {unit}: `{part}` has {len(told)} words, and the mission has {count} {what}")


def breaks_configuration(case):
    """Rule 2: a configuration that isn't the one of all."""
    if case.configuration is None:
        why = f"frame {case.number}: unit {case.lead} is the lowest that works, and is to tell a configuration"
        yield Found(case.line(case.lead), "idle", why)
        return
    everybody = tuple(range(case.mission.units))
    due = everybody if case.number == 0 else case.configuration
    whose = "all units, in frame 0" if case.number == 0 else f"that of unit {case.lead}, the lowest that works"
    for unit in case.working:
        told = case.frame.configurations[unit]
        if told != due and (case.number == 0 or unit in due or told is not None):
            shown = "idle" if told is None else set_of(told)
            yield Found(case.line(unit), "cfg", f"frame {case.number}, unit {unit}: the configuration is {shown}, and {set_of(due)} is due, {whose}")


def breaks_sensors(case):
    """Rule 3: a sensor's word that isn't the one of all, or of the mission."""
    members = sorted(case.configuration or ())
    for place, sensor in enumerate(case.mission.sensors):
        reader = members[place % len(members)]
        words = sensor.get("words").data
        own = words[case.number % len(words)].data % 65536
        agreed = case.frame.inputs[case.lead][place]
        due, whose = (agreed, f"as unit {case.lead} has it") if reader in case.faulty else (own, f"which unit {reader} reads, and it works")
        for unit in case.telling():
            told = case.frame.inputs[unit][place]
            if told != due:
                what = f"{case.names.sensors[place]} is {hexadecimal(told)}, and {hexadecimal(due)} is due, {whose}"
                yield Found(case.line(unit), "in", f"frame {case.number}, unit {unit}: {what}")


def one_frame(case):
    """A document whose first frame computes what the frame is due to: from the words of the frame before, and this one's sensors."""
    data = places.plain(case.mission.root)
    before = case.flight.frames[case.number - 1] if case.number else None
    shed = case.mission.shed(len(case.configuration))
    words = None
    if before:
        lead = next(unit for unit in range(case.mission.units) if before.outputs[unit] is not None and unit not in case.faulty_in(case.number - 1))
        words = iter(before.outputs[lead])
    tasks = []
    for number, task in enumerate(data["task"]):
        start = [next(words) for _ in task["start"]] if words else task["start"]
        task = {**task, "start": start}
        if number in shed:
            task.pop("linear", None)
            task["text"] = " ".join(f"out {word} = last {task['name']}.{word};" for word in range(len(start)))
        tasks.append(task)
    sensors = [{**sensor, "words": [word]} for sensor, word in zip(data.get("sensor", []), case.frame.inputs[case.lead])]
    kept = {key: value for key, value in data.items() if key not in ("subframes", "table", "fault", "sensor", "task")}
    return text_of({**kept, "frames": 1, **({"sensor": sensors} if sensors else {}), "task": tasks}).encode()


def breaks_outputs(case, ideal):
    """Rule 4: an output that isn't the one machine's."""
    due = ideal(one_frame(case))
    for unit in case.telling():
        for name, told, word in zip(case.names.outputs, case.frame.outputs[unit], due):
            if told != word:
                yield Found(case.line(unit), "out", f"frame {case.number}, unit {unit}: {name} is {hexadecimal(told)}, and {hexadecimal(word)} is due")


def breaks_accusations(case):
    """Rule 5: a working unit that a working unit catches."""
    for unit in case.telling():
        for caught in case.frame.catches[unit]:
            if caught in case.working:
                whom = "itself" if caught == unit else f"unit {caught}, which works"
                yield Found(case.line(unit), "bad", f"frame {case.number}, unit {unit}: it catches {whom}")


def breaks_removals(case):
    """Rule 6: another next configuration than this one without those whom two catch."""
    by = {unit: [other for other in case.frame.caught_by(unit) if other in case.telling()] for unit in case.configuration}
    due = tuple(unit for unit in case.configuration if len(by[unit]) < 2)
    after = Case(case.mission, case.flight, case.number + 1) if case.number + 1 < len(case.flight.frames) else None
    told = after.configuration if after else case.flight.last
    caught = [f"unit {unit} is caught by {digits(others)}" for unit, others in by.items() if others] or ["nobody is caught"]
    line = after.line(after.lead) if after and after.lead is not None else case.line() + 1
    why = f"the configuration is {set_of(told or ())}, and {set_of(due)} is due: in frame {case.number} {', '.join(caught)}"
    yield Found(line, "cfg", why)


def breaks_clocks(case):
    """Rule 7: a skew that isn't that of the printed clocks, or is too large; or a slack under 1."""
    clocks = {unit: case.frame.clocks[unit] for unit in case.telling()}
    apart = max(clocks.values()) - min(clocks.values())
    most, frame = case.mission.clock("skew"), case.frame
    if frame.skew != apart:
        ends = f"unit {max(clocks, key=clocks.get)} shows {max(clocks.values())}, and unit {min(clocks, key=clocks.get)} {min(clocks.values())}"
        yield Found(case.line(), "skew", f"frame {case.number}: the skew is {frame.skew}, and {apart} is due: {ends}")
    elif apart > most:
        yield Found(case.line(), "skew", f"frame {case.number}: the skew is {apart}, and the mission's is {most} at most")
    if frame.slack is not None and frame.slack < 1:
        yield Found(case.line(), "slack", f"frame {case.number}: the slack is {frame.slack}, and at least 1 is due")


def breaks_margin(case):
    """Rule 8: a margin that isn't that of the configurations so far."""
    for number in range(case.number + 1):
        each = Case(case.mission, case.flight, number)
        members = set(each.configuration or ())
        faulty, working = members & each.faulty, members & set(each.working)
        if len(faulty) > 1 or len(working) < 4:
            why = f"lost, since in frame {number} {units_named(sorted(faulty), 'is', 'are')} faulty" if faulty else "lost"
            why += f", and {len(working)} units of the configuration {set_of(members)} work"
            break
    else:
        why = "ok: no configuration so far has more than one faulty unit or fewer than four that work"
    last = case.number + 1 == len(case.flight.frames)
    where = case.line() + 1 if last and case.frame.margin == why.startswith("ok") else case.line()
    yield Found(where, "margin", f"frame {case.number}: the margin that is due is {why}")


RULES = {1: breaks_form, 2: breaks_configuration, 3: breaks_sensors, 5: breaks_accusations, 6: breaks_removals, 7: breaks_clocks, 8: breaks_margin}


def found_in(mission, text, line, ideal):
    """What the judge's line says of a report's text, in places; `ideal` tells the words of the first frame of a document."""
    verdict, none = VERDICT.fullmatch(line), NO_LINE.fullmatch(line)
    try:
        flight = read_report(text)
    except NoReport as fault:
        number = int(re.match(r"line (\d+)", str(fault))[1])
        why = str(fault).split(": ", 1)[1]
        at = int(none[1]) if none and none[1] != "0" else number
        return [Found(at, "", why if at == number else "it is none of a report")]
    if none:
        return [Found(int(none[1]), "", "it is none of a report")] if none[1] != "0" else []
    number, rule = map(int, verdict.groups())
    if (flight.units, len(flight.frames)) != (mission.units, mission.frames):
        told = f"the report has {flight.units} units and {len(flight.frames)} frames, and the mission has {mission.units} and {mission.frames}"
        return [Found(1, "", told)]
    case = Case(mission, flight, min(number, len(flight.frames) - 1))
    return list(breaks_outputs(case, ideal) if rule == 4 else RULES[rule](case))
