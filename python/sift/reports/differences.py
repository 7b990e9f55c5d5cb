"""Where two reports first differ, and which events are in one of them alone."""
from sift.reports.events import events_of
from sift.reports.reading import bad_of, set_of, stretches_of


def fields_of_unit(frame, unit):
    """The fields of a unit's line, in order: the name, and what stands there, of words as a list."""
    if frame.configurations[unit] is None:
        return [("line", frame.states[unit])]
    return [
        ("line", "an account"),
        ("cfg", set_of(frame.configurations[unit])),
        ("clk", str(frame.clocks[unit])),
        ("in", [f"{word:04x}" for word in frame.inputs[unit]]),
        ("out", [f"{word:04x}" for word in frame.outputs[unit]]),
        ("bad", bad_of(frame.catches[unit])),
    ]


def fields_of(frame):
    """All fields of a frame's lines, in order: where, the name, and what stands there."""
    for unit in range(len(frame.states)):
        yield from ((f"unit {unit}", *field) for field in fields_of_unit(frame, unit))
    for name, number in (("skew", frame.skew), ("slack", frame.slack)):
        yield "the frame", name, "-" if number is None else str(number)
    yield "the frame", "margin", "ok" if frame.margin else "lost"


def first_field(one, other):
    """The first field in which two frames differ: where, its name, and what stands in each; or None."""
    for (where, name, here), (_, _, there) in zip(fields_of(one), fields_of(other)):
        if here != there:
            return where, *first_word(name, here, there)
    return None


def first_word(name, here, there):
    """A field that differs; of lists that are as long as one another the first word that does."""
    if isinstance(here, str):
        return name, here, there
    if len(here) != len(there):
        return name, ",".join(here) or "-", ",".join(there) or "-"
    place = next(place for place, word in enumerate(here) if word != there[place])
    return f"{name} word {place}", here[place], there[place]


def first_difference(one, other):
    """Where two reports first differ, in a line, or None."""
    if one.units != other.units:
        return f"A has {one.units} units, and B has {other.units}"
    for number, (left, right) in enumerate(zip(one.frames, other.frames)):
        found = first_field(left, right)
        if found:
            where, name, here, there = found
            return f"frame {number}, {where}, {name}: {here} in A, {there} in B"
    if len(one.frames) != len(other.frames):
        return f"A has {len(one.frames)} frames, and B has {len(other.frames)}; up to there they are the same"
    if one.last != other.last:
        return f"the last line, cfg: {set_of(one.last)} in A, {set_of(other.last)} in B"
    return None


def frames_told(one, other):
    """The frames that differ, in a line."""
    both = list(zip(one.frames, other.frames))
    differ = [first_field(left, right) is not None for left, right in both]
    stretches = [(first, last) for first, last, different in stretches_of(differ) if different]
    told = ", ".join(str(first) if first == last else f"{first} to {last}" for first, last in stretches)
    return f"{sum(differ)} of {len(both)} frames differ" + (f": {told}" if told else "")


def events_told(one, other):
    """The events of one report alone."""
    left, right = events_of(one), events_of(other)
    yield from (f"- {event}" for event in left if event not in right)
    yield from (f"+ {event}" for event in right if event not in left)


def differences(one, other):
    """All of it, in lines: where two flights first differ, which frames do, and the events of one alone; nothing where they are alike.

    Of reports of different versions what both tell is compared.
    """
    if None not in (versions := {one.version(), other.version()}) and len(versions) > 1:
        one, other = one.without_kinds(), other.without_kinds()
    first = first_difference(one, other)
    if not first:
        return []
    return [first, *([frames_told(one, other), *events_told(one, other)] if one.units == other.units else [])]
