"""What happened in a flight, in words. An event is its first frame, its place among those of the frame, its words, and its last frame."""
from sift.reports.reading import digits, kinds_of, named, stretches_of, when


def turned(flight, state):
    """Each frame in which units turn faulty, or idle, with them."""
    before = [None] * flight.units
    for number, frame in enumerate(flight.frames):
        units = [unit for unit, now in enumerate(frame.states) if now == state != before[unit]]
        before = frame.states
        if units:
            yield number, units


def faults_told(flight):
    """When units turn faulty, or idle, and which faulty ones are never caught."""
    events = []
    for number, units in turned(flight, "faulty"):
        missed = [unit for unit in units if not any(frame.caught_by(unit) for frame in flight.frames)]
        caught = [unit for unit in units if unit not in missed]
        for group, more in ((caught, ""), (missed, ", and never caught")):
            if group:
                events.append((number, 0, f"frame {number}: {named(group, 'is', 'are')} faulty from here on{more}", number))
    for number, units in turned(flight, "idle"):
        events.append((number, 3, f"frame {number}: {named(units, 'is', 'are')} idle: at work, but out", number))
    return events


def catches_told(flight):
    """Who caught whom, by which kinds, and in which frames."""
    events = []
    for unit in range(flight.units):
        for letters in sorted({frame.catches[by][unit] for frame in flight.frames for by in frame.caught_by(unit)}):
            catchers = [tuple(by for by in frame.caught_by(unit) if frame.catches[by][unit] == letters) for frame in flight.frames]
            for first, last, by in stretches_of(catchers):
                if by:
                    words = f"{when(first, last)}: {named(by, 'catches', 'catch')} unit {unit}{kinds_of(letters)}"
                    events.append((first, 1, words, last))
    return events


def changes_told(flight):
    """How the configuration changes, where margin is lost, and where configurations differ."""
    events = []
    told = flight.configurations()
    for frame, (before, after) in enumerate(zip(told, told[1:]), 1):
        if before != after:
            out = [unit for unit in before if unit not in after]
            new = [unit for unit in after if unit not in before]
            words = [named(out, "is", "are") + " out"] if out else []
            words += [named(new, "is", "are") + " in, as another unit tells it"] if new else []
            where = f"frame {frame}" if frame < len(flight.frames) else "after the last frame"
            events.append((frame, 2, f"{where}: {'; '.join(words)}; the configuration is {digits(after, '')}", frame))
    lost = next((number for number, frame in enumerate(flight.frames) if not frame.margin), None)
    if lost is not None:
        events.append((lost, 4, f"frame {lost}: the margin is lost", lost))
    for first, last, split in stretches_of([frame.split() for frame in flight.frames]):
        if split:
            events.append((first, 5, f"{when(first, last)}: units have different configurations", last))
    return events


def events_of(flight, stated=(), first=0, last=None):
    """All that happened, in the order of the frames, with what the mission states; or what of it happened in some frames."""
    events = sorted([*faults_told(flight), *stated, *catches_told(flight), *changes_told(flight)])
    last = len(flight.frames) if last is None else last
    told = [words for begin, _, words, end in events if begin <= last and end >= first]
    return told or ["every unit works in every frame, and nobody is caught"] if not events else told or ["nothing happens in these frames"]
