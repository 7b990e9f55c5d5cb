"""What outputs must do, and what is found of that in a flight. Reading such a file is in requirements.py."""
from collections import namedtuple


def signed(word):
    """A word as a number with its sign."""
    return word - 65536 if word > 32767 else word


class Finding(namedtuple("Finding", "broken largest frames first")):
    """Whether a requirement is broken, by how much at most, in how many frames, and in which first one, or None."""

    def __str__(self):
        return f"{'broken' if self.broken else 'kept'} {self.largest} {self.frames} {'-' if self.first is None else self.first}"


def finding_of(text):
    """A finding as a row tells it."""
    verdict, largest, frames, first = text.split(" ")
    return Finding({"broken": True, "kept": False}[verdict], int(largest), int(frames), None if first == "-" else int(first))


class Requirement(namedtuple("Requirement", "kind word bounds but_for value sensor", defaults=(0, None, None))):
    """What an output word must do. `bounds` has the numbers of its kind:

    within  how far it may be from the ideal machine's word
    bounds  the least and the most that it may be, None where there is none
    step    by how much it may change from one frame to the next
    after   the least and the most of a sensor, None where there is none, and in how many frames after it has passed one of them
            the word must have the value

    In `but_for` frames it may do otherwise.
    """

    def __str__(self):
        but = f" but for {self.but_for} {'frame' if self.but_for == 1 else 'frames'}" if self.but_for else ""
        return f"{self.word} {self.told()}{but}"

    def told(self):
        if self.kind == "within":
            return f"within {self.bounds[0]}"
        if self.kind == "step":
            return f"changes by at most {self.bounds[0]}"
        if self.kind == "bounds":
            return self.told_bounds(*self.bounds)
        least, most, frames = self.bounds
        passed = f"{self.sensor} is " + " or ".join(told for told in (f"above {most}" if most is not None else "", f"below {least}" if least is not None else "") if told)
        return f"is {self.value} within {frames} {'frame' if frames == 1 else 'frames'} after {passed}"

    @staticmethod
    def told_bounds(least, most):
        if least is None or most is None:
            return f"at most {most}" if least is None else f"at least {least}"
        return f"from {least} to {most}"

    def find(self, flight, schedule):
        """What is found of it in a flight."""
        place = schedule.names.index(self.word)
        return FINDERS[self.kind](self, flight, schedule, place)

    def found(self, distances):
        """What is found, where it is told of some frames how far the word is off, and that is allowed up to a bound."""
        off = [frame for frame, (distance, allowed) in distances if distance > allowed]
        largest = max((distance for _, (distance, _) in distances), default=0)
        return Finding(len(off) > self.but_for, largest, len(off), off[0] if off else None)


def words_in(frame, place):
    """The words that units vote in a frame at a place, signed."""
    return [signed(words[place]) for words in frame.votes]


def within(requirement, flight, schedule, place):
    """How far the word is from the ideal machine's, in the frames in which it is compared."""
    distances = []
    for number, (frame, ideal, compared) in enumerate(zip(flight.frames, schedule.ideal, schedule.compared(flight))):
        if place in compared and frame.votes:
            due = signed(ideal[place])
            distances.append((number, (max(abs(word - due) for word in words_in(frame, place)), requirement.bounds[0])))
    return requirement.found(distances)


def between(requirement, flight, schedule, place):
    """How far the word is beyond its bounds."""
    least, most = requirement.bounds
    distances = []
    for number, frame in enumerate(flight.frames):
        beyond = [max(0 if least is None else least - word, 0 if most is None else word - most, 0) for word in words_in(frame, place)]
        if beyond:
            distances.append((number, (max(beyond), 0)))
    return requirement.found(distances)


def steady(requirement, flight, schedule, place):
    """By how much the word changes, as each unit votes it that votes in both frames."""
    distances = []
    for number, (before, now) in enumerate(zip(flight.frames, flight.frames[1:]), 1):
        changes = [abs(signed(new[place]) - signed(old[place])) for old, new in zip(before.outputs, now.outputs) if old is not None and new is not None]
        if changes:
            distances.append((number, (max(changes), requirement.bounds[0])))
    return requirement.found(distances)


def passings(words, least, most):
    """The frames in which a word passes one of its bounds."""
    def beyond(word):
        return least is not None and word < least or most is not None and word > most

    return [frame for frame, word in enumerate(words) if beyond(word) and not (frame and beyond(words[frame - 1]))]


def alarmed(requirement, flight, schedule, place):
    """How many frames pass until all units that work vote the value. One that the flight is too short for counts for nothing."""
    least, most, allowed = requirement.bounds
    shown = next(words for name, words in schedule.sensors if name == requirement.sensor)
    words = [signed(shown[frame % len(shown)]) for frame in range(len(flight.frames))]
    has = [bool(frame.votes) and set(words_in(frame, place)) == {requirement.value} for frame in flight.frames]
    waits = []
    for frame in passings(words, least, most):
        end = next((later for later in range(frame, len(has)) if has[later]), None)
        if end is not None or len(has) - frame > allowed:
            waits.append((frame + allowed + 1, (len(has) - frame if end is None else end - frame, allowed)))
    late = [(wait, due) for due, (wait, _) in waits if wait > allowed]
    largest = max((wait for _, (wait, _) in waits), default=0)
    frames = sum(wait - allowed for wait, _ in late)
    return Finding(len(late) > 0 and frames > requirement.but_for, largest, frames, late[0][1] if late else None)


FINDERS = {"within": within, "bounds": between, "step": steady, "after": alarmed}


def plain(requirement):
    """A requirement as plain values, which a kit keeps."""
    return requirement._asdict()


def requirement_of(values):
    """A requirement of plain values."""
    return Requirement(**{**values, "bounds": tuple(values["bounds"])})
