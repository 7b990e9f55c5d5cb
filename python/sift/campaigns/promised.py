"""What is promised of a fault, before it flies: the clause `caught` of the program's contract, as docs/faults.md tells it.

The clause speaks of frames with margin. A unit that lies there to a working one is caught by it (item `caught`), one that
lies to two of them is out of the next configuration (`out`), and one whose items are for reports alone is caught by nobody
(`own_words`). Of all else it says nothing: what comes of that only runs show.
"""
from collections import namedtuple
from functools import lru_cache

from sift.campaigns.faults import ALL, CELLS
from sift.documents.slots import FEWEST

REPORTS = ("report", "relay-report")
WORDS = 65536  # how many numbers a word may be


class Promise(namedtuple("Promise", "item frame by")):
    """The item of the clause; the frame by which the unit is out, or in which it is caught; and who catches it for certain."""

    def __str__(self):
        if self.item is None:
            return "-"
        return "never" if self.item == "own_words" else f"out by {self.frame}" if self.item == "out" else f"caught in {self.frame}"


NOTHING = Promise(None, None, frozenset())
NEVER = Promise("own_words", None, frozenset())


def promises_of(schedule, faults, own=()):
    """What is promised of each of a run's faults. Of more than two units nothing is, nor of a unit with several, nor beside faults
    of the mission's own; nor of one that is stray, or silent in all slots."""
    units = {fault.unit for fault in faults}
    if own or len(units) < len(faults) or len(units) > 2 or any(fault.slot in (ALL, CELLS) for fault in faults):
        return (NOTHING,) * len(faults)
    return tuple(promise_of(schedule, fault, [other for other in faults if other is not fault]) for fault in faults)


def promise_of(schedule, fault, others=()):
    """What is promised of a fault, beside others, of which at most one is there."""
    members = frozenset(schedule.units)
    earlier = [other for other in others if other.begin <= fault.begin]
    for other in earlier:
        # With the other one in the configuration two of it are faulty.
        if other.begin == fault.begin or promise_of(schedule, other).item != "out":
            return NOTHING
        members -= {other.unit}
    if len(members) - 1 < FEWEST:
        return NOTHING
    if fault.slot.slot in REPORTS:
        # A later fault may cost the margin, and then nothing is promised any more.
        return NOTHING if len(others) > len(earlier) else NEVER
    by = catchers(schedule, fault, members)
    if not by:
        return NOTHING
    return Promise("out", fault.begin + 1, by) if len(by) > 1 else Promise("caught", fault.begin, by)


@lru_cache(maxsize=4096)  # a fault comes in many pairs
def catchers(schedule, fault, members):
    """The units of a configuration that catch the fault in its first frame for certain, where all of them work."""
    hearers = {unit: value for value, units in said(schedule, fault) for unit in units if unit in members}
    return frozenset(unit for unit, value in hearers.items() if is_lie(schedule, fault, members, unit, value))


def said(schedule, fault):
    """What a fault says in its first frame, or None for nothing, and to whom. Each unit hears one item."""
    for item in schedule.table(fault)["say"]:
        if item.get("frame", fault.begin) == fault.begin:
            yield item.get("value"), map(int, item["to"])


def is_lie(schedule, fault, members, hearer, value):
    """Whether the hearer knows better for certain, where it hears this value, or None for nothing."""
    slot, frame = fault.slot, fault.begin
    if slot.slot == "clock":
        return value is None or schedule.start is not None and is_far(schedule, hearer, value, frame)
    if slot.slot == "relay":
        reader = sorted(members)[slot.index % len(members)]
        words = schedule.sensors[slot.index][1]
        return hearer == reader and value != words[frame % len(words)]
    if slot.slot == "out" and schedule.says(fault.unit, slot, members):
        return value is None or is_other(schedule, slot, members, value, frame)
    return False


def is_other(schedule, slot, members, value, frame):
    """Whether a value is another word than the one that is voted, where that is the ideal machine's for certain."""
    sizes = range(len(members), len(schedule.units) + 1)  # those of the configurations till then
    if any(slot.index in schedule.held_tasks.get(size, ()) for size in sizes):
        return False
    return value != schedule.ideal[frame][schedule.outputs.index((slot.index, slot.word))]


def is_far(schedule, hearer, value, frame):
    """Whether a clock's word is read farther off than the skew and the error for certain. The hearer's own clock is known in
    frame 0, and changes by at most the skew, the error and the drift in a frame; its reading is wrong by at most the error."""
    change = frame * (schedule.skew + schedule.error + schedule.rate)
    own = schedule.start[hearer]
    return nearest(value - own - change, value - own + change) > schedule.skew + 2 * schedule.error


def nearest(low, high):
    """How near to 0 the differences from low to high come, where words come round."""
    if high // WORDS * WORDS >= low:
        return 0
    return min(low % WORDS, -high % WORDS)


# What a run shows.


def contradictions(promises, traces):
    """Why a run isn't as promised: a sentence for each of its faults of which the traces show something else."""
    for promise, trace in zip(promises, traces):
        if promise.item == "own_words" and trace.caught is not None:
            yield f"promised is that nobody catches it, and it is caught in frame {trace.caught}"
        if promise.item == "out" and (trace.out is None or trace.out > promise.frame):
            yield f"promised is that it is out by frame {promise.frame}, and it {shown(trace.out, 'is out in frame')}"
        if promise.item in ("out", "caught"):
            first = promise.frame - (promise.item == "out")
            missing = sorted(promise.by - set(trace.by if trace.caught == first else ()))
            if missing:
                units = "".join(map(str, missing))
                yield f"promised is that {units} catch it in frame {first}, and it {shown(trace.caught, 'is first caught in frame')}"


def shown(frame, what):
    """What came of it, in words."""
    return "isn't" if frame is None else f"{what} {frame}"
