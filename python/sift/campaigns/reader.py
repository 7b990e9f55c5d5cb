"""Asks the C reader, tools/lib/reader.c, what came of a run. It tells what sift.campaigns.outcomes finds in the flight that
sift.reports.reading reads, and sooner; what it doesn't take these read."""
import ctypes
import os
import struct
from functools import lru_cache

from sift.campaigns.outcomes import Outcome, Trace

NAME = "reader.so"
MOST_UNITS, MOST_WORDS = 8, 64  # of a mission
NONE = (1 << 64) - 1  # in place of a frame
# The structures of reader.c.
SCHEDULE = struct.Struct("=2Q9QQ")
FAULT = struct.Struct("=5Q4Q")
ASKED = struct.Struct("=2Q")  # what of a fault is there before it is read
OUTCOME = struct.Struct("=5Q")


def path_beside(library):
    """Where it lies, if it is built."""
    return os.path.join(os.path.dirname(library), NAME)


def reader_beside(library, schedule):
    """The reader that lies beside a library, for reports of a schedule; or None where none does."""
    path = path_beside(library)
    try:
        return Reader(path, schedule) if os.path.exists(path) and len(schedule.outputs) <= MOST_WORDS else None
    except (OSError, AttributeError):
        return None  # it was built for other machines, or of other sources


class Reader:
    """The C reader of reports of a schedule."""

    def __init__(self, path, schedule):
        self.schedule = schedule
        self._call = ctypes.CDLL(path).read_outcome_1
        self._call.argtypes = [ctypes.c_char_p, ctypes.c_size_t, ctypes.c_void_p, ctypes.c_void_p, ctypes.c_size_t, ctypes.c_void_p]
        self.due = ctypes.create_string_buffer("".join(schedule.due_words()).encode())
        held = [schedule.held_tasks.get(size, ()) for size in range(MOST_UNITS + 1)]
        held = [sum(1 << place for place, (task, _) in enumerate(schedule.outputs) if task in tasks) for tasks in held]
        self.known = ctypes.create_string_buffer(SCHEDULE.pack(len(schedule.ideal), len(schedule.outputs), *held, ctypes.addressof(self.due)))
        self._room = ctypes.create_string_buffer(FAULT.size + OUTCOME.size)
        self.trace_of = lru_cache(maxsize=16384)(self.trace_of)  # most runs show what others showed
        self.said_in = lru_cache(maxsize=16384)(self.said_in)

    def outcome_of(self, faults, report):
        """What came of the run with these faults, or None where the bytes of its report aren't read."""
        size = len(faults) * FAULT.size
        if len(self._room) < size + OUTCOME.size:
            self._room = ctypes.create_string_buffer(size + OUTCOME.size)
        for place, fault in enumerate(faults):
            ASKED.pack_into(self._room, place * FAULT.size, fault.unit, fault.begin)
        room = ctypes.addressof(self._room)
        if not self._call(report, len(report), self.known, room, len(faults), room + size):
            return None
        return self.told(faults, report, self._room)

    def told(self, faults, report, room):
        """The same, as it stands in a room: of each fault what was found, and behind them the outcome."""
        traces = tuple([self.trace_of(fault.slot, room[place * FAULT.size : (place + 1) * FAULT.size]) for place, fault in enumerate(faults)])
        margin, wrong, first, words, last = OUTCOME.unpack_from(room, len(faults) * FAULT.size)
        names = tuple([self.schedule.names[place] for place in members_of(words)]) if words else ()
        return Outcome(traces, margin == 1, wrong, frame_of(first), names, report[last:-1].decode("ascii"))

    def trace_of(self, slot, found):
        """What is shown of a fault in a slot, of which these bytes were found."""
        unit, _, caught, by, out, *inside = FAULT.unpack(found)
        return Trace(self.said_in(unit, slot, tuple(inside)), frame_of(caught), members_of(by), frame_of(out))

    def said_in(self, unit, slot, inside):
        """Whether a unit says a slot in some of these configurations."""
        return any(self.schedule.says(unit, slot, frozenset(members_of(units))) for units in members_of(*inside))


def frame_of(number):
    """The number of a frame, or None."""
    return None if number == NONE else number


def members_of(*words):
    """Which bits are set, in words of 64 bits."""
    return tuple([64 * place + bit for place, word in enumerate(words) for bit in range(word.bit_length()) if word >> bit & 1])
