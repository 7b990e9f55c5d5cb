"""The ways of saying a word that is not the right one, and the items of a document by which a unit does so."""
from collections import Counter, namedtuple

from sift.documents.slots import HAPPENING

FAR = -32768  # a clock's offset that is too far from every other one
FIRST_WORD = 999  # where the search for a word begins that is never the right one
MOST_ITEMS = 64  # of a fault in a document
LEAST_WORD, MOST_WORD = -32768, 65535
# The kinds to which a value belongs: what it is where none is asked for (None: the kind finds its word itself), and its bounds.
VALUES = {
    "wrong": (None, LEAST_WORD, MOST_WORD),
    "flip": (15, 0, 15),
    "offset": (1, LEAST_WORD, MOST_WORD),
    "drift": (1, LEAST_WORD, MOST_WORD),
    "intermittent": (None, LEAST_WORD, MOST_WORD),
}


class Way(namedtuple("Way", "kind value", defaults=(None,))):
    """A way of lying: its kind, and the value that was asked for."""


def ways_of(kind, values):
    """The ways of a kind: one for each value, where values are asked for and belong to it."""
    return [Way(kind, value) for value in values] if values and kind in VALUES else [Way(kind)]


def is_made(slot, kind):
    """Whether a kind can be said in a slot: what is made of right words wants a slot whose words `ideal` or a sensor has."""
    return kind not in HAPPENING or kind == "intermittent" or slot.slot in ("sense", "relay", "out")


def mask_of(units):
    """The word by which a report names units."""
    return sum(1 << unit for unit in units)


class Said:
    """What a fault says to whom, frame by frame where it isn't the same in all of them.

    A document has at most 64 items a fault. A word that changes needs one for each frame in which it is another than most of the
    time, and so `fault` may be one that lasts as long as they do.
    """

    def __init__(self, schedule, fault):
        self.schedule = schedule
        self.hearers = schedule.hearers(fault.unit, fault.slot) if fault.to is None else list(fault.to)
        half = len(self.hearers) // 2
        self.low, self.high = self.hearers[:half], self.hearers[half:]
        self.last = len(schedule.ideal) if fault.frames is None else min(len(schedule.ideal), fault.begin + fault.frames)
        self.fault = fault
        if fault.kind == "intermittent" or fault.frames is not None or fault.kind in HAPPENING and self.exceptions() > MOST_ITEMS - 1:
            self.cut()

    def groups(self):
        """The units that hear one word, and what it is in a frame: pairs of units and a function."""
        if self.fault.kind == "silence":
            return [(self.hearers, lambda frame: None)]
        if self.fault.kind == "two-faces":
            _, low, high = self.wrong_words()
            return [(self.low, lambda frame: low), (self.high, lambda frame: high)]
        return [(self.hearers, self.word_in)]

    def frames(self):
        """The frames in which it speaks."""
        step = 2 if self.fault.kind == "intermittent" else 1
        return range(self.fault.begin, self.last, step)

    def exceptions(self):
        """How many frames have another word than most of them."""
        words = Counter(map(self.word_in, self.frames()))
        return len(self.frames()) - max(words.values(), default=0)

    def cut(self):
        """Ends the fault where its items do."""
        most = MOST_ITEMS // len(self.groups())
        spoken = self.frames()
        if len(spoken) > most:
            self.last = spoken[most - 1] + 1
        if self.last < len(self.schedule.ideal) or self.fault.frames is not None:
            self.fault = self.fault._replace(frames=self.last - self.fault.begin)

    def word_in(self, frame):
        """The word that all hear in a frame."""
        fault = self.fault
        if fault.kind in ("wrong", "intermittent"):
            return self.wrong_words()[0] if fault.value is None else fault.value
        right = self.schedule.right_word(fault.slot, fault.begin if fault.kind == "stuck" else frame)
        value = VALUES[fault.kind][0] if fault.kind in VALUES and fault.value is None else fault.value
        made = {
            "stuck": lambda: right,
            "flip": lambda: right ^ 1 << value,
            "offset": lambda: right + value,
            "drift": lambda: right + value * (frame - fault.begin + 1),
        }
        return made[fault.kind]() % 65536

    def wrong_words(self):
        """The wrong word of the slot, and those that the two halves of the hearers hear from a unit with two faces."""
        slot = self.fault.slot
        if slot.slot == "clock":
            pull = max(1, self.schedule.skew)
            return FAR, pull, -pull
        if slot.slot in ("report", "relay-report"):
            return mask_of(self.low + self.high), mask_of(self.high), mask_of(self.low)
        right = self.schedule.right_words(slot)
        first, second = [word for word in range(FIRST_WORD, FIRST_WORD + len(right) + 2) if word not in right][:2]
        return first, first, second

    def items(self):
        """The items of a document."""
        for units, word in self.groups():
            keys = {**self.fault.slot.keys(), "to": "".join(map(str, units))}
            for frame, value in self.spoken(word):
                item = keys if frame is None else {**keys, "frame": frame}
                yield item if value is None else {**item, "value": value}

    def spoken(self, word):
        """Frames, each with its word, and last the word of all others, whose frame is None."""
        lasts = self.fault.frames is None and self.fault.kind != "intermittent"
        if not lasts:
            return [(frame, word(frame)) for frame in self.frames()]
        if self.fault.kind not in HAPPENING:
            return [(None, word(self.fault.begin))]
        words = {frame: word(frame) for frame in self.frames()}
        most = Counter(words.values()).most_common(1)[0][0]
        return [(frame, said) for frame, said in words.items() if said != most] + [(None, most)]
