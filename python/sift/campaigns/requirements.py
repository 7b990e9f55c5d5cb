"""Reads what the outputs of a mission must do: a TOML document beside the mission, of tables [[require]]. docs/campaigns.md tells them."""
from sift.campaigns.findings import Requirement
from sift.documents import places
from sift.documents.mission import Broken, spot
from sift.documents.places import KINDS
from sift.documents.show import shown
from sift.documents.texts import choice, nearest
from sift.documents.values import wrong_integer

KEYS = ("word", "within", "least", "most", "step", "is", "after", "above", "below", "frames", "but_for")
LEAST, MOST, FAR = -32768, 32767, 65535  # of signed words, and how far two of them can be apart
MOST_FRAMES = 1000
# What makes a requirement one of a kind, and what belongs to that kind alone.
OWN = {"within": ("within",), "bounds": ("least", "most"), "step": ("step",), "after": ("is", "after", "above", "below", "frames")}


class NoRequirements(Exception):
    """What is wrong with such a document: its text, its root table where it has one, and each fault."""

    def __init__(self, text, root, faults):
        super().__init__(faults[0].why)
        self.text, self.root, self.faults = text, root, faults

    def told(self, name):
        """Each fault with its place in the file of this name."""
        parts = [
            shown(name, self.text, fault.start, fault.end, fault.why, [("here", fault.mend)] if fault.mend else [], self.root)
            for fault in self.faults
        ]
        return "".join(parts).rstrip("\n")


class Reader:
    """Reads the tables, and notes what is wrong with them."""

    def __init__(self, root, outputs, sensors):
        self.root = root
        self.outputs, self.sensors = outputs, sensors
        self.faults = []

    def fault(self, value, why, mend=None):
        """Notes what is wrong with a value or a key."""
        self.faults.append(Broken("", *spot(value), why, mend))

    def read(self):
        """The requirements, of which some are wrong where faults are noted."""
        self.known_keys(self.root, "the document", ("require",))
        value = self.root.get("require")
        if value is None or value.kind != "array" or not value.data:
            self.fault(value or self.root, "the document requires nothing", "`[[require]]`, and below it `word = \"..\"`")
            return []
        return [found for found in map(self.requirement, value.data) if found]

    def known_keys(self, table, header, keys):
        for name, entry in table.data.items():
            if name not in keys:
                like = nearest(name, keys)
                self.fault(entry, f"`{name}` is no key of {header}", f"`{like}`" if like else f"{header} has {choice(keys)}")

    def requirement(self, table):
        """What one table requires, or None."""
        if table.kind != "table":
            self.fault(table, f"`require` has {KINDS[table.kind]} here, and is to have tables alone", "`[[require]]`, with double brackets")
            return None
        before = len(self.faults)
        self.known_keys(table, "[[require]]", KEYS)
        word = self.name(table, "word", self.outputs, "output word")
        kind = self.kind(table)
        made = self.made(table, kind) if kind else None
        but_for = self.integer(table, "but_for", 0, MOST_FRAMES)
        return None if len(self.faults) > before else Requirement(kind, word, made[0], but_for or 0, *made[1:])

    def kind(self, table):
        """The one kind whose keys the table has, or None."""
        kinds = [kind for kind, names in OWN.items() if any(table.get(name) is not None for name in names)]
        if len(kinds) == 1:
            return kinds[0]
        if not kinds:
            self.fault(table, "it isn't told what the word must do", f"one of {choice(('within', 'least', 'most', 'step', 'is'))}")
        else:
            second = next(entry for name, entry in table.data.items() if name in OWN[kinds[1]])
            self.fault(second, f"two requirements stand in one table: of {choice([OWN[kind][0] for kind in kinds])}", "a `[[require]]` for each")
        return None

    def made(self, table, kind):
        """The bounds, the value and the sensor of a requirement of a kind."""
        if kind in ("within", "step"):
            return ((self.integer(table, kind, 0, FAR),),)
        if kind == "bounds":
            return (self.bounds(table, "least", "most"),)
        value = self.needed(table, "is", lambda: self.integer(table, "is", LEAST, MOST))
        sensor = self.name(table, "after", self.sensors, "sensor")
        frames = self.needed(table, "frames", lambda: self.integer(table, "frames", 0, MOST_FRAMES))
        least, most = self.bounds(table, "below", "above", crossed=True)
        if least is None and most is None and not self.faults:
            self.fault(table, f"`{sensor}` passes no bound", "`above` or `below`, with the word that it passes")
        return (least, most, frames), value, sensor

    def bounds(self, table, low, high, crossed=False):
        """Two bounds, of which one may be missing. Those of a sensor tell what is beyond them."""
        least, most = self.integer(table, low, LEAST, MOST), self.integer(table, high, LEAST, MOST)
        if None not in (least, most) and least > most:
            why = f"`{low}` is {least}, and `{high}` is {most}"
            self.fault(table.data[low], f"{why}: every word is beyond them" if crossed else f"{why}: no word is between them")
        return least, most

    def needed(self, table, name, read):
        """A value that has to be there, or None."""
        if table.get(name) is None:
            self.fault(table, f"`{name}` is missing here")
            return None
        return read()

    def integer(self, table, name, low, high):
        """An integer between two bounds, or None."""
        value = table.get(name)
        fault = wrong_integer(name, value, low, high) if value is not None else None
        if fault:
            self.fault(value, *fault)
        return None if value is None or fault else value.data

    def name(self, table, name, names, what):
        """One of some names, or None."""
        value = table.get(name)
        if value is None:
            self.fault(table, f"`{name}` is missing here", f"the name of one {what}")
        elif value.kind != "string":
            self.fault(value, f"the name of one {what} is due, and this is {KINDS[value.kind]}")
        elif value.data not in names:
            like = nearest(value.data, names)
            there = f"it has {choice(names)}" if names else "it has none"
            self.fault(value, f"the mission has no {what} `{value.data}`", f"`{like}`" if like else there)
        else:
            return value.data
        return None


def read_requirements(raw, outputs, sensors):
    """What the bytes of a document require of these output words, by these sensors."""
    try:
        text, root = places.read(raw)
    except places.NotADocument as fault:
        text = raw.decode(errors="replace")
        raise NoRequirements(text, None, [Broken("", fault.place, fault.end, fault.why, fault.mend)]) from None
    reader = Reader(root, outputs, sensors)
    found = reader.read()
    if reader.faults:
        raise NoRequirements(text, root, sorted(reader.faults, key=lambda fault: fault.start))
    return found
