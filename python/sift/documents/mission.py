"""A mission as a document with places states it, and what its rules yield."""
from sift.documents.record import Record

KEYS = {
    "the document": ("version", "units", "frames", "subframes", "clock", "sensor", "task", "table", "fault"),
    "[clock]": ("skew", "error", "rate", "length", "start", "drift", "errors"),
    "[[sensor]]": ("name", "words"),
    "[[task]]": ("name", "start", "text", "linear"),
    "[[table]]": ("size", "run", "poll", "at", "shed"),
    "[[fault]]": ("unit", "from", "say", "storm"),
    "[[fault.say]]": ("slot", "index", "word", "to", "frame", "value"),
    "[fault.storm]": ("number", "strays"),
}
ROOT_KEYS = KEYS["the document"]
SECOND_KEYS = {"[[table]]": ("shed",)}  # which of them documents of version 1 don't have


class Broken(Record):
    """A rule that is broken: the places in the document that show it, why, and what to do."""

    line: str  # what the program answers
    start: int
    end: int
    why: str
    mend: object = None  # words, where there is something to do
    several: bool = False  # whether it shows only where several values are compared


def spot(thing):
    """The start and the end of a value or a key."""
    return thing.start, thing.end


def items_of(fault):
    """The tables of a fault's items, where a rule has found that they are some. A storm has none."""
    say = fault.get("say")
    return say.data if say else []


class Mission:
    """A document's root table, with what the rules ask of it."""

    def __init__(self, root):
        self.root = root
        self.read = {}  # the statements of each task whose text was read

    def integer(self, name, missing=0):
        """The integer of a key of the root, where a rule has found that it is one."""
        value = self.root.get(name)
        return value.data if value else missing

    @property
    def units(self):
        return self.integer("units")

    @property
    def frames(self):
        return self.integer("frames")

    @property
    def version(self):
        return self.integer("version", 1)

    def keys(self, header):
        """The keys that a table of this document may have."""
        later = SECOND_KEYS.get(header, ()) if self.version == 1 else ()
        return [key for key in KEYS[header] if key not in later]

    @property
    def subframes(self):
        return self.integer("subframes", 10 + 2 * len(self.tasks))

    def list(self, name):
        """The tables of a list of the root, or none."""
        value = self.root.get(name)
        return value.data if value else []

    @property
    def sensors(self):
        return self.list("sensor")

    @property
    def tasks(self):
        return self.list("task")

    @property
    def tables(self):
        return self.list("table")

    @property
    def faults(self):
        return self.list("fault")

    def clock(self, name):
        """A figure of the clocks, or 0."""
        clock = self.root.get("clock")
        value = clock.get(name) if clock else None
        return value.data if value else 0

    def words_of(self, task):
        """How many output words a task has."""
        return len(self.tasks[task].get("start").data)

    def scope(self, task):
        """What the text of a task may name."""
        from sift.documents import texts  # which missions do without that are flown

        tasks = [(each.get("name").data, len(each.get("start").data)) for each in self.tasks]
        return texts.Scope(task, tasks, [each.get("name").data for each in self.sensors])

    def statements(self, task):
        """The statements of a task, whose text is accepted, or that has a `linear`."""
        if task not in self.read:
            self.read[task] = self.read_statements(task)
        return self.read[task]

    def read_statements(self, task):
        """The same, read now."""
        from sift.documents import texts

        text = self.tasks[task].get("text")
        if text is not None:
            return texts.read_text(text.data, self.scope(task))
        factor, term = (word.data % 65536 for word in self.tasks[task].get("linear").data)
        product = texts.Operation("*", texts.Number(factor), texts.Read(False, task, 0), 0, 0)
        return [texts.Out(0, texts.Operation("+", product, texts.Number(term), 0, 0))]

    def rows_of(self, size):
        """The table for a size: of each task the subframes of its run and of its poll, and its positions."""
        if self.tables:
            table = self.tables[size - 4]
            rows = zip(table.get("run").data, table.get("poll").data, table.get("at").data)
            return [(run.data, poll.data, [int(digit) for digit in at.data]) for run, poll, at in rows]
        return [(4 + 2 * task, 6 + 2 * task, list(range(size))) for task in range(len(self.tasks))]

    def executors(self, size):
        """Of each task the positions that run it where a configuration has this size. A task that is shed has none."""
        return [positions for _, _, positions in self.rows_of(size)]

    def shed(self, size):
        """The tasks that the table for a size sheds."""
        value = self.tables[size - 4].get("shed") if self.tables else None
        return {task.data for task in value.data} if value else set()

    def held(self, size):
        """The tasks whose words may differ from the ideal machine's from a frame on that flies by the table for a size: those
        that it sheds, and those that read them, directly or by others."""
        if not self.shed(size):
            return set()
        from sift.documents import texts

        parts = [list(texts.parts_of(self.statements(task))) for task in range(len(self.tasks))]
        reads = [{part.task for part in each if isinstance(part, texts.Read)} for each in parts]
        held, before = self.shed(size), None
        while held != before:
            before = held
            held = held | {task for task, read in enumerate(reads) if read & held}
        return held
