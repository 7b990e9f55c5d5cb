"""The words of a mission's reports by their names."""
from sift.documents.slots import FEWEST
from sift.reports.reading import NoReport, read_ideal


def signed(word):
    """A word as a number with its sign."""
    return word - 65536 if word > 32767 else word


class Named:
    """The names of a mission's output words and sensors, and what they are in a flight."""

    def __init__(self, mission):
        self.mission = mission
        tasks = [(task.get("name").data, mission.words_of(number)) for number, task in enumerate(mission.tasks)]
        self.outputs = [f"{name}.{word}" for name, words in tasks for word in range(words)]
        self.tasks = [task for task, (_, words) in enumerate(tasks) for _ in range(words)]  # of each output the task
        self.sensors = [f"sense.{sensor.get('name').data}" for sensor in mission.sensors]

    def words(self):
        """All names, outputs first."""
        return self.outputs + self.sensors

    def check(self, flight):
        """Tests that a report has the form of this mission's."""
        if (flight.units, len(flight.frames)) != (self.mission.units, self.mission.frames):
            raise NoReport("it isn't the mission's: it has another number of units or frames")
        lengths = {(len(out), len(into)) for frame in flight.frames for out, into in zip(frame.outputs, frame.inputs) if out is not None}
        if lengths - {(len(self.outputs), len(self.sensors))}:
            raise NoReport("it isn't the mission's: it has another number of words")

    def told(self, frame, unit):
        """The words of a unit in a frame, outputs first, or nothing of each."""
        if frame.outputs[unit] is None:
            return [None] * len(self.words())
        return [signed(word) for word in (*frame.outputs[unit], *frame.inputs[unit])]

    def sheds(self):
        """Whether some table sheds a task."""
        return any(self.mission.shed(size) for size in range(FEWEST, self.mission.units + 1))

    def shed(self, frame, unit):
        """The output words that are old in what a unit tells in a frame: those of tasks that are shed in its configuration."""
        units = frame.configurations[unit]
        tasks = self.mission.shed(len(units)) if units else set()
        return [name for name, task in zip(self.outputs, self.tasks) if task in tasks]

    def ideal(self, text, flight):
        """Of each frame the words that are due: the ideal machine's, or None where they are held, and the sensors' own."""
        tables = {size: self.mission.held(size) for size in range(FEWEST, self.mission.units + 1)}
        sensors = [sensor.get("words").data for sensor in self.mission.sensors]
        for number, (words, held) in enumerate(zip(read_ideal(text), flight.held(tables))):
            outputs = [None if task in held else signed(word) for task, word in zip(self.tasks, words)]
            yield outputs + [signed(words[number % len(words)].data % 65536) for words in sensors]
