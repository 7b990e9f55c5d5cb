"""A campaign: its mission, its options, and so its runs by number. The same folder gives the same runs."""
import math
import os
from functools import lru_cache

from sift.campaigns.faults import Faults, Schedule
from sift.campaigns.findings import requirement_of
from sift.campaigns.spread import Spread
from sift.documents.printing import faults_text
from sift.reports.reading import read_ideal

LONGEST = 4.0  # seconds of a batch, by the time that the mission took without faults
PARTS = 256  # batches for each processor where no program is started for one, so that all processors end together


def read(path):
    """The text of a file."""
    with open(path, encoding="utf-8", errors="replace") as file:
        return file.read()


class Campaign:
    """What a kit tells: the folder with the document without faults, the ideal words, the options, the program and these tools.

    Before these are in the folder, a campaign that begins tells them: the options, the document and the text of the ideal words.
    """

    def __init__(self, kit, stated=None):
        self.kit = kit
        self.program = self.path("sift")
        self.library = self.path("libsift.so")  # where the kit has one, its jobs fly by it and start no program
        self.options, self.base, ideal = stated or self.kept()
        self.schedule = Schedule(self.options["outline"], read_ideal(ideal))
        self.own = self.options.get("keep", [])  # the mission's own faults that are flown in each run
        self.own_text = faults_text(self.own)
        self.text_of = lru_cache(maxsize=4096)(self.text_of)  # a fault comes in many pairs
        self.required = [requirement_of(values) for values in self.options.get("required", [])]
        self.faults = self.drawn() if self.is_random() else self.listed()
        count, limit = len(self.faults), self.options["limit"]
        self.chosen = range(1, count + 1) if limit is None or limit >= count else Spread(count, limit)

    def kept(self):
        """What the kit has of these."""
        import json  # which a campaign does without that begins

        return json.loads(read(self.path("campaign.json"))), read(self.path("mission.toml")), read(self.path("ideal.txt"))

    def path(self, name):
        return os.path.join(self.kit, name)

    def has_library(self):
        return os.path.exists(self.library)

    def is_random(self):
        """Whether its faults are drawn."""
        return self.options.get("random") is not None

    def left_out(self):
        """The units that have faults of their own."""
        return {fault["unit"] for fault in self.own}

    def drawn(self):
        """The faults that are drawn, by number."""
        from sift.random_faults import Drawn  # campaigns whose faults are listed do without

        return Drawn(self.schedule, **self.options["random"], left_out=self.left_out())

    def listed(self):
        """Each fault that there is, by number."""
        chosen = (self.options[name] for name in ("kinds", "from", "single", "pairs"))
        return Faults(self.schedule, *chosen, self.options.get("values"), self.left_out())

    def numbers(self):
        """The numbers of the runs, from 1: all of them, or so many as the limit says."""
        return self.chosen

    def size(self):
        """How many runs a batch has."""
        if self.options["batch"]:
            return self.options["batch"]
        # As many for each processor, so that all of them end together.
        runs, processors = len(self.numbers()), self.options["processors"]
        if self.options.get("here"):
            return math.ceil(runs / (processors * PARTS))
        rounds = math.ceil(runs / (processors * max(1, int(LONGEST / self.options["flight"]))))
        return math.ceil(runs / (processors * rounds))

    def batches(self):
        """The numbers of the batches, from 1."""
        return range(1, -(-len(self.numbers()) // self.size()) + 1)

    def batch(self, number):
        """The runs of a batch."""
        return self.numbers()[(number - 1) * self.size() : number * self.size()]

    def text_of(self, fault):
        """The text of a fault that is its unit's only one."""
        return faults_text(self.schedule.tables_of([fault]))

    def document(self, faults):
        """The document of a run, as bytes."""
        if self.is_random():  # a unit may have several, and none comes again
            return (self.base + self.own_text + faults_text(self.schedule.tables_of(faults))).encode()
        return (self.base + self.own_text + "".join(map(self.text_of, faults))).encode()
