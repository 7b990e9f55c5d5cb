"""The folder of a campaign: its kit, the engine's log, the rows of its batches, and its table.

There may be a million rows: they are read and written one by one, and of a batch only its place is kept.
"""
import contextlib
import os
from itertools import chain

from sift.campaigns.campaign import Campaign
from sift.campaigns.journal import entries_in, places_in
from sift.campaigns.kits import kit_of
from sift.campaigns.rows import COLUMNS, Row

HEAD = "Seq\tHost\tStarttime\tJobRuntime\tSend\tReceive\tExitval\tSignal\tCommand"  # of GNU parallel's log

def written(path, text):
    """Writes a file whole: until all of it is on the disk, an older one stays."""
    written_by(path, [text])


def written_by(path, parts):
    """The same of a text that comes in parts."""
    with open(path + ".new", "w", encoding="utf-8") as file:
        file.writelines(parts)
        file.flush()
        os.fsync(file.fileno())
    os.replace(path + ".new", path)


class Records:
    """What is kept of a campaign that has begun in a folder."""

    def __init__(self, folder, campaign=None):
        self.folder = os.path.abspath(folder)
        self.campaign = campaign or Campaign(kit_of(self.folder))

    def path(self, name):
        return os.path.join(self.folder, name)

    def files(self):
        """What jobs wrote: those of this machine and of GNU parallel to one file, each job of Slurm to its own."""
        tasks = self.path("slurm")
        own = sorted(name for name in os.listdir(tasks) if name.endswith(".txt")) if os.path.isdir(tasks) else []
        return [self.path("jobs.txt"), *(os.path.join(tasks, name) for name in own)]

    def flown(self):
        """Of each batch that was flown to its end the place of its rows."""
        known = self.campaign.batches()
        return {number: place for path in self.files() for number, place in places_in(path).items() if number in known}

    def left(self):
        """The batches that weren't flown to their end."""
        flown = self.flown()
        return [number for number in self.campaign.batches() if number not in flown]

    def mend_log(self):
        """Makes GNU parallel's log one of just the batches whose rows are all there, so that it flies the others."""
        with contextlib.ExitStack() as files:
            lines = files.enter_context(open(self.path("jobs.log"), encoding="utf-8", errors="replace")) if os.path.exists(self.path("jobs.log")) else []
            logged = {line.split("\t", 1)[0]: line.rstrip("\n") for line in lines if line.count("\t") == 8}
        flown = [str(number) for number in self.flown()]
        kept = [logged.get(number, f"{number}\t:\t0.000\t0.000\t0\t0\t0\t0\t-") for number in flown]
        if logged or kept:
            written(self.path("jobs.log"), "".join(line + "\n" for line in [HEAD, *kept]))

    def columns(self):
        """The names of the columns of its table."""
        return [*COLUMNS, *map(str, self.campaign.required)]

    def rows(self, flown):
        """The rows of batches, in their order."""
        path, file = None, None
        with contextlib.ExitStack() as files:
            for number in sorted(flown):
                place = flown[number]
                if place.path != path:
                    files.close()
                    path, file = place.path, files.enter_context(open(place.path, "rb"))
                file.seek(place.begin)
                for _ in range(place.rows):
                    yield file.readline().decode()

    def table(self, flown):
        """Writes runs.tsv."""
        head = "\t".join(self.columns()) + "\n"
        written_by(self.path("runs.tsv"), chain([head], self.rows(flown)))


class Reading:
    """Lets a function have each row of a campaign once, in no order. It can begin while others are flown: so there is little left
    to be read when the last has flown."""

    def __init__(self, records, read):
        self.records, self.read = records, read
        self.known, self.here = {}, 0  # the batches that were read, with their places, and up to where in this machine's file

    def go_on(self):
        """Reads what this machine has flown since."""
        found = {}
        for number, place, self.here in entries_in(self.records.path("jobs.txt"), self.here):
            found[number] = place
        self.rows_of(found)

    def rows_of(self, flown):
        """Reads the rows of batches that weren't read before."""
        batches = self.records.campaign.batches()
        for line in self.records.rows({number: place for number, place in flown.items() if number not in self.known and number in batches}):
            self.read(Row(line.rstrip("\n")))
        self.known.update(flown)

    def flown(self):
        """Of each batch that was flown to its end the place of its rows, when all of them were read."""
        batches = self.records.campaign.batches()
        if len(self.known) < len(batches) or not all(number in self.known for number in batches):
            self.rows_of(self.records.flown())
        return {number: place for number, place in self.known.items() if number in batches}
