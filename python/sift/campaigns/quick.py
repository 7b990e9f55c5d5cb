"""Reads reports of a campaign that the program's judge took, so that their form is known: what is asked for is read where it lies, by a
few searches of each frame. All is told as by sift.reports.reading, which reads every other report, but for what the clocks show."""
from functools import lru_cache

from sift.forms import Form
from sift.reports.reading import Flight, blanked_stretch_of, catches_of, read_report, units_of, words_of

SHORT = 32 * 1024  # bytes of a report that is kept as a whole
CATCHING = Form(r" u=([0-7]) cfg=.* bad=([^-].*)")  # the line of a unit that caught some


class QuickFlight(Flight):
    """A flight whose frames are looked at where they lie in its report."""

    def __init__(self, text):
        # Each part has the lines of a frame, behind the margin of the one before and up to its own.
        *self.parts, last, margin = text.split(" margin=")
        before, _, end = last.partition("\nend ")
        self.is_ok, self.last = before == "ok", units_of(end.rpartition("=")[2])
        self.end = f"end {end} margin={margin[:-1]}"
        self.working = [part.count(" cfg=") for part in self.parts]  # of each frame how many units tell one
        self.memory = {}

    @property
    def margin(self):
        return self.is_ok

    @property
    def frames(self):
        """The frames, for those who ask more of them."""
        if "frames" not in self.memory:
            last = "ok" if self.is_ok else "lost"
            text = " margin=".join([*self.parts, f"{last}\n{self.end}\n"])
            self.memory["frames"] = read_report(text, blanked_stretch_of).frames
        return self.memory["frames"]

    def configurations(self):
        if 0 in self.working:
            return super().configurations()
        told = [part[(begin := part.index(" cfg=") + 5) : part.index(" ", begin)] for part in self.parts]
        units = {text: units_of(text) for text in set(told)}
        return [*map(units.get, told), self.last]

    def other_votes(self, schedule):
        parts = zip(self.parts, schedule.due_texts(), self.working)
        return {number: votes_in(part) for number, (part, due, working) in enumerate(parts) if part.count(due) != working}

    def first_catch(self, unit, begin):
        for number in self.catching():
            if number >= begin and unit in self.caught_in(number):
                return number, tuple([int(by) for by, bad in CATCHING.findall(self.parts[number]) if unit in catches_of(bad)])
        return None, ()

    def catching(self):
        """The frames in which some unit caught another one."""
        if "catching" not in self.memory:
            parts = zip(self.parts, self.working)
            self.memory["catching"] = [number for number, (part, working) in enumerate(parts) if part.count(" bad=-\n") != working]
        return self.memory["catching"]

    def caught_in(self, number):
        """The units that some unit caught in a frame."""
        if number not in self.memory:
            _, *ends = self.parts[number].split(" bad=")
            self.memory[number] = caught_of(frozenset([end[: end.index("\n")] for end in ends]))
        return self.memory[number]


def votes_in(part):
    """The words that are voted in the lines of a frame."""
    _, *outs = part.split(" out=")
    return votes_of(frozenset([out[: out.index(" ")] for out in outs]))


@lru_cache(maxsize=16384)
def votes_of(outs):
    """The same of what units say that work."""
    return frozenset(map(words_of, outs))


@lru_cache(maxsize=4096)
def caught_of(bads):
    """The units that are in some of these lists."""
    return frozenset().union(*map(catches_of, bads))


def flight_of(report):
    """The flight of a report."""
    return QuickFlight(report.decode("ascii"))


# The same flight for the same report: so what is asked of it is found once for all runs that it came of.
kept_flight = lru_cache(maxsize=256)(flight_of)


def read_quickly(report):
    """The flight that the bytes of a report tell which the judge took."""
    return kept_flight(report) if len(report) < SHORT else flight_of(report)
