"""How the tables are sought: aim by aim, each bound by what the aims before it came to."""
import itertools
import time
from dataclasses import dataclass, field

from sift.placing.problem import Problem, values_of
from sift.placing.solver import solve
from sift.placing.wishes import AIMS

NAMES = {"rules": "ROOM", "subframes": "SUBFRAMES", "readers": "READERS", "work": "WORK", "changes": "CHANGES"}
KEPT_PERCENT = 85  # of the entries of tables that are to be made better; the others are loosened
SHORTEST = 0.4  # seconds of a search


def aims_of(wishes):
    """The model's aims in their order: what is shed comes behind the last aim that something may be shed for."""
    names = []
    for aim in AIMS:
        names.append(NAMES[aim])
        names += ["SHED", "TURNS"] if aim == wishes.shed_for else []
    return names[1:]


class NotFound(Exception):
    """No tables were found in the time, and it isn't known whether there are any."""


class NoTables(Exception):
    """There are none."""


@dataclass
class Found:
    """The best tables by now, and of each aim that was reached a bound that no tables are below: where it is the value, that
    is the least."""

    tables: object = None
    values: dict = field(default_factory=dict)
    bounds: dict = field(default_factory=dict)


class Search:
    """A search for the tables of a problem, which ends in time."""

    def __init__(self, problem, seconds):
        self.problem = problem
        self.ends = time.monotonic() + seconds
        self.beside = 0.0  # seconds that a call takes beside the search
        self.found = Found()

    def left(self, part=1.0):
        """Some of the seconds that are left for the search of a call."""
        return max(SHORTEST, (self.ends - time.monotonic()) * part - self.beside)

    def solve(self, part, aim, bounds, most, **more):
        """Seeks for a part of the time that is left, and keeps what is found."""
        seconds, begun = self.left(part), time.monotonic()
        answer = solve(self.problem, seconds, aim, bounds, most, **more)
        self.beside = max(0.0, time.monotonic() - begun - seconds, self.beside)
        if answer.tables:
            self.found.tables = answer.tables
            self.found.values = values_of(self.problem.outline, self.problem.wishes, answer.tables)
        return answer

    def run(self):
        """The best tables; or NoTables, or NotFound."""
        aims = aims_of(self.problem.wishes)
        reached = {}
        if aims[0] == "SUBFRAMES" and self.problem.subframes[0] < self.problem.subframes[1]:
            self.reach("SUBFRAMES", reached, 0.25)
        if not self.leap(aims, reached):
            for place, aim in enumerate(aims):
                if aim not in reached:
                    self.reach(aim, reached, 1 / (len(aims) - place))
        return self.found

    def note(self, aim, reached, bound):
        """Notes that an aim came to what the tables are worth, and what none can be below."""
        reached[aim] = self.found.values[aim]
        self.found.bounds[aim] = bound

    def leap(self, aims, reached):
        """Tries whether all aims before the last can be as good as their bounds say; and if so, seeks the last alone."""
        last = aims[-1]
        between = [aim for aim in aims[:-1] if aim not in reached]
        # Of the aims behind SHED the bounds are those where nothing is shed.
        bounds = {aim: self.problem.bounds("SHED" in aims[: aims.index(aim)])[aim] for aim in aims}
        most = {**reached, **{aim: bounds[aim] for aim in between}}
        answer = self.solve(0.25, last, bounds, most)
        if not answer.tables and not answer.complete:
            answer = self.solve(0.35, last, bounds, most, same_runs=True)
        if not answer.tables:
            return False
        for aim in between:
            self.note(aim, reached, bounds[aim])
        self.improve(last, answer.complete, bounds, most)
        self.note(last, reached, self.found.values[last] if answer.complete else bounds[last])
        return True

    def reach(self, aim, reached, part):
        """Seeks the least of an aim."""
        bounds = self.problem.bounds(reached.get("SHED") == 0)
        if self.found.values.get(aim) == bounds[aim]:
            self.note(aim, reached, bounds[aim])
            return
        most = dict(reached)
        if self.found.tables:
            most[aim] = self.found.values[aim] - 1
        answer = self.solve(part if aim != "CHANGES" else 0.5, aim, bounds, most)
        if not self.found.tables and not answer.complete:
            answer = self.solve(1.0, aim, bounds, most)
        if not self.found.tables:
            raise NoTables if answer.complete else NotFound
        if aim == "CHANGES":
            self.improve(aim, answer.complete, bounds, reached)
        self.note(aim, reached, self.found.values[aim] if answer.complete else bounds[aim])

    def improve(self, aim, complete, bounds, most):
        """Makes tables better by loosening a part of them again and again, where the whole search didn't come to its end."""
        better = self.found.values[aim] - 1
        if complete or better < bounds[aim] or self.left() <= SHORTEST:
            return
        self.solve(1.0, aim, bounds, {**most, aim: better}, given=self.found.tables, kept_percent=KEPT_PERCENT)


def place(outline, wishes, kept, seconds):
    """The best tables for a mission and its wishes."""
    return Search(Problem(outline, wishes, wishes.wishes, kept), seconds).run()


# Wishes that can't hold together.


@dataclass
class Conflict:
    """Wishes that can't hold together, and whether no fewer of them can't."""

    wishes: list
    smallest: bool


class Doubt(Exception):
    """Whether some wishes can hold together wasn't found out in the time."""


class Wishing:
    """Which of the wishes can hold together."""

    def __init__(self, outline, wishes, kept, seconds):
        self.outline = outline
        self.wishes = wishes
        self.kept = kept
        self.ends = time.monotonic() + seconds

    def hold(self, some):
        """Whether there are tables that keep some of the wishes."""
        seconds = self.ends - time.monotonic()
        if seconds < SHORTEST:
            raise Doubt
        problem = Problem(self.outline, self.wishes, some, self.kept)
        answer = solve(problem, seconds, "ROOM", problem.bounds(False), {})
        if not answer.tables and not answer.complete:
            raise Doubt
        return answer.tables is not None

    def conflict(self):
        """Wishes that can't hold together, as few as there can be."""
        needed = list(self.wishes.wishes)
        try:
            for wish in list(needed):
                fewer = [other for other in needed if other != wish]
                if not self.hold(fewer):
                    needed = fewer
            return Conflict(self.smallest(len(needed)) or needed, True)
        except Doubt:
            return Conflict(needed, False)

    def smallest(self, most):
        """Fewer wishes than so many that can't hold together, as few as there can be; or None.

        Of wishes that can't hold together at least one is among those whose absence lets all others hold. So the fewest that
        have one of each such set either hold together, which gives one more such set, or are what is sought.
        """
        corrections = []
        while True:
            some = self.hitting(corrections, most - 1)
            if some is None:
                return None
            if not self.hold(some):
                return some
            corrections.append(self.correction(some))

    def hitting(self, corrections, most):
        """The fewest wishes, and at most so many, of which each of some sets has one."""
        for count in range(most + 1):
            for some in itertools.combinations(self.wishes.wishes, count):
                if all(any(wish in correction for wish in some) for correction in corrections):
                    return list(some)
        return None

    def correction(self, some):
        """Wishes without which all others hold together, some wishes that hold together among these."""
        held, left = list(some), [wish for wish in self.wishes.wishes if wish not in some]
        for wish in left:
            if self.hold([*held, wish]):
                held.append(wish)
        return [wish for wish in self.wishes.wishes if wish not in held]
