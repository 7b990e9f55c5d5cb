"""What came of a run, counted in its report."""
from collections import namedtuple
from functools import lru_cache
from itertools import compress, count, islice
from operator import ne


# What a run shows of one of its faults: whether its unit was due to say the slot in some configuration that it was in; the
# first frame in which a unit caught it, or None, and those who did; the first frame whose configuration it isn't in, or None.
Trace = namedtuple("Trace", "said caught by out")

# What came of a run: the traces of its faults; whether the margin held; how many output words of all frames differ from the
# ideal machine's where they are compared, the first frame in which they do, or None, and the names of those that do; the last
# line of the report.
Outcome = namedtuple("Outcome", "traces margin wrong first words last")


def trace_of(fault, flight, schedule):
    """What a report shows of a fault."""
    inside = found_in(flight, (units_told, fault.begin))
    said = any(schedule.says(fault.unit, fault.slot, units) for units in inside)
    return Trace(said, *found_in(flight, (shown_of, fault.unit, fault.begin)))


def found_in(flight, asked):
    """What a function finds in a flight, found once: many runs have the same report."""
    if asked not in flight.memory:
        find, *values = asked
        flight.memory[asked] = find(flight, *values)
    return flight.memory[asked]


def configurations_told(flight):
    """The configuration of each frame and after the last, and each of them once, in the order in which they are told first."""
    told = flight.configurations()
    return told, list(dict.fromkeys(told))


def units_told(flight, begin):
    """The configurations that are told from a frame on, each once."""
    told, _ = found_in(flight, (configurations_told,))
    return frozenset(map(frozenset, set(told[begin:-1])))


def shown_of(flight, unit, begin):
    """The first frame from one on in which a unit was caught, or None, those who did so, and the first frame that it is out in, or None."""
    told, each = found_in(flight, (configurations_told,))
    without = next((units for units in each if unit not in units), None)
    return *flight.first_catch(unit, begin), None if without is None else told.index(without)


@lru_cache(maxsize=16384)
def wrong_in(votes, ideal, compared):
    """The places, of those that are compared, of the output words that some unit votes other than the ideal machine has them."""
    wrong = {place for words in votes for place in compress(count(), map(ne, words, ideal))}
    return tuple([place for place in compared if place in wrong])


def wrong_words(flight, schedule):
    """Of each frame in which output words are wrong their places."""
    votes = flight.other_votes(schedule)
    if not votes:
        return {}
    compared = list(islice(schedule.compared(flight), max(votes) + 1))
    wrong = {number: wrong_in(told, schedule.ideal[number], compared[number]) for number, told in votes.items()}
    return {number: places for number, places in wrong.items() if places}


def harm_of(flight, schedule):
    """How many output words are wrong, the first frame in which some are, or None, and their names."""
    wrong = wrong_words(flight, schedule)
    names = tuple(schedule.names[place] for place in sorted(set().union(*wrong.values())))
    return sum(map(len, wrong.values())), next(iter(wrong), None), names


def outcome_of(faults, flight, last, schedule):
    """What came of the run with these faults."""
    traces = tuple([trace_of(fault, flight, schedule) for fault in faults])
    return Outcome(traces, flight.margin, *found_in(flight, (harm_of, schedule)), last)
