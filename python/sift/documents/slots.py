"""Which words are said in a configuration, by whom, and to whom: the slots of docs/faults.md."""
import itertools

FEWEST = 4  # units of a configuration
KINDS = ("wrong", "silence", "two-faces")  # the ways of saying a word that is not the right one
# The ways that are made of the right words, as faults happen: a bit that is turned over, a word that stands still, a number that
# is added, one that grows from frame to frame, and a wrong word in every second frame.
HAPPENING = ("flip", "stuck", "offset", "drift", "intermittent")
ALL_KINDS = (*KINDS, *HAPPENING)


def configurations_of(units):
    """All that may be left of a configuration, itself included."""
    sizes = range(FEWEST, len(units) + 1)
    return {frozenset(left) for size in sizes for left in itertools.combinations(sorted(units), size)}


def sayers(schedule, slot, index, units):
    """The units of a configuration that say a slot's word, and those that hear it, where a schedule tells the executors."""
    members = sorted(units)
    if slot == "sense":
        return {members[index % len(members)]}, units
    if slot == "relay":
        return units - {members[index % len(members)]}, units
    if slot == "out":
        return {members[position] for position in schedule.executors(len(members))[index]}, units
    if slot == "relay-report":
        return (units - {index}, units - {index}) if index in units else (set(), set())
    return units, units
