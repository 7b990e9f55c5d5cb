"""The rules on plans of lies, 1 to 9: docs/byz.md has them."""
import re

from sift.documents.mission import Broken, spot
from sift.documents.places import KINDS
from sift.documents.texts import choice, nearest
from sift.documents.values import wrong_array, wrong_integer, wrong_word
from sift.rules import pages

KEYS = ("units", "m", "values", "lie")
LIE_KEYS = ("path", "to", "value")
MOST_LIES, MOST_TRAITORS, MOST_UNITS = 6000, 2, 10
REFUSAL = re.compile(r"byz rule (\d) at (\d+)")


def sentence(line):
    """What a plan keeps by the rule of a refusal."""
    number = REFUSAL.fullmatch(line)[1]
    return next(row[1] for row in pages.rows("byz.md", "## What is refused") if row[0] == number)


def unknown(table, keys, whose):
    """The faults of keys that a table can't have."""
    for name, entry in table.data.items():
        if name not in keys:
            like = nearest(name, [key for key in keys if key not in table.data])
            known = f"{whose} has {choice(keys)}"
            yield spot(entry), f"`{name}` is no key of {whose}", f"`{like}`; {known}" if like else known


def integer(root, name, low, high):
    """The faults of an integer of the root, which has to be there."""
    value = root.get(name)
    if value is None:
        yield spot(root), f"`{name}` is missing", f"`{name} = {low}`, or another integer up to {high}"
    elif wrong_integer(name, value, low, high):
        yield spot(value), *wrong_integer(name, value, low, high)


def values(root):
    """The faults of the units' own values."""
    value, units = root.get("values"), root.get("units").data
    if value is None:
        yield spot(root), "`values` is missing", "an array of one word for each unit"
        return
    wrong = wrong_array("values", value, units, units, "words, one for each unit")
    if wrong:
        yield spot(value), *wrong
        return
    for word in value.data:
        if wrong_word("values", word):
            yield spot(word), *wrong_word("values", word)


def lies_of(root):
    """The lies of a plan, where they are a list of tables."""
    value = root.get("lie")
    return value.data if value else []


def list_of_lies(root):
    """The faults of the list of lies: pairs of an entry and its fault."""
    value = root.get("lie")
    if value is None:
        return
    if value.kind != "array":
        yield 0, (spot(value), f"`lie` is {KINDS[value.kind]}, and is to be an array of tables", "`lie = [{path = '0', to = '1'}]`, as an example")
    elif len(value.data) > MOST_LIES:
        yield 0, (spot(value), f"there are {len(value.data):,} lies, and at most {MOST_LIES:,} can be", "fewer lies")
    else:
        for number, lie in enumerate(value.data):
            if lie.kind != "table":
                yield number, (spot(lie), f"`lie` has {KINDS[lie.kind]} here, and is to have tables alone", "`{path = '0', to = '1'}`, as an example")
            else:
                yield from ((number, each) for each in unknown(lie, LIE_KEYS, "a lie"))


def digits(lie, name, units):
    """The faults of a string of digits below the number of units."""
    value = lie.get(name)
    if value is None:
        yield spot(lie), f"`{name}` is missing here", None
    elif value.kind != "string":
        yield spot(value), f"`{name}` is {KINDS[value.kind]}, and is to be a string of digits", f"\"{value.data}\"" if value.kind == "integer" else "digits in quotes"
    elif not value.data:
        yield spot(value), f"`{name}` is empty", "at least one digit"
    else:
        for place, letter in enumerate(value.data):
            if letter not in "0123456789"[:units]:
                yield (value.places[place], value.places[place + 1]), f"`{letter}` stands in `{name}`, and the {units} units are 0 to {units - 1}", None


def path(root, lie):
    """The faults of a lie's path."""
    value, most = lie.get("path"), root.get("m").data + 1
    found = list(digits(lie, "path", root.get("units").data))
    yield from found
    if found:
        return
    if len(value.data) > most:
        yield spot(value), f"the path has {len(value.data)} units, and with `m = {most - 1}` it has at most {most}", f"at most {most} of them"
    for place, letter in enumerate(value.data):
        if letter in value.data[:place]:
            yield (value.places[place], value.places[place + 1]), f"{letter} stands twice in the path", f"\"{''.join(dict.fromkeys(value.data))}\""


def hearers(root, lie):
    """The faults of those to whom a lie is told."""
    value, through = lie.get("to"), lie.get("path").data
    found = list(digits(lie, "to", root.get("units").data))
    yield from found
    if found:
        return
    good = "".join(sorted(set(value.data) - set(through)))
    mend = f"\"{good}\"" if good else "another unit"
    for place, letter in enumerate(value.data):
        where = value.places[place], value.places[place + 1]
        if letter in through:
            yield where, f"unit {letter} is in the path, and isn't told what comes through itself", mend
        elif place and letter <= value.data[place - 1]:
            yield where, f"{letter} stands behind {value.data[place - 1]}, and the units ascend, each once", mend


def told(_root, lie):
    """The faults of what a lie tells."""
    value = lie.get("value")
    if value is not None and wrong_word("value", value):
        yield spot(value), *wrong_word("value", value)


def traitors(root):
    """The first lie with which more units lie than may."""
    most, liars = root.get("m").data, set()
    for number, lie in enumerate(lies_of(root)):
        value = lie.get("path")
        liars.add(value.data[-1])
        if len(liars) > most:
            named = choice(sorted(liars))
            why = f"with unit {value.data[-1]} there are {len(liars)} that lie, {named}, and `m` is {most}"
            mend = f"`m = {len(liars)}`, with at least {3 * len(liars) + 1} units" if len(liars) <= MOST_TRAITORS else "fewer that lie"
            yield number, ((value.places[-2], value.places[-1]), why, mend)
            return


def rules(root):
    """Of each rule, in order, the entries and faults that break it."""
    yield ((0, each) for each in unknown(root, KEYS, "a plan"))
    yield ((0, each) for each in integer(root, "m", 0, MOST_TRAITORS))
    yield ((0, each) for each in integer(root, "units", 3 * root.get("m").data + 1, MOST_UNITS))
    yield ((0, each) for each in values(root))
    yield list_of_lies(root)
    for of_lie in (path, hearers, told):
        yield ((number, each) for number, lie in enumerate(lies_of(root)) for each in of_lie(root, lie))
    yield traitors(root)


def refusals(root):
    """What breaks the first rule that a plan breaks, in order. The rules behind it may rest on it."""
    for number, faults in enumerate(rules(root), 1):
        found = [Broken(f"byz rule {number} at {entry}", *place, why, mend) for entry, (place, why, mend) in faults]
        if found:
            return found
    return []
