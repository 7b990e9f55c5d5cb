"""Why a value isn't as a rule wants it, and what to do."""
import re

from sift.documents import texts
from sift.documents.places import KINDS

NAME = re.compile(r"[a-z][a-z0-9_]{0,15}")


def wrong_integer(name, value, low, high):
    """Why a value is no integer between two bounds, and what to do; or None."""
    bounds = f"an integer from {low:,} to {high:,}"
    if high - low < 2:
        bounds = f"the integer {low}" if low == high else f"the integer {low} or {high}"
    if value.kind == "string" and re.fullmatch(r"[+-]?[0-9]+", value.data):
        nearest = min(max(int(value.data), low), high)
        return f"`{name}` is the string \"{value.data}\", and is to be {bounds}", f"`{nearest}`: a number has no quotes"
    if value.kind != "integer":
        return f"`{name}` is {KINDS[value.kind]}, and is to be {bounds}", None
    if not low <= value.data <= high:
        return f"`{name}` is {value.data}, and is to be {bounds}", bound_of(value.data, low, high)
    return None


def bound_of(number, low, high):
    """What to write in place of a number that is beyond its bounds."""
    return f"`{low}` is the least" if number < low else f"`{high}` is the largest"


def wrong_word(name, value):
    """Why a value is no word, and what to do; or None."""
    fault = wrong_integer(name, value, -32768, 65535)
    if fault and value.kind == "float":
        return fault[0], "words have no point: count in smaller steps, such as hundredths"
    if fault and value.kind == "integer":
        return f"{value.data} doesn't fit the 16 bits of a word: it is to be from -32768 to 65535", bound_of(value.data, -32768, 65535)
    return fault


def wrong_array(name, value, least, most, of):
    """Why a value is no array of a length, or None."""
    count = f"{least}" if least == most else f"{least:,} to {most:,}"
    if value.kind != "array":
        alike = f"`[{', '.join([str(value.data)] * least)}]`: `[` and `]` make an array"
        mend = alike if value.kind == "integer" else "`[` and `]` make an array"
        return f"`{name}` is {KINDS[value.kind]}, and is to be an array of {count} {of}", mend
    if not least <= len(value.data) <= most:
        return f"`{name}` has {counted(len(value.data), 'entry', 'entries')}, and is to have {count}: {of}", None
    return None


def counted(number, one, many, verb="", verbs=""):
    """A number of things, behind the verb that fits, where one is given."""
    words = verb if number == 1 else verbs
    return f"{words} {number:,} {one if number == 1 else many}".lstrip()


def digits_offered(value, allowed, least):
    """Of a value's own digits those that are allowed, ascending, or where they are too few the first ones that are, or all."""
    parts = [each.data for each in value.data] if value.kind == "array" else [value.data]
    own = sorted(set("".join(map(str, parts))) & set(allowed))
    return "".join(own if len(own) >= least else allowed)


def wrong_digits(name, value, allowed, least=1):
    """Why a value is no string of digits from 0 to 7, with the place that shows it, and what to write; or None."""
    if value.kind != "string":
        mend = f"\"{digits_offered(value, allowed, least)}\": digits in quotes"
        return value.start, value.end, f"`{name}` is {KINDS[value.kind]}, and is to be a string of digits from 0 to 7", mend
    for place, letter in enumerate(value.data):
        if letter not in "01234567":
            shown = "a blank" if letter == " " else "a comma" if letter == "," else f"`{letter}`"
            why = f"{shown} stands in `{name}`, which is digits from 0 to 7 alone"
            mend = f"\"{digits_offered(value, allowed, least)}\": digits one after the other"
            return value.places[place], value.places[place + 1], why, mend
    return None


def short_of(name):
    """A name of the letters with which a long one begins."""
    made = re.sub("[^a-z0-9_]", "_", name.lower()).lstrip("0123456789_")[: texts.LONGEST_NAME].rstrip("_")
    return made if NAME.fullmatch(made) and made not in texts.KEYWORDS else "name"


def wrong_name(name):
    """Why a string is no name, and what to do; or None."""
    if name in texts.KEYWORDS:
        return f"`{name}` is a word of the task language, and no name", f"\"{name}_1\", or another one"
    if NAME.fullmatch(name):
        return None
    if len(name.encode()) > texts.LONGEST_NAME:
        return f"\"{name}\" has {len(name.encode())} bytes, and a name has at most {texts.LONGEST_NAME}", f"\"{short_of(name)}\", or another short one"
    made = re.sub("[^a-z0-9_]", "_", name.lower()).lstrip("0123456789_")
    mend = f"\"{made}\"" if NAME.fullmatch(made) and made not in texts.KEYWORDS else None
    return f"\"{name}\" is no name: a small letter, then small letters, digits and `_`", mend
