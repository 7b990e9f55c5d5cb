"""A mission as the tools take it: what is refused they don't look at."""
from sift import callers
from sift.documents import places
from sift.documents.mission import Mission
from sift.documents.printing import text_of
from sift.files import as_called


class Refused(Exception):
    """The line that a document gets in place of a mission."""


def load(raw):
    """The text, the root table and the mission of a document's bytes. Whether it is refused the program tells where it is built, and
    else the rules."""
    line = program_refuses(raw)
    text, root = read(raw, line)
    if line is None:
        from sift.rules.refusals import STEPS  # which the program does without

        by_rules(root, STEPS)
    if line:
        raise Refused(line)
    return text, root, Mission(root)


def read(raw, line):
    """The text and the root table of a document's bytes, to which the program has answered this line, where it was asked."""
    try:
        return places.read(raw)
    except places.NotADocument:
        raise Refused(line or "not a document") from None


def by_rules(root, steps):
    """Has a document Refused for the first rule of some steps that it breaks."""
    from sift.rules.refusals import refusals

    for broken in refusals(root, steps):
        raise Refused(broken.line)


def program_refuses(raw):
    """The line by which the program refuses a document, nothing where it is a mission, or None where no program is built."""
    caller = callers.built()
    if not caller:
        return None
    try:
        status, text = caller.answer(["check"], raw)
    except (callers.NotAnswered, MemoryError):
        return None
    return text.decode(errors="replace").rstrip("\n") if status else ""


def without_faults(root):
    """The text of a document without its faults."""
    return text_of({key: value for key, value in places.plain(root).items() if key != "fault"})


def refusal(name, refused):
    """What a tool says of a mission that is refused."""
    return f"{name} is refused: {refused}; {as_called('tools/explain')} {name} shows the place"
