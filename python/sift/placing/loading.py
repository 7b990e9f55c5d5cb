"""A mission as tools/place takes it: its own tables may be refused. The program tells by its answers to the mission as it is, and with
plain tables in place of some; the rules do where it isn't built."""
from sift.documents.mission import Mission
from sift.documents.slots import FEWEST
from sift.placing.document import put
from sift.placing.problem import FIRST_RUN, MOST_SUBFRAMES, POLL_DELAY, REPORT_LEAD, Row, Tables
from sift.rules.loading import Refused, by_rules, program_refuses, read
from sift.rules.refusals import STEPS
from sift.rules.tables import broken_tables, table_faults


def load_but_for_tables(raw):
    """The text, the root table and the mission of a document's bytes, and the line by which its own tables are refused, or None. Where
    it breaks another rule it is Refused."""
    line = program_refuses(raw)
    text, root = read(raw, line)
    mission = Mission(root)
    if line is None:
        by_rules(root, [step for step in STEPS if step != broken_tables])
        return text, root, mission, next((broken.line for broken in broken_tables(mission)), None)
    if is_of_table(line):
        # What is tested behind the tables shows with others.
        another = program_refuses(with_plain(text, root, mission, range(FEWEST, mission.units + 1)).encode())
        if another:
            raise Refused(another)
    elif line:
        raise Refused(line)
    return text, root, mission, line or None


def refused_beside(text, root, mission, sizes):
    """The line by which a table of another size than these is refused, or None. A poll that only asks for more subframes, rule 3, counts
    for nothing: there may be more of them."""
    if root.get("table") is None:
        return None  # the plain tables break no other rule
    line = program_refuses(with_plain(text, root, mission, sizes).encode())
    if line is not None and not line.endswith(" rule 3"):
        return line if is_of_table(line) else None
    others = [size for size in range(FEWEST, mission.units + 1) if size not in sizes]
    lines = [broken.line for size in others for broken in table_faults(mission, size)]
    return next((line for line in lines if not line.endswith(" rule 3")), None)


def is_of_table(line):
    return line.startswith("table ")


def with_plain(text, root, mission, sizes):
    """The text of a document with plain tables for some sizes, and as many subframes as those and its other tables ask for."""
    tasks = range(len(mission.tasks))
    plain = [(FIRST_RUN + 2 * task, FIRST_RUN + 2 * task + POLL_DELAY) for task in tasks]
    polls = [poll.data for table in mission.tables for poll in table.get("poll").data] + [poll for _, poll in plain]
    subframes = max([mission.subframes, *(poll + REPORT_LEAD for poll in polls)])
    rows = {size: [Row(run, poll, tuple(range(size))) for run, poll in plain] for size in sizes}
    return put(text, root, Tables(min(subframes, MOST_SUBFRAMES), rows))
