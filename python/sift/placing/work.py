"""What tools/place does when it has read its words."""
import os
import subprocess
import sys
import tempfile

from sift import where
from sift.campaigns.rows import rows_of
from sift.rules.loading import Refused, load, refusal
from sift.documents.show import shown
from sift.files import read_source
from sift.placing.account import aim_lines, campaign_lines, is_kept, more_of, wish_lines
from sift.placing.document import NoTable, csv_text, put, read_csv, read_tables, rows_of_mission, tables_text
from sift.placing.loading import load_but_for_tables, refused_beside
from sift.placing.problem import Outline
from sift.placing.search import NotFound, NoTables, Wishing, place as search
from sift.placing.solver import NoSolver
from sift.placing.wishes import NoWishes, nothing_wished, read_wishes

DOUBT = 60  # seconds after which the fewest wishes that can't hold together aren't sought any more
LOUD = "place: " + "!" * 72


class Stopped(Exception):
    """Why there are no tables, and the status."""

    def __init__(self, why, status):
        super().__init__(f"place: {why}")
        self.status = status


def say(words=""):
    print(f"place: {words}".rstrip(), file=sys.stderr, flush=True)


class Work:
    """A mission for which tables are sought: its document, what matters of it, and the tables that it has."""

    def __init__(self, options):
        self.options = options
        self.name = options.mission
        try:
            self.text, self.root, self.mission, self.refused = load_but_for_tables(read_source(self.name))
        except Refused as refused:
            raise Stopped(refusal(self.name, refused), 2) from None
        self.outline = Outline(self.mission)
        self.own = rows_of_mission(self.mission)

    def document(self, tables):
        """The text of the document with tables."""
        return put(self.text, self.root, tables)


def place(options):
    """The status."""
    work = Work(options)
    if options.to_csv:
        if work.refused:
            raise Stopped(refusal(work.name, work.refused), 2)
        sys.stdout.write(csv_text(work.own, work.outline.names))
        return 0
    if options.from_csv:
        return take(work)
    wishes = wishes_of(work)
    tables = sought(work, wishes)
    status = hand_over(work, tables)
    if options.picture:
        draw(work, wishes, tables)
    if options.sweep and status == 0:
        compare(work, tables)
    return status


# What is wished.


def wishes_of(work):
    """The wishes of the file that is named, or that stands beside the mission."""
    name = work.options.wishes
    beside = os.path.splitext(work.name)[0] + ".wishes"
    if name is None and not os.path.exists(beside):
        return nothing_wished(work.mission)
    name = name or beside
    try:
        wishes = read_wishes(read_source(name), work.mission)
    except NoWishes as refused:
        told = [
            shown(name, refused.text, fault.start, fault.end, fault.why, [("here", fault.mend)] if fault.mend else [], refused.root)
            for fault in refused.faults
        ]
        raise Stopped(f"the wishes are refused\n{''.join(told)}".rstrip("\n"), 2) from None
    broken = refused_beside(work.text, work.root, work.mission, wishes.sizes)
    if broken:
        raise Stopped(f"`sizes` leaves the table for {broken.split(' ')[1]} as it is, and it is refused: {broken}", 2)
    return wishes


# What is found.


def sought(work, wishes):
    """The best tables, of which an account is given; or Stopped."""
    try:
        found = search(work.outline, wishes, work.own, work.options.seconds)
    except NoSolver as fault:
        raise Stopped(str(fault), 125) from None
    except NotFound:
        why = f"no tables were found in {work.options.seconds} s, and it isn't known whether there are any; --seconds gives more"
        raise Stopped(why, 3) from None
    except NoTables:
        raise Stopped(conflict_told(work, wishes), 1) from None
    for name, came_to in aim_lines(work.outline, wishes, found):
        say(f"{name:<10} {came_to}")
    for name, came_to in wish_lines(work.outline, wishes, found.tables, work.own):
        say(f"wish       {name}: {came_to}")
    if not all(is_kept(wish, work.outline, found.tables, work.own) for wish in wishes.wishes):
        raise Stopped(f"{LOUD}\nplace: the tables that the solver gave don't keep the wishes\n{LOUD}", 125)
    return found.tables


def conflict_told(work, wishes):
    """The wishes that can't hold together, a line each."""
    conflict = Wishing(work.outline, wishes, work.own, max(DOUBT, work.options.seconds)).conflict()
    which = "The fewest that can't hold together" if conflict.smallest else "These can't; the time ended before it was known whether fewer can't"
    head = f"no tables keep all wishes. {which}:"
    told = [f"  {wish.name}{more_of(wish, work.outline)}" for wish in conflict.wishes]
    free = [work.outline.names[task] for task in work.outline.tasks if task not in wishes.may_shed]
    more = [f"and no wish lets one of these be shed: {', '.join(free)}"] if free else []
    return "\n".join([head, *told, *more])


# What is done with tables.


def hand_over(work, tables):
    """Checks the tables, and prints them or puts them into the document; the status."""
    text = work.document(tables)
    status = checked(work, text)
    if status and work.options.write:
        say(f"{work.name} stays as it is")
    elif work.options.write:
        write(work.name, text)
        say(f"{work.name} has the tables; `subframes` is {tables.subframes}")
    else:
        sys.stdout.write(f"# subframes = {tables.subframes}\n" + tables_text(tables))
        sys.stdout.flush()
    return status


def write(name, text):
    """Puts a text in the place of a file, or leaves that as it is."""
    folder, base = os.path.split(os.path.realpath(name))
    beside = os.path.join(folder, f".{base}.placed")
    try:
        with open(beside, "w", encoding="utf-8", newline="") as file:
            file.write(text)
        if os.path.exists(name):
            os.chmod(beside, os.stat(name).st_mode & 0o777)
        os.replace(beside, os.path.join(folder, base))
    except OSError as fault:
        if os.path.exists(beside):
            os.remove(beside)
        raise Stopped(f"{name}: {fault.strerror}", 9) from None


def program_says(work, words, text):
    """The status and the text of the program with words on a document."""
    done = subprocess.run([work.options.program, *words], input=text.encode(), capture_output=True, check=False)
    return done.returncode, done.stdout.decode(errors="replace")


def has_program(work):
    program = work.options.program
    return os.access(program, os.X_OK) and os.path.isfile(program)


def checked(work, text):
    """Whether the program's `check` accepts a document: 0, or the status and loud lines."""
    if not has_program(work):
        why = f"there is no program {work.options.program}: tools/build makes it, or --program names one"
        why += "; nothing proved has checked these tables"
    else:
        status, answer = program_says(work, ["check"], text)
        if (status, answer) == (0, "ok\n"):
            say("check      ok: the program accepts the mission with these tables")
            return 0
        why = f"THE PROGRAM REFUSES THESE TABLES: check ends with {status}: {answer.strip()}"
    print(f"{LOUD}\nplace: {why}\n{LOUD}", file=sys.stderr)
    return 125


def take(work):
    """Takes tables from CSV; the status."""
    options = work.options
    try:
        text = read_source(options.from_csv).decode("utf-8-sig")
        rows = read_csv(text, work.outline.names, options.size, work.outline.sizes)
    except (NoTable, UnicodeDecodeError) as fault:
        raise Stopped(f"{options.from_csv}: {fault}", 2) from None
    tables = work.own
    for size, each in rows.items():
        tables.rows[size] = each
    if any(each is None for each in tables.rows.values()):
        raise Stopped(f"a table that isn't in {options.from_csv} hasn't an entry for each task: {work.refused}", 2)
    last = max(row.poll for each in tables.rows.values() for row in each)
    tables.subframes = max(tables.subframes, last + 6)
    return hand_over(work, tables)


# The picture.


def draw(work, wishes, tables):
    """Draws the tables beside those of `plan`."""
    from sift.pictures import tables as place_picture

    text = work.document(tables)
    schedules = [("found", load(text.encode())[2])]
    planned = plan_of(work, wishes, text)
    if planned:
        schedules.append((f"plan with {wishes.copies} copies", planned))
    else:
        say(f"picture    {work.options.program} plans no tables, and so the tables that were found stand alone")
    drawn = place_picture.text_of if work.options.picture.endswith(".txt") else place_picture.svg_of
    write(work.options.picture, drawn(schedules))


def plan_of(work, wishes, text):
    """The mission with the tables of `plan` in the fewest subframes that it needs, or None."""
    if not has_program(work):
        return None
    for subframes in range(12, 65):
        status, answer = program_says(work, ["plan", "--copies", str(wishes.copies), "--subframes", str(subframes)], text)
        if status == 0:
            return load(put(text, load(text.encode())[1], read_tables(answer, subframes)).encode())[2]
        if status != 14:
            return None
    return None


# The campaign.


def compare(work, tables):
    """Flies the campaign before and after, and tells both side by side."""
    folder = work.options.sweep
    if work.refused:
        say(f"sweep      before: the mission is refused, {work.refused}; the campaign is flown after alone")
    texts = {"before": None if work.refused else work.text, "after": work.document(tables)}
    rows = {}
    for name, text in texts.items():
        rows[name] = [] if text is None else campaign(work, os.path.join(folder, name), text)
    for line in campaign_lines(rows["before"], rows["after"]):
        say(line)


def campaign(work, folder, text):
    """The rows of a campaign."""
    with tempfile.TemporaryDirectory() as scratch:
        mission = os.path.join(scratch, os.path.basename(work.name) if work.name != "-" else "mission.toml")
        with open(mission, "w", encoding="utf-8", newline="") as file:
            file.write(text)
        words = [sys.executable, "-S", "-B", "-m", "sift.tools.sweep", mission, "--out", folder, "--program", work.options.program]
        found = {**os.environ, "PYTHONPATH": os.path.dirname(where.PACKAGE)}
        done = subprocess.run(words, stdin=subprocess.DEVNULL, capture_output=True, text=True, check=False, env=found)
    if done.returncode not in (0, 1):
        raise Stopped(f"the campaign in {folder} wasn't flown: {done.stderr.strip().splitlines()[-1]}", 125)
    with open(os.path.join(folder, "runs.tsv"), encoding="utf-8") as file:
        return rows_of(file.read())
