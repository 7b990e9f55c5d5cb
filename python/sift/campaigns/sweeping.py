"""A campaign from its begin to its end: what tools/sweep does when it has read its words."""
import contextlib
import os
import sys
import time

from sift import where
from sift.campaigns.campaign import Campaign
from sift.campaigns.faults import outline_of
from sift.campaigns.findings import plain
from sift.campaigns.flights import flyer_of
from sift.campaigns.flyer import DIVIDER, NoFlight
from sift.campaigns.flying import flyer_for, library_of
from sift.campaigns.kits import KEPT, can_fly, kit_of, kits_of, new_kit
from sift.campaigns.promised import contradictions, promises_of
from sift.campaigns.records import Reading, Records, written
from sift.campaigns.rows import counted
from sift.documents import places
from sift.documents.slots import KINDS
from sift.files import read_source
from sift.rules.loading import Refused, load, refusal, without_faults

# What flies a batch, and what that stands on.
MODULES = (
    "__init__",
    "callers",
    "forms",
    "random_faults",
    "where",
    *(f"campaigns/{name}" for name in ("__init__", "campaign", "faults", "findings", "flights", "flyer", "journal", "library")),
    *(f"campaigns/{name}" for name in ("outcomes", "promised", "quick", "reader", "rows", "spread", "ways")),
    *(f"documents/{name}" for name in ("__init__", "printing", "slots")),
    *(f"reports/{name}" for name in ("__init__", "reading")),
)
ROOM = 64 * 1024  # bytes: a disk with less room than that is full
INSTALL = "a campaign's runs are jobs of GNU parallel, which isn't here: on Debian, apt-get install parallel"
SMALLEST = "smallest.toml"


class Stopped(Exception):
    """Why a campaign can't begin, or go on, and the status."""

    def __init__(self, why, status=125):
        super().__init__(why)
        self.status = status


def say(words):
    print(f"sweep: {words}", file=sys.stderr, flush=True)


# A campaign begins.


class Sources:
    """Whether the built program is of the sources that stand here, which is found out while it flies: from all that they have only
    where one of them, or the kit, was changed since it was noted what they are."""

    FILES = ("crates.txt", "HANDLES", "crates")

    def __init__(self, program):
        self.tool, self.noted = os.path.join(where.TOP, "tools", "sources"), f"{program}.sources"
        self.looking, self.found = None, None
        kit = where.command("rt")
        if where.IN_PLACE and program == where.BUILT and os.path.exists(self.tool) and kit:
            kit = os.path.join(os.path.dirname(os.path.dirname(os.path.realpath(kit))), "KIT-ID")
            places = [os.path.join(where.TOP, name) for name in self.FILES] + [kit]
            words = ["find", *places, "-name", "out", "-prune", "-o", "-cnewer", self.noted, "-print", "-quit"]
            self.found = os.memfd_create("found")
            said = [(os.POSIX_SPAWN_DUP2, self.found, place) for place in (1, 2)]
            self.looking = os.posix_spawnp("find", words, os.environ, file_actions=said)

    def tell(self):
        """Says so where it isn't."""
        if self.looking and (os.waitpid(self.looking, 0)[1] or os.fstat(self.found).st_size) and self.are_others():
            say("out/sift was built from other sources than those that stand here; tools/build builds it anew")

    def are_others(self):
        import subprocess  # which takes as long to load as some flights

        told = subprocess.run([self.tool], stdout=subprocess.PIPE, stdin=subprocess.DEVNULL, text=True, check=False).stdout
        return told != "".join(lines_of(self.noted))


def lines_of(path):
    """The lines of a file, none where it isn't there."""
    try:
        with open(path, encoding="utf-8") as lines:
            return list(lines)
    except OSError:
        return []


def mission_of(options):
    """The root table of a document, and the mission."""
    try:
        _, root, mission = load(read_source(options.mission) if options.document is None else options.document)
    except Refused as refused:
        raise Stopped(refusal(options.mission, refused), 2) from None
    if max(options.moments) >= mission.frames:
        raise Stopped(f"--from names frame {max(options.moments)}, and the mission has {counted(mission.frames, 'frame', 'frames')}", 2)
    return root, mission


def kept_faults(options, root, mission):
    """The mission's own faults that are flown in each run, as plain tables."""
    own = places.plain(root).get("fault", []) if options.keep else []
    least = len(own) + (2 if options.pairs else 1)
    if own and least >= mission.units:
        raise Stopped(f"--keep leaves {counted(len(own), 'faulty unit', 'faulty units')} of {mission.units}, and with {'two' if options.pairs else 'one'} more none would work", 2)
    return own


def requirements_of(options, outline):
    """What is required of outputs, as plain values."""
    if not options.require:
        return []
    from sift.campaigns.requirements import NoRequirements, read_requirements

    outputs = [f"{name}.{word}" for name, words in outline["tasks"] for word in range(words)]
    try:
        raw = options.require if isinstance(options.require, bytes) else read_source(options.require)
        found = read_requirements(raw, outputs, [name for name, _ in outline["sensors"]])
    except NoRequirements as refused:
        name = "it" if isinstance(options.require, bytes) else options.require
        raise Stopped(f"what is required is refused\n{refused.told(name)}", 2) from None
    return [plain(requirement) for requirement in found]


def begin(options, kit, undo):
    """Makes the folder of a new campaign with its kit, unless it is there, and flies the mission once without faults where jobs are
    to start the program. It tells how many faults of the mission's own are left out, the records, and the processes of this machine
    that fly it already, or None."""
    root, mission = mission_of(options)
    own, outline = kept_faults(options, root, mission), outline_of(mission)
    required = requirements_of(options, outline)
    if not can_fly(options.program) and not library_of(options.program):
        raise Stopped(f"there is no program {options.program}: tools/build makes it, or --program names one")
    if kit_of(options.out) and not options.overwrite:
        ways = "--resume goes on with it, --overwrite begins anew in its place, and --out names another folder"
        raise Stopped(f"{options.out} has a campaign: {ways}", 2)
    # Where the engine has begun already, what lies in the folder is its own: there was no campaign.
    older = [*kits_of(options.out), *(os.path.join(options.out, name) for name in KEPT)] if options.overwrite and not kit else []
    kit, base = kit or new_kit(options.out, undo), without_faults(root)
    flyer = flyer_for(options.program)
    chosen, ideal = chosen_for(options, flyer, base, {"outline": outline, "keep": own, "required": required})
    records = Records(options.out, Campaign(kit, (chosen, base, ideal)))
    pool = pool_of(records, flyer, options, records.campaign.batches()) if chosen["here"] else None
    ends = pool.end if pool else lambda: None
    undo.callback(ends)
    fill(kit, options, base, ideal, chosen)
    undo.pop_all()
    undo.callback(ends)  # as ever, while the kit stays
    for path in older:
        taken_away(path)
    return 0 if options.keep else len(mission.faults), records, pool


def taken_away(path):
    """Takes a file or a folder of an older campaign away, where it is there."""
    if os.path.isdir(path):
        import shutil  # which a campaign does without that finds none

        shutil.rmtree(path)
    elif os.path.lexists(path):
        os.remove(path)


def chosen_for(options, flyer, base, stated):
    """What a kit keeps of a campaign's options and of what is stated beside them, and the text of the ideal machine's words."""
    status, ideal = flyer.run(["ideal"], base.encode())
    if status:
        raise Stopped(f"{options.program} ends with status {status} where it is to tell the ideal words")
    here = bool(library_of(options.program)) and flies_here(options)
    chosen = {
        "mission": os.path.basename(options.mission),
        "kinds": options.kinds or list(KINDS),
        "from": options.moments,
        "values": options.values,
        "single": options.single or not options.pairs,
        "pairs": options.pairs,
        "limit": options.limit,
        "random": random_of(options),
        "judge": flyer.has_judge(),
        "batch": options.batch,
        "here": here,
        "flight": None if here else time_of(flyer, base.encode()),  # by which batches are made for jobs that start the program
        "processors": os.cpu_count() or 1,
        **stated,
    }
    return chosen, ideal.decode()


def fill(kit, options, base, ideal, chosen):
    """Puts all that a kit has into it, and last what tells that it is whole."""
    import json

    from sift.campaigns.reader import path_beside

    for name in MODULES:
        path = os.path.join(kit, "python", "sift", f"{name}.py")
        os.makedirs(os.path.dirname(path), exist_ok=True)
        copied(os.path.join(where.PACKAGE, f"{name}.py"), path)
    copied(os.path.join(where.PACKAGE, "campaigns", "job.py"), os.path.join(kit, "flights.py"))
    if can_fly(options.program):
        copied(options.program, os.path.join(kit, "sift"))
    library = library_of(options.program)
    if library:
        copied(library, os.path.join(kit, "libsift.so"))
        reader = path_beside(library)
        if os.path.exists(reader):
            copied(reader, path_beside(os.path.join(kit, "libsift.so")))
    written(os.path.join(kit, "mission.toml"), base)
    written(os.path.join(kit, "ideal.txt"), ideal)
    written(os.path.join(kit, "campaign.json"), json.dumps(chosen) + "\n")


def copied(path, to):
    """Copies a file, with its mode."""
    with open(path, "rb") as file, open(to, "wb") as copy:
        copy.write(file.read())
    os.chmod(to, os.stat(path).st_mode & 0o7777)


def time_of(flyer, document):
    """How long a document flies."""
    started = time.monotonic()
    flyer.fly(document)
    return time.monotonic() - started


def random_of(options):
    """How faults are drawn, or None where they are listed."""
    if options.random is None:
        return None
    return {"runs": options.random, "number": options.number, **({"kinds": options.kinds} if options.kinds else {})}


def told(campaign):
    """What is going to be flown, in words."""
    options = campaign.options
    what = " and ".join(name for name, wanted in (("single faults", options["single"]), ("pairs of faults", options["pairs"])) if wanted)
    if campaign.is_random():
        what = f"faults drawn from the number {options['random']['number']}"
    all_of_them, flown = len(campaign.faults), len(campaign.numbers())
    of = "" if flown == all_of_them else f" of {all_of_them:,}"
    beside = f", beside {counted(len(campaign.own), 'fault', 'faults')} of its own" if campaign.own else ""
    return f"{counted(flown, 'run', 'runs')}{of}: {what} of {options['mission']}{beside}"


# Runs are flown in this machine's processes by the library, else as jobs of GNU parallel, or of Slurm.


def fly(records, options, engine, pool, reading):
    """Flies all batches that aren't there yet, and tells why some may be missing. Rows are read meanwhile where processes of this
    tool fly, which may have begun."""
    bar = Bar() if sys.stderr.isatty() else ignored
    if options.slurm:
        compile_kit(records.campaign.kit)
        return fly_by_slurm(records, options, bar)
    if pool or records.campaign.has_library() and not engine and flies_here(options):

        def progress(done, of):
            bar(done, of)
            reading.go_on()

        # Where they go on, by the library that the kit has.
        pool = pool or pool_of(records, flyer_of(records.campaign), options, records.left())
        return f"its processes ended with status {pool.fly(progress)}"
    if not engine:
        if not where.command("parallel"):
            raise Stopped(INSTALL)
        if options.sshlogin and os.path.realpath(records.folder) == os.path.realpath(os.path.expanduser("~")):
            raise Stopped("with other machines --out can't be the home folder, where their kits lie", 2)
        records.mend_log()
    compile_kit(records.campaign.kit)
    if not engine:
        from sift.campaigns.engine import Engine

        engine = Engine(records.campaign.kit, options.jobs, options.sshlogin)
    return f"parallel ended with status {engine.fly(records.campaign.batches())}"


def flies_here(options):
    """Whether this machine's processes fly, where there is a library: other machines, and numbers of jobs as only GNU parallel
    knows them, aren't asked for."""
    return not options.slurm and not options.sshlogin and (options.jobs or "1").isdecimal()


def compile_kit(kit):
    """Compiles the kit's modules, which each job reads. Another Python passes over what this one compiled."""
    import py_compile

    for name in MODULES:
        folder, name = os.path.split(os.path.join(kit, "python", "sift", name))
        path, compiled = os.path.join(folder, f"{name}.py"), os.path.join(folder, "__pycache__", f"{name}.{sys.implementation.cache_tag}.pyc")
        if os.path.exists(path):
            py_compile.compile(path, compiled, doraise=True, invalidation_mode=py_compile.PycInvalidationMode.CHECKED_HASH)


def pool_of(records, flyer, options, batches):
    """The processes of this machine that fly batches, which they begin at once."""
    from sift.campaigns.pool import Pool

    return Pool(records.campaign, flyer, records.path("jobs.txt"), batches, int(options.jobs or os.cpu_count() or 1))


def fly_by_slurm(records, options, progress):
    """Flies them as array jobs of Slurm."""
    from sift.campaigns import slurm

    if not slurm.is_here():
        raise Stopped(slurm.INSTALL)
    try:
        tasks = int(options.jobs) if options.jobs else None
        return f"Slurm's job {slurm.Slurm(records, tasks).fly(progress)} has ended"
    except slurm.NoSlurm as fault:
        raise Stopped(f"Slurm takes no job: {fault}; --resume --slurm goes on") from None


def ignored(done, of):
    """What a bar does where nobody looks."""


class Bar:
    """Tells on the terminal how far the batches are."""

    def __init__(self):
        self.begun, self.shown = time.monotonic(), 0.0

    def __call__(self, done, of):
        now = time.monotonic()
        if now - self.shown > 0.2 or done == of:
            left = f", {(now - self.begun) / done * (of - done):.0f} s left" if done else ""
            print(f"\rsweep: {100 * done // of}% flown{left}\x1b[K", end="\n" if done == of else "", file=sys.stderr, flush=True)
            self.shown = now


# A campaign ends.


def end(records, why, begun, options, tally):
    """Writes the table of what was flown, and tells the tool's status."""
    flown = tally.reading.flown()
    if len(flown) < len(records.campaign.batches()):
        runs = f"{sum(place.rows for place in flown.values()):,} of {counted(len(records.campaign.numbers()), 'run', 'runs')}"
        import tempfile

        full = next(filter(is_full, (records.folder, tempfile.gettempdir())), None)
        raise Stopped(f"{runs} were flown, and {f'the disk of {full} is full' if full else why}; --resume goes on")
    records.table(flown)
    summary, failing = tally.summary, tally.failing
    failing.tell()
    print("\n".join(summary.lines()))
    if records.campaign.is_random():
        write_smallest(records, summary.worst())
    hand_on(records, summary, options)
    table = os.path.relpath(records.path("runs.tsv"))
    seconds = sum(place.seconds for place in flown.values())
    say(f"{time.monotonic() - begun:.1f} s; the flights themselves took {seconds:.1f} s of processor time; {table} has the rows")
    if failing.unpromised:
        say(f"{counted(failing.unpromised, 'outcome contradicts', 'outcomes contradict')} what the contract promises: the clause `caught`, docs/faults.md")
    return 1 if summary.failures else 0


class Tally:
    """What the rows of a campaign come to, each read once."""

    def __init__(self, records):
        from sift.campaigns.summary import Summary  # while others fly

        self.summary = Summary([str(requirement) for requirement in records.campaign.required])
        self.failing = Failing(records.campaign)
        self.reading = Reading(records, self.add)

    def add(self, row):
        self.summary.add(row)
        self.failing.add(row)


class Failing:
    """Tells of rows that can't be: of one program, the tool's word and the program's, or the contract's and the run's."""

    def __init__(self, campaign):
        self.campaign = campaign
        self.rows = []
        self.unpromised = 0  # outcomes that aren't as promised

    def add(self, row):
        """Keeps a row where the judge didn't take its report, or the run isn't as promised."""
        if row.is_misjudged() or row.contradicted:
            self.rows.append(row)

    def tell(self):
        """Says so, in the order of the rows."""
        for row in sorted(self.rows, key=lambda row: row.number):
            self.tell_of(row)

    def tell_of(self, row):
        if row.is_misjudged():
            print(f"row {row.number}: the program's judge doesn't take the program's report: {row.judge}")
        if row.contradicted:
            promises = promises_of(self.campaign.schedule, self.campaign.faults[row.number - 1], self.campaign.own)
            for why in contradictions(promises, row.traces):
                print(f"row {row.number}: {row.name}: {why}")
                self.unpromised += 1


def hand_on(records, summary, options):
    """Writes what a continuous build reads."""
    if not options.json and not options.junit:
        return
    from sift.campaigns import building

    for path, write in ((options.json, building.json_of), (options.junit, building.junit_of)):
        if path:
            parts = write(records.campaign, summary, records.path("runs.tsv"))
            try:
                with open(path, "w", encoding="utf-8") as file:
                    file.writelines(parts)
            except OSError as fault:
                raise Stopped(f"{path}: {fault.strerror}", 9) from None


def is_full(folder):
    """Whether the disk of a folder has no room for the rows of a job."""
    room = os.statvfs(folder)
    return room.f_bavail * room.f_frsize < ROOM


# One row of a campaign.


def faults_of(campaign, number):
    """The faults of a row."""
    if number > len(campaign.faults):
        raise Stopped(f"the campaign's rows are 1 to {len(campaign.faults):,}", 2)
    return campaign.faults[number - 1]


def replay(campaign, number):
    """Prints the document of a row, and its report."""
    faults = faults_of(campaign, number)
    document = f"# Row {number} of a campaign of {campaign.options['mission']}: {' + '.join(map(str, faults))}\n".encode()
    document += campaign.document(faults)
    sys.stdout.write(document.decode() + DIVIDER.decode() + flyer_of(campaign).fly(document))
    return 0


def smallest_text(campaign, number):
    """The smallest document that loses what a row loses, with a line that tells it; or None."""
    from sift.campaigns.failures import smallest
    from sift.campaigns.reduction import size_of
    from sift.documents.printing import text_of

    data = places.plain(places.read(campaign.document(faults_of(campaign, number)))[1])
    found = smallest(data, flyer_of(campaign), campaign.required)
    if not found:
        return None
    small, lost, tried = found
    head = f"# The smallest document, of {tried:,} that were tried, that loses {' and '.join(lost)} as row {number} of a campaign of {campaign.options['mission']} does:\n"
    return head + f"# {size_of(small)}, in place of {size_of(data)}.\n" + text_of(small)


def reduce(campaign, number):
    """Prints the smallest document that loses what a row loses."""
    text = smallest_text(campaign, number)
    if text is None:
        raise Stopped(f"row {number} loses neither the margin nor an output", 2)
    sys.stdout.write(text)
    return 0


def write_smallest(records, worst):
    """Writes the smallest document that loses what the worst row does, where one does."""
    text = smallest_text(records.campaign, worst.number) if worst else None
    if text:
        written(records.path(SMALLEST), text)
        say(f"{os.path.relpath(records.path(SMALLEST))} has the smallest document that loses what row {worst.number} does")


# Two campaigns.


def compare(names):
    """Prints what became of the runs of one campaign in another one."""
    from sift.campaigns.comparison import compared
    from sift.campaigns.rows import NoRows, read_rows

    tables = [os.path.join(name, "runs.tsv") if os.path.isdir(name) else name for name in names]
    try:
        with contextlib.ExitStack() as files:
            rows = []
            for name in tables:
                rows.append(read_rows(files.enter_context(open(name, encoding="utf-8"))))
                next(rows[-1])
            comparison = compared(*rows)
    except (NoRows, UnicodeDecodeError) as fault:
        raise Stopped(f"no runs of a campaign: {fault}", 2) from None
    print("\n".join(comparison.lines()))
    return 1 if comparison.counts["worse"] else 0


# All of it.


def conduct(options, kit, engine, undo):
    """The status of a campaign, or of one of its rows, that is printed."""
    begun = time.monotonic()
    if options.compare:
        return compare(options.compare)
    sources = Sources(options.program if options.mission else None)
    records, pool = None, None
    if options.mission is not None:
        left_out, records, pool = begin(options, kit, undo)
        if left_out:
            say(f"the mission's own {'fault is' if left_out == 1 else f'{left_out} faults are'} left out")
    if not kit_of(options.out):
        raise Stopped(f"{options.out} has no campaign", 2)
    records = records or Records(options.out)
    if options.replay or options.reduce:
        return replay(records.campaign, options.replay) if options.replay else reduce(records.campaign, options.reduce)
    say(told(records.campaign))
    if records.campaign.schedule.sheds():
        say("words of a task that a table sheds, and of those that read it, aren't compared from the first such frame on")
    tally = Tally(records)
    why = fly(records, options, engine, pool, tally.reading)
    sources.tell()
    return end(records, why, begun, options, tally)


def sweep(options, kit, engine, undo):
    """The same, or why it stopped. There may be a folder for the kit, and an engine; `undo` takes both away."""
    try:
        return conduct(options, kit, engine, undo)
    except NoFlight as fault:
        say(str(fault))
        return 125
    except Stopped as stopped:
        say(str(stopped))
        return stopped.status
