"""What tools/place says of the tables that it found: what each aim and each wish came to."""
from sift.documents.slots import FEWEST
from sift.documents.values import counted
from sift.placing.problem import changed, missed, work
from sift.placing.search import aims_of
from sift.placing.wishes import positions_of


def proof_of(value, bound, least="the least that there can be"):
    """What is known of a value: whether none is less."""
    if value == bound:
        return least
    return f"none can be below {bound}, and the time ended with a gap of {value - bound}"


def aim_lines(outline, wishes, found):
    """A line for each aim in their order: its name, and what it came to."""
    told = {"SUBFRAMES": subframes_told, "READERS": readers_told, "SHED": shed_told, "WORK": work_told, "CHANGES": changes_told}
    for aim in aims_of(wishes):
        if aim in told:
            yield aim.lower(), told[aim](outline, wishes, found)


def subframes_told(outline, wishes, found):
    value = found.values["SUBFRAMES"]
    if any(wish.kind == "subframes" and wish.least == wish.most for wish in wishes.wishes):
        return f"{value}, as it is wished"
    return f"{value}, {proof_of(value, found.bounds['SUBFRAMES'], 'the fewest that there can be')}"


def readers_told(outline, wishes, found):
    read = [sensor for sensor in range(len(outline.sensors)) if outline.readers(sensor)]
    if not read:
        return "no task reads a sensor"
    lost, all_readers = missed(outline, found.tables), len(read) * len(outline.sizes)
    told = f"{all_readers - len(lost)} of {all_readers} run a task that reads their sensor"
    if lost:
        told += ": not those of " + ", ".join(f"{outline.sensors[sensor]} at {size}" for size, sensor in lost)
        told += f"; {proof_of(len(lost), found.bounds['READERS'], 'the fewest that there can be')}"
    return told


def shed_told(outline, wishes, found):
    told = [
        f"{', '.join(outline.names[task] for task in found.tables.shed(size))} at {size}"
        for size in wishes.sizes
        if found.tables.shed(size)
    ]
    if not told:
        return "nothing"
    first = found.values["TURNS"] == found.bounds["TURNS"] or found.values["SHED"] > found.bounds["SHED"]
    more = "" if first else ", and perhaps others are to be shed first"
    return f"{', and '.join(told)}; {proof_of(found.values['SHED'], found.bounds['SHED'])}{more}"


def work_told(outline, wishes, found):
    most = [max(work(outline, found.tables, size)) for size in outline.sizes]
    told = ", ".join(f"{tasks} at {size}" for tasks, size in zip(most, outline.sizes))
    return f"the most tasks of a position: {told}; {proof_of(found.values['WORK'], found.bounds['WORK'])}"


def changes_told(outline, wishes, found):
    losses = [(size, lost) for size in outline.sizes if size > FEWEST for lost in range(size)]
    if not losses:
        return "no unit can be lost"
    counts = [len(changed(outline, found.tables, *loss)) for loss in losses]
    told = f"{sum(counts)} over {counted(len(losses), 'loss', 'losses')} of a unit, at most {max(counts)} by one"
    return f"{told}; {proof_of(found.values['CHANGES'], found.bounds['CHANGES'])}"


# Wishes.


def is_kept(wish, outline, tables, kept):
    """Whether tables keep a wish."""
    rows = {(size, task): tables.executors(size, task) for size in wish.sizes for task in wish.tasks}
    if wish.kind == "subframes":
        return wish.least <= tables.subframes <= wish.most
    if wish.kind == "keep":
        return all(tables.rows[size] == kept.rows[size] for size in wish.sizes)
    if wish.kind == "executors":
        return all(min(wish.least, size) <= len(at) <= min(wish.most, size) for (size, _), at in rows.items() if at)
    units = {key: set(positions_of(wish.unit, key[0], outline.units)) for key in rows}
    if wish.kind == "run":
        return all(units[key] <= set(at) for key, at in rows.items() if at)
    return all(not units[key] & set(at) for key, at in rows.items())


def wish_lines(outline, wishes, tables, kept):
    """A line for each wish: what it came to."""
    for wish in wishes.wishes:
        came_to = "kept" if is_kept(wish, outline, tables, kept) else "NOT KEPT"
        yield wish.name, came_to + (f", with {tables.subframes}" if wish.kind == "subframes" else more_of(wish, outline))
    for task in wishes.may_shed:
        sizes = [size for size in outline.sizes if task in tables.shed(size)]
        yield f"{outline.names[task]} may be shed", f"shed at {', '.join(map(str, sizes))}" if sizes else "not shed"


def more_of(wish, outline):
    """What a wish about a unit means for tables: the positions that the unit can have."""
    if wish.kind not in ("run", "not_run"):
        return ""
    at = [(size, positions_of(wish.unit, size, outline.units)) for size in wish.sizes]
    return "; it can have the position " + ", ".join(f"{''.join(map(str, positions))} at {size}" for size, positions in at)


# A campaign before and after.


def campaign_lines(before, after):
    """What the rows of two campaigns come to, side by side."""
    counts = {
        "runs": len,
        "with an output lost": lambda rows: sum(row.wrong > 0 for row in rows),
        "wrong words in all": lambda rows: sum(row.wrong for row in rows),
        "with the margin lost": lambda rows: sum(row.lost for row in rows),
        "a liar is never caught": lambda rows: sum(row.fate == "never caught" for row in rows),
        "of these with an output lost": lambda rows: sum(row.fate == "never caught" and row.wrong > 0 for row in rows),
        "a liar is caught by one": lambda rows: sum(row.fate == "caught by one" for row in rows),
    }
    yield f"{'':<30}{'before':>8}{'after':>8}"
    for name, count in counts.items():
        yield f"{name:<30}{count(before):>8,}{count(after):>8,}"
