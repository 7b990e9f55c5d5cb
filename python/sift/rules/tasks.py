"""The rules on the texts of tasks and their code, the kinds 1 to 7: docs/tasks.md has them."""
from sift.documents import texts
from sift.documents.mission import Broken


def refused_tasks(mission):
    """The tasks that are refused, up to the first that takes too many steps."""
    steps = 0
    for number, task in enumerate(mission.tasks):
        try:
            statements = mission.statements(number)
        except texts.RefusedText as refused:
            text = task.get("text")
            line = f"task {number} kind {refused.kind} at {refused.place}"
            start, end = text.place_of_byte(refused.place), text.place_of_byte(refused.end)
            yield Broken(line, start, end, refused.why, refused.mend)
            continue
        size = texts.size_of(statements)
        if size.length > texts.LONGEST_CODE:
            yield too_long(mission, number, statements, size)
            continue
        if size.steps > texts.MOST_STEPS - steps:
            yield too_many_steps(mission, number, statements, size, steps)
            return
        steps += size.steps


def too_long(mission, number, statements, size):
    """Why the code of a task is too long."""
    work = mission.tasks[number].get("text")
    why = f"the code of task {number} has {size.length:,} instructions, and at most {texts.LONGEST_CODE:,} can be"
    return Broken(f"task {number} kind 6 at {size.length}", work.start, work.end, why, "`repeat`, or a second task")


def too_many_steps(mission, number, statements, size, before):
    """Why a task may take too many steps; the place is the `repeat` that costs most."""
    task = mission.tasks[number]
    work = task.get("text") or task.get("linear")
    start, end = work.start, work.end
    loops = [part for part in texts.parts_of(statements) if isinstance(part, texts.Repeat)]
    if loops:
        loop = max(loops, key=lambda part: texts.size_of(part).steps)
        start, end = work.place_of_byte(loop.place), work.place_of_byte(loop.end)
    bound = min(size.steps, texts.COUNTED_STEPS)
    left = texts.MOST_STEPS - before
    taken = f", of which the tasks before it leave {left:,}" if before else ""
    all_have = f"all tasks together have {texts.MOST_STEPS:,}{taken}"
    why = f"task {number} may take {size.steps:,} steps in a frame, and {all_have}"
    return Broken(f"task {number} kind 7 at {bound}", start, end, why, "fewer rounds")
