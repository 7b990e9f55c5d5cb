"""The rules of missions, over a document with places: what a document breaks, where, and why.

They are written once more from docs/, beside the proved program, which alone decides what is refused: tools/explain takes
the program's line, and finds here the place that it speaks of. `python/tests/test_explain.py` compares both on every
document of cases/.
"""
from sift.documents.mission import Mission
from sift.rules.scenario import broken_rules, later_rules
from sift.rules.script import broken_scripts
from sift.rules.tables import broken_tables
from sift.rules.tasks import refused_tasks

STEPS = (broken_rules, refused_tasks, broken_tables, broken_scripts)


def refusals(root, steps=STEPS):
    """What a document breaks, in the order in which the program tests: the first is what it answers.

    Each step is only looked at where the steps before it find nothing.
    """
    mission = Mission(root)
    for step in steps:
        found = list(step(mission))
        if found:
            return found
    return []


def others(root, first):
    """What else a document breaks than what it is refused for, as far as that can be told, at other places.

    The program doesn't tell it: it answers the first refusal alone. Each step and each rule is looked at where nothing that it
    rests on is broken; some of what is found may be gone with the first.
    """
    mission = Mission(root)
    scenario = list(broken_rules(mission))
    if scenario:
        found = [*scenario, *later_rules(mission, int(scenario[0].line.split()[2]))]
    else:
        tasks = list(refused_tasks(mission))
        found = [*tasks, *([] if tasks else broken_tables(mission)), *broken_scripts(mission)]
    at_place = {}
    for broken in found:
        at_place.setdefault(broken.start, broken)
    return [broken for broken in at_place.values() if broken.start != first.start]
