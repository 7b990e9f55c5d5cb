"""What tools/place takes for a mission: by the program's answers as by the rules of the package, on every document of missions/ and
cases/, and where tables are broken in turn."""
import itertools
from pathlib import Path

import pytest

from sift import callers
from sift.documents.slots import FEWEST
from sift.placing import loading
from sift.placing.document import put, rows_of_mission
from sift.placing.loading import load_but_for_tables, refused_beside
from sift.placing.problem import Row
from sift.rules.loading import Refused

TOP = Path(__file__).resolve().parents[2]


def taken(raw):
    """What is refused of a document, or the line of its own tables and those of tables that stay, by the sizes that don't."""
    try:
        text, root, mission, line = load_but_for_tables(raw)
    except Refused as refused:
        return str(refused)
    sizes = range(FEWEST, mission.units + 1)
    some = itertools.chain.from_iterable(itertools.combinations(sizes, count) for count in range(1, min(3, len(sizes) + 1)))
    return line, {chosen: refused_beside(text, root, mission, chosen) for chosen in some}


@pytest.fixture
def both(caller, monkeypatch):
    """What is taken by the program, and by the rules alone."""

    def take(raw):
        monkeypatch.setattr(callers, "built", lambda: caller)
        by_program = taken(raw)
        monkeypatch.setattr(callers, "built", lambda: None)
        return by_program, taken(raw)

    return take


def test_documents_of_missions_and_cases(both, cases):
    documents = {path.read_bytes() for path in (TOP / "missions").glob("*.toml")} | {path.read_bytes() for path in (TOP / "cases" / "mistakes").glob("*.toml")}
    documents |= {given for words, given, _, _ in cases.values() if words[:1] in (["run"], ["check"]) and len(given) < 20_000}
    found = [both(raw) for raw in sorted(documents)]
    assert all(by_program == by_rules for by_program, by_rules in found)
    assert sum(isinstance(each, str) for each, _ in found) > 50 and sum(not isinstance(each, str) and each[0] is not None for each, _ in found) > 10


@pytest.mark.parametrize("fault", ["", '\n[[fault]]\nunit = 9\nfrom = 0\nsay = [{slot = "clock", to = "1"}]\n'])
def test_tables_that_are_broken(both, fault):
    """Each rule that rows can break, in each table, alone and beside a fault that is refused, which is tested behind the tables."""
    raw = (TOP / "missions" / "rudder.toml").read_bytes() + fault.encode()
    text, root, mission, _ = load_but_for_tables((TOP / "missions" / "rudder.toml").read_bytes())
    for size, row in itertools.product(range(FEWEST, mission.units + 1), range(len(mission.tasks))):
        for broken in (Row(3, 6, (0, 1, 2)), Row(4, 63, (0, 1, 2)), Row(4, 5, (0, 1, 2)), Row(5, 8, (0, 1)), Row(5, 8, (0, 1, 7)), Row(5, 8, (0, 2, 1)), Row(4, 6, (0, 1, 2))):
            tables = rows_of_mission(mission)
            tables.rows[size][row] = broken
            by_program, by_rules = both(put(text, root, tables).encode() + fault.encode())
            assert by_program == by_rules
            assert isinstance(by_program, str) == bool(fault)
    assert isinstance(both(raw)[0], str) == bool(fault)


def test_other_words_than_of_tables_are_no_tables():
    assert loading.is_of_table("table 4 row 0 rule 7") and not loading.is_of_table("task 0 kind 2 at 90")
