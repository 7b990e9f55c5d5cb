"""docs/mission.schema.json, on every document of missions/, cases/ and cases/mistakes/.

A document that the program accepts fits the schema. One that breaks a rule on keys and values doesn't, unless the fault
shows only where several values are compared, as a name that stands twice: no schema sees that. Each key has a description,
and is one of docs/sift-mission.5 and of the rules; each mission of missions/ names the schema. What is said of a mistake, which
an editor shows, doesn't speak of schemas. Values are held to the schema by the package python3-jsonschema.
"""
import json
from pathlib import Path

import pytest

from sift.documents import places
from sift.documents.mission import KEYS
from sift.rules.refusals import refusals
from sift.rules.scenario import SCENARIO_RULES

ROOT = json.loads(Path("docs/mission.schema.json").read_text())
OF_MISSIONS = ("run", "votes", "ideal", "check")


@pytest.fixture(scope="module")
def told():
    """What the schema says of a document's values."""
    jsonschema = pytest.importorskip("jsonschema", reason="python3-jsonschema isn't here")
    schema = jsonschema.Draft7Validator(ROOT)
    schema.check_schema(ROOT)
    return lambda raw: [error.message for error in schema.iter_errors(places.plain(places.read(raw)[1]))]


def test_documents_fit_as_the_program_accepts_them(told, cases):
    seen, faults = set(), []
    for name, (words, raw, status, _) in cases.items():
        if status in (2, 3, 11) or words[:1] == [] or words[0] not in OF_MISSIONS:
            continue
        messages, found = told(raw), next(iter(refusals(places.read(raw)[1])), None)
        faults += [f"{name}: what the schema says tells nothing: {message}" for message in messages if "valid under" in message or "False schema" in message]
        if status == 0 and messages:
            faults.append(f"{name} is accepted, and doesn't fit the schema")
        if status == 4 and not messages and not found.several:
            faults.append(f"{name} fits the schema, which should see that {found.why}")
        if status == 4 and messages:
            seen.add(int(found.line.split()[2]))
    assert not faults
    assert not set(range(1, len(SCENARIO_RULES) + 1)) - seen - {10, 11, 21}, "no document shows that the schema sees these rules"


@pytest.mark.parametrize(
    "old, new, message",
    [
        ("size = 4", "size = 6", "4 was expected"),
        ("unit = 1", "unit = 1\n[fault.storm]\nnumber = 1\nstrays = 1\n[[fault]]\nunit = 2", "'from' is a required property"),
        ("word = 0\n", "", "'word' is a required property"),
        ("linear = [1, 5]", 'linear = [1, 5]\ntext = "out 0 = 1;"', "'text' is not one of ['name', 'start', 'linear']"),
        ('at = ["012", "123"]', 'at = ["012", "123"]\nshed = []', "'shed' is not one of ['size', 'run', 'poll', 'at']"),
        ("start = [0, 8, -8, 5, -3]", "start = [0, 8, -8, 5]", "[0, 8, -8, 5] is too short"),
        ("skew = 20", "skew = 20.0", None),  # what it can't see: 20.0 is an integer to a schema
    ],
)
def test_what_it_says_of_tables_and_keys(told, old, new, message):
    mission = Path("missions/first_5_liar.toml").read_text()
    assert old in mission
    messages = told(mission.replace(old, new, 1).encode())
    assert message in messages if message else not messages


TABLES = {"the document": ROOT, "[[fault.say]]": ROOT["definitions"]["item"], "[fault.storm]": ROOT["definitions"]["storm"]}
TABLES.update({"[clock]" if name == "clock" else f"[[{name}]]": ROOT["definitions"][name] for name in ("clock", "sensor", "task", "table", "fault")})


@pytest.mark.parametrize("table", TABLES)
def test_each_key_is_there_and_described(table):
    properties = TABLES[table]["properties"]
    assert set(properties) == set(KEYS[table])
    for key, inner in properties.items():
        inner = ROOT["definitions"][key] if "$ref" in inner else inner
        assert inner.get("description", "").endswith("."), key


def test_each_key_has_a_paragraph_of_the_page_for_man():
    page = Path("docs/sift-mission.5").read_text().replace("\\-", "-")
    assert not [key for keys in KEYS.values() for key in keys if f"\n.B {key}\n" not in page]


@pytest.mark.parametrize("path", sorted(Path("missions").glob("*.toml")), ids=lambda path: path.stem)
def test_missions_name_the_schema(path):
    assert "#:schema ../docs/mission.schema.json\n" in path.read_text()
