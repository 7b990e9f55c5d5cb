"""The C reader of reports against Python's: of each report that it takes it tells the same, and it takes each one of its schedule."""
import random
import re
import shutil
import struct
import subprocess
from pathlib import Path

from hypothesis import given, settings, strategies as st
import pytest

import sift
from sift import callers, where
from sift.campaigns.faults import ALL, Fault, Schedule, outline_of
from sift.campaigns.outcomes import outcome_of
from sift.campaigns.reader import FAULT, NONE, OUTCOME, Reader, members_of, reader_beside
from sift.documents import places
from sift.documents.mission import Mission
from sift.random_faults import Drawn
from sift.reports.reading import NoReport, read_ideal, read_report

TOP = Path(__file__).resolve().parents[2]
FLOWN = ("first_5_liar", "two_faults_in_turn", "shed_display", "two_catchers", "past_the_margin", "count")
pytestmark = pytest.mark.skipif(not shutil.which("gcc"), reason="there is no gcc, which builds the reader")


@pytest.fixture(scope="module")
def built(tmp_path_factory):
    """The reader, and the program that reads by it with gcc's looking for what C leaves undefined, and for bytes beyond a room."""
    folder = tmp_path_factory.mktemp("reader")
    plain = ["gcc", "-std=c11", "-O2", "-Wall", "-Wextra", "-Wpedantic", "-Wconversion", "-Wshadow", "-Werror"]
    subprocess.run([*plain, "-fPIC", "-shared", "-o", folder / "reader.so", TOP / "tools" / "lib" / "reader.c"], check=True)
    watched = [*plain, "-g", "-fsanitize=address,undefined", "-fno-sanitize-recover=all"]
    subprocess.run([*watched, "-o", folder / "reader", TOP / "python" / "tests" / "reader.c"], check=True)
    return folder


def schedule_of(document, ideal):
    """The schedule of a document, whose ideal machine has these words."""
    return Schedule(outline_of(Mission(places.read(document)[1])), read_ideal(ideal))


def stored(name):
    """The schedule of a mission of `missions/`, and its report. For the ideal machine's words stand those of the report's lowest unit;
    some of them are turned over, so that there are words that are wrong."""
    report = (TOP / "missions" / f"{name}.report").read_text()
    outs = {}
    for line in report.splitlines()[:-1]:
        outs.setdefault(line.split(" ")[0], []).extend(re.findall(" out=([^ ]*)", line))
    some = next(filter(None, outs.values()))
    due = [(told or some)[0] for told in outs.values()]
    due[3::4] = [words[::-1] for words in due[3::4]]
    ideal = "".join(f"f={frame} out={words}\n" for frame, words in enumerate(due)) + f"end frames={len(due)}\n"
    return schedule_of((TOP / "missions" / f"{name}.toml").read_bytes(), ideal), report


def asked_of(schedule):
    """Faults of each unit: in all slots, and in one that it says, from several frames on."""
    frames = len(schedule.ideal)
    for unit in schedule.units:
        own = schedule.slots_of(unit)
        for place, begin in enumerate(sorted({0, 1, frames // 2, frames - 1, frames})):
            yield Fault(unit, ALL, "silence", begin)
            yield Fault(unit, own[(unit + place) % len(own)], "wrong", begin)


def by_python(faults, report, schedule):
    """What Python finds in a report, or None where it is no whole one of the schedule."""
    try:
        text = report.decode("ascii")
        flight = read_report(text)
    except (NoReport, UnicodeDecodeError):
        return None
    words = {len(schedule.outputs)}
    if "\r" in text or len(flight.frames) != len(schedule.ideal) or not all({len(vote) for vote in frame.votes} <= words for frame in flight.frames):
        return None
    return outcome_of(faults, flight, text.rstrip("\n").rsplit("\n", 1)[-1], schedule)


def watched(built, schedule, asked):
    """What the watched program answers to reports, each with its faults: the outcomes, or None where it takes none."""
    reader = Reader(built / "reader.so", schedule)
    due = reader.due.raw[:-1]
    given = reader.known.raw[:-1] + struct.pack("=Q", len(due)) + due
    for faults, report in asked:
        room = b"".join(struct.pack("=2Q", fault.unit, fault.begin).ljust(FAULT.size, b"\0") for fault in faults)
        given += struct.pack("=2Q", len(faults), len(report)) + room + report
    done = subprocess.run([built / "reader"], input=given, capture_output=True, check=False)
    assert (done.returncode, done.stderr) == (0, b"")
    at = 0
    for faults, report in asked:
        size = 8 + FAULT.size * len(faults) + OUTCOME.size
        yield reader.told(faults, report, done.stdout[at + 8 : at + size]) if done.stdout[at] else None
        at += size
    assert at == len(done.stdout)


@pytest.mark.parametrize("name", sorted(path.stem for path in (TOP / "missions").glob("*.report")))
def test_stored_reports(built, name):
    schedule, report = stored(name)
    raw, faults = report.encode(), list(asked_of(schedule))
    wanted = by_python(faults, raw, schedule)
    assert wanted and (wanted.wrong or len(schedule.ideal) < 4)
    assert Reader(built / "reader.so", schedule).outcome_of(faults, raw) == wanted
    assert list(watched(built, schedule, [(faults, raw), ((), raw), (faults[:1], raw[:-1])])) == [wanted, wanted._replace(traces=()), None]


def test_each_mission_and_case(built, cases, caller):
    """All that are flown with one worker's words or none, in both versions of the report."""
    known = 0
    for words, given, status, text in cases.values():
        if words[:1] != ["run"] or status:
            continue
        ideal = caller.answer(["ideal"], given)
        assert ideal.status == 0
        schedule = schedule_of(given, ideal.text.decode())
        faults = list(asked_of(schedule))
        wanted = by_python(faults, text, schedule)
        assert wanted and Reader(built / "reader.so", schedule).outcome_of(faults, text) == wanted, given.decode()
        known += 1
    assert known > 100


@pytest.mark.parametrize("name", ["first_5_liar", "shed_display", "pitch"])
def test_drawn_flights(built, name, caller):
    """Flights with drawn faults, several of a unit and storms too."""
    document = (TOP / "missions" / f"{name}.toml").read_bytes()
    bare = sift.Mission(document.decode())
    bare.clear("fault")
    schedule = schedule_of(document, caller.answer(["ideal"], document).text.decode())
    drawn = Drawn(schedule, 60, 3)
    asked = []
    for faults in drawn:
        mission = bare.copy()
        mission.data["fault"] = schedule.tables_of(faults)
        asked.append((faults, caller.answer(["run", "--workers", "1"], mission.text.encode()).text))
    wanted = [by_python(*each, schedule) for each in asked]
    assert None not in wanted
    reader = Reader(built / "reader.so", schedule)
    assert [reader.outcome_of(*each) for each in asked] == wanted
    assert list(watched(built, schedule, asked)) == wanted


# What is no report, or another one.

SCHEDULES = {name: stored(name) for name in FLOWN}
PIECES = "0 1 7 8 9 a f g - , = \n \r \0 u= f= cfg= clk= clk=- in= out= bad= bad=- 01 012 0p 1prc 2r,3c margin=ok margin=lost skew=- faulty\n idle\n end é".split(" ")


@st.composite
def changed(draw, name):
    """A report with a few changes, of some bytes or of some lines, and a fault that is asked for."""
    schedule, report = SCHEDULES[name]
    for _ in range(draw(st.integers(0, 3))):
        begin = draw(st.integers(0, len(report)))
        end = min(len(report), begin + draw(st.integers(0, 5)))
        if draw(st.booleans()):
            lines = report.splitlines(keepends=True)
            taken, place = draw(st.integers(0, max(0, len(lines) - 1))), draw(st.integers(0, len(lines)))
            lines[place : place + draw(st.integers(0, 1))] = lines[taken : taken + 1]
            report = "".join(lines)
        else:
            report = report[:begin] + draw(st.sampled_from(PIECES)) + report[end:]
    return (Fault(draw(st.integers(0, 7)), ALL, "silence", draw(st.integers(0, len(schedule.ideal) + 1))),), report.encode()


@pytest.mark.parametrize("name", FLOWN)
@settings(max_examples=20)
@given(st.data())
def test_changed_reports(built, name, data):
    """It takes a report just where Python takes it as one of the schedule, and tells the same."""
    schedule, asked = SCHEDULES[name][0], data.draw(st.lists(changed(name), min_size=10, max_size=20))
    wanted = [by_python(*each, schedule) for each in asked]
    reader = Reader(built / "reader.so", schedule)
    assert [reader.outcome_of(*each) for each in asked] == wanted
    assert list(watched(built, schedule, asked)) == wanted


def test_each_byte(built):
    """Each byte of a report in turn another one, or gone, and each front of it."""
    schedule, report = SCHEDULES["first_5_liar"]
    raw, faults = report.encode(), (Fault(1, ALL, "silence", 2),)
    others = random.Random(5)
    changed = [raw[:at] for at in range(0, len(raw), 3)] + [raw[:at] + raw[at + 1 :] for at in range(1, len(raw), 3)]
    changed += [raw[:at] + bytes([others.choice(b"0123456789abcdfprs-,= \n\0\xff")]) + raw[at + 1 :] for at in range(len(raw))]
    asked = [(faults, each) for each in changed]
    wanted = [by_python(*each, schedule) for each in asked]
    assert sum(each is not None for each in wanted) > 50
    reader = Reader(built / "reader.so", schedule)
    assert [reader.outcome_of(*each) for each in asked] == wanted
    assert list(watched(built, schedule, asked)) == wanted


# Where it is asked.


def test_units_and_words_that_arent_there(built):
    schedule, report = SCHEDULES["first_5_liar"]
    assert Reader(built / "reader.so", schedule).outcome_of((Fault(8, ALL, "silence", 0),), report.encode()) is None
    wide = Schedule({"units": 4, "skew": 0, "sensors": [], "tasks": [["a", 65]], "executors": {}}, [(0,) * 65])
    assert reader_beside(str(built / "libsift.so"), wide) is None
    assert Reader(built / "reader.so", wide).outcome_of((), report.encode()) is None
    assert members_of(5, 1 << 63) == (0, 2, 127) and NONE == 2**64 - 1


def test_what_is_no_reader_isnt_asked(tmp_path):
    schedule = SCHEDULES["first_5_liar"][0]
    assert reader_beside(str(tmp_path / "libsift.so"), schedule) is None
    (tmp_path / "reader.so").write_text("none")
    assert reader_beside(str(tmp_path / "libsift.so"), schedule) is None


@pytest.mark.skipif(not where.library(), reason="the library isn't built")
@pytest.mark.parametrize("words", [{"pairs": True, "single": True, "limit": 300}, {"random": 300, "number": 5}])
@pytest.mark.parametrize("name", ["pitch", "shed_display"])
def test_rows_are_the_same_without_it(built, name, words, tmp_path, monkeypatch):
    """A campaign by both, whose rows are compared byte by byte."""
    shutil.copy(where.library(), tmp_path / "libsift.so")
    monkeypatch.setenv("SIFT_LIBRARY", str(tmp_path / "libsift.so"))
    tables = []
    for folder in ("without", "with"):
        flown = sift.Campaign.fly(TOP / "missions" / f"{name}.toml", tmp_path / folder, **words)
        tables.append(Path(flown.table).read_bytes())
        assert (next((tmp_path / folder).glob("sift-campaign-*")) / "reader.so").exists() == (folder == "with")
        shutil.copy(built / "reader.so", tmp_path)
    assert tables[0] == tables[1]
