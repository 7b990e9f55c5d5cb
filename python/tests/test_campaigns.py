"""What campaigns count: shares, spread numbers, faults as they happen, faults that are drawn, findings, comparisons and journals."""
import json
import math
import subprocess
import xml.etree.ElementTree
from pathlib import Path

import pytest
from hypothesis import given, settings
from hypothesis import strategies as some

from sift.campaigns import journal
from sift.campaigns.building import json_of, junit_of
from sift.campaigns.comparison import compared
from sift.campaigns.faults import Fault, Faults, Schedule, Slot, outline_of, told_of
from sift.campaigns.findings import Finding, finding_of, plain, requirement_of
from sift.campaigns.quick import read_quickly
from sift.campaigns.requirements import NoRequirements, read_requirements
from sift.campaigns.rows import NoRows, Row, read_rows, rows_of
from sift.campaigns.shares import interval, percent
from sift.campaigns.spread import GOLDEN, Spread
from sift.campaigns.summary import Summary
from sift.documents.printing import faults_text
from sift.documents.slots import ALL_KINDS, HAPPENING
from sift.random_faults import Drawn
from sift.reports.reading import read_ideal, read_report
from sift.rules.loading import load

TOP = Path(__file__).resolve().parents[2]
SWEEPS = TOP / "cases" / "sweeps"
PROGRAM = TOP / "out" / "sift"
wants_program = pytest.mark.skipif(not PROGRAM.exists(), reason="the program isn't built")


def mission_of(name):
    return load((TOP / "missions" / f"{name}.toml").read_bytes())[2]


def schedule_of(name="first_5_liar"):
    """The schedule of a mission whose ideal words are stored."""
    return Schedule(outline_of(mission_of(name)), read_ideal((SWEEPS / f"{name}.ideal").read_text()))


# Shares.


def test_an_interval_is_the_one_that_scipy_has():
    stats = pytest.importorskip("scipy.stats")
    for of in (1, 2, 10, 137, 1000, 10**6):
        for part in {0, 1, of // 3, of - 1, of}:
            wanted = stats.binomtest(part, of).proportion_ci(method="wilson")
            low, high = interval(part, of)
            assert math.isclose(low, wanted.low, abs_tol=1e-12) and math.isclose(high, wanted.high, abs_tol=1e-12)


def test_intervals_at_their_ends():
    assert interval(0, 0) == (0.0, 1.0)
    assert interval(0, 10)[0] == 0.0 and interval(10, 10)[1] == 1.0
    assert percent(0.0001234) == "0.0123%"
    for part, of in ((-1, 3), (4, 3)):
        with pytest.raises(ValueError):
            interval(part, of)


# Numbers that are spread.


@given(some.data())
def test_spread_numbers_are_the_sorted_residues(data):
    count = data.draw(some.integers(2, 400))
    limit = data.draw(some.integers(1, count - 1))
    step = next(step for step in range(int(count * GOLDEN), count) if math.gcd(step, count) == 1)
    wanted = sorted(place * step % count + 1 for place in range(limit))
    spread = Spread(count, limit)
    begin, end = sorted(data.draw(some.lists(some.integers(0, limit), min_size=2, max_size=2)))
    assert list(spread) == wanted
    assert spread[begin:end] == wanted[begin:end]
    assert spread[-1] == wanted[-1]


def test_many_spread_numbers_are_found_one_by_one():
    spread = Spread(10**12, 10**7)
    part = spread[5 * 10**6 : 5 * 10**6 + 1000]
    assert part == sorted(set(part)) and part[500] == spread[5 * 10**6 + 500]


# Faults as they happen.


def words_of(fault, name="first_5_liar"):
    """What a fault says, as frames and words."""
    return [(item.get("frame"), item.get("value")) for item in schedule_of(name).table(fault)["say"]]


IDEAL = [(105, 10), (110, 12), (115, -6), (120, 40), (125, 42), (130, 24)]  # of first_5_liar: target.0 and elevator.0
TARGET, PITCH = Slot("out", 0, 0, "target.0"), Slot("sense", 0, None, "pitch")


def test_what_is_said_is_made_of_the_right_words():
    right = [words[0] for words in schedule_of().ideal]
    assert [frame for frame, _ in words_of(Fault(0, TARGET, "flip", 0, 1))][-1] is None
    said = dict(words_of(Fault(0, TARGET, "flip", 0, 1)))
    assert [said.get(frame, said[None]) for frame in range(6)] == [word ^ 2 for word in right]
    said = dict(words_of(Fault(0, TARGET, "offset", 2, -7)))
    assert [said.get(frame, said[None]) for frame in range(2, 6)] == [word - 7 for word in right[2:]]
    said = dict(words_of(Fault(0, TARGET, "drift", 3, 4)))
    assert [said.get(frame, said[None]) for frame in range(3, 6)] == [right[3] + 4, right[4] + 8, right[5] + 12]
    assert words_of(Fault(0, TARGET, "stuck", 1)) == [(None, right[1])]
    assert words_of(Fault(0, TARGET, "intermittent", 1)) == [(1, 999), (3, 999), (5, 999)]
    assert words_of(Fault(0, TARGET, "wrong", 1, 7)) == [(None, 7)]


def test_a_fault_that_lasts_some_frames_ends():
    assert words_of(Fault(0, PITCH, "flip", 1, 15, None, 2)) == [(1, 104 ^ 32768), (2, 118 ^ 32768)]
    assert words_of(Fault(0, PITCH, "silence", 4, None, (1, 2), 9)) == [(4, None), (5, None)]


def test_a_fault_lasts_as_long_as_its_items():
    long = Schedule(outline_of(mission_of("first_5_liar")), [(frame, frame % 3) for frame in range(300)])
    told = long.lasting(Fault(0, TARGET, "flip", 10, 15))
    assert str(told) == "unit 0 out target.0 flip 15 from 10 for 64"
    assert len(long.table(told)["say"]) == 64
    # A word that is mostly the same needs an item for each frame in which it is another one, and one for all others.
    few = Schedule(outline_of(mission_of("first_5_liar")), [(5 if frame % 10 else 6, 0) for frame in range(300)])
    told = few.lasting(Fault(0, TARGET, "flip", 10, 0))
    assert told.frames is None and len(few.table(told)["say"]) == 30
    assert long.lasting(Fault(0, TARGET, "intermittent", 0)).frames == 127
    assert long.lasting(Fault(0, PITCH, "two-faces", 0, None, (1, 2, 3), 100)).frames == 32


@given(some.integers(0, 7), some.sampled_from(ALL_KINDS), some.integers(0, 999), some.none() | some.integers(-32768, 65535), some.none() | some.integers(1, 1000))
def test_a_fault_is_read_back_from_its_row(unit, kind, begin, value, frames):
    for slot in (Slot("clock"), PITCH, Slot("out", 0, 0, "to.0"), Slot("sense", 0, None, "wrong"), Slot("relay-report", 3, None, "3")):
        for to in (None, (0, 2)):
            told = told_of(str(Fault(unit, slot, kind, begin, value, to, frames)))
            way = kind if value is None or to else f"{kind} {value}"
            assert told == (str(unit), str(slot), way, begin, to is not None)


def test_faults_are_numbered_as_they_are_listed():
    schedule = schedule_of()
    faults = Faults(schedule, ["wrong", "flip"], [0, 3], True, True, [1, 2])
    assert len({tuple(map(str, faults[number])) for number in range(len(faults))}) == len(faults)
    kept = Faults(schedule, ["wrong"], [0], True, True, None, {1, 2})
    assert {fault.unit for number in range(len(kept)) for fault in kept[number]} == {0, 3, 4}
    with pytest.raises(IndexError):
        faults[len(faults)]


# Faults that are drawn.


DRAWN = [
    "unit 1 relay pitch drift 10 to 0234 from 4 for 2 + "
    "unit 1 out target.0 drift 1 to 0234 from 4 for 2 + "
    "unit 2 out target.0 flip 3 to 01 from 4 + "
    "unit 3 relay-report 0 intermittent -18728 to 124 from 2 + "
    "unit 4 out elevator.0 stuck to 13 from 5",
    "unit 2 cells storm 38137 from 2",
    "unit 1 sense pitch drift -9625 to 03 from 5 for 1 + "
    "unit 1 relay pitch drift 19618 to 024 from 5 for 1 + "
    "unit 1 out target.0 drift 14 to 234 from 5 for 1 + "
    "unit 1 out elevator.0 drift 15652 to 0 from 5 for 1 + "
    "unit 2 relay pitch offset 14843 to 0134 from 3 for 3 + "
    "unit 2 out target.0 offset 19659 to 0134 from 3 for 3 + "
    "unit 2 out elevator.0 offset -12073 to 0134 from 3 for 3 + "
    "unit 3 relay pitch offset 1962 to 014 from 1 for 3 + "
    "unit 3 out target.0 offset 3 to 014 from 1 for 3 + "
    "unit 3 out elevator.0 offset 14661 to 0 from 1 for 3",
]


def test_a_number_gives_the_same_faults_everywhere():
    drawn = Drawn(schedule_of(), 3, 7)
    assert [" + ".join(map(str, drawn[run])) for run in range(3)] == DRAWN
    assert [Drawn(schedule_of(), 100, 7)[run] for run in range(3)] == list(drawn)
    assert Drawn(schedule_of(), 3, 8)[0] != drawn[0]


def test_drawn_faults_are_of_all_kinds_and_leave_one_unit():
    drawn = list(Drawn(schedule_of(), 500, 1))
    assert {fault.kind for faults in drawn for fault in faults} == {*ALL_KINDS, "storm"}
    assert {len({fault.unit for fault in faults}) for faults in drawn} == {1, 2, 3, 4}
    assert all(told_of(str(fault)).drawn for faults in drawn for fault in faults)
    kept = list(Drawn(schedule_of(), 200, 1, left_out={0, 1, 2}))
    assert {tuple({fault.unit for fault in faults}) for faults in kept} == {(3,), (4,)}


def test_units_fail_by_their_rate():
    schedule = Schedule(outline_of(mission_of("first_5_liar")), [(0, 0)] * 100)
    drawn = list(Drawn(schedule, 2000, 3, rate=0.01))
    share = sum(not faults for faults in drawn) / 2000
    low, high = interval(round(share * 2000), 2000, 0.9999)
    assert low <= math.exp(-5 * 100 * 0.01) <= high  # five units, a hundred frames each
    assert list(Drawn(schedule, 50, 3, rate=0.0)) == [()] * 50


@wants_program
@pytest.mark.parametrize("name", ["first_5_liar", "placed_reader", "two_faults_in_turn"])
def test_the_program_takes_what_is_made_and_drawn(name):
    schedule = schedule_of(name)
    base = (TOP / "missions" / f"{name}.toml").read_text().split("[[fault]]")[0]
    listed = Faults(schedule, list(HAPPENING), [0, 2], True, False, [0, 7, 15])
    drawn = Drawn(schedule, 60, 5)
    for faults in [*(listed[number] for number in range(0, len(listed), 7)), *drawn]:
        document = base + faults_text(schedule.tables_of(faults))
        done = subprocess.run([str(PROGRAM), "check"], input=document, capture_output=True, text=True, check=False)
        assert done.stdout == "ok\n", f"{' + '.join(map(str, faults))}: {done.stdout}"


# What outputs must do.

GOOD = """
[[require]]
word = "target.0"
within = 3
but_for = 1

[[require]]
word = "elevator.0"
least = -5

[[require]]
word = "target.0"
step = 5

[[require]]
word = "target.0"
is = 120
after = "pitch"
above = 110
frames = 1
"""


def requirements(text=GOOD):
    return read_requirements(text.encode(), ["target.0", "elevator.0"], ["pitch"])


def test_requirements_are_read():
    assert [str(each) for each in requirements()] == [
        "target.0 within 3 but for 1 frame",
        "elevator.0 at least -5",
        "target.0 changes by at most 5",
        "target.0 is 120 within 1 frame after pitch is above 110",
    ]
    assert [requirement_of(json.loads(json.dumps(plain(each)))) for each in requirements()] == requirements()


def refused(text):
    with pytest.raises(NoRequirements) as fault:
        requirements(text)
    return fault.value.told("f").splitlines()[0]


@pytest.mark.parametrize("line", (TOP / "cases" / "requirements.txt").read_text().rstrip("\n").split("\n\n"))
def test_a_bad_file_is_refused_at_its_place(line):
    wanted, _, text = line.partition("\n")
    assert refused(text) == wanted


def findings(flight, text=GOOD):
    return [each.find(flight, schedule_of()) for each in requirements(text)]


def stored_report(change=lambda line: line):
    """The report of first_5_liar with its lines changed."""
    text = (TOP / "missions" / "first_5_liar.report").read_text()
    return read_report("".join(map(change, text.splitlines(keepends=True))))


def test_what_is_found_in_a_flight():
    # The pitch is 118 in the frames 2 and 5; that of frame 5 the flight is too short for.
    assert [tuple(word - 65536 * (word > 32767) for word in words) for words in schedule_of().ideal] == IDEAL
    assert findings(stored_report()) == [
        Finding(False, 0, 0, None),
        Finding(True, 1, 1, 2),
        Finding(False, 5, 0, None),
        Finding(False, 1, 0, None),
    ]


def test_each_kind_is_broken_by_its_own_words():
    # Unit 3 votes 129 in place of 120 on target.0 in frame 3.
    changed = stored_report(lambda line: line.replace("out=0078,", "out=0081,") if line.startswith("f=3 u=3 ") else line)
    within, least, step, after = findings(changed)
    assert within == Finding(False, 9, 1, 3)  # in one frame it may
    assert step == Finding(True, 14, 1, 3)  # from 115 to 129
    assert after == Finding(True, 4, 3, 4)  # no frame has all units on 120: of the frames 2 to 5 three are too many
    strict = GOOD.replace("but_for = 1\n", "")
    assert findings(changed, strict)[0] == Finding(True, 9, 1, 3)


@given(some.booleans(), some.integers(0, 65535), some.integers(0, 1000), some.none() | some.integers(0, 999))
def test_a_finding_is_read_back(broken, largest, frames, first):
    finding = Finding(broken, largest, frames, first)
    assert finding_of(str(finding)) == finding


# Rows, summaries and comparisons.

STORED = [(SWEEPS / f"{name}.tsv").read_text() for name in ("first_5_liar", "placed_reader", "two_faults_in_turn")]


def test_a_summary_needs_no_order():
    for text in STORED:
        rows = rows_of(text)
        told = []
        for order in (rows, rows[::-1]):
            summary = Summary()
            for row in order:
                summary.add(row)
            told.append(list(summary.lines()))
        assert told[0] == told[1]


def test_a_campaign_is_compared_with_a_mended_one():
    before, after = rows_of(STORED[0]), rows_of(STORED[1])
    comparison = compared(iter(before), iter(after))
    assert comparison.headline() == "129 runs in both campaigns: 0 got worse, 3 better, 126 stayed; 3 are before alone; 3 are after alone"
    assert [line.split("  ")[-1] for line in comparison.lines() if "sense pitch" in line] == [
        f"unit 0 sense pitch {way} from 0" for way in ("wrong", "silence", "two-faces")
    ]
    back = compared(iter(after), iter(before))
    assert (back.counts["worse"], back.counts["better"]) == (3, 0)
    same = compared(iter(before), reversed(before))
    assert same.counts == {"same": len(before)}


@pytest.mark.parametrize("text", ["", "row\tfault\n", STORED[0].replace("\tok\t", "\tmaybe\t", 1), STORED[0] + "1\t2\n", STORED[0].replace(" wrong from", " lie from", 1)])
def test_what_is_no_table_is_refused(text):
    with pytest.raises(NoRows):
        list(read_rows(text.splitlines()))


def test_a_run_without_a_fault_has_a_row():
    row = Row("1\tnone\t-\t-\t-\t-\tok\t0\t-\t-\tyes\tend frames=6 cfg=01234 margin=ok\t-")
    assert (row.faults, row.fate, row.lasting, row.is_failure()) == ([], "inert", 0, False)


def test_what_a_build_reads(tmp_path):
    class Told:
        options = {"mission": "a<b>&\".toml"}

    table = tmp_path / "runs.tsv"
    table.write_text(STORED[0])
    summary = Summary()
    for row in rows_of(STORED[0]):
        summary.add(row)
    told = json.loads("".join(json_of(Told, summary, table)))
    assert (told["runs"], told["failures"], told["outputs_lost"], len(told["rows"])) == (132, 3, 3, 132)
    assert [row["row"] for row in told["rows"] if row["failed"]] == [4, 5, 6]
    suite = xml.etree.ElementTree.fromstring("".join(junit_of(Told, summary, table)))[0]
    assert (suite.attrib["tests"], suite.attrib["failures"], len(suite)) == ("132", "3", 132)
    failed = [case for case in suite if len(case)]
    assert [case.attrib["name"].split(":")[0] for case in failed] == ["row 4", "row 5", "row 6"]
    assert failed[0][0].attrib["message"] == "6 wrong words of elevator.0 from frame 0 on"


# What jobs write.


@settings(max_examples=200)
@given(some.lists(some.tuples(some.integers(1, 9), some.lists(some.text("ab\t", min_size=1, max_size=5), min_size=1, max_size=4)), max_size=6), some.data())
def test_whole_batches_are_found_in_what_is_cut_off(entries, data):
    texts = [journal.entry(batch, rows, 1.5) for batch, rows in entries]
    whole = "".join(texts)
    cut = data.draw(some.integers(0, len(whole)))
    path = Path(data.draw(some.just("/dev/shm/sift-journal" if Path("/dev/shm").is_dir() else "sift-journal")))
    try:
        path.write_text(whole[:cut] + "\n" + whole[cut:] if data.draw(some.booleans()) else whole[:cut])
        found = journal.places_in(path)
        kept = [batch for (batch, _), end in zip(entries, ends(texts)) if end <= cut]
        assert set(kept) <= set(found) <= {batch for batch, _ in entries}
        for batch, place in found.items():
            with path.open() as file:
                file.seek(place.begin)
                rows = [file.readline().rstrip("\n") for _ in range(place.rows)]
            assert (batch, rows) in entries
    finally:
        path.unlink()


def ends(texts):
    """Where each of some texts ends in all of them."""
    end = 0
    for text in texts:
        end += len(text)
        yield end


# Reports that are read at a glance.


@pytest.mark.parametrize("path", sorted((TOP / "missions").glob("*.report")), ids=lambda path: path.stem)
def test_a_report_read_at_a_glance_tells_the_same(path):
    text = path.read_text()
    whole, quick = read_report(text), read_quickly(text.encode())
    assert (quick.configurations(), quick.margin, quick.last) == (whole.configurations(), whole.margin, whole.last)
    assert quick.end == text.splitlines()[-1] and len(quick.frames) == len(whole.frames)
    for one, other in zip(quick.frames, whole.frames):
        assert (one.votes, one.outputs, one.configurations) == (other.votes, other.outputs, other.configurations)
    for unit in range(8):
        assert all(quick.first_catch(unit, begin) == whole.first_catch(unit, begin) for begin in range(len(whole.frames)))
    # Held against the words of each unit in turn, some of which are other ones than those of the others.
    for unit in range(whole.units):
        ideal = [frame.outputs[unit] or next(iter(frame.votes), ()) for frame in whole.frames]
        schedule = Schedule({"units": whole.units, **dict.fromkeys(("skew", "start")), "sensors": [], "tasks": [], "executors": {}}, ideal)
        assert quick.other_votes(schedule) == whole.other_votes(schedule)


def test_no_faults_have_no_text():
    assert faults_text([]) == ""
