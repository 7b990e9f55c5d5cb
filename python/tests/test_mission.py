"""Missions as values: what isn't changed stays as it is, and what is changed is read back, with tomlkit and without."""
import sys
from pathlib import Path

import pytest
from hypothesis import HealthCheck, given, settings, strategies

import sift
from sift.mission import Mission, NoSuchName, digits_of

MISSIONS = sorted(Path("missions").glob("*.toml"))
LIAR = Path("missions/first_5_liar.toml")


@pytest.fixture(params=["tomlkit", "plain"], autouse=True)
def kit(request, monkeypatch):
    """Documents are held by tomlkit, and by nothing but Python's own values."""
    if request.param == "plain":
        monkeypatch.setitem(sys.modules, "tomlkit", None)
    else:
        pytest.importorskip("tomlkit")
    return request.param


@pytest.mark.parametrize("path", MISSIONS, ids=lambda path: path.stem)
def test_what_is_not_changed_stays(path, tmp_path):
    mission = Mission.read(path)
    mission.frames += 1
    mission.frames -= 1
    mission.write(tmp_path / "again.toml")
    assert (tmp_path / "again.toml").read_bytes() == path.read_bytes()


def test_comments_stay_where_tomlkit_is(kit):
    mission = Mission.read(LIAR)
    mission.frames = 9
    assert (mission.text == LIAR.read_text().replace("frames = 6", "frames = 9")) == (kit == "tomlkit")


def test_names_in_place_of_numbers(caller):
    mission = Mission.read(LIAR)
    mission.clear("fault")
    mission.add_fault(2, begin=3).say("out elevator.0", 7).say("clock", to=[1, 0]).say("sense pitch", frame=4).say("relay-report 4", 1)
    mission.add_fault(4, begin=1).say("report", 2, to="03").say("relay pitch", 5)
    assert mission.faults[0].items == [
        {"slot": "out", "index": 1, "word": 0, "to": "0134", "value": 7},
        {"slot": "clock", "to": "01"},
        {"slot": "sense", "index": 0, "to": "0134", "frame": 4},
        {"slot": "relay-report", "index": 4, "to": "013", "value": 1},
    ]
    assert mission.faults[1].items[1] == {"slot": "relay", "index": 0, "to": "0123", "value": 5}
    mission.table(4).shed = ["elevator"]
    assert (mission.version, mission.table(4).shed, mission.table(4)["elevator"], mission.table(5)["target"]) == (2, ["elevator"], (0, 0, ""), (4, 6, "012"))
    mission.table(5)["target"] = 4, 6, [3, 2, 1]
    assert sift.check(mission.copy()).table(5)["target"] == (4, 6, "123")
    mission.table(4).shed = []
    mission.table(4)["elevator"] = 6, 8, "123"
    assert sift.check(mission.copy()).table(4).shed == []


def test_a_mission_is_made_from_nothing(caller):
    mission = Mission()
    mission.units, mission.frames = 5, 3
    mission.clock.update({"skew": 10, "length": 50})
    mission.add_sensor("pitch", [1, 2, 3])
    mission.add_task("target", [5], linear=(3, 1))
    mission.add_task("elevator", [0], text="out 0 = now target.0 - sense pitch;")
    for size in (4, 5):
        mission.add_table(size, [(4, 6, "012"), (6, 8, [1, 2, 3])])
    mission.subframes = 14
    mission.add_fault(1).say("sense pitch", 9)
    mission.add_storm(3, 2, 1, 10)
    report = sift.run(mission, workers=1)
    assert report.names == ["target.0", "elevator.0", "sense.pitch"] and report.words("target.0") == [16, 49, 148]
    mission.task("target").text = "out 0 = 7;"
    mission.task("elevator").linear = 0, 4
    mission.task("elevator").start = [2]
    mission.sensor("pitch").words = [8]
    mission.faults[1].unit, mission.faults[0].begin = 4, 1
    again = sift.check(mission.copy())
    assert (again.task("target").linear, again.task("target").text, again.task("elevator").linear) == (None, "out 0 = 7;", (0, 4))
    assert sift.run(again, workers=1).words("elevator.0") == [4, 4, 4] and again.faults[0].begin == 1


def test_a_name_that_is_not_there_is_named():
    mission = Mission.read(LIAR)
    with pytest.raises(NoSuchName, match="there is no task rudder; there are target, elevator"):
        mission.task("rudder")
    with pytest.raises(NoSuchName, match="there is no sensor roll; there are pitch"):
        mission.add_fault(0).say("sense roll")
    with pytest.raises(NoSuchName, match="there is no slot sensor pitch; slots are clock, "):
        mission.faults[0].say("sensor pitch")
    with pytest.raises(NoSuchName, match="there is no table for 6 units"):
        mission.table(6)


def test_no_toml_is_refused_with_its_place():
    with pytest.raises(sift.Refusal) as refused:
        Mission("units = five\n")
    assert (refused.value.line, refused.value.place) == ("not a document", (1, 9))


def test_toml_1_1_is_read():
    mission = Mission("units = 4\nframes = 1\ntask = [{name = 'a', start = [1],\n  linear = [1, 1],}]\n")
    assert mission.task("a").linear == (1, 1)


words = strategies.integers(-32768, 65535)
slots = strategies.sampled_from(["out target.0", "out elevator.0", "sense pitch", "relay pitch", "clock", "report", "relay-report 0"])
items = strategies.lists(
    strategies.tuples(slots, strategies.none() | words, strategies.sets(strategies.integers(1, 4), min_size=1), strategies.none() | strategies.integers(0, 5)), max_size=4
)
names = strategies.from_regex(r"[a-z][a-z0-9_]{0,9}\Z")


@settings(max_examples=60, deadline=None, suppress_health_check=[HealthCheck.function_scoped_fixture])
@given(frames=strategies.integers(1, 1000), said=items, sensor=strategies.lists(words, min_size=1, max_size=9), task=names, start=strategies.lists(words, min_size=1, max_size=8))
def test_what_is_written_is_read_back(kit, frames, said, sensor, task, start):
    mission = Mission.read(LIAR)
    mission.frames = frames
    mission.sensor("pitch").words = sensor
    mission.add_task(f"{task}_9", start, text='out 0 = 1; # "quoted" \\ and more')
    fault = mission.add_fault(0, begin=2)
    for slot, value, to, frame in said:
        fault.say(slot, value, to=to, frame=frame)
    again = Mission(mission.text)
    assert (again.frames, again.sensor("pitch").words, again.tasks[-1].name, again.tasks[-1].start) == (frames, sensor, f"{task}_9", start)
    assert again.tasks[-1].text == mission.tasks[-1].text and again.faults[-1].items == fault.items
    told = [(item.get("value"), item["to"], item.get("frame")) for item in again.faults[-1].items]
    assert told == [(value, digits_of(to), frame) for _, value, to, frame in said]
    assert again.text == mission.text
