"""tools/growth: its missions are accepted, and its rows are those that tools/picture draws."""
import sift
from conftest import stand_in, tool


def test_its_missions_are_as_large_as_they_may_be(caller):
    for units, frames in ((4, 1), (8, 1000)):
        mission = sift.check(tool("growth", "--mission", units, frames)[0])
        assert (mission.units, mission.frames, mission.subframes, len(mission.tasks), len(mission.sensors)) == (units, frames, 64, 24, 8)


def test_a_row_for_each_value(tmp_path):
    program = stand_in(tmp_path, "exit 0")
    output, said, status = tool("growth", "--program", program, "--runs", 1)
    rows = [line.split("\t") for line in output.splitlines()]
    assert (said, status) == ("", 0) and [row[:3] for row in rows[1:]] == [
        *(["frames", str(frames), "1"] for frames in (125, 250, 500, 1000)),
        *(["units", str(units), "1"] for units in (4, 5, 6, 7, 8)),
        *(["workers", str(workers), str(workers)] for workers in (1, 2, 4, 8)),
    ]
    assert tool("picture", "--text", "--growth", "-", given=output.encode())[2] == 0


def test_what_is_not_flown_is_said(tmp_path):
    program = stand_in(tmp_path, "exit 3")
    assert tool("growth", "--program", program)[1:] == (f"growth: {program} ends with status 3\n", 1)
    assert tool("growth", "--program", tmp_path / "none", "--runs", 1)[1:] == (f"growth: {tmp_path}/none: No such file or directory\n", 1)
    assert tool("growth", "--runs", "many")[2] == 2
