"""tools/words, on missions and reports of missions/, and on lines that were worked out by hand."""
import json
import re
import shutil
from pathlib import Path

import pytest

from conftest import sed, stand_in, tool, usage_of, without_room

MISSIONS = Path("missions")


def of(name):
    """A mission, and its report."""
    return MISSIONS / f"{name}.toml", MISSIONS / f"{name}.report"


def told(*words):
    """The lines of what is told without asking whether the mission may have the report."""
    output, said, status = tool("words", "--unjudged", *words)
    assert (said, status) == ("", 0)
    return output.splitlines()


@pytest.fixture
def asked(tmp_path):
    """A program that takes every report, keeps what it is asked, and tells the words of a file `ideal` as the ideal machine's."""
    script = f'cat >{tmp_path}/judged\n[ "$1" = judge ] && {{ echo "$@" >{tmp_path}/asked; echo yes; exit; }}\ncat {tmp_path}/ideal'
    return stand_in(tmp_path, script)


# Words.


def test_words_of_each_unit_in_each_frame():
    """With signs; none where a unit tells none."""
    lines = told(*of("first_5_liar"))
    assert len(lines) == 31, "six frames of five units aren't 30 rows and a head"
    assert [lines[place] for place in (0, 1, 13, 14, 15, 26, 30)] == [
        "f,u,target.0,elevator.0,sense.pitch,skew,slack,margin",
        "0,0,105,10,100,16,34,ok",
        "2,2,115,-6,118,3,47,ok",
        "2,3,115,-6,118,3,47,ok",
        "2,4,115,-6,118,3,47,ok",
        "5,0,130,24,118,3,47,ok",
        "5,4,130,24,118,3,47,ok",
    ]
    assert "2,1,,,,3,47,ok" in lines


def test_words_past_the_margin():
    rows = [f"0,{unit},16,0,1,ok" for unit in range(5)] + ["1,0,49,0,1,lost"] + [f"1,{unit},,0,1,lost" for unit in range(1, 5)] + [f"2,{unit},,,,lost" for unit in range(5)]
    assert told(*of("past_the_margin")) == ["f,u,count.0,skew,slack,margin", *rows]


def test_json():
    assert told("--json", *of("count")) == [f'{{"f": 0, "u": {unit}, "count.0": 16, "skew": 0, "slack": 1, "margin": "ok"}}' for unit in range(4)]
    assert told("--json", *of("past_the_margin"))[-1] == '{"f": 2, "u": 4, "count.0": null, "skew": null, "slack": null, "margin": "lost"}'


def test_words_that_are_held():
    """Where a table sheds a task a column tells which words are held."""
    frames = ("110,11,10,0,1,ok", "130,13,20,0,1,ok", "125,12,-5,0,1,ok", "135,12,10,0,1,ok", "155,12,20,0,1,ok", "150,12,-5,0,1,ok")
    rows = ["f,u,pitch.0,display.0,sense.gyro,skew,slack,margin,shed"]
    for number, words in enumerate(frames):
        for unit in range(5):
            faulty, held = number > 1 and unit == 4, "display.0" if number > 2 else ""
            rows.append(f"{number},{unit},,,,0,1,ok," if faulty else f"{number},{unit},{words},{held}")
    assert told(*of("shed_display")) == rows
    shed = [json.loads(line)["shed"] for line in told("--json", *of("shed_display"))]
    assert (shed[0], shed[15]) == ([], ["display.0"])


def test_names():
    assert tool("words", "--names", of("first_5_liar")[0]) == ("target.0\nelevator.0\nsense.pitch\n", "", 0)


# Plots, beside the words that are due, which the program tells; a script stands in for it.


def plot(names, mission, report, program):
    """The sentences of a plot, and the plot."""
    output, said, status = tool("words", "--plot", names, mission, report, program)
    assert (said, status) == ("", 0)
    return re.findall(r">([^<]*)</text>", output), output


def test_a_plot_tells_where_words_first_differ(asked, tmp_path):
    (tmp_path / "ideal").write_text("f=0 out=0009\nend frames=1\n")
    lines, _ = plot("echo.0,sense.s", *of("lying_reader"), asked)
    for name in ("echo.0", "sense.s"):
        assert f"{name}: first differs in frame 0: 0, and not 9; in 1 of 1 frames" in lines
    shutil.copy("cases/sweeps/placed_reader.ideal", tmp_path / "ideal")
    lines, drawn = plot("elevator.0,target.0", *of("placed_reader"), asked)
    assert "elevator.0: first differs in frame 2: -1768, and not -6; in 1 of 6 frames" in lines
    assert "target.0: as the ideal machine has it, in every frame" in lines
    assert drawn == Path("docs/pictures/words_placed_reader.svg").read_text()


SHED = "f=0 out=006e,000b\nf=1 out=0082,000d\nf=2 out=007d,000c\nf=3 out=0087,000d\nf=4 out=009b,000f\nf=5 out=0096,000f\nend frames=6\n"
REST = "from frame 3 on not compared, since its task is shed, or one that it reads"


def test_a_word_of_a_task_that_is_shed_is_compared_until_then(asked, tmp_path):
    """And so is one that reads it; the others are to the end."""
    (tmp_path / "ideal").write_text(SHED)
    mission, report = (Path(shutil.copy(path, tmp_path)) for path in of("shed_display"))

    def plots(*wanted):
        assert set(wanted) <= set(plot("pitch.0,display.0", mission, report, asked)[0])

    plots("pitch.0: as the ideal machine has it, in every frame", f"display.0: as the ideal machine has it, before frame 3; {REST}")
    report.write_bytes(sed("/^f=2/s/000c/000d/; /^f=4/s/009b/009c/", report))
    plots("pitch.0: first differs in frame 4: 156, and not 155; in 1 of 6 frames", f"display.0: first differs in frame 2: 13, and not 12; in 1 of 3 frames; {REST}")
    mission.write_bytes(sed("s/pitch.0 + sense/display.0 + sense/", mission))
    plots(f"pitch.0: as the ideal machine has it, before frame 3; {REST}")
    mission.write_bytes(sed(r's/\[4, 6\]/[4, 0]/; s/\[6, 8\]/[6, 0]/; s/"134"\]/""]\nshed = [1]/', mission))
    plots("display.0: from frame 0 on not compared, since its task is shed, or one that it reads")


def test_a_plot_marks_words_that_are_held(asked, tmp_path):
    (tmp_path / "ideal").write_text("".join(f"f={frame} out=0082,000d\n" for frame in range(6)) + "end frames=6\n")
    assert "<title>frames 3 to 5: held, since its task is shed</title>" in plot("display.0", *of("shed_display"), asked)[1]
    assert "held" not in plot("pitch.0", *of("shed_display"), asked)[1]


# The program is asked whether the mission may have the report, and what it doesn't take isn't told.


def test_the_judge_is_asked(asked, tmp_path):
    mission, report = of("count")
    output, said, status = tool("words", mission, report, asked)
    assert (said, status) == ("", 0) and output.startswith("f,u,count.0,")
    assert (tmp_path / "judged").read_bytes() == mission.read_bytes() + b"--- report ---\n" + report.read_bytes()
    assert (tmp_path / "asked").read_text() == "judge\n"
    version_1 = tmp_path / "version_1"
    version_1.write_bytes(sed("s/bad=1p/bad=1/", of("first_5_liar")[1]))
    assert tool("words", of("first_5_liar")[0], version_1, asked)[2] == 0 and (tmp_path / "asked").read_text() == "judge --report 1\n"


def test_a_report_that_is_refused_is_not_told(tmp_path):
    mission, report = of("count")
    refusing = stand_in(tmp_path, 'cat >/dev/null\necho "no frame 0 rule 4"\nexit 13')
    why = f"words: {report}: {mission} can't have this report: no frame 0 rule 4; tools/explain {mission} {report} tells why\n"
    assert tool("words", mission, report, refusing) == ("", why, 1)


def test_without_a_judge_the_words_are_told(tmp_path):
    older = stand_in(tmp_path, "cat >/dev/null\necho usage\nexit 2")
    output, said, status = tool("words", *of("count"), older)
    assert output.startswith("f,u,count.0,") and (said, status) == (f"words: the report isn't judged: {older} judge ends with status 2\n", 0)


# What fails.


@pytest.mark.parametrize(
    "words, line",
    [
        (["missions/count.toml", "missions/count_five.report"], "missions/count_five.report: it isn't the mission's: it has another number of units or frames"),
        (["missions/count.toml", "missions/own_table.toml"], "missions/own_table.toml: line 1: a line of frame 0 is due"),
        (["missions/twice.toml", "missions/two_tasks.toml"], "missions/two_tasks.toml: line 1: a line of frame 0 is due"),
        (["missions/first_2_sensor.toml", "missions/first_1_task.report"], "missions/first_1_task.report: it isn't the mission's: it has another number of words"),
        (
            ["cases/mistakes/else_if.toml", "missions/count.report"],
            "cases/mistakes/else_if.toml is refused: task 0 kind 2 at 90; tools/explain cases/mistakes/else_if.toml shows the place",
        ),
        (["missions/none.toml", "missions/count.report"], "missions/none.toml: No such file or directory"),
    ],
)
def test_what_is_not_told_and_why(words, line):
    assert tool("words", *words) == ("", f"words: {line}\n", 1)


def test_a_word_that_is_not_there(asked):
    assert tool("words", "--plot", "echo.1", *of("lying_reader"), asked) == ("", "words: there is no word echo.1; there are echo.0, sense.s\n", 1)


@pytest.mark.parametrize("words", [[], ["--plot", *of("count")], ["--other", *of("count")], ["--json", "--plot", "count.0", *of("count")]], ids=str)
def test_other_words_get_the_usage(words):
    assert tool("words", *words) == ("", usage_of("words"), 2)


def test_a_full_disk_is_said():
    assert without_room("words", "--unjudged", *of("count")) == (["words: No space left on device"], 9)
