"""tools/picture: it draws reports and schedules of missions/, a run of clocks of cases/, campaigns of cases/sweeps/ and the times of
docs/pictures/growth.tsv as docs/pictures/ has them, byte for byte, for a browser and for a terminal; what is none of these it
refuses, with its status and its line, and draws nothing; nor does it break off where a drawing can't be written. The stored
drawings were looked at by eye, beside what they draw.
"""
import json
import re
import shutil
import subprocess
from pathlib import Path

import pytest

from conftest import sed, tool, usage_of, without_room
from sift.campaigns.faults import outline_of
from sift.rules.loading import load, without_faults

PICTURES = Path("docs/pictures")
LIAR = Path("missions/first_5_liar.report")
PAST = Path("missions/past_the_margin.report")


def drawn(*words, given=b""):
    """A drawing."""
    output, said, status = tool("picture", *words, given=given)
    assert (said, status) == ("", 0)
    return output


def refused(line, *words, given=b"", status=1):
    """With the words and standard input there is this line, and no drawing."""
    assert tool("picture", *words, given=given) == ("", line if line.endswith("\n") else line + "\n", status)


def refused_report(line, given):
    refused(f"picture: no report: {line}", "-", given=given)


def lines_of(name):
    return (PICTURES / f"{name}.txt").read_text().splitlines()


def unnamed(name):
    """The text of a picture as of a report whose name and mission aren't known."""
    return [line for line in lines_of(name)[1:] if not re.search(r": unit [0-9] says ", line)]


# Drawings that are stored.

CLOCKS = "\n".join(
    line[2:] for line in re.search(r"^== 0: clocks --n 4 --m 1 --skew 8 .*--rounds 100 .*\n((?:.+\n)*)", Path("cases/laboratory.txt").read_text(), re.M)[1].splitlines() if line.startswith("> ")
) + "\n"
STORED = {
    **{name: [f"missions/{name}.report", f"missions/{name}.toml"] for name in ("first_5_liar", "past_the_margin", "eight_units")},
    **{f"schedule_{name}": ["--schedule", f"missions/{name}.toml"] for name in ("first_5_liar", "shared_subframe", "eight_units", "shed_display")},
    **{f"sweep_{name}": ["--sweep", f"cases/sweeps/{name}.tsv"] for name in ("first_5_liar", "placed_reader", "two_faults_in_turn")},
    "growth": ["--growth", "docs/pictures/growth.tsv"],
}


@pytest.mark.parametrize("name", STORED)
def test_a_drawing_is_the_stored_one(name):
    assert drawn(*STORED[name]) == (PICTURES / f"{name}.svg").read_text()
    assert drawn("--text", *STORED[name]) == drawn(*STORED[name], "--text") == (PICTURES / f"{name}.txt").read_text()


def test_a_run_of_clocks_is_the_stored_one(tmp_path):
    (tmp_path / "four.clocks").write_text(CLOCKS)
    assert drawn(tmp_path / "four.clocks") == (PICTURES / "four_clocks.svg").read_text()
    assert drawn("--text", "-", given=CLOCKS.replace("\n", "\r\n").encode()) == (PICTURES / "four_clocks.txt").read_text()


# Reports.


def version_1(path):
    return sed(r":more; s/( bad=[0-7]*)[prc,]+/\1/; t more", path, "-E")


def edited(script, raw):
    return subprocess.run(["sed", script], input=raw, capture_output=True, check=True).stdout


def test_a_report_without_its_mission():
    raw = Path("missions/eight_units.report").read_bytes()
    assert drawn("--text", "-", given=raw).splitlines() == unnamed("eight_units")
    assert drawn("--text", "-", given=raw.replace(b"\n", b"\r\n")).splitlines() == unnamed("eight_units"), "lines that end with CR LF are those of the report, too"


def test_versions():
    """A report of version 1 is drawn without kinds; and one of both versions is none."""
    assert drawn("--text", "-", given=version_1(LIAR)).splitlines() == [line.replace(" (poll)", "") for line in unnamed("first_5_liar")]
    refused_report("line 15: a report of version 2 tells other units that were caught", sed("15s/bad=1p/bad=1/", LIAR))
    refused_report("line 22: a report of version 1 tells other units that were caught", edited("22s/bad=-/bad=1c/", version_1(LIAR)))


def test_the_kinds_of_each_catcher_are_told():
    told = drawn("--text", "-", given=sed("1s/bad=-/bad=1rc,4p/; 3s/bad=-/bad=1rc/", LIAR)).splitlines()
    assert "frame 0: units 0 2 catch unit 1 (relay, clock)" in told and "frame 0: unit 0 catches unit 4 (poll)" in told


def test_a_liar_whom_nobody_catches_is_told_as_such():
    assert "frame 0: unit 0 is faulty from here on" in drawn("--text", "missions/lying_reader.report").splitlines()
    assert "frame 0: unit 2 is faulty from here on, and never caught" in drawn("--text", "missions/false_accuser.report").splitlines()


def test_colours_of_a_warning_stand_for_no_change_that_is_none():
    assert "#ffeda0" not in drawn("missions/eight_units.report"), "yellow is among them"


LONG = """{ for ((frame = 0; frame < 400; frame++)); do sed -n "1,4s/f=0/f=$frame/p" missions/count.report; echo "f=$frame skew=0 slack=1 margin=ok"; done
  echo 'end frames=400 cfg=0123 margin=ok'; } |
sed 's/^f=300 u=3 .*/f=300 u=3 faulty/; s/^f=30[1-9] u=3 .*/f=30& faulty/; s/^f=30f=\\(30[1-9]\\) u=3.*/f=\\1 u=3 faulty/; s/^f=3[1-9][0-9] u=3.*/& x/; s/^\\(f=3[1-9][0-9] u=3\\) .* x/\\1 faulty/'"""


def test_a_long_flight_is_no_wider_than_a_short_one(tmp_path):
    """Frames in which nothing changes are folded, and some can be drawn alone."""
    long = tmp_path / "long.report"
    long.write_bytes(subprocess.run(["bash", "-c", LONG], capture_output=True, check=True).stdout)
    told = drawn("--text", long).splitlines()
    assert [told[place] for place in (0, 2, 5, 8)] == [
        "long.report",
        "folded: 4 to 295, 304 to 395, in which only clocks and words change",
        "unit 0  ....~~~........~~~....",
        "unit 3  ....~~~....####~~~####",
    ]
    assert re.match('<svg [^>]* width="1096" ', drawn(long))
    told = drawn("--text", "--frames", "298-301", long).splitlines()
    assert [told[place] for place in (2, 4, 8, -1)] == [
        "drawn here: frames 298 to 301",
        "frame     300",
        "unit 3  ..##",
        "frame 300: unit 3 is faulty from here on, and never caught",
    ]
    assert drawn("--frames", "298-301", long).count("<title>unit 3, frames 300 to 301: faulty</title>") == 1
    refused("picture: --frames 300-400: the report has the frames 0 to 399", "--frames", "300-400", long)


def test_with_its_mission_it_tells_what_units_say_and_which_tasks_are_shed():
    def told(name):
        return drawn("--text", f"missions/{name}.report", f"missions/{name}.toml").splitlines()

    assert [line for line in told("shed_display") if re.search("says|shed:|is shed", line)] == [
        "frames 2 to 5: unit 4 says 999 as out pitch.0 to units 0 1 2 3",
        "frames 3 to 5: display is shed; what stands in `out` is held from before",
    ]
    assert "frames 1 to 2: unit 1 says 1 (unit 0 was caught) as report to units 0 2 3 4" in told("past_the_margin")
    assert any(" says nothing as " in line for line in told("silent_unit"))
    assert "frame 10: unit 5 is stray: 100,000 strays are drawn from the number 1" in told("stray_writer")
    refused("picture: missions/count.report: it isn't the mission's: it has another number of units or frames", "missions/count.report", "missions/eight_units.toml")


def test_an_axis_has_ticks_between_its_ends():
    assert re.findall(r' font-size="11" text-anchor="end">(\d*)<', drawn("missions/eight_units.report")) == ["0", "50", "100", "150", "195"]


def test_names_are_written_out_and_cut(tmp_path):
    shutil.copy("missions/count.report", tmp_path / "a<b&c.report")
    assert ">a&lt;b&amp;c.report</text>" in drawn(tmp_path / "a<b&c.report")
    shutil.copy("missions/count.report", tmp_path / ("x" * 200 + ".report"))
    assert f">{'x' * 109}…</text>" in drawn(tmp_path / ("x" * 200 + ".report"))


# Campaigns.

COLUMNS = ("row", "fault", "said", "caught", "by", "out", "margin", "wrong", "first", "words", "judge", "last")


def table(*rows):
    return "".join("\t".join(row) + "\n" for row in [COLUMNS, *rows]).encode()


PAIRS = table(
    ("1", "unit 0 sense c wrong from 0 + unit 1 out a.0 wrong from 0", "inert+said", "-+0", "-+023", "-+1", "ok", "6", "0", "a.0", "yes", "end frames=9 cfg=023 margin=ok"),
    ("2", "unit 0 sense c wrong from 0 + unit 1 out a.0 wrong from 3", "inert+said", "-+3", "-+023", "-+5", "ok", "0", "-", "-", "yes", "end frames=9 cfg=023 margin=ok"),
)


def test_a_fault_that_is_inert_beside_one_that_goes_out():
    """It has its own mark and its own colour; the other one tells how long it took."""
    assert drawn("--text", "--sweep", "-", given=PAIRS).splitlines()[4:6] == ["sense c  .", "out a.0      2*"]
    picture = drawn("--sweep", "-", given=PAIRS)
    assert "None" not in picture and 'fill="#e3e3e3"><title>unit 0, sense c, wrong: inert, ' in picture


def test_where_nobody_catches_a_liar_it_matters_whether_an_output_was_lost():
    picture = drawn("--sweep", "cases/sweeps/first_5_liar.tsv")
    assert re.search('fill="#fdae6b"[^>]*><title>unit 0, sense pitch, wrong: believed, 6 wrong words', picture)
    assert re.search('fill="#efedf5"><title>unit 0, report, wrong: outvoted, 0 wrong words', picture)


FAULTS = ("0 relay b", "0 relay c", "0 out u.0", "1 relay a", "1 relay c", "1 out t.0", "1 out u.0", "2 relay a", "2 relay b", "2 out t.0")
RELAYS = [(str(row), f"unit {fault} wrong from 0", "said", "-", "-", "-", "ok", "0", "-", "-", "yes", "end frames=9 cfg=0123 margin=ok") for row, fault in enumerate(FAULTS, 1)]


def slots_of(text):
    """The slots that a picture of rows has, in its order."""
    return [line.split("  ")[0] for line in text.splitlines() if line.startswith(("relay ", "out "))]


def test_slots_come_in_the_missions_order(tmp_path):
    """Though no unit relays what it reads itself; and where a campaign's kit is there, in the kit's order."""
    assert slots_of(drawn("--text", "--sweep", "-", given=table(*RELAYS))) == ["relay a", "relay b", "relay c", "out t.0", "out u.0"]
    kit = tmp_path / "sift-campaign-1"
    kit.mkdir()
    _, root, mission = load(Path("missions/pitch.toml").read_bytes())
    options = {"mission": "own.toml", "kinds": ["wrong"], "from": [0], "single": True, "pairs": False, "limit": None, "outline": outline_of(mission)}
    for name, text in (("mission.toml", without_faults(root)), ("ideal.txt", "f=0 out=-\nend frames=1\n"), ("campaign.json", json.dumps(options))):
        (kit / name).write_text(text)
    rows = [(row[0], row[1].replace("t.0", "elev.0"), *row[2:]) for row in RELAYS[2:5]] + [("5" + row[0], *row[1:]) for row in RELAYS[:2]]
    (tmp_path / "runs.tsv").write_bytes(table(*rows))
    told = drawn("--text", "--sweep", tmp_path / "runs.tsv")
    assert told.splitlines()[0] == "own.toml" and [slot for slot in slots_of(told) if slot.startswith("relay")] == ["relay a", "relay b", "relay c"]


# Schedules.


def boxes(name, subframes=12):
    """What stands in the boxes of own_table, whose task has this name, and how large it is."""
    document = Path("missions/own_table.toml").read_text().replace('"count"', f'"{name}"').replace("subframes = 12", f"subframes = {subframes}")
    return sorted({f"{told} {size}" for size, told in re.findall(r'font-size="(\d*)"[^>]*pointer-events="none">(.*?)</text>', drawn("--schedule", "-", given=document.encode()))})


def test_a_schedule_has_the_names_of_all_tasks():
    """In narrower type where they are long, or letters for all."""
    assert boxes("pitch") == ["agree 11", "end 11", "pitch 11", "relay 11", "report 11", "say 11"]
    assert boxes("elevator_le") == ["agree 11", "elevator_le 9", "end 11", "relay 11", "report 11", "say 11"]
    assert boxes("elevator_left_up", 24) == ["A 11", "agree 10", "end 10", "relay 10", "report 10", "say 10"]
    assert boxes("pitch", 64) == ["A 11", "a 11", "b 11", "e 11", "r 11", "s 11"]


@pytest.mark.skipif(not shutil.which("script"), reason="there is no command script (util-linux)")
@pytest.mark.parametrize("columns", [80, 120])
@pytest.mark.parametrize("words", ["missions/eight_units.report", "--sweep cases/sweeps/two_faults_in_turn.tsv", "--schedule missions/planned.toml"])
def test_lines_are_as_wide_as_the_terminal(columns, words):
    command = f"stty cols {columns}; tools/picture --text {words}"
    ended = subprocess.run(["script", "-qec", command, "/dev/null"], stdin=subprocess.DEVNULL, capture_output=True, check=True)
    assert 40 < max(map(len, ended.stdout.decode().replace("\r", "").splitlines())) <= columns


# What fails.


def test_a_full_disk_and_a_closed_pipe():
    assert without_room("picture", "missions/eight_units.report") == (["picture: No space left on device"], 1)
    words = "{ sleep 1; tools/picture missions/eight_units.report; echo $? >&2; } | true"
    assert subprocess.run(["bash", "-c", words], capture_output=True, check=False).stderr == b"1\n", "a closed pipe has another status, or a line"


@pytest.mark.parametrize(
    "words",
    [
        ["-x"],
        [],
        ["--order", "3"],
        ["--schedule"],
        ["--sweep", "--schedule", "-"],
        ["--sweep", "runs.tsv", "other.tsv"],
        ["--frames", "3", PAST],
        ["--frames", "0-1", "--schedule", "missions/count.toml"],
    ],
    ids=lambda words: " ".join(map(str, words)),
)
def test_other_words_get_the_usage(words):
    refused(usage_of("picture"), *words, status=2)


def test_help_helps():
    for word in ("-h", "--help"):
        assert drawn(word).count("\nusage: tools/picture") == 1


NO_FRAME = "a line of frame 0 is due"
COUNT = "missions/count.toml"


@pytest.mark.parametrize(
    "line, raw",
    [
        ("line 1: the line of the mission's end is missing", b""),
        (f"line 1: {NO_FRAME}", Path(COUNT).read_bytes()),
        (f"line 1: {NO_FRAME}", b"scenario rule 2 at 0\n"),
        (f"line 1: {NO_FRAME}", b"end frames=1 cfg=0123 margin=ok\n"),
        ("line 19: the line of the mission's end is missing", b"".join(PAST.read_bytes().splitlines(keepends=True)[:18])),
        ("line 18: a line of frame 2 is due", sed("18s/skew=-/skew=1/", PAST)),
        ("line 19: the last line has no end", PAST.read_bytes().rstrip(b"\n")),
        ("line 19: the end of 3 frames is due, and nothing after it", PAST.read_bytes() * 2),
        ("line 19: the end of 3 frames is due, and nothing after it", sed("s/frames=3/frames=4/", PAST)),
        ("line 9: frame 1 and unit 2 are due", sed("9s/u=2/u=3/", PAST)),
        ("line 11: a frame has another number of units", sed("11d", PAST)),
        ("line 4: a frame has another number of units", sed("4,5d", PAST)),
        ("line 1: units that don't ascend: 10234", sed("1s/cfg=01234/cfg=10234/", PAST)),
        ("line 6: the frame names a unit that isn't there", sed("2s/bad=-/bad=7/", PAST)),
        ("line 1: units that don't ascend: 44", sed("1s/bad=-/bad=4p,4c/", PAST)),
        ("line 1: units that don't ascend: 43", sed("1s/bad=-/bad=4p,3p/", PAST)),
        *((f"line 1: {NO_FRAME}", sed(f"1s/bad=-/bad={caught}/", PAST)) for caught in ("4cp", "4pp", "4p,", "4p4c", "4x", ",4p", "4p,3", "4P")),
        ("line 19: the configuration has a unit that isn't there", sed("19s/1234/1236/", PAST)),
        (f"line 2: {NO_FRAME}", sed("2s/f=0/f=00/", PAST)),
        ("byte 12 is no ASCII", PAST.read_bytes().replace(b"01234", "é".encode())),
    ],
)
def test_what_is_no_report(line, raw):
    refused_report(line, raw)


@pytest.mark.parametrize(
    "line, script",
    [
        ("line 3: the skew of round 2 is due", "3d"),
        ("line 2: the skew of round 1 is due", "2s/skew=/skew=-/"),
        ("line 102: the last line of the run is missing", "$d"),
        ("line 102: the greatest skew of all rounds is due, and nothing after it", "s/most=6/most=7/"),
        ("line 102: the greatest skew of all rounds is due, and nothing after it", "$p"),
    ],
)
def test_what_is_no_run_of_clocks(line, script):
    refused(f"picture: no run of clocks: {line}", "-", given=edited(script, CLOCKS.encode()))


def test_a_run_of_clocks_without_its_end():
    refused("picture: no run of clocks: line 1: the last line has no end", "-", given=b"round=0 skew=1")


SWEPT, TIMES = Path("cases/sweeps/first_5_liar.tsv"), Path("docs/pictures/growth.tsv")


@pytest.mark.parametrize(
    "line, words, given",
    [
        ("missions/none.report: No such file or directory", ["missions/none.report"], b""),
        (
            "cases/mistakes/else_if.toml is refused: task 0 kind 2 at 90; tools/explain cases/mistakes/else_if.toml shows the place",
            ["--schedule", "cases/mistakes/else_if.toml"],
            b"",
        ),
        ("no runs of a campaign: line 1: the names of the columns are due", ["--sweep", COUNT], b""),
        ("no runs of a campaign: there is no run", ["--sweep", "-"], table()),
        ("no runs of a campaign: line 4: it isn't a run's", ["--sweep", "-"], sed("4s/\\tok\\t/\\tgood\\t/", SWEPT)),
        ("no runs of a campaign: line 5: it isn't a run's", ["--sweep", "-"], sed("5s/unit 0/unit 9/", SWEPT)),
        ("no runs of a campaign: line 6: it isn't a run's", ["--sweep", "-"], sed("6s/\\t.*//", SWEPT)),
        ("no times: line 1: the names of the columns are due", ["--growth", COUNT], b""),
        ("no times: there is no time", ["--growth", "-"], b"".join(TIMES.read_bytes().splitlines(keepends=True)[:1])),
        ("no times: line 3: it isn't a time's", ["--growth", "-"], sed("3s/frames/colours/", TIMES)),
    ],
)
def test_what_is_not_drawn(line, words, given):
    refused(f"picture: {line}", *words, given=given)
