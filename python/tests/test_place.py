"""tools/place: on each document of wishes in cases/places/ it says what stands beside it; what it writes into a document, to CSV and
from it; its picture; and its words, refusals and faults. What the aims come to is held against every table by tools/try-places.
Where no program is built a script stands in for it, which checks by the rules of the package and plans as tools/try-plans does;
then no campaign is flown. Without MiniZinc nothing is tested, and where CI is true that is a fault.
"""
import os
import re
import shutil
import subprocess
import sys
from pathlib import Path

import pytest

from conftest import TOP, sed, stand_in, tool, without_room
from sift import where

if not shutil.which("minizinc") and os.environ.get("CI") != "true":
    pytest.skip("there is no MiniZinc: on Debian, apt-get install minizinc", allow_module_level=True)

STAND_IN = f"""
import runpy, sys, tomllib
sys.dont_write_bytecode = True
sys.path.insert(0, "{TOP}/python")
from sift.documents import places
from sift.rules.refusals import refusals
text = sys.stdin.read()
if sys.argv[1] == "check":
    refused = refusals(places.read(text.encode())[1])
    print(refused[0].line if refused else "ok")
    sys.exit(6 if refused else 0)
elif sys.argv[1] == "plan":
    plans, mission = runpy.run_path("{TOP}/tools/try-plans"), tomllib.loads(text)
    status, tables = plans["plain_text"](plans["needs_of"](mission), mission["units"], int(sys.argv[5]), int(sys.argv[3]))
    sys.stdout.write(tables)
    sys.exit(status)
"""
RUDDER = Path("missions/rudder.toml")
COUNT = Path("missions/count.toml")


@pytest.fixture(scope="module")
def checker(tmp_path_factory):
    """The built program, or what stands in for it."""
    if os.access(where.program(), os.X_OK):
        return where.program()
    script = tmp_path_factory.mktemp("stand_in") / "program"
    script.write_text(f"#!{sys.executable}{STAND_IN}")
    script.chmod(0o755)
    return script


@pytest.fixture
def place(checker):
    """What the tool writes and says, and its status, with a program."""
    return lambda *words, **more: tool("place", *words, "--program", checker, **more)


def lines_of(text):
    """The lines of a text that tell something."""
    return [line for line in text.splitlines() if line]


@pytest.mark.parametrize("wishes", sorted(Path("cases/places").glob("*.wishes")), ids=lambda path: path.stem)
def test_wishes_come_to_what_stands_beside_them(place, wishes):
    """Each names its mission in its first line. What is said and then what is written stands beside it."""
    mission = re.match("# ([^:]*):", wishes.read_text())[1]
    output, said, status = place(mission, wishes)
    assert f"{said}{output}status {status}\n" == wishes.with_suffix(".txt").read_text()


def test_the_model_has_each_rule_by_its_number():
    model = Path("python/sift/placing/place.mzn").read_text()
    assert re.findall(r"^% Rule (\d*): ", model, re.M) == [str(rule) for rule in range(1, 12)]


def test_the_page_shows_what_its_commands_write(place, tmp_path):
    """The wishes, the mission, the tables, what is said, and the pictures."""
    output, said, status = place(RUDDER, "--picture", tmp_path / "rudder.svg")
    assert status == 0 and place(RUDDER, "--picture", tmp_path / "rudder.txt")[2] == 0
    for kind in ("svg", "txt"):
        assert (tmp_path / f"rudder.{kind}").read_text() == Path(f"docs/pictures/place_rudder.{kind}").read_text()
    csv = tool("place", RUDDER, "--to-csv")[0]
    kept = [RUDDER, RUDDER.with_suffix(".wishes"), *Path("cases/places").glob("*.wishes"), *Path("cases/places").glob("*.txt")]
    kept += [Path("docs/pictures/place_rudder.txt"), Path("cases/places/rudder.campaign")]
    there = {line for text in (*(path.read_text() for path in kept), output, said, csv) for line in text.splitlines()}
    blocks = re.findall(r"^```(?:text|toml)\n(.*?)^```$", Path("docs/place.md").read_text(), re.M | re.S)
    assert not [line for block in blocks for line in lines_of(block) if line not in there]


def test_a_picture_where_there_is_no_plan(tmp_path):
    """Of a mission without sensors."""
    planless = stand_in(tmp_path, '[ "$1" = check ] && echo ok && exit\nexit 2')
    _, said, status = tool("place", COUNT, "--program", planless, "--picture", tmp_path / "count.txt")
    drawn = (tmp_path / "count.txt").read_text().splitlines()
    assert status == 0 and "found: 12 subframes" in drawn and not any(re.match("found.*plan", line) for line in drawn)
    assert f"place: picture    {planless} plans no tables, and so the tables that were found stand alone" in said.splitlines()


# Into a document: what changes is the number of subframes and the tables, and every other byte stays.


@pytest.fixture
def written(place, checker, tmp_path):
    """Puts tables into a document in the test's folder, and tells the lines that go and those that come."""

    def put(name, *words):
        before = (tmp_path / name).read_text().splitlines()
        output, said, status = place(tmp_path / name, *words, "--write")
        assert (output, status) == ("", 0), said
        assert tool("explain", tmp_path / name, checker)[2] == 0, "it is refused when it is written"
        (tmp_path / "before").write_text("".join(f"{line}\n" for line in before))
        told = subprocess.run(["diff", tmp_path / "before", tmp_path / name], capture_output=True, check=False).stdout.decode()
        return [line for line in told.splitlines() if line.startswith(("<", ">"))]

    return put


FOUND = [
    "< subframes = 16",
    "> subframes = 15",
    "< run = [4, 5, 6, 8]",
    "< poll = [6, 7, 8, 10]",
    '< at = ["012", "012", "012", "012"]',
    "> run = [6, 4, 5, 7]",
    "> poll = [8, 6, 7, 9]",
    '> at = ["013", "012", "123", "012"]',
    "< run = [4, 5, 6, 8]",
    "< poll = [6, 7, 8, 10]",
    '< at = ["012", "012", "012", "012"]',
    "> run = [6, 4, 5, 7]",
    "> poll = [8, 6, 7, 9]",
    '> at = ["014", "012", "234", "012"]',
]
FOUND_AS_CSV = """size,task,subframe,poll,positions
4,log,6,8,0 1 3
4,rate,4,6,0 1 2
4,gain,5,7,1 2 3
4,rudder,7,9,0 1 2
5,log,6,8,0 1 4
5,rate,4,6,0 1 2
5,gain,5,7,2 3 4
5,rudder,7,9,0 1 2
"""


def test_only_tables_and_subframes_change(written, tmp_path):
    for name in ("rudder.toml", "rudder.wishes"):
        shutil.copy(RUDDER.with_name(name), tmp_path)
    assert written("rudder.toml") == FOUND
    assert written("rudder.toml") == [], "tables that are found again change the document"
    assert tool("place", tmp_path / "rudder.toml", "--to-csv")[0] == FOUND_AS_CSV


def test_without_tables_they_are_added(written, tmp_path):
    """A task that is shed makes it version 2; the ends of lines are those of the document."""
    head = ["# No tables yet.", "units = 4", "frames = 1 # one"]
    tasks = ["[[task]]", 'name = "first"', "start = [0]", "linear = [1, 1]", "[[task]]", 'name = "second"', "start = [0]", "linear = [1, 1] # the last line has no end"]
    (tmp_path / "none.toml").write_bytes("\r\n".join(head + tasks).encode())
    (tmp_path / "none.wishes").write_text('most_subframes = 12\n[shed]\ntasks = ["first", "second"]\n')
    written("none.toml")
    tables = ["", "[[table]]", "size = 4", "run = [0, 4]", "poll = [0, 6]", 'at = ["", "012"]', "shed = [0]", ""]
    assert (tmp_path / "none.toml").read_bytes() == "\r\n".join([*head, "version = 2", "subframes = 12", *tasks, *tables]).encode()


IN_A_LINE = """version = 2
units = 5
frames = 1
subframes = 16
table = [{ size = 4, run = [4, 0], poll = [6, 0], at = ['123', ''], shed = [1] },
  { size = 5, run = [
    4, # the first
    6, # the second
  ], poll = [6, 8], at = ['123', '234'] }]
[[task]]
name = "first"
start = [0]
linear = [1, 1]
[[task]]
name = "second"
start = [0]
text = "out 0 = now first.0;"
"""


def test_tables_in_a_line_stay_in_it(written, tmp_path):
    """Entries over several lines with comments, and a table that sheds nothing any more."""
    (tmp_path / "lines.toml").write_text(IN_A_LINE)
    written("lines.toml")
    wanted = IN_A_LINE.replace("subframes = 16", "subframes = 14").replace("['123', '234']", '["012", "012"]')
    wanted = wanted.replace("run = [4, 0], poll = [6, 0], at = ['123', ''], shed = [1]", 'run = [4, 6], poll = [6, 8], at = ["012", "012"], shed = []')
    assert (tmp_path / "lines.toml").read_text() == wanted


def test_a_mission_whose_own_tables_are_refused_gets_others(written, tmp_path):
    """Where all else of it is good."""
    (tmp_path / "refused.toml").write_bytes(sed('s/^subframes = 16/subframes = 12/; s/"012"/"021"/', RUDDER))
    assert '> at = ["014", "012", "234", "012"]' in written("refused.toml", RUDDER.with_suffix(".wishes"))


def test_csv_there_and_back(written, tmp_path):
    """With a column for the size or without."""
    shutil.copy(RUDDER, tmp_path / "back.toml")
    (tmp_path / "found.csv").write_text(FOUND_AS_CSV)
    assert len([line for line in written("back.toml", "--from-csv", tmp_path / "found.csv") if line.startswith(">")]) == 6
    assert tool("place", tmp_path / "back.toml", "--to-csv")[0] == FOUND_AS_CSV
    shutil.copy("missions/shed_display.toml", tmp_path / "shed.toml")
    (tmp_path / "shed.csv").write_text(tool("place", "missions/shed_display.toml", "--to-csv")[0])
    assert written("shed.toml", "--from-csv", tmp_path / "shed.csv") == [], "a mission's own tables from CSV are others"
    (tmp_path / "one.csv").write_bytes(b"task;subframe;positions\r\nrudder;20;0,1,2\r\nlog;19;012\r\nrate;10;1 2 3\r\ngain;14;0 1 3\r\n")
    shutil.copy(RUDDER, tmp_path / "one.toml")
    assert written("one.toml", "--from-csv", tmp_path / "one.csv", "--size", 4) == [
        "< subframes = 16",
        "> subframes = 28",
        "< run = [4, 5, 6, 8]",
        "< poll = [6, 7, 8, 10]",
        '< at = ["012", "012", "012", "012"]',
        "> run = [19, 10, 14, 20]",
        "> poll = [21, 12, 16, 22]",
        '> at = ["012", "123", "013", "012"]',
    ]


# What fails.


def refused(status, line, ended):
    """Its last line and its status, and nothing is written."""
    output, said, found = ended
    assert (output, said.splitlines()[-1], found) == ("", f"place: {line}", status)


@pytest.mark.parametrize(
    "line, text",
    [
        ("line 1: the names of the columns are due, and `subframe` isn't among them", "task,run,positions\n"),
        ("line 1: there is no column `size`, and no --size", "task,subframe,positions\n"),
        ("line 2: there is no size 6: the mission has the sizes 4 to 5", "size,task,subframe,positions\n6,log,4,0 1 2\n"),
        ("line 2: the mission has no task `logs`", "size,task,subframe,positions\n4,logs,4,0 1 2\n"),
        ("line 3: log stands twice in the table for 4", "size,task,subframe,positions\n4,log,4,0 1 2\n4,log,4,0 1 2\n"),
        ('line 2: `positions` is "12", and three are due; a spreadsheet makes 12 of 012, so write 0 1 2', "size,task,subframe,positions\n4,log,4,12\n"),
        ('line 2: `positions` is "0 2 1", and positions ascend', "size,task,subframe,positions\n4,log,4,0 2 1\n"),
        ('line 2: `positions` is "0 1 9", and is to be digits from 0 to 7 with blanks between, as in 0 1 2', "size,task,subframe,positions\n4,log,4,0 1 9\n"),
        ('line 2: `subframe` is "64", and is to be a number from 0 to 63', "size,task,subframe,positions\n4,log,64,0 1 2\n"),
        ("line 2: log runs in 3, and no task runs before 4", "size,task,subframe,positions\n4,log,3,0 1 2\n"),
        ("the table for 4 has no line for rate", "size,task,subframe,positions\n4,log,4,0 1 2\n"),
    ],
)
def test_what_is_no_table(place, tmp_path, line, text):
    (tmp_path / "wrong.csv").write_text(text)
    refused(2, f"{tmp_path}/wrong.csv: {line}", place(RUDDER, "--from-csv", tmp_path / "wrong.csv"))


@pytest.mark.parametrize(
    "line, words",
    [
        ("the following arguments are required: mission", []),
        ("unrecognized arguments: --other", [COUNT, "--other"]),
        ("argument --seconds: 0: a whole number from 1 on", [COUNT, "--seconds", "0"]),
        ("--size tells which table a CSV has: --from-csv is missing", [COUNT, "--size", "4"]),
        ("--write needs a mission in a file", ["-", "--write"]),
        ("--to-csv and --from-csv seek no tables: no wishes, no picture and no campaign stand beside them", [COUNT, "--to-csv", "--write"]),
        ("none.toml: No such file or directory", ["none.toml"]),
        ("none.wishes: No such file or directory", [COUNT, "none.wishes"]),
        ("cases/mistakes/else_if.toml is refused: task 0 kind 2 at 90; tools/explain cases/mistakes/else_if.toml shows the place", ["cases/mistakes/else_if.toml"]),
    ],
)
def test_other_words_and_missions(line, words):
    refused(2, line, tool("place", *words))


def test_a_table_that_is_to_stay_and_is_refused(tmp_path):
    (tmp_path / "five.wishes").write_text("sizes = [5]\n")
    (tmp_path / "broken.toml").write_bytes(sed('s/"012"/"021"/', RUDDER))
    refused(2, "`sizes` leaves the table for 4 as it is, and it is refused: table 4 row 0 rule 7", tool("place", tmp_path / "broken.toml", tmp_path / "five.wishes"))


def test_standard_input_is_read_and_help_helps(place):
    assert 'at = ["012"]' in place("-", given=COUNT.read_bytes())[0].splitlines()
    assert tool("place", "--help")[0].count("\nusage: tools/place") == 1


def test_what_the_program_does_not_accept_is_said_loudly(tmp_path):
    """Nor what it can't check. Nothing is put into the document."""
    kept = Path(shutil.copy(RUDDER, tmp_path / "kept.toml"))
    refusing = stand_in(tmp_path, "echo table 4 row 0 rule 9\nexit 6")
    for program in (refusing, tmp_path / "none"):
        _, said, status = tool("place", kept, "--program", program, "--write")
        assert status == 125 and len([line for line in said.splitlines() if "!!!!!!!!" in line]) == 2 and kept.read_bytes() == RUDDER.read_bytes()
    assert f"place: there is no program {tmp_path}/none: tools/build makes it, or --program names one; nothing proved has checked these tables" in said.splitlines()


def solved_by(script, tmp_path, mission, checker):
    """What the tool writes and says, and its status, where a script is the solver; without one where it is None."""
    bare = tmp_path / "bare"
    bare.mkdir(exist_ok=True)
    if script:
        stand_in(bare, script, "minizinc")
    path = f"{bare}:{os.environ['PATH']}" if script else str(bare)
    words = [sys.executable, "tools/place", mission, "--program", checker]
    ended = subprocess.run(words, stdin=subprocess.DEVNULL, capture_output=True, check=False, env={**os.environ, "PATH": path})
    return ended.stderr.decode(), ended.returncode


def test_the_solver_is_not_there_or_has_no_time_or_fails(tmp_path, checker):
    assert solved_by(None, tmp_path, COUNT, checker) == ("place: the tables are found by MiniZinc with Gecode, which isn't here: on Debian, apt-get install minizinc\n", 125)
    no_time = "place: no tables were found in 45 s, and it isn't known whether there are any; --seconds gives more\n"
    assert solved_by("echo =====UNKNOWN=====", tmp_path, RUDDER, checker) == (no_time, 3)
    assert solved_by("echo out of memory >&2\nexit 1", tmp_path, RUDDER, checker) == ("place: minizinc ends with status 1: out of memory\n", 125)


def test_what_can_not_be_written_is_said(tmp_path, place, checker):
    assert without_room("place", COUNT, "--program", checker) == (["place: No space left on device"], 9)
    _, said, status = place(COUNT, "--picture", tmp_path / "none" / "count.svg")
    assert (said.splitlines()[-1], status) == (f"place: {tmp_path}/none/count.svg: No such file or directory", 9)


@pytest.mark.skipif(os.getuid() == 0, reason="nothing is closed to root")
def test_a_mission_that_can_not_be_written_stays(place, tmp_path):
    sealed = tmp_path / "sealed"
    sealed.mkdir()
    shutil.copy(RUDDER, sealed)
    sealed.chmod(0o555)
    try:
        assert place(sealed / "rudder.toml", RUDDER.with_suffix(".wishes"), "--write")[2] == 9
        assert (sealed / "rudder.toml").read_bytes() == RUDDER.read_bytes()
    finally:
        sealed.chmod(0o755)


def test_the_campaign_before_and_after(place, program, tmp_path):
    """Where a program flies it."""
    if not shutil.which("parallel"):
        pytest.skip("there is no GNU parallel")
    lines = place(RUDDER, "--sweep", tmp_path / "campaign")[1].splitlines(keepends=True)
    begin = next(place for place, line in enumerate(lines) if line.endswith(" before   after\n"))
    assert "".join(lines[begin:]) == Path("cases/places/rudder.campaign").read_text()
