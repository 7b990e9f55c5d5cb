"""tools/odds: what docs/odds.md shows of it, what it refuses, and how long a study takes."""
import json
import re
import resource
import subprocess
import sys
from pathlib import Path

import pytest

from sift import where

TOP = Path(where.TOP)
PAGE = (TOP / "docs" / "odds.md").read_text()
MISSION = TOP / "missions" / "first_5_liar.toml"
ROWS = TOP / "cases" / "sweeps" / "first_5_liar.tsv"
RATES = ("--permanent", "1e-4", "--transient", "1e-3", "--frame", "0.1", "--hours", "10")
SHOWN = re.compile(r"```sh\n(.*?)```\n\n```console\n(.*?)```", re.DOTALL)

needs_program = pytest.mark.skipif(not Path(where.program()).exists(), reason="no program is built to fly missions with")


def odds(*words, mission=MISSION):
    """What tools/odds says for some words."""
    return subprocess.run([sys.executable, str(TOP / "tools" / "odds"), str(mission), *map(str, words)], capture_output=True, text=True)


def table(*words):
    """The rows of a table that it writes."""
    ran = odds(*words)
    assert ran.returncode == 0, ran.stderr
    head, *rows = [line.split("\t") for line in ran.stdout.splitlines()]
    return [dict(zip(head, row)) for row in rows]


@needs_program
def test_the_page_shows_what_its_commands_write(tmp_path):
    """Each block of commands in the page's order, in one folder: what the last of them writes is shown behind it."""
    for name in ("tools", "missions"):
        (tmp_path / name).symlink_to(TOP / name)
    blocks = SHOWN.findall(PAGE)
    assert len(blocks) == 4
    for commands, due in blocks:
        for command in commands.splitlines():
            if command.startswith("tools/sweep"):
                command += " --overwrite"
            ran = subprocess.run(["bash", "-c", command], cwd=tmp_path, capture_output=True, text=True)
            # A campaign ends with 1 where a fault lost an output.
            assert ran.returncode in ((0, 1) if "sweep " in command else (0,)), ran.stderr
        assert ran.stdout == due, command


@pytest.mark.parametrize(
    "words, status, says",
    [
        (("--permanent", "-1", "--frame", "0.1", "--hours", "10"), 2, "-1"),
        (("--permanent", "1e400", "--frame", "0.1", "--hours", "10"), 2, "1e400: a number from 0 on that a float holds"),
        (("--permanent", "1e-4", "--hours", "10"), 2, "--frame"),
        (("--permanent", "1e-4", "--frame", "0", "--hours", "10", "--runs", ROWS), 1, "a frame has a number of seconds above 0"),
        (("--permanent", "1e-4", "--frame", "1e-9", "--hours", "1e6", "--runs", ROWS), 1, "too much for the digits of a float"),
        ((*RATES, "--runs", ROWS, "--vary", "speed=1"), 2, "speed=1: one of permanent, transient, frame, hours, units"),
        ((*RATES, "--runs", ROWS, "--vary", "units=5.5"), 1, "units 5.5: a whole number"),
        ((*RATES, "--runs", ROWS, "--vary", "units=3"), 1, "3 units: the promise wants 4 at least"),
        ((*RATES, "--runs", f"5={ROWS}"), 1, "no campaign tells how units fail in a configuration of 4"),
        ((*RATES, "--runs", ROWS, "--weight", "*=0"), 1, "the weights leave nothing of unit 0"),
        ((*RATES, "--runs", MISSION), 1, "line 1: the names of the columns are due"),
        ((*RATES, "--runs", "nowhere.tsv"), 1, "nowhere.tsv: No such file or directory"),
    ],
)
def test_what_cannot_be_used_is_named(words, status, says):
    ran = odds(*words)
    assert (ran.returncode, ran.stdout) == (status, "")
    assert says in ran.stderr
    assert "Traceback" not in ran.stderr


def test_an_empty_campaign_says_nothing_of_how_units_fail(tmp_path):
    (tmp_path / "runs.tsv").write_text(ROWS.read_text().splitlines()[0] + "\n")
    ran = odds(*RATES, "--runs", tmp_path / "runs.tsv")
    assert (ran.returncode, ran.stdout) == (1, "")
    assert "no single fault of unit 0, 1, 2, 3, 4 was flown that says anything" in ran.stderr


def test_a_mission_that_is_refused_is_named(tmp_path):
    mission = tmp_path / "no.toml"
    mission.write_text("units = 9\n")
    ran = odds(*RATES, "--runs", ROWS, mission=mission)
    assert ran.returncode == 1
    assert f"{mission} is refused" in ran.stderr


def test_all_of_it_is_had_as_values():
    ran = odds(*RATES, "--runs", ROWS, "--json", "--by", "way", "--causes", "3")
    told = json.loads(ran.stdout)
    assert told["units"] == 5 and len(told["contributions"]) == 3
    low, high = told["white_bounds"]
    assert low <= told["loss"] <= high
    assert sum(told["deaths"].values()) == pytest.approx(told["loss"])
    assert {"proved", "measured", "assumed"} <= set(told)


def test_a_tick_is_a_part_of_a_frame():
    """14 subframes of 50 ticks."""
    by_tick = odds("--permanent", "1e-4", "--tick", "0.001", "--hours", "10", "--runs", ROWS)
    by_frame = odds("--permanent", "1e-4", "--frame", "0.7", "--hours", "10", "--runs", ROWS)
    assert by_tick.stdout == by_frame.stdout != ""


def used():
    """The seconds of processor time that commands took till now."""
    children = resource.getrusage(resource.RUSAGE_CHILDREN)
    return children.ru_utime + children.ru_stime


def test_ten_thousand_solutions_take_less_than_a_minute(tmp_path):
    values = ",".join(f"{10 ** (-6 + place / 25):.6g}" for place in range(100))
    hours = ",".join(str(place) for place in range(1, 101))
    begun = used()
    rows = table(*RATES, "--runs", ROWS, "--vary", f"permanent={values}", "--vary", f"hours={hours}", "--plot", tmp_path / "study.svg")
    assert used() - begun < 60
    assert len(rows) == 10_000
    assert all(float(one["loss"]) < float(other["loss"]) for one, other in zip(rows, rows[1:]) if one["permanent"] == other["permanent"])
