"""tools/lint: on each document of cases/lints/ it says what stands beside it, and ends with 1 where that is more than a note; in the
missions of missions/ it finds nothing; and it tells what it can't look at. What stands beside the documents was looked at by eye.
"""
from pathlib import Path

import pytest

from conftest import tool, without_room

SHOWS = "tools/explain {0} shows the place"


@pytest.mark.parametrize("path", sorted(Path("cases/lints").glob("*.toml")), ids=lambda path: path.stem)
def test_a_document_gets_what_stands_beside_it(path):
    wanted = path.with_suffix(".txt").read_text()
    finds = any(": note: " not in line for line in wanted.splitlines())
    output, said, status = tool("lint", path)
    assert (output + said, status) == (wanted, int(finds))
    assert path.read_text().split("\n", 1)[0].endswith(": nothing is found.") != finds, "its first line says something else"


def test_nothing_is_found_in_missions():
    output, _, status = tool("lint", *sorted(Path("missions").glob("*.toml")))
    assert status == 0 and all(": note: " in line for line in output.splitlines())


@pytest.mark.parametrize(
    "words, line",
    [
        ([], "usage: tools/lint MISSION.."),
        (["--other"], "usage: tools/lint MISSION.."),
        (["missions/none.toml"], "lint: missions/none.toml: No such file or directory"),
        (["cases/mistakes/slot_unknown.toml"], "lint: cases/mistakes/slot_unknown.toml is refused: scenario rule 29 at 0; " + SHOWS),
        (["cases/mistakes/colon.toml"], "lint: cases/mistakes/colon.toml is refused: not a document; " + SHOWS),
    ],
)
def test_what_can_not_be_looked_at_is_said(words, line):
    assert tool("lint", *words)[1:] == (line.format(*words) + "\n", 2)


def test_a_full_disk_is_said():
    assert without_room("lint", "missions/count.toml") == (["lint: No space left on device"], 2)


def test_standard_input_is_read_and_help_helps():
    told = "-: note: read by no other task, and so outputs for the report: count\n"
    assert tool("lint", "-", given=Path("missions/count.toml").read_bytes())[0] == told
    assert tool("lint", "--help")[0].count("\nusage: tools/lint") == 1
