"""tools/compare, on reports of missions/, and on lines that were worked out by hand."""
from pathlib import Path

import pytest

from conftest import sed, tool, without_room

COUNT = Path("missions/count_five.report")


def compared(tmp_path, one, other):
    """What the tool makes of two reports, each a path or a change of COUNT for sed."""
    paths = []
    for name, told in (("A", one), ("B", other)):
        if isinstance(told, bytes):
            (tmp_path / name).write_bytes(told)
            told = tmp_path / name
        paths.append(told)
    output, said, status = tool("compare", *paths)
    return (output + said).splitlines(), status


def changed(script):
    return sed(script, COUNT)


NOBODY = "every unit works in every frame, and nobody is caught"


def test_reports_that_are_the_same(tmp_path):
    assert compared(tmp_path, COUNT, COUNT) == ([], 0)


@pytest.mark.parametrize(
    "one, other, lines",
    [
        ("", "4s/out=0010/out=0011/", ["frame 0, unit 3, out word 0: 0010 in A, 0011 in B", "1 of 2 frames differ: 0"]),
        (
            "8s/bad=-/bad=4/",
            "",
            ["frame 1, unit 1, bad: 4 in A, - in B", "1 of 2 frames differ: 1", "- frame 1: unit 1 catches unit 4", f"+ {NOBODY}"],
        ),
        (
            "8s/bad=-/bad=4pc/",
            "8s/bad=-/bad=4p/",
            [
                "frame 1, unit 1, bad: 4pc in A, 4p in B",
                "1 of 2 frames differ: 1",
                "- frame 1: unit 1 catches unit 4 (poll, clock)",
                "+ frame 1: unit 1 catches unit 4 (poll)",
            ],
        ),
        (
            "8s/bad=-/bad=3r,4pc/",
            "8s/bad=-/bad=4/",
            ["frame 1, unit 1, bad: 34 in A, 4 in B", "1 of 2 frames differ: 1", "- frame 1: unit 1 catches unit 3"],
        ),
        (
            "",
            "9s/cfg=.*/faulty/; 12s/ok/lost/; 13s/ok/lost/",
            [
                "frame 1, unit 2, line: an account in A, faulty in B",
                "1 of 2 frames differ: 1",
                f"- {NOBODY}",
                "+ frame 1: unit 2 is faulty from here on, and never caught",
                "+ frame 1: the margin is lost",
            ],
        ),
        ("", "6s/slack=1/slack=2/", ["frame 0, the frame, slack: 1 in A, 2 in B", "1 of 2 frames differ: 0"]),
        (
            "",
            "$s/cfg=01234/cfg=0123/",
            [
                "the last line, cfg: 01234 in A, 0123 in B",
                "0 of 2 frames differ",
                f"- {NOBODY}",
                "+ after the last frame: unit 4 is out; the configuration is 0123",
            ],
        ),
    ],
)
def test_where_they_first_differ(tmp_path, one, other, lines):
    """In a word, a state, a frame's line, or the end; of reports of different versions what both tell is compared."""
    assert compared(tmp_path, changed(one), changed(other)) == (lines, 1)


def test_versions_that_tell_the_same(tmp_path):
    assert compared(tmp_path, changed("8s/bad=-/bad=4pc/"), changed("8s/bad=-/bad=4/")) == ([], 0)


def test_other_lengths_and_sizes(tmp_path):
    missions = Path("missions")
    short = b"".join(COUNT.read_bytes().splitlines(keepends=True)[:6]) + b"end frames=1 cfg=01234 margin=ok\n"
    for one, other, lines in (
        (missions / "count.report", missions / "twice.report", ["frame 0, unit 0, out: 0010 in A, 0010,0020 in B", "1 of 1 frames differ: 0"]),
        (missions / "first_1_task.report", missions / "wrap.report", ["frame 0, unit 0, out word 0: 0069 in A, 0001 in B", "3 of 3 frames differ: 0 to 2"]),
        (COUNT, short, ["A has 2 frames, and B has 1; up to there they are the same", "0 of 1 frames differ"]),
        (missions / "count.report", COUNT, ["A has 4 units, and B has 5"]),
    ):
        assert compared(tmp_path, one, other) == (lines, 1)


def test_what_is_no_report_is_said(tmp_path):
    assert compared(tmp_path, COUNT, "missions/count.toml") == (["compare: missions/count.toml is no report: line 1: a line of frame 0 is due"], 2)
    assert compared(tmp_path, COUNT, "missions/none.report") == (["compare: missions/none.report: No such file or directory"], 2)


@pytest.mark.parametrize("words", [[], [COUNT], ["-", "-"], ["--other", COUNT]], ids=str)
def test_other_words_get_the_usage(words):
    assert tool("compare", *words) == ("", "usage: tools/compare A B\n", 2)


def test_a_full_disk_is_said_and_help_helps():
    assert without_room("compare", "missions/pitch.report", "missions/wrong_executor.report") == (["compare: No space left on device"], 9)
    assert "\nusage: tools/compare" in tool("compare", "--help")[0]
