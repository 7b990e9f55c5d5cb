"""Campaigns as values: they have the rows that the tool writes, and are replayed row by row."""
import re
import shutil
from pathlib import Path

import pytest

import sift
from conftest import tool
from sift.campaign import words_of

LIAR = Path("missions/first_5_liar.toml")

pytestmark = pytest.mark.skipif(not shutil.which("parallel"), reason="there is no GNU parallel")


@pytest.fixture
def flown(program, tmp_path):
    """A campaign, and what it is flown in."""
    return sift.Campaign.fly(LIAR, tmp_path / "campaign", kinds=["wrong"], begin=[0])


def test_rows_are_those_of_the_tool(flown, tmp_path):
    summary = tool("sweep", LIAR, "--kinds", "wrong", "--out", tmp_path / "tool")[0]
    assert (tmp_path / "tool" / "runs.tsv").read_text() == (tmp_path / "campaign" / "runs.tsv").read_text()
    assert flown.summary == summary and len(flown) == 44
    counted = re.search("44 runs with a single fault: (.*)", summary)[1]
    assert repr(flown) == f"<Campaign: 44 runs; {counted}>"
    assert len(sift.Campaign(tmp_path / "tool").rows) == 44


def test_a_data_frame_has_a_row_for_each_run(flown):
    pytest.importorskip("pandas")
    table = flown.to_pandas()
    assert len(table) == 44 and list(table["wrong"]) == [int(row["wrong"]) for row in flown.rows] and list(table["first"].isna()) == [row["first"] == "-" for row in flown.rows]


def test_a_row_is_replayed(flown):
    mission, report = flown.replay(2)
    assert mission.faults[0].items == [{"slot": "sense", "index": 0, "to": "1234", "value": 999}]
    assert sift.run(mission) == report and flown.rows[1]["last"] == report.text.splitlines()[-1]


def test_its_picture_is_that_of_the_tool(flown):
    assert flown.picture() == tool("picture", "--sweep", f"{flown.folder}/runs.tsv")[0]


def test_what_is_not_flown_is_said(program, tmp_path):
    with pytest.raises(sift.Refusal, match="scenario rule 2 at 0"):
        sift.Campaign.fly("units = 9\n", tmp_path / "none")
    assert not (tmp_path / "none").exists()
    with pytest.raises(sift.NotFlown, match="--from names frame 9, and the mission has 6 frames"):
        sift.Campaign.fly(LIAR, tmp_path / "none", begin=[9])
    with pytest.raises(sift.NotFlown, match="has no campaign that was flown to its end"):
        sift.Campaign(tmp_path)


def test_options_are_words():
    assert words_of({"begin": [0, 10], "pairs": True, "single": False, "limit": 5, "kinds": "wrong"}) == ["--from", "0,10", "--pairs", "--limit", "5", "--kinds", "wrong"]
