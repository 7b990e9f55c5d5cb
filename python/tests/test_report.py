"""Reports as values: they tell what the lines say, as tools/words has it in CSV."""
import csv
import io
from pathlib import Path

import pytest

import sift
from conftest import tool
from sift.reports.reading import NoReport
from sift.texts import Skews

REPORTS = sorted(Path("missions").glob("*.report"))
LIAR = Path("missions/first_5_liar.toml")


def read(path):
    """The report of a mission, with its document."""
    return sift.Report.read(path, path.with_suffix(".toml").read_bytes())


def test_what_a_report_tells():
    report = read(LIAR.with_suffix(".report"))
    assert (report.units, len(report.frames), report.version, report.margin) == (5, 6, 2, True)
    assert report.configurations == [(0, 1, 2, 3, 4)] * 3 + [(0, 2, 3, 4)] * 4
    assert report.catches == [(2, by, 1, ("poll",)) for by in (0, 2, 3, 4)]
    assert report.words("elevator.0") == [10, 12, -6, 40, 42, 24] and report.names == ["target.0", "elevator.0", "sense.pitch"]
    assert report.frames[2].states == ["works", "faulty", "works", "works", "works"] and report.frames[0].skew == 16
    assert "frames 2 to 5: unit 1 says 999 as out target.0 to units 0 2 3 4" in report.events
    assert repr(report) == "<Report: 5 units, 6 frames, margin kept>"
    with pytest.raises(KeyError, match="there is no word rudder.0; there are target.0, "):
        report.words("rudder.0")


def test_without_its_document_words_have_numbers():
    report = sift.Report.read(LIAR.with_suffix(".report"))
    assert report.names == ["out.0", "out.1", "in.0"] and report.words("out.1") == [10, 12, -6, 40, 42, 24]
    assert report == read(LIAR.with_suffix(".report")) and report != sift.Report.read("missions/count.report")


def test_another_missions_report_is_none_of_this():
    with pytest.raises(NoReport, match="it isn't the mission's"):
        sift.Report(Path("missions/count.report").read_text(), LIAR.read_bytes())


def test_two_reports_are_compared():
    one, other = sift.Report.read("missions/pitch.report"), sift.Report.read("missions/wrong_executor.report")
    assert "\n".join(one.differences(other)) + "\n" == tool("compare", "missions/pitch.report", "missions/wrong_executor.report")[0]
    assert one.differences(one) == []


@pytest.mark.parametrize("path", REPORTS, ids=lambda path: path.stem)
def test_a_data_frame_has_the_rows_of_the_words(path):
    pandas = pytest.importorskip("pandas")
    report = read(path)
    table = report.to_pandas()
    told = tool("words", "--unjudged", path.with_suffix(".toml"), path)[0]
    rows = list(csv.DictReader(io.StringIO(told)))
    assert len(rows) == len(table) == report.units * len(report.frames)
    for row, (_, cells) in zip(rows, table.iterrows()):
        assert (int(row["f"]), int(row["u"]), row["margin"] == "ok") == (cells["frame"], cells["unit"], cells["margin"])
        for name in (*report.names, "skew", "slack"):
            assert row[name] == ("" if pandas.isna(cells[name]) else str(cells[name])), name


def test_a_picture_is_that_of_the_tool():
    drawn = tool("picture", LIAR.with_suffix(".report"), LIAR)[0]
    report = read(LIAR.with_suffix(".report"))
    assert report.picture(name="first_5_liar.report of first_5_liar.toml") == drawn
    assert report._repr_svg_().startswith("<svg ")


def test_words_and_skews_are_plotted(tmp_path):
    matplotlib = pytest.importorskip("matplotlib")
    matplotlib.use("Agg")
    report = read(LIAR.with_suffix(".report"))
    axes = report.plot("target.0", "elevator.0")
    assert [line.get_label() for line in axes.get_lines()] == ["target.0", "elevator.0"]
    assert list(axes.get_lines()[1].get_ydata()) == [10, 12, -6, 40, 42, 24]
    assert list(report.plot().get_lines()[0].get_ydata()) == [frame.skew for frame in report.frames]
    run = Skews("round=0 skew=3\nround=1 skew=2\nclocks n=4 m=1 most=3 bound=8\n").plot()
    assert [list(line.get_ydata()) for line in run.get_lines()] == [[3, 2], [8, 8]]
    axes.figure.savefig(tmp_path / "words.svg")
    assert "elevator.0" in (tmp_path / "words.svg").read_text()
