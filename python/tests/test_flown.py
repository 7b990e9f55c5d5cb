"""Campaigns that are flown, by the program's library in this machine's processes: they want out/sift and out/libsift.so."""
import os
import shutil
import signal
import subprocess
import sys
import time
from pathlib import Path

import pytest

import sift
from sift import where

TOP = Path(__file__).resolve().parents[2]
MISSIONS = TOP / "missions"
pytestmark = pytest.mark.skipif(not where.library() or not os.path.exists(where.BUILT), reason="the program or its library isn't built")


def stored(name):
    """The rows of a stored campaign, as the judge takes them."""
    lines = (TOP / "cases" / "sweeps" / f"{name}.tsv").read_text().splitlines()
    return [line if number == 0 else "\t".join([*line.split("\t")[:10], "yes", *line.split("\t")[11:]]) for number, line in enumerate(lines)]


def sweep(*words, **more):
    """A campaign that has begun. Ctrl-C ends it, also where these tests were begun in the background, where it is ignored."""
    called = [sys.executable, str(TOP / "tools" / "sweep"), *map(str, words)]
    return subprocess.Popen(called, stdout=subprocess.PIPE, stderr=subprocess.PIPE, text=True, start_new_session=True, preexec_fn=hear_ctrl_c, **more)


def hear_ctrl_c():
    signal.signal(signal.SIGINT, signal.SIG_DFL)


def ended(flight):
    """The status of a sweep, what it wrote, and the last line that it said."""
    output, said = flight.communicate(timeout=120)
    return flight.returncode, output, said.splitlines()[-1] if said else ""


@pytest.mark.parametrize("name, chosen", [("first_5_liar", {}), ("placed_reader", {}), ("two_faults_in_turn", {"pairs": True, "begin": [0, 3], "limit": 150})])
def test_rows_are_those_that_are_stored(name, chosen, tmp_path):
    flown = sift.Campaign.fly(MISSIONS / f"{name}.toml", tmp_path / "campaign", jobs=2, **chosen)
    assert Path(flown.table).read_text().splitlines() == stored(name)


def children_of(process):
    return [int(child) for child in Path(f"/proc/{process}/task/{process}/children").read_text().split()]


def begun(folder):
    """A campaign of 300 runs in small batches, of which some are flown."""
    flight = sweep(MISSIONS / "pitch.toml", "--pairs", "--limit", 300, "--batch", 5, "--jobs", 2, "--out", folder)
    end = time.monotonic() + 60
    while "done " not in ((folder / "jobs.txt").read_text() if (folder / "jobs.txt").exists() else ""):
        assert time.monotonic() < end and flight.poll() is None, flight.communicate()
        time.sleep(0.01)
    return flight


@pytest.fixture(scope="module")
def whole(tmp_path_factory):
    """The table of that campaign."""
    folder = tmp_path_factory.mktemp("whole") / "campaign"
    status, output, said = ended(sweep(MISSIONS / "pitch.toml", "--pairs", "--limit", 300, "--out", folder))
    assert status == 0, said
    return (folder / "runs.tsv").read_text()


def test_processes_are_killed(whole, tmp_path):
    folder = tmp_path / "campaign"
    flight = begun(folder)
    fliers = [child for child in children_of(flight.pid) if "sweep" in Path(f"/proc/{child}/cmdline").read_text()]
    assert len(fliers) == 2
    for flier in fliers:
        os.kill(flier, signal.SIGKILL)
    status, output, said = ended(flight)
    assert (status, output) == (125, "") and said.endswith(" of 300 runs were flown, and its processes ended with status 1; --resume goes on")
    assert not (folder / "runs.tsv").exists()
    assert ended(sweep("--resume", "--out", folder))[0] == 0
    assert (folder / "runs.tsv").read_text() == whole


def test_all_processes_end_with_the_tool(whole, tmp_path):
    folder = tmp_path / "campaign"
    flight = begun(folder)
    fliers = children_of(flight.pid)
    flight.kill()
    flight.wait()
    end = time.monotonic() + 10
    while any(Path(f"/proc/{child}/cmdline").exists() and "sweep" in Path(f"/proc/{child}/cmdline").read_text() for child in fliers):
        assert time.monotonic() < end, "a process flies on"
        time.sleep(0.05)
    with (folder / "jobs.txt").open("a") as file:
        file.write("batch 3\n1\tcut o")
    words = ["--jobs", "100%"] if shutil.which("parallel") else []  # GNU parallel goes on with it as well
    assert ended(sweep("--resume", "--out", folder, *words))[0] == 0
    assert (folder / "runs.tsv").read_text() == whole


def test_ctrl_c(whole, tmp_path):
    folder = tmp_path / "campaign"
    flight = begun(folder)
    os.killpg(flight.pid, signal.SIGINT)
    status, output, said = ended(flight)
    assert (status, output, said) == (130, "", "sweep: ended; --resume goes on")
    assert ended(sweep("--resume", "--out", folder))[0] == 0
    assert (folder / "runs.tsv").read_text() == whole


def test_the_smallest_document_loses_the_same(tmp_path):
    folder = tmp_path / "campaign"
    status, output, said = ended(sweep(MISSIONS / "pitch.toml", "--random", 60, "--number", 11, "--out", folder))
    assert status in (0, 1), said
    assert output.startswith("60 runs with drawn faults: an output was lost in ") and output.count("(95%: ") == 3
    small = (folder / "smallest.toml").read_text()
    lost = small.splitlines()[0].split("that loses ")[1].split(" as row ")[0].split(" and ")
    report = sift.run(small)
    wrong = any(word != due for frame, due in zip(report.frames, sift.ideal(small).words) for out in frame.votes for word, due in zip(out, due))
    assert (not report.margin) == ("the margin" in lost) or "an output" in lost
    assert wrong or "an output" not in lost
    number = int(small.split(" as row ")[1].split(" ")[0])
    assert ended(sweep("--reduce", number, "--out", folder))[1] == small


def test_a_row_that_loses_nothing_isnt_reduced(tmp_path):
    sift.Campaign.fly(MISSIONS / "pitch.toml", tmp_path / "campaign", limit=1)
    assert ended(sweep("--reduce", 1, "--out", tmp_path / "campaign"))[::2] == (2, "sweep: row 1 loses neither the margin nor an output")


def test_own_faults_are_kept(tmp_path):
    flown = sift.Campaign.fly(MISSIONS / "two_faults_in_turn.toml", tmp_path / "campaign", keep=True, limit=30)
    assert {row["fault"].split(" ")[1] for row in flown.rows} == {"0", "1", "2", "3", "4"}  # 5 and 6 have faults of their own
    assert [fault.unit for fault in flown.replay(1)[0].faults] == [6, 5, 0]


def test_values_may_be_negative(tmp_path):
    flown = sift.Campaign.fly(MISSIONS / "first_5_liar.toml", tmp_path / "campaign", kinds=["offset"], values=[-3, 5], begin=[2])
    assert flown.rows[0]["fault"] == "unit 0 sense pitch offset -3 from 2"
    says = [(item["frame"] if "frame" in item else None, item["value"]) for item in flown.replay(1)[0].faults[0].items]
    said = dict(says)
    assert [said.get(frame, said[None]) for frame in range(2, 6)] == [115, 97, 101, 115]  # of 118, 100, 104 and 118


@pytest.mark.parametrize(
    "words, why",
    [
        (["--kinds", "lie"], "argument --kinds: lie: the kinds are wrong, silence, two-faces, flip, stuck, offset, drift, intermittent"),
        (["--kinds", "storm"], "argument --kinds: storm: it goes with --random"),
        (["--kinds", "silence", "--values", "1"], "--values goes with wrong, flip, offset, drift, intermittent"),
        (["--kinds", "flip", "--values", "16"], "argument --values: 16: flip takes 0 to 15"),
        (["--random", "3", "--pairs"], "--random draws units, moments and words: --single, --pairs, --values, --from and --limit choose them"),
        (["--from", "50"], "--from names frame 50, and the mission has 50 frames"),
        (["--values", "1-0"], "argument --values: 1-0: values are listed as in 7,-3 or 0-15"),
        (["--number", "3"], "--number goes with --random"),
        (["--random", "0"], "argument --random: 0: a whole number from 1 on"),
        (["--random", "3", "--number", "-1"], "argument --number: -1: a whole number of at most 18 digits"),
        (["--slurm", "--jobs", "+0"], "argument --jobs: +0: with --slurm a whole number from 1 on"),
        (["--slurm", "--sshlogin", "x"], "--slurm and --sshlogin are two ways to other machines"),
    ],
)
def test_what_doesnt_go_together_is_refused(words, why, tmp_path):
    assert ended(sweep(MISSIONS / "pitch.toml", *words, "--out", tmp_path / "none")) == (2, "", f"sweep: {why}")
    assert not (tmp_path / "none").exists()


def test_keep_leaves_a_unit_that_works(tmp_path):
    mission = tmp_path / "mission.toml"
    mission.write_text(faulty(5))
    assert ended(sweep(mission, "--keep", "--out", tmp_path / "none"))[2] == "sweep: --keep leaves 5 faulty units of 6, and with one more none would work"


def faulty(units):
    """The document of pitch with so many faulty units."""
    document = (MISSIONS / "pitch.toml").read_text()
    return document + "".join(f'\n[[fault]]\nunit = {unit}\nfrom = 0\nsay = [{{slot = "clock", to = "5"}}]\n' for unit in range(units))


def test_files_that_are_refused(tmp_path):
    bad = tmp_path / "bad.require"
    bad.write_text('[[require]]\nword = "elevater.0"\nwithin = 1\n')
    mission = MISSIONS / "first_5_liar.toml"
    assert ended(sweep("--resume", "--keep"))[2] == "sweep: what is flown is chosen where a campaign begins: --resume, --replay and --reduce have it from the folder"
    flight = sweep(mission, "--require", bad, "--out", tmp_path / "none")
    said = flight.communicate()[1].splitlines()
    assert flight.returncode == 2 and said[:2] == ["sweep: what is required is refused", f"{bad}:2:8: the mission has no output word `elevater.0`"]
    assert ended(sweep(mission, "--require", tmp_path / "missing", "--out", tmp_path / "none"))[::2] == (125, f"sweep: {tmp_path}/missing: No such file or directory")
    assert not (tmp_path / "none").exists()
    status, output, said = ended(sweep("--compare", bad, bad))
    assert (status, said) == (2, "sweep: no runs of a campaign: line 1: the names of the columns are due")


def test_words_tells_what_is_required(tmp_path):
    wanted = tmp_path / "wanted"
    wanted.write_text('[[require]]\nword = "elevator.0"\nleast = -5\n')
    called = [sys.executable, str(TOP / "tools" / "words"), "--require", str(wanted), str(MISSIONS / "first_5_liar.toml"), str(MISSIONS / "first_5_liar.report"), where.BUILT]
    done = subprocess.run(called, capture_output=True, text=True, check=False)
    assert (done.returncode, done.stdout) == (3, "broken  elevator.0 at least -5: 1 at most, too far in 1 frame, first in 2\n")
    wanted.write_text('[[require]]\nword = "elevator.1"\nleast = -5\n')
    done = subprocess.run(called, capture_output=True, text=True, check=False)
    assert (done.returncode, done.stderr.splitlines()[1]) == (2, f"{wanted}:2:8: the mission has no output word `elevator.1`")


def test_campaigns_are_compared(tmp_path):
    before, after = (sift.Campaign.fly(MISSIONS / f"{name}.toml", tmp_path / name) for name in ("first_5_liar", "placed_reader"))
    assert after.compared(before).startswith("129 runs in both campaigns: 0 got worse, 3 better, 126 stayed; ")
    assert "got better" in after.picture(before) and "got better" not in after.picture()
    assert ended(sweep("--compare", tmp_path / "placed_reader", tmp_path / "first_5_liar"))[0] == 1
    assert after.smallest(4).data["frames"] == 1


def test_what_is_required_is_told_in_each_row(tmp_path):
    wanted = tmp_path / "wanted"
    wanted.write_text('[[require]]\nword = "elevator.0"\nwithin = 8\nbut_for = 2\n')
    folder = tmp_path / "campaign"
    words = (MISSIONS / "placed_reader.toml", "--require", wanted, "--out", folder, "--json", tmp_path / "json", "--junit", tmp_path / "junit")
    status, output, said = ended(sweep(*words))
    assert status == 0 and output.startswith("135 runs with a single fault: a requirement was broken in 0, the margin in 0\nbroken in 0 runs: elevator.0 within 8 but for 2 frames\n")
    rows = (folder / "runs.tsv").read_text().splitlines()
    assert rows[0].endswith("\tlast\tpromised\televator.0 within 8 but for 2 frames") and rows[4].endswith("\tkept 1798 1 0")
    assert '"failures": 0' in (tmp_path / "json").read_text() and 'failures="0"' in (tmp_path / "junit").read_text()
    # Of the mission before its mend three runs break it.
    status, output, said = ended(sweep(MISSIONS / "first_5_liar.toml", "--require", wanted, "--out", tmp_path / "before"))
    assert status == 1 and output.startswith("132 runs with a single fault: a requirement was broken in 3, the margin in 0\n")
    assert ended(sweep("--resume", "--out", folder, "--json", "/dev/full"))[0] == 9


def test_the_page_shows_what_is_told(tmp_path):
    """What stands in the page's blocks of a console is what its commands write."""
    told = []
    for name, words in (
        ("happening", ("placed_reader", "--kinds", "flip,stuck,offset,drift,intermittent")),
        ("before", ("first_5_liar", "--require", "missions/first_5_liar.require")),
        ("after", ("placed_reader", "--require", "missions/first_5_liar.require")),
        ("drawn", ("placed_reader", "--random", 1000, "--number", 1)),
    ):
        told.append(ended(sweep(MISSIONS / f"{words[0]}.toml", *words[1:], "--out", tmp_path / name))[1])
    told.append((tmp_path / "after" / "runs.tsv").read_text())
    told.append(ended(sweep("--reduce", 51, "--out", tmp_path / "drawn"))[1])
    for tool, *words in (
        ("picture", "--text", "--sweep", tmp_path / "happening" / "runs.tsv"),
        ("words", "--require", "missions/first_5_liar.require", "missions/first_5_liar.toml", "missions/first_5_liar.report", where.BUILT),
    ):
        told.append(subprocess.run([sys.executable, f"tools/{tool}", *map(str, words)], capture_output=True, text=True, check=True).stdout)
    lines = "".join(told).splitlines()
    page = (TOP / "docs" / "campaigns.md").read_text()
    shown = [line for block in page.split("```console\n")[1:] for line in block.split("\n```\n")[0].splitlines() if line]
    assert len(shown) > 20
    assert [line for line in shown if not any(line in each for each in lines)] == []


@pytest.mark.skipif(not shutil.which("parallel"), reason="there is no GNU parallel")
def test_overwrite_begins_where_there_is_no_campaign(tmp_path):
    """By a program that has no library beside it, so that GNU parallel flies."""
    program = tmp_path / "sift"
    shutil.copy(where.BUILT, program)
    words = [MISSIONS / "first_5_liar.toml", "--program", program, "--overwrite", "--out", tmp_path / "campaign"]
    status, _, said = ended(sweep(*words))
    assert status == 1, said
    assert (tmp_path / "campaign" / "runs.tsv").read_text().splitlines() == stored("first_5_liar")
