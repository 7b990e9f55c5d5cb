"""The commands as functions: the library and the program answer as the cases say, and each answer is a value or its refusal."""
import os
import pickle
import subprocess
import sys
import threading
from pathlib import Path

import pytest
from hypothesis import given, settings, strategies

import sift
from conftest import asked_here
from sift import callers, commands, where
from sift.refusal import parts_of

LIAR = Path("missions/first_5_liar.toml")
MISSIONS = sorted(Path("missions").glob("*.toml"))
STORMS = {path.stem for path in MISSIONS if "[fault.storm]" in path.read_text()}


def test_answers_are_those_of_the_cases(caller, cases):
    wrong = []
    for name, (words, given, status, text) in cases.items():
        if name in STORMS:
            words = [*words, "--workers", "1"]  # of several workers no report is the only one
        if caller.answer(words, given) != (status, text):
            wrong.append(name)
    assert len(cases) > 1500 and not wrong


@pytest.mark.parametrize("path", MISSIONS, ids=lambda path: path.stem)
def test_missions_have_their_reports(caller, path):
    workers = 1 if path.stem in STORMS else None
    report = sift.run(path, workers=workers)
    assert report.text == path.with_suffix(".report").read_text()
    assert sift.judge(path, report)
    assert sift.check(path).text == path.read_text()


def test_values(caller):
    assert sift.votes(LIAR).votes[0] == (0, 0, "target", 0, {0: 105, 1: 105, 2: 105}, 105)
    assert sift.votes(LIAR).configuration == (0, 2, 3, 4)
    assert sift.ideal(LIAR).words[0] == (0x69, 0x0A)
    assert sift.plan(Path("missions/planned.toml"), copies=3, subframes=17).tables[0]["size"] == 4
    over = sift.buses(Path("missions/count.toml"), bus=1, begin=0, value=16)
    assert (over.bad, over.wrong, over.report) == (1, {0: 48}, Path("missions/count.report").read_text())
    assert sift.buses(Path("missions/count.toml"), bus=1, begin=1).bad is None
    run = sift.clocks(n=4, m=1, skew=8, error=1, rate=0, rounds=3, number=5)
    assert (run.skews, run.most, run.bound) == ([3, 2, 6, 2], 6, 8)
    ending = sift.trial(0)
    assert (ending.frames, ending.configuration, ending.margin) == (34, (0, 1, 2, 4, 5, 6, 7), True)
    drawn = sift.gen(0)
    assert (drawn.units, drawn.frames) == (8, 34) and sift.run(drawn).configurations[-1] == ending.configuration
    vectors = sift.byz("units = 4\nm = 1\nvalues = [1, 2, 3, 4]\nlie = [{path = '0', to = '1', value = 7}]\n").vectors
    assert vectors == [None, (1, 2, 3, 4), (1, 2, 3, 4), (1, 2, 3, 4)]


def test_a_verdict_tells_frame_and_rule(caller):
    text = LIAR.with_suffix(".report").read_text()
    verdict = sift.judge(LIAR, text.replace("out=006e,000c", "out=006f,000c", 1))
    assert not verdict and (verdict.frame, verdict.rule) == (1, 4)
    assert sift.judge(LIAR, sift.run(LIAR, report=1))


# What is refused.

MISTAKES = sorted(Path("cases/mistakes").glob("*.toml"))


@pytest.mark.parametrize("path", MISTAKES, ids=lambda path: path.stem)
def test_mistakes_are_refused_with_their_places(caller, path):
    line, explanation = path.with_suffix(".txt").read_text().split("\n", 1)
    with pytest.raises(sift.Refusal) as refused:
        sift.run(path)
    assert refused.value.line == line and refused.value.shown(str(path)) == explanation
    assert explanation.startswith("{}:{}:{}: ".format(path, *refused.value.place)) and refused.value.mend
    again = pickle.loads(pickle.dumps(refused.value))
    assert (str(again), again.place, again.rule, again.entry) == (str(refused.value), refused.value.place, refused.value.rule, refused.value.entry)


@pytest.mark.parametrize(
    "line, parts",
    [
        ("scenario rule 12 at 3", ("scenario", 12, 3)),
        ("task 2 kind 5 at 40", ("task", 5, 2)),
        ("table 5 row 1 rule 8", ("table", 8, 1)),
        ("script entry 3 rule 2", ("script", 2, 3)),
        ("byz rule 9 at 3", ("plan", 9, 3)),
        ("no room 4 task 2", ("no room", None, 2)),
        ("report line 7", ("report", None, 7)),
        ("not a document", ("not a document", None, None)),
    ],
)
def test_a_line_tells_its_rule_and_entry(line, parts):
    assert parts_of(line) == parts


def test_other_refusals(caller):
    def refused(command, *words, **options):
        with pytest.raises(sift.Refusal) as found:
            command(*words, **options)
        return found.value.line, found.value.status, found.value.place, bool(found.value.mend)

    assert refused(sift.run, LIAR, report=3) == ("usage", 2, None, True)
    assert refused(sift.check, "#" * 1_048_577) == ("too long", 11, (1, 1_048_577), True)
    assert refused(sift.check, b"\xff") == ("not a document", 3, (1, 1), True)
    assert refused(sift.plan, Path("missions/planned.toml"), copies=3, subframes=16)[:2] == ("no room 4 task 3", 14)
    assert refused(sift.buses, Path("missions/stray_writer.toml"), bus=0, begin=0) == ("storm", 15, None, True)
    assert refused(sift.byz, "units = 3\nm = 1\nvalues = [1, 2, 3]\n")[:2] == ("byz rule 3 at 0", 16)
    assert refused(sift.clocks, n=3, m=1, skew=8, error=1, rate=0, rounds=3, number=5) == ("not admitted", 17, None, True)
    assert refused(sift.judge, LIAR, "f=0\n")[:3] == ("report line 1", 12, (1, 1))
    assert refused(sift.judge, "units = 9\n", "f=0\n")[:3] == ("scenario rule 2 at 0", 4, (1, 9))


def test_a_path_as_a_string_is_said_to_be_one():
    with pytest.raises(TypeError, match="pathlib.Path"):
        commands.bytes_of("missions/count.toml")


@settings(max_examples=12, deadline=None)
@given(number=strategies.integers(0, 2**64 - 1), order=strategies.integers(0, 2**64 - 1))
def test_drawn_missions_fly_alike(number, order):
    """By the library and by the program, in whatever order; and the judge takes the report."""
    drawn, reports = set(), set()
    for each in asked_here():
        if each.values[0]:
            callers.use(each.values[0])
            drawn.add(sift.gen(number).text)
            reports.add(sift.run(sift.gen(number), order=order))
            assert all(sift.judge(sift.gen(number), report) for report in reports)
            assert {sift.trial(number).text} == {report.text.splitlines(keepends=True)[-1] for report in reports}
    assert len(drawn) < 2 and len(reports) < 2


# The library.

needs_library = pytest.mark.skipif(not where.library(), reason="the library isn't built: tools/library makes it")


@needs_library
def test_a_room_grows(monkeypatch):
    monkeypatch.setattr(callers, "ROOM", 1)
    given = Path("missions/eight_units.toml").read_bytes()
    for _ in range(2):
        assert callers.Library(where.library()).answer(["run"], given).text == Path("missions/eight_units.report").read_bytes()


@needs_library
def test_threads_wait_for_one_another():
    chosen = [path for path in MISSIONS if path.stem not in STORMS] * 3
    libraries = [callers.Library(where.library()) for _ in range(4)]
    wrong = []

    def fly(library):
        for path in chosen:
            if library.answer(["run"], path.read_bytes()).text != path.with_suffix(".report").read_bytes():
                wrong.append(path)

    threads = [threading.Thread(target=fly, args=(library,)) for library in libraries]
    for thread in threads:
        thread.start()
    for thread in threads:
        thread.join()
    assert not wrong and len({id(library._lock) for library in libraries}) == 1


@needs_library
def test_want_of_memory_is_an_exception_and_the_library_goes_on():
    code = """if True:
        import resource, sys
        sys.path.insert(0, "python")
        import sift
        from sift import where
        library = sift.Library(where.library())
        with open("missions/eight_units.toml", "rb") as file:
            given = file.read()
        library.answer(["run"], given)  # which takes the stack that it needs: a stack that can't grow ends a process
        used = int(open("/proc/self/statm").read().split()[0]) * resource.getpagesize()
        wanting = 0
        for more in range(0, 40):
            resource.setrlimit(resource.RLIMIT_AS, (used + more * 65536, resource.RLIM_INFINITY))
            try:
                library.answer(["run"], given)
            except MemoryError:
                wanting += 1
        resource.setrlimit(resource.RLIMIT_AS, (resource.RLIM_INFINITY, resource.RLIM_INFINITY))
        print(wanting, len(library.answer(["run"], given).text))
    """
    ended = subprocess.run([sys.executable, "-c", code], capture_output=True, text=True, check=True)
    wanting, length = map(int, ended.stdout.split())
    assert wanting > 0 and length == len(Path("missions/eight_units.report").read_bytes())


def test_what_is_asked(monkeypatch, tmp_path):
    """What is named by the environment counts; and the program where the library is older, and of other sources."""
    monkeypatch.setattr(where, "HOME", str(tmp_path))
    monkeypatch.setattr(where, "BUILT", str(tmp_path / "out" / "sift"))
    for name in ("SIFT_LIBRARY", "SIFT_PROGRAM"):
        monkeypatch.delenv(name, raising=False)
    built = tmp_path / "out"
    built.mkdir()
    assert where.library() is None and callers.built() is None
    for name in ("sift", "libsift.so", "sift.sources", "library.sources"):
        (built / name).write_text("1234\n")
    (built / "sift").chmod(0o755)
    assert where.library() == str(built / "libsift.so")
    os.utime(built / "libsift.so", (1, 1))
    assert where.library() == str(built / "libsift.so")
    (built / "sift.sources").write_text("5678\n")
    assert where.library() is None and callers.built().path == str(built / "sift")
    monkeypatch.setenv("SIFT_LIBRARY", "a library")
    assert where.library() == "a library"
    monkeypatch.delenv("SIFT_LIBRARY")
    os.utime(built / "libsift.so")
    monkeypatch.setenv("SIFT_PROGRAM", "/a/program")
    assert where.library() is None and where.program() == "/a/program"


def test_what_is_no_library_or_program_is_said(tmp_path):
    with pytest.raises(sift.NotAnswered, match="is no library of sift"):
        sift.Library(str(tmp_path / "none.so"))
    with pytest.raises(sift.NotAnswered, match="No such file"):
        sift.Program(str(tmp_path / "none")).answer(["run"])
    ended = tmp_path / "ended"
    ended.write_text("#!/bin/sh\necho why >&2\nexit 125\n")
    ended.chmod(0o755)
    with pytest.raises(sift.NotAnswered, match="ends with status 125: why"):
        sift.Program(str(ended)).answer(["run"])
    ended.write_text("#!/bin/sh\nexit 10\n")
    with pytest.raises(MemoryError):
        sift.Program(str(ended)).answer(["run"])
