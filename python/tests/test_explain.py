"""tools/explain, and what it reads documents with.

On every document of missions/, cases/ and cases/mistakes/: the reader with places reads what Python's reads, and the same
values; and the rules find what the program answers. For each mistake the explanation is the one that stands beside it; a
place is shown for every refusal of cases/. The output and the status of the program are kept. The program is none here:
a script stands in for it. The refusals beside the mistakes come from another simulator, or by hand, and the explanations were
looked at by eye, mark by mark.
"""
import os
import re
import subprocess
from pathlib import Path

import pytest

from conftest import stand_in, tool
from sift.documents import places
from sift.documents.mission import ROOT_KEYS, Broken, Mission
from sift.rules import explaining, pages, plans, refusals, verdicts
from sift.rules.scenario import SCENARIO_RULES

try:
    import tomllib
except ImportError:
    tomllib = None  # before Python 3.11

MISTAKES = sorted(Path("cases/mistakes").glob("*.toml"))
OF_MISSIONS = ("run", "votes", "ideal", "check")
STATUSES = {"not a document": 3, "scenario": 4, "task": 5, "table": 6, "script": 7}
# Where Python's reader, of TOML 1.0, takes what ours doesn't, or the other way round.
DIFFERENT = {"mistake_too_many_bits"}


def answering(folder, line, status):
    """A program that writes a line, and keeps what it reads."""
    return stand_in(folder, f"cat >{folder}/read\necho '{line}'\nexit {status}")


def told_by(path):
    """The line and the explanation that stand beside a mistake."""
    return path.with_suffix(".txt").read_text().split("\n", 1)


# Documents.


def values_of(raw):
    """What Python reads in a document, or None; so it is of one that is nested too deep for it."""
    try:
        return tomllib.loads(raw.decode())
    except (tomllib.TOMLDecodeError, UnicodeDecodeError, RecursionError):
        return None


def as_python_reads(value):
    """A value in which new lines in strings and dates are as Python has them."""
    if isinstance(value, dict):
        return {key: as_python_reads(inner) for key, inner in value.items()}
    if isinstance(value, list):
        return [as_python_reads(inner) for inner in value]
    return value.replace("\r\n", "\n") if isinstance(value, str) else value


def fault_of(name, raw, line, status):
    """What is read of a document otherwise than the program and Python do, or None."""
    try:
        text, root = places.read(raw)
    except places.NotADocument as refused:
        if status != 3:
            return f"it is read as no document: {refused.why}"
        alike = tomllib and name not in DIFFERENT and "nested deeper than 80" not in refused.why  # Python's reader goes deeper
        return "it is a document for Python" if alike and values_of(raw) is not None else None
    if status == 3:
        return "it is read as a document"
    if tomllib and values_of(raw) != as_python_reads(places.plain(root)):
        return "it is read with other values than Python's"
    found = next(iter(refusals.refusals(root)), None)
    if (found.line if found else "") != (line if status else ""):
        return f"the rules find `{found and found.line}`, and not `{line}`"
    return f"the place of `{line}` isn't in the document" if found and not 0 <= found.start <= found.end <= len(text) else None


def test_documents_are_read_as_the_program_reads_them(cases):
    faults, count = {}, 0
    for name, (words, raw, status, text) in cases.items():
        if status not in (2, 11) and words[:1] and words[0] in OF_MISSIONS:
            count += 1
            faults[name] = fault_of(name, raw, text.decode().rstrip("\n"), status)
    assert count > 1000 and not {name: fault for name, fault in faults.items() if fault}


# Mistakes.


def test_there_are_sixty_mistakes():
    assert len(MISTAKES) >= 60


@pytest.mark.parametrize("path", MISTAKES, ids=lambda path: path.stem)
def test_a_mistake_has_its_explanation(path):
    line, explanation = told_by(path)
    assert explaining.of_mission(path.read_bytes(), line).shown(str(path)) == explanation
    shape = r":\d+:\d+: .*\n( *\d+ \| \[.*\n)? *\d+ \| .*\n +\| \s*\^+\n  (rule|mend): "
    assert re.match(re.escape(str(path)) + shape, explanation), "the explanation has no place, line and mark"
    assert "\n  mend: " in explanation, "the explanation doesn't tell what to do"


@pytest.mark.parametrize("path", MISTAKES[::20], ids=lambda path: path.stem)
def test_the_tool_writes_it(path, tmp_path):
    line, explanation = told_by(path)
    status = STATUSES[line if line == "not a document" else line.split()[0]]
    assert tool("explain", path, answering(tmp_path, line, status)) == (line + "\n", explanation, status)


# Mends.

ASSIGNED = re.compile(r"`(\w+) = ([^`.]*)`")  # what a mend has a key be
WRITTEN = re.compile(r"`([^`]*)`|(\"[^\"]*\")")  # what a mend begins with, where it is what to write
# A mend that doesn't begin with what to write is followed by hand, as an edit of its mistake.
BY_HAND = {
    "add_and_set": "25s/x += 1/x = x + 1/",
    "array_unclosed": "15s/$/]/",
    "at_most": "15s/missing <= 0/(0 < missing) == 0/",
    "bare_word": "2s/five/5/",
    "clock_index": "45d",
    "clock_twice": "11,15d",
    "code_long": '25s/.*/text = "let x = 0; repeat 400 { x = x + 1; } out 0 = x;"/',
    "crlf": "3s/frames 6/frames = 6/",
    "crlf_text": "17s/else if missing < 9 {/else { if missing < 9 {/;19s/^}/} }/",
    "curly_quotes": '14s/.*/name = "pitch"/',
    "decimal": "25s/1.5/3/",
    "else_if": "17s/else if missing < 9 {/else { if missing < 9 {/;19s/^}/} }/",
    "errors_row": "12s/\\[0, 0, 0, 0\\]/[0, 0, 0, 0, 0]/",
    "escapes_before": "25s/out 0/let y = 1; out 0/",
    "fault_from_missing": "39s/$/\\nfrom = 2/",
    "fault_until": "42d",
    "greater": "15s/missing > 0/0 < missing/",
    "key_of_a_table": "5d;6s/$/\\nskew = 20/",
    "key_twice": "4d",
    "latin_letters": "1s/H.he/Hoehe/",
    "linear_of_two": "19s/100, 0/100/",
    "local_of_a_block": "15s/^/let few = 0;\\n/;16s/let //",
    "logical_and": "15s/missing < 0 && 1/(missing < 0) \\& 1/",
    "name_missing": '22s/$/\\nname = "elevator"/',
    "nobody_works": "65,$d",
    "now_itself": "25s/now elevator.0/last elevator.0/",
    "number_large": "25s/65536/256/",
    "out_not_there": "24s/0/0, 0/",
    "out_without_number": "25s/out =/out 0 =/",
    "point_first": "15s/\\.5/0.5/",
    "position_shared": '31s/"123"/"013"/;29s/4, 4/4, 6/',
    "product_without_star": "25s/2x/2 * 3/",
    "quotes_within": "25s/out \"0\"/out 0/",
    "root_key_below": "8d;2s/$/\\nframes = 6/",
    "root_key_below_a_list": "41d;2s/$/\\nsubframes = 14/",
    "rounds_many": "25s/repeat 2000 { out 0 = 1; }/repeat 2 { repeat 1000 { out 0 = 1; } }/",
    "row_missing": '37s/"012"/"012", "123"/',
    "say_and_storm": "50,$d",
    "say_missing": '39,$d;38s/$/\\n[[fault]]\\nunit = 1\\nfrom = 2\\n[[fault.say]]\\nslot = "clock"\\nto = "0"/',
    "semicolon_missing": "14s/$/;/",
    "sensor_misspelled": "25s/sense pich/sense pitch/",
    "sensor_numbered": "25s/sense pitch.0/sense pitch/",
    "skew_missing": "6s/$/\\nskew = 20/",
    "start_missing": "22s/$/\\nstart = [100]/",
    "starts_few": "10s/5]/5, -3]/",
    "steps_many": "25s/repeat 17/repeat 2/;25s/1000/500/",
    "string_unclosed": '14s/$/"/',
    "strays_missing": "43s/$/\\nstrays = 3/",
    "subframes_few": "4s/8/14/",
    "table_missing": "27,32d",
    "table_then_list": "17s/.*/[[task]]/",
    "task_missing": '$s/$/\\n[[task]]\\nname = "count"\\nstart = [5]\\nlinear = [3, 1]/',
    "task_without_last": "25s/target.0/last target.0/",
    "tasks_plural": "s/tasks/task/",
    "text_and_linear": "21d",
    "text_ends": '25s/"$/;"/',
    "text_list": "25s/.*/text = \"let d = now target.0; out 0 = d;\"/",
    "text_missing": "22s/$/\\nlinear = [1, 5]/",
    "text_over_lines": "25,26s/\"/'''/",
    "too_many_bits": "48s/9.*/999/",
    "two_on_a_line": "2s/, /\\n/",
    "unary_plus": "25s/+//",
    "unequal": "15s/missing != 0/(missing == 0) == 0/",
    "unit_twice": "51s/1/2/",
    "units_missing": "2s/^/units = 5\\n/",
    "value_missing": "3s/$/6/",
    "value_none": "48d",
    "word_not_there": "19s/100/100, 0/;20s/.*/text = \"out 0 = 1; out 1 = 2;\"/",
    "word_number_missing": "25s/target/target.0/",
    "word_with_point": "15s/10.5/105/",
    "words_many": "s/\\(start = \\[0\\).*/\\1]/",
}


def value_at(value, place):
    """The innermost value, none of whose table has a header, that stands at a place."""
    inner = value.data if value.kind == "array" else [entry.value for entry in value.data.values()] if value.kind == "table" else []
    found = next(filter(None, (value_at(each, place) for each in inner)), None)
    return found or (value if value.origin == "value" and value.start <= place < value.end else None)


def assigned(text, root, place, key, words):
    """A document in which a key of the table at a place, or of the root, has another value."""
    table = places.header_above(root, place) or root
    if key not in table.data and key in ROOT_KEYS:
        table = root
    if key in table.data:
        value = table.data[key].value
        return text[: value.start] + words + text[value.end :]
    behind = 0 if table is root else text.index("\n", table.start) + 1
    return text[:behind] + f"{key} = {words}\n" + text[behind:]


def pasted(path, text, root, broken):
    """A mistake with its mend in its place; None where the mend is neither what to write nor followed by hand."""
    if path.stem in BY_HAND:
        return subprocess.run(["sed", BY_HAND[path.stem], path], env={**os.environ, "LC_ALL": "C"}, capture_output=True, check=True).stdout
    key, written = ASSIGNED.search(broken.mend), WRITTEN.match(broken.mend)
    if key:
        return assigned(text, root, broken.start, key[1], key[2]).encode()
    if not written:
        return None
    # What is in double quotes is a whole string, whatever the mark is in.
    whole = value_at(root, broken.start) if written[2] and root else broken
    return (text[: whole.start] + (written[2] or written[1]) + text[whole.end :]).encode()


def refused_at(raw):
    """The text, the root and what is broken in a document; of one that is none its place as what is broken."""
    try:
        text, root = places.read(raw)
        found = refusals.refusals(root)
        return text, root, found
    except places.NotADocument as refused:
        line = f"not a document: {refused.why}"
        return raw.decode(errors="replace"), None, [Broken(line, refused.place, refused.end, refused.why, refused.mend)]


@pytest.mark.parametrize("path", MISTAKES, ids=lambda path: path.stem)
def test_a_mend_in_its_place_is_a_mend(path):
    """Pasted, it makes a document that passes the rule there."""
    text, root, found = refused_at(path.read_bytes())
    mended = pasted(path, text, root, found[0])
    assert mended is not None and mended != text.encode()
    assert not [each.why for each in refused_at(mended)[2] if (each.line, each.start) == (found[0].line, found[0].start)]


def test_most_mends_are_what_to_write():
    assert len([path for path in MISTAKES if path.stem not in BY_HAND]) >= 60


# Others.


def also(*changes):
    """What is told behind the first refusal of a mission that is changed."""
    changed = Path("missions/first_5_liar.toml").read_text()
    for old, new in changes:
        assert old in changed
        changed = changed.replace(old, new, 1)
    _, root = places.read(changed.encode())
    told = explaining.of_mission(changed.encode(), refusals.refusals(root)[0].line).shown("m.toml")
    lines = [line for line in told.splitlines() if line.startswith(("  also: ", "  note: "))]
    if lines:
        assert lines.pop() == "  note: the program tells the first refusal alone; what stands behind `also` is this tool's own reading"
    return [re.sub(r"  also: \d+:\d+: ", "", line) for line in lines]


@pytest.mark.parametrize(
    "changes, wanted",
    [
        ([("frames = 6", "frames = 0")], []),
        ([("frames = 6", "frames = 0"), ('name = "pitch"', 'name = "Pitch"'), ('slot = "out"', 'slot = "output"')], ['"Pitch" is no name', 'there is no slot "output"']),
        ([("units = 5", "units = 9"), ("skew = 20", "skew = -1")], ["`skew` is -1"]),
        ([("units = 5", "unit = 5")], []),
        (
            [("sense pitch", "sense pich"), ("linear = [1, 5]", 'text = "out 0 = 1"'), ('to = "0234"', 'to = "01"')],
            ["there is no sensor `pich`; mend: `sense pitch`", "item 0: 1 is the faulty unit itself"],
        ),
        ([("run = [4, 6]", "run = [3, 6]"), ("from = 2", "from = 7")], ["the fault begins in frame 7"]),
    ],
)
def test_others_stand_behind_the_first(changes, wanted):
    """As far as they can be told, and none that goes with the first."""
    told = also(*changes)
    assert len(told) == len(wanted) and all(each.startswith(line) for each, line in zip(told, wanted))


def test_a_mission_without_tables_is_told_of_both_ways():
    mission = Path("missions/first_5_liar.toml").read_text()
    short = mission[: mission.index("[[table]]")].replace("subframes = 14", "subframes = 13")
    told = explaining.of_mission(short.encode(), "table 4 row 1 rule 3").shown("m.toml")
    assert "task 1, elevator in the plain table, which stands for those that aren't there: " in told
    assert "`subframes = 14`, or more; or leave `subframes` out" in told


# Pages.


def test_each_rule_has_its_sentence_and_what_to_do():
    for sort, count in (("scenario", len(SCENARIO_RULES)), ("task", 7), ("table", 11), ("script", 6)):
        for rule in range(1, count + 1):
            assert pages.sentence(sort, rule) and pages.mend(sort, rule), (sort, rule)
            assert "](" not in pages.sentence(sort, rule) + pages.mend(sort, rule), (sort, rule)


def shown_on(page):
    """What a page shows of a terminal."""
    return re.findall(r"^```console\n(.*?)^```$", Path(page).read_text(), re.M | re.S)


def test_pages_show_what_the_tool_says():
    assert shown_on("docs/tools.md") == [Path("cases/mistakes/else_if.txt").read_text()]
    early = Path("missions/first_3_schedule.toml").read_bytes().replace(b"run = [4, 6]", b"run = [4, 5]")
    assert shown_on("docs/first-mission.md") == [explaining.of_mission(early, "table 4 row 1 rule 8").shown("/tmp/early.toml")]


# Reports.

# What is said of first_5_liar's report after a change: the line that the judge gives to it, then the place and why.
CHANGED = (
    ("/^f=2 u=3/s/0073/0074/", "no frame 2 rule 4", "16:33: frame 2, unit 3: target.0 is 0074 (116), and 0073 (115) is due"),
    ("/^f=4/s/in=0068/in=0069/", "no frame 4 rule 3", "25:24: frame 4, unit 0: sense.pitch is 0069 (105), and 0068 (104) is due, which unit 0 reads, and it works"),
    ("/^f=2 u=0/s/1p/4p/", "no frame 2 rule 5", "13:47: frame 2, unit 0: it catches unit 4, which works"),
    ("/^f=2 u=[023]/s/1p/-/", "no frame 2 rule 6", "19:9: the configuration is 0234, and 01234 is due: in frame 2 unit 1 is caught by 4"),
    ("/^f=1 u=2/s/clk=-1/clk=-2/", "no frame 1 rule 7", "12:5: frame 1: the skew is 3, and 4 is due: unit 3 shows 2, and unit 2 -2"),
    ("/^f=1 skew/s/slack=47/slack=0/", "no frame 1 rule 7", "12:12: frame 1: the slack is 0, and at least 1 is due"),
    ("/^f=1 skew/s/ok/lost/", "no frame 1 rule 8", "12:21: frame 1: the margin that is due is ok: no configuration so far has more than one faulty unit or fewer than four that work"),
    ("/^f=0 u=3/s/01234/0123/", "no frame 0 rule 2", "4:9: frame 0, unit 3: the configuration is 0123, and 01234 is due, all units, in frame 0"),
    ("/^f=2 u=1/d", "no frame 2 rule 1", "14:1: frame 2 and unit 1 are due"),
    ("/^f=1 u=4/s/.*/f=1 u=4 faulty/", "no frame 1 rule 1", "11:9: frame 1, unit 4: by the document it works in this frame"),
    ("/^f=1 u=4/s/out=006e,000c/out=006e/", "no frame 1 rule 1", "11:33: frame 1, unit 4: `out` has 1 words, and the mission has 2 output words"),
    ("/^f=2 u=0/s/fffa/FFFA/", "report line 13", "13:1: a line of frame 2 is due"),
)


@pytest.mark.parametrize("change, line, told", CHANGED, ids=lambda value: None)
def test_a_report_that_is_none_of_its_mission(change, line, told, tmp_path):
    """The place, what stands there, and what is due. A script answers in the program's place."""
    report = tmp_path / "changed.report"
    report.write_bytes(subprocess.run(["sed", change, "missions/first_5_liar.report"], capture_output=True, check=True).stdout)
    status = 12 if line.startswith("report") else 13
    program = stand_in(
        tmp_path, f"cat >{tmp_path}/$1.read\n[ $1 = judge ] && {{ echo '{line}'; exit {status}; }}\nprintf 'f=0 out=0073,fffa\\nend frames=1\\n'"
    )
    output, said, ended = tool("explain", "missions/first_5_liar.toml", report, program)
    assert (output, ended) == (line + "\n", status) and said.startswith(f"{report}:{told}\n")
    assert not line.startswith("no") or re.search(rf"^  rule: {line[-1]}: .", said, re.M) and "](" not in said
    assert (tmp_path / "judge.read").read_bytes().startswith(Path("missions/first_5_liar.toml").read_bytes() + b"--- report ---\nf=0 u=0 ")
    if line.endswith("rule 4"):
        # What the frame is due to compute is asked for from the words of the frame before, with the sensors' words of this one.
        data = places.plain(places.read((tmp_path / "ideal.read").read_bytes())[1])
        starts = [task["start"] for task in data["task"]], [sensor["words"] for sensor in data["sensor"]], data["frames"], "fault" in data, "table" in data
        assert starts == ([[110], [12]], [[118]], 1, False, False)


def test_reports_of_the_cases_have_their_places(cases):
    count = 0
    for name, (words, raw, status, text) in cases.items():
        line = text.decode().rstrip("\n")
        document, divider, report = raw.partition(b"--- report ---\n")
        if words[:1] == ["judge"] and status in (12, 13) and divider and line != "report line 0":
            count += 1
            assert verdicts.found_in(Mission(places.read(document)[1]), report.decode(errors="replace"), line, lambda _: (70000,) * 64), name
    assert count >= 30


# Plans, and the planner.


def test_plans_of_the_cases_have_their_places(cases):
    """Of each that is refused the rule and the place; the values that are written pass, pasted in their place."""
    rules_seen = set()
    for name, (words, raw, status, text) in cases.items():
        if words[:1] != ["byz"] or status not in (0, 16):
            continue
        line = text.decode().rstrip("\n")
        document, root = places.read(raw)
        found = plans.refusals(root)
        assert (found[0].line if found else "") == (line if status else ""), name
        if not found:
            continue
        rules_seen.add(line.split()[2])
        told = explaining.of_plan(raw, line).shown("plan.toml")
        assert re.match(r"plan.toml:\d+:\d+: .*\n(?s:.*)\^(?s:.*)\n  (mend|rule): ", told), name
        written = WRITTEN.match(found[0].mend or "")
        if written and written[0] != "`[`":
            mended = pasted(Path("plan.toml"), document, root, found[0])
            assert not any((each.line, each.start) == (line, found[0].start) for each in plans.refusals(places.read(mended)[1])), name
    assert rules_seen == set("123456789")


def test_the_tool_explains_a_plan(tmp_path):
    plan = tmp_path / "plan.toml"
    plan.write_text("units = 4\nm = 1\nvalues = [1, 2, 3, 4]\nlie = [{path = '0', to = '1'}, {path = '1', to = '2'}]\n")
    output, said, status = tool("explain", "--byz", plan, answering(tmp_path, "byz rule 9 at 1", 16))
    assert (output, status) == ("byz rule 9 at 1\n", 16) and said.startswith(f"{plan}:4:41: with unit 1 there are 2 that lie")
    assert tool("explain", "--byz", plan, answering(tmp_path, "u=0 liar", 0)) == ("u=0 liar\n", "", 0)


def test_a_task_without_room(tmp_path):
    """What it waits for, and what would help. A script answers in the program's place."""
    mission = Path("missions/planned.toml")
    output, said, status = tool("explain", "--plan", 3, 16, mission, answering(tmp_path, "no room 4 task 3", 14))
    line = 1 + [number for number, line in enumerate(mission.read_text().splitlines()) if line == "[[task]]"][3]
    why = "with 4 units there is no subframe from 4 to 8 in which servo, behind the polls of mix, which it reads by `now`, finds 3 free positions: "
    assert (output, status) == ("no room 4 task 3\n", 14) and said.startswith(f"{mission}:{line}:1: {why}")
    assert "mend: more subframes, of which 20 are always enough for 5 tasks; fewer copies" in said
    mistake = "cases/mistakes/slot_unknown.toml"
    _, said, status = tool("explain", "--plan", 3, 17, mistake, answering(tmp_path, "scenario rule 29 at 0", 4))
    assert status == 4 and said.startswith(f"{mistake}:44:8: ")
    assert tool("explain", "--plan", 3, 17, mission, answering(tmp_path, "[[table]]", 0)) == ("[[table]]\n", "", 0)


# How it ends by itself.


def test_an_accepted_mission_gets_no_more_than_ok(tmp_path):
    assert tool("explain", "missions/count.toml", answering(tmp_path, "ok", 0)) == ("ok\n", "", 0)


def test_standard_input_is_explained(tmp_path):
    document = Path("cases/mistakes/slot_unknown.toml").read_bytes()
    _, said, status = tool("explain", "-", answering(tmp_path, "scenario rule 29 at 0", 4), given=document)
    assert status == 4 and said.startswith("standard input:44:8: ") and (tmp_path / "read").read_bytes() == document


def test_a_long_document_is_told_where_it_is_cut(tmp_path):
    long = tmp_path / "long.toml"
    long.write_text("units = 4\n#" + "x" * 1_048_576 + "\n")
    _, said, status = tool("explain", long, answering(tmp_path, "too long", 11))
    assert status == 11 and said.startswith(f"{long}:2:1048567: here stands byte 1,048,577")


def test_what_fails_is_said(tmp_path):
    program = answering(tmp_path, "ok", 0)
    assert tool("explain", tmp_path / "none.toml", program)[1:] == (f"explain: {tmp_path}/none.toml: No such file or directory\n", 125)
    with open("/dev/full", "w", encoding="utf-8") as full:
        ended = subprocess.run(["tools/explain", "missions/count.toml", program], stdout=full, stderr=subprocess.PIPE, check=False)
    assert (ended.stderr, ended.returncode) == (b"explain: No space left on device\n", 9)


def test_usage():
    _, said, status = tool("explain")
    assert status == 125 and said.startswith("usage: tools/explain")
    output, _, status = tool("explain", "--help")
    assert status == 0 and "usage: tools/explain" in output
