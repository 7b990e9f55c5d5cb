"""Tests a mission as `sift check` does, and shows where in the document a refusal comes from; or why a mission can't have a report,
what a plan of lies breaks, or which task the planner finds no room for.

usage: tools/explain MISSION [PROGRAM]
       tools/explain MISSION REPORT [PROGRAM]
       tools/explain --byz PLAN [PROGRAM]
       tools/explain --plan COPIES SUBFRAMES MISSION [PROGRAM]

Each is a file, or - for standard input. PROGRAM is ./sift where none is named; a second file that can be run is taken for it.

Standard output and the exit status are those of `check`, of `judge`, of `byz` and of `plan`. Where the mission is refused, standard error
gets the line and the column, the line with a mark, why, and what to do, and the other refusals as far as this tool can tell them.
Where the mission can't have the report, it gets the line of the report, the unit and the word, and what was due. This tool
stands beside the proved program: what is refused, and by which rule, the program alone decides. docs/refusals.md has each
refusal with an example, docs/judge.md the rules of reports, docs/byz.md those of plans.
"""
import os
import subprocess
import sys

from sift import where
from sift.files import as_called, read_source, run
from sift.reports.judging import joined
from sift.reports.reading import read_ideal
from sift.rules import explaining, verdicts


def asked(program, words, raw):
    """The status of the program with words, and what it writes."""
    silent = {**os.environ, "SIFT_OFFERS": "no"}
    answer = subprocess.run([program, *words], input=raw, stdout=subprocess.PIPE, env=silent, check=False)
    return answer.returncode if answer.returncode >= 0 else 128 - answer.returncode, answer.stdout


def is_program(name):
    """Whether a word names a program, and no report."""
    return os.path.isfile(name) and os.access(name, os.X_OK)


def explain_room(copies, subframes, name, program=None):
    """The exit status of the planner."""
    program = program or where.launcher()
    raw = read_source(name)
    status, answer = asked(program, ["plan", "--copies", copies, "--subframes", subframes], raw)
    sys.stdout.buffer.write(answer)
    sys.stdout.flush()
    if status:
        tell(name, explaining.of_room(raw, answer.decode(errors="replace").rstrip("\n"), int(copies), int(subframes)))
    return status


def tell(name, explained):
    """Writes what is to be said of a file, if anything."""
    if explained:
        sys.stderr.write(explained.shown("standard input" if name == "-" else name))


def main(words):
    """The exit status, which is that of `check`, `judge` or `byz`."""
    if words in (["--help"], ["-h"]):
        print(as_called(__doc__.strip()))
        return 0
    if words[:1] == ["--plan"] and len(words) in (4, 5) and all(word.isdecimal() for word in words[1:3]):
        return explain_room(*words[1:])
    of_lies = words[:1] == ["--byz"]
    files = words[1:] if of_lies else words
    program = files.pop() if len(files) > 1 and (of_lies or len(files) > 2 or is_program(files[-1])) else where.launcher()
    if len(files) not in ((1,) if of_lies else (1, 2)) or any(word.startswith("-") and word != "-" for word in files) or files.count("-") > 1:
        print(as_called(__doc__.split("\n\n")[1]), file=sys.stderr)
        return 125
    raw = read_source(files[0])
    if of_lies:
        status, answer = asked(program, ["byz"], raw)
    elif files[1:]:
        report = read_source(files[1])
        version = ["--report", "1"] if verdicts.version_of(report) == 1 else []
        status, answer = asked(program, ["judge", *version], joined(raw, report))
    else:
        status, answer = asked(program, ["check"], raw)
    sys.stdout.buffer.write(answer)
    sys.stdout.flush()
    line = answer.decode(errors="replace").rstrip("\n")
    if of_lies:
        tell(files[0], explaining.of_plan(raw, line) if status else None)
    elif files[1:] and status in (0, 12, 13):
        ideal = lambda document: read_ideal(asked(program, ["ideal"], document)[1].decode())[0]
        tell(files[1], explaining.of_report(raw, report, line, ideal))
    else:
        tell(files[0], explaining.of_mission(raw, line))
    return status


def entry():
    """Ends with the tool's status, for the words that it was called with."""
    sys.exit(run("explain", main, sys.argv[1:], unread=125, unwritten=9))


if __name__ == "__main__":
    entry()
