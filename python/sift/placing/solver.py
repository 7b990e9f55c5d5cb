"""MiniZinc with Gecode, at work on place.mzn."""
import json
import os
import shutil
import subprocess
import tempfile
from dataclasses import dataclass

MODEL = os.path.join(os.path.dirname(os.path.realpath(__file__)), "place.mzn")
INSTALL = "the tables are found by MiniZinc with Gecode, which isn't here: on Debian, apt-get install minizinc"
RESTART = 200  # failures after which tables that are given to begin with are loosened anew
DONE, NONE = "==========", "=====UNSATISFIABLE====="


class NoSolver(Exception):
    """Why the solver has no answer."""


@dataclass
class Answer:
    """The best tables that were found, if any, and whether the search was complete: none are better, or there are none."""

    tables: object = None
    complete: bool = False


def is_there():
    return shutil.which("minizinc") is not None


def solve(problem, seconds, aim, least, most, same_runs=False, given=None, kept_percent=0):
    """Seeks tables for so many seconds: see Problem.data for the words."""
    if not is_there():
        raise NoSolver(INSTALL)
    with tempfile.NamedTemporaryFile("w", suffix=".dzn", encoding="ascii") as data:
        data.write(problem.data(aim, least, most, same_runs, given, kept_percent))
        data.flush()
        words = ["minizinc", "--solver", "gecode", "--solver-time-limit", str(max(1, int(seconds * 1000))), "--all-solutions"]
        words += ["--fzn-flags", f"-restart constant -restart-base {RESTART}"] if kept_percent else []
        done = subprocess.run([*words, MODEL, data.name], stdin=subprocess.DEVNULL, capture_output=True, text=True, check=False)
    lines = done.stdout.splitlines()
    solutions = [line for line in lines if line.startswith("{")]
    if done.returncode or "=====ERROR=====" in lines:
        raise NoSolver(f"minizinc ends with status {done.returncode}: {done.stderr.strip()}")
    complete = (DONE in lines or NONE in lines) and not kept_percent and not same_runs
    return Answer(problem.tables_of(json.loads(solutions[-1])) if solutions else None, complete)
