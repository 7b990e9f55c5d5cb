"""What the tests share: they run in the repository's folder, on its missions and cases, and ask what is built."""
import os
import subprocess
import sys
from pathlib import Path

TOP = Path(__file__).resolve().parents[2]
os.chdir(TOP)  # tests name missions and cases as one does there
sys.path[:0] = [str(TOP / "python"), str(TOP / "python" / "tests")]

from hypothesis import HealthCheck, settings
import pytest

from sift import callers, where

# A busy machine is no fault of what is tested, and each run of the gate draws the same.
settings.register_profile("gate", deadline=None, derandomize=True, suppress_health_check=[HealthCheck.too_slow])
settings.load_profile("gate")


@pytest.fixture(autouse=True)
def in_the_repository(monkeypatch):
    """Each test begins in the repository's folder, and asks what is found there."""
    monkeypatch.chdir(TOP)
    yield
    callers.use(None)


@pytest.fixture(scope="session")
def cases(tmp_path_factory):
    """Of each mission and case by its name: the words, the input, the status and the text that are wanted."""
    folder = tmp_path_factory.mktemp("cases")
    subprocess.run([TOP / "tools" / "cases", folder], check=True)
    found = {}
    for line in (folder / "statuses").read_text().splitlines():
        name, status = line.split()
        files = [folder / "cases" / f"{name}{kind}" for kind in (".args", "", ".stdout")]
        words, given, text = (path.read_bytes() if path.exists() else b"" for path in files)
        found[name] = words.decode(errors="surrogateescape").split("\n")[:-1], given, int(status), text
    return found


def asked_here():
    """What is built and can be asked, by its name."""
    library, program = where.library(), where.program()
    found = [pytest.param(callers.Library(library), id="library")] if library else []
    if os.access(program, os.X_OK):
        found.append(pytest.param(callers.Program(program), id="program"))
    return found or [pytest.param(None, id="nothing", marks=pytest.mark.skip(reason="neither the library nor the program is built"))]


@pytest.fixture(params=asked_here())
def caller(request):
    """The library and the program, one after the other, as what the package asks."""
    callers.use(request.param)
    return request.param


@pytest.fixture
def program():
    """The built program, which the tools ask."""
    if not os.access(where.program(), os.X_OK):
        pytest.skip("the program isn't built: tools/build makes it")
    return where.program()


def tool(*words, given=b"", **more):
    """What a tool of tools/ writes, what it says, and its status."""
    ended = subprocess.run([str(TOP / "tools" / words[0]), *map(str, words[1:])], input=given, capture_output=True, check=False, **more)
    return ended.stdout.decode(), ended.stderr.decode(), ended.returncode


def stand_in(folder, script, name="program"):
    """A script that stands in for the program."""
    path = Path(folder) / name
    path.write_text(f"#!/bin/sh\n{script}\n")
    path.chmod(0o755)
    return path


def sed(script, path, *options):
    """A file as sed changes it."""
    return subprocess.run(["sed", *options, script, path], capture_output=True, check=True).stdout


def usage_of(name):
    """The lines of a tool's help that tell how it is called."""
    lines = tool(name, "--help")[0].split("usage:", 1)[1].splitlines()
    return "usage:" + "\n".join(lines[: lines.index("")]) + "\n"


def without_room(*words):
    """What a tool says, and its status, where standard output is full."""
    with open("/dev/full", "wb") as full:
        ended = subprocess.run([f"tools/{words[0]}", *map(str, words[1:])], stdin=subprocess.DEVNULL, stdout=full, stderr=subprocess.PIPE, check=False)
    return ended.stderr.decode().splitlines()[-1:], ended.returncode
