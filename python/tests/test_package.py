"""The package is installed without a network, its page and its notebook run, and its types are checked."""
import importlib.util
import json
import os
import re
import shutil
import subprocess
import sys

import pytest

import sift
from conftest import TOP, tool
from sift import where

PAGE = TOP / "docs" / "python.md"
SYSTEM = "/usr/bin/python3"


def blocks(language):
    """The blocks of a language that the page shows."""
    return re.findall(rf"^```{language}\n(.*?)^```$", PAGE.read_text(), re.M | re.S)


def offline():
    """Words that take the network away from a command, where this machine lets them."""
    words = ["unshare", "--net", "--map-root-user"]
    able = shutil.which("unshare") and subprocess.run([*words, "true"], capture_output=True, check=False).returncode == 0
    return words if able else []


@pytest.fixture(scope="module")
def environment(tmp_path_factory):
    """The package installed in a fresh environment over the distribution's Python: its folder of commands."""
    if not os.path.exists(SYSTEM):
        pytest.skip(f"there is no {SYSTEM}")
    folder = tmp_path_factory.mktemp("environment")
    made = subprocess.run([SYSTEM, "-m", "venv", "--system-site-packages", folder], capture_output=True, text=True, check=False)
    if made.returncode:
        pytest.skip(f"no environment is made: {made.stdout} {made.stderr}")
    shutil.copytree(TOP / "python", folder / "copy" / "python", ignore=shutil.ignore_patterns("build", "*.egg-info", "__pycache__"))
    for name in ("VERSION", "docs", "out"):  # beside it, as in a clone
        if (TOP / name).exists():
            (folder / "copy" / name).symlink_to(TOP / name)
    subprocess.run([*offline(), folder / "bin" / "pip", "install", "--no-input", "--disable-pip-version-check", "-q", folder / "copy" / "python"], check=True)
    return folder / "bin"


def test_the_ten_lines_give_a_data_frame_and_a_picture(environment, program, tmp_path):
    for module in ("pandas", "matplotlib", "tomlkit"):
        if subprocess.run([environment / "python", "-c", f"import {module}"], capture_output=True, check=False).returncode:
            pytest.skip(f"there is no {module}")
    shutil.copytree(TOP / "missions", tmp_path / "missions")
    lines, table = blocks("python")[0], blocks("text")[0]
    assert len([line for line in lines.splitlines() if line]) <= 10
    ended = subprocess.run([environment / "python", "-c", lines], cwd=tmp_path, capture_output=True, text=True, check=True, env={**os.environ, "MPLBACKEND": "Agg"})
    assert ended.stdout == table
    assert "elevator.0" in (tmp_path / "words.svg").read_text()


def test_what_is_installed_is_in_the_environment(environment, tmp_path):
    code = "import sift, sys; from sift import where; print(sift.__file__); print(where.page('refusals.md')); print(where.program())"
    lines = subprocess.run([environment / "python", "-c", code], cwd=tmp_path, capture_output=True, text=True, check=True).stdout.splitlines()
    assert all(line.startswith(str(environment.parent)) for line in lines[:2])
    assert not os.access(where.BUILT, os.X_OK) or lines[2].startswith(str(environment.parent))


@pytest.mark.parametrize("name", ["compare", "explain", "growth", "lint", "picture", "place", "sweep", "words"])
def test_tools_are_commands(environment, name, tmp_path):
    helped = subprocess.run([environment / f"sift-{name}", "--help"], cwd=tmp_path, capture_output=True, text=True, check=True).stdout
    assert helped.split("usage:")[0] == tool(name, "--help")[0].split("usage:")[0]


EXPLAINED = """
import sys
from pathlib import Path
import sift
for path in map(Path, sys.argv[1:]):
    try:
        sift.run(path)
    except sift.Refusal as refusal:
        assert refusal.shown(str(path)) == path.with_suffix(".txt").read_text().split("\\n", 1)[1], path
try:
    sift.byz("units = 3\\nm = 1\\nvalues = [1, 2, 3]\\n")
except sift.Refusal as refusal:
    print(refusal.why)
"""


def test_the_installed_package_explains_each_mistake(environment, program, tmp_path):
    """It has the pages in it."""
    for path in (TOP / "cases" / "mistakes").glob("*"):
        (tmp_path / "cases" / "mistakes").mkdir(parents=True, exist_ok=True)
        shutil.copy(path, tmp_path / "cases" / "mistakes")
    mistakes = sorted(str(path.relative_to(tmp_path)) for path in tmp_path.rglob("*.toml"))
    assert len(mistakes) >= 60
    ended = subprocess.run([environment / "python", "-c", EXPLAINED, *mistakes], cwd=tmp_path, capture_output=True, text=True, check=True)
    assert "units" in ended.stdout


def test_an_installed_tool_explains(environment, program, tmp_path):
    mistake = TOP / "cases" / "mistakes" / "slot_unknown.toml"
    ended = subprocess.run([environment / "sift-explain", mistake], cwd=tmp_path, capture_output=True, text=True, check=False)
    assert (ended.stdout, ended.returncode) == ("scenario rule 29 at 0\n", 4) and "slot_unknown.toml:44:8: " in ended.stderr


def test_the_refusal_of_the_page(program):
    with pytest.raises(sift.Refusal) as refused:
        sift.run("units = 9\nframes = 1\n")
    told = refused.value
    assert f"{told.line} | {told.rule} | {told.entry} | {told.place} | {told.mend}\n" == blocks("text")[1]


def test_the_campaign_of_the_page(program, tmp_path, monkeypatch):
    if not shutil.which("parallel") or not importlib.util.find_spec("pandas"):
        pytest.skip("there is no GNU parallel, or no pandas")
    names = {"sift": sift, "mission": sift.Mission.read("missions/first_5_liar.toml")}
    monkeypatch.chdir(tmp_path)
    exec(blocks("python")[2], names)
    assert names["worst"]["wrong"].iloc[0] == 6 and sift.run(names["document"]) == names["report"]


def test_the_page_names_each_function():
    for name in sift.__all__:
        assert re.search(rf"\b{name}\b", PAGE.read_text()), f"docs/python.md doesn't speak of {name}"


def test_the_notebook_runs(program, tmp_path):
    for module in ("nbconvert", "ipykernel", "pandas", "matplotlib"):
        if not importlib.util.find_spec(module):
            pytest.skip(f"there is no {module}")
    if not shutil.which("parallel"):
        pytest.skip("there is no GNU parallel")
    words = ["--to", "notebook", "--execute", "--output-dir", tmp_path, TOP / "docs" / "notebooks" / "first_campaign.ipynb"]
    subprocess.run([sys.executable, "-m", "nbconvert", *words], capture_output=True, check=True)
    cells = json.loads((tmp_path / "first_campaign.ipynb").read_text())["cells"]
    told = ["".join(output.get("data", {}).get("text/plain", "")) for cell in cells for output in cell.get("outputs", [])]
    assert "<Campaign: 88 runs; an output was lost in 2, the margin in 0>" in told
    assert "<Campaign: 116 runs; an output was lost in 0, the margin in 0>" in told


def test_the_notebook_is_kept_without_what_it_tells():
    cells = json.loads((TOP / "docs" / "notebooks" / "first_campaign.ipynb").read_text())["cells"]
    assert not any(cell.get("outputs") or cell.get("execution_count") for cell in cells)


def test_types():
    if not shutil.which("mypy"):
        pytest.skip("there is no mypy")
    checked = subprocess.run(["mypy", "--cache-dir", os.devnull, "-p", "sift"], cwd=TOP / "python", capture_output=True, text=True, check=False)
    assert checked.returncode == 0, checked.stdout


def test_modules_stand_alone():
    """Each module is imported by itself: none waits for another one to be there first."""
    modules = [path.relative_to(TOP / "python").with_suffix("") for path in (TOP / "python" / "sift").rglob("*.py") if path.name != "__init__.py"]
    code = """if True:
        import importlib, sys
        sys.path.insert(0, "python")
        for name in sys.argv[1:]:
            for loaded in [each for each in sys.modules if each.split(".")[0] == "sift"]:
                del sys.modules[loaded]
            importlib.import_module(name)
    """
    names = [".".join(module.parts) for module in modules]
    subprocess.run([sys.executable, "-B", "-c", code, *names], cwd=TOP, check=True)
    assert len(names) > 50
