"""A campaign as a value: a mission flown with each fault that its units can have, by what `sift-sweep` does."""
from __future__ import annotations

import csv
import os
import subprocess
import sys
import tempfile
from functools import cached_property
from typing import TYPE_CHECKING, Dict, List, Optional, Sequence, Tuple, Union

from sift import where
from sift.commands import Document, bytes_of, check
from sift.report import Report

if TYPE_CHECKING:
    import pandas

    from sift.mission import Mission

Option = Union[bool, int, str, "os.PathLike[str]", Sequence[object]]
DIVIDER = "--- report ---\n"


class NotFlown(Exception):
    """Why a campaign wasn't flown, or not to its end."""


def words_of(options: Dict[str, Option]) -> List[str]:
    """Options as sift-sweep takes them: `begin` is its `--from`, a list has commas, and what is false isn't there."""
    words = []
    for name, value in options.items():
        if value is not False:
            option = "--" + {"begin": "from"}.get(name, name).replace("_", "-")
            listed = isinstance(value, Sequence) and not isinstance(value, str)
            words += [option] if value is True else [option, ",".join(map(str, value)) if listed else str(value)]  # type: ignore[arg-type]
    return words


def swept(words: Sequence[str]) -> Tuple[str, str]:
    """What sift-sweep writes and says, in a process of its own."""
    found = {**os.environ, "PYTHONPATH": os.pathsep.join(filter(None, (os.path.dirname(where.PACKAGE), os.environ.get("PYTHONPATH"))))}
    ended = subprocess.run([sys.executable, "-B", "-m", "sift.tools.sweep", *words], stdin=subprocess.DEVNULL, capture_output=True, text=True, check=False, env=found)
    if ended.returncode not in (0, 1):
        raise NotFlown(ended.stderr.strip() or f"sift-sweep ends with status {ended.returncode}")
    return ended.stdout, ended.stderr


class Campaign:
    """A campaign that was flown. Its folder has all that was kept of it."""

    def __init__(self, folder: "os.PathLike[str] | str", summary: str = "") -> None:
        """Takes the campaign of a folder."""
        self.folder = os.fspath(folder)
        self.summary = summary
        if not os.path.exists(os.path.join(self.folder, "runs.tsv")):
            raise NotFlown(f"{self.folder} has no campaign that was flown to its end")

    @classmethod
    def fly(cls, document: Document, folder: Optional["os.PathLike[str] | str"] = None, **options: Option) -> Campaign:
        """Flies a campaign, with the options of sift-sweep: `kinds=["wrong"]`, `begin=[0, 10]`, `pairs=True`, `limit=100`.

        It is kept in a folder, one of its own where none is named, which isn't taken away. A mission that is refused raises its
        refusal, and NotFlown tells why not all was flown.
        """
        given = bytes_of(document)
        check(given)
        kept = os.fspath(folder) if folder is not None else tempfile.mkdtemp(prefix="sift-campaign-")
        with tempfile.TemporaryDirectory() as scratch:
            mission = os.path.join(scratch, "mission.toml")
            with open(mission, "wb") as file:
                file.write(given)
            return cls(kept, swept([mission, "--out", kept, *words_of(options)])[0])

    @cached_property
    def rows(self) -> List[Dict[str, str]]:
        """The runs, a row each, by the columns of runs.tsv, which docs/campaigns.md tells of: texts, as they stand there."""
        with open(os.path.join(self.folder, "runs.tsv"), encoding="utf-8", newline="") as file:
            return list(csv.DictReader(file, delimiter="\t"))

    def __len__(self) -> int:
        return len(self.rows)

    def __repr__(self) -> str:
        lost = sum(row["wrong"] != "0" for row in self.rows)
        margins = sum(row["margin"] == "lost" for row in self.rows)
        return f"<Campaign: {len(self)} runs; an output was lost in {lost}, the margin in {margins}>"

    def to_pandas(self) -> pandas.DataFrame:
        """A data frame with a row for each run; what isn't there is missing."""
        import pandas

        return pandas.read_csv(os.path.join(self.folder, "runs.tsv"), sep="\t", na_values="-", keep_default_na=False)

    def replay(self, row: int) -> Tuple[Mission, Report]:
        """The mission of a row, counted from 1, with its faults, and its report."""
        from sift.mission import Mission

        document, _, report = swept(["--replay", str(row), "--out", self.folder])[0].partition(DIVIDER)
        return Mission(document), Report(report, document.encode())

    def smallest(self, row: int) -> Mission:
        """The smallest mission that loses what a row loses. NotFlown tells where that is nothing."""
        from sift.mission import Mission

        return Mission(swept(["--reduce", str(row), "--out", self.folder])[0])

    def compared(self, before: Campaign) -> str:
        """What got worse and what got better since a campaign before, in lines."""
        return swept(["--compare", before.folder, self.folder])[0]

    def picture(self, before: Optional[Campaign] = None) -> str:
        """The drawing of its runs, or of what got better and what got worse since a campaign before: an SVG."""
        from sift.tools.picture import campaigns_of

        drawn, drawing = campaigns_of(self.table, before.table if before else None)
        return str(drawing.svg_of(drawn))

    @property
    def table(self) -> str:
        """The path of its runs.tsv."""
        return os.path.join(self.folder, "runs.tsv")

    def _repr_svg_(self) -> str:
        return self.picture()
