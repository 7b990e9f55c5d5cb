"""Asks the program what it says of a report."""
from sift import callers
from sift.campaigns.flyer import DIVIDER


class NotJudged(Exception):
    """Why the program says neither yes nor no."""


def joined(document, report):
    """What the judge reads: the document, the line that divides, and the report."""
    return document + (b"" if document.endswith(b"\n") else b"\n") + DIVIDER + report


def judged(program, document, report, version=None):
    """The line of the judge: `yes`, or what the report breaks. A report of both versions needs no version."""
    words = ["judge", *(["--report", str(version)] if version == 1 else [])]
    try:
        status, text = callers.Program(program).answer(words, joined(document, report.replace(b"\r\n", b"\n")))
    except (callers.NotAnswered, MemoryError) as fault:
        raise NotJudged(str(fault)) from None
    if status not in (0, 12, 13):
        raise NotJudged(f"{program} judge ends with status {status}")
    return text.decode(errors="replace").strip()
