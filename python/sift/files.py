"""How the tools are called, read a file, and end."""
import os
import sys

from sift import where
from sift.forms import Form

TOOL = Form(r"\btools/(?=(compare|explain|lint|odds|picture|sweep|words)\b)")


def as_called(words):
    """Words that name tools as they are called in a clone, with the names that they have here: tools/words is installed as sift-words."""
    return TOOL.sub("sift-", words) if not where.IN_CLONE else words


def read_source(name):
    """The bytes of a file, or of standard input where the name is -."""
    if name != "-":
        with open(name, "rb") as source:
            return source.read()
    try:
        return sys.stdin.buffer.read()
    except OSError as fault:
        fault.filename = "standard input"
        raise


def run(name, main, words, unread, unwritten):
    """The status of a tool's main function: `unread` where an input fails, and `unwritten` where standard output does."""
    try:
        status = main(words)
        sys.stdout.flush()
        return status
    except OSError as fault:
        # Standard output is let go, so that nothing more is written to it when Python ends.
        os.dup2(os.open(os.devnull, os.O_WRONLY), sys.stdout.fileno())
        if not isinstance(fault, BrokenPipeError):
            where = f"{fault.filename}: " if fault.filename else ""
            print(f"{name}: {where}{fault.strerror}", file=sys.stderr)
        return unread if fault.filename else unwritten
