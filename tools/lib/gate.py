#!/usr/bin/env python3
"""Takes the program that `rt ci` proved and built of the same sources on this machine, where what it kept is still there.

usage: gate.py TOP PROGRAM FILE      TOP is the repository, PROGRAM a crate; the program goes to FILE

Status 0 and the program; 1 and a line on standard error where it isn't there, so that it has to be proved and built. It asks `rt`
itself: which crates were proved, by the checksums of all that their proofs read and of the libraries below them, is told by the
functions by which `rt ci` finds it out. No command of the kit does that alone; a kit without them gets the line.
"""
import contextlib
import importlib.machinery
import importlib.util
import io
import os
import shutil
import sys
import tempfile

sys.dont_write_bytecode = True


class NotKept(Exception):
    """Why the program isn't taken."""


def kit():
    """The functions of `rt`."""
    path = os.path.realpath(shutil.which("rt") or "")
    try:
        loader = importlib.machinery.SourceFileLoader("rt", path)
        made = importlib.util.module_from_spec(importlib.util.spec_from_loader("rt", loader))
        loader.exec_module(made)
    except (OSError, SyntaxError, ValueError, SystemExit) as fault:
        raise NotKept(f"this kit's rt isn't read: {fault}") from None
    return made


def given(rt, top, name, repository):
    """A crate, in a copy of the crates, with what was kept of it and of those below it: what stands in their own folders stays."""
    rt.copy_crates(top, repository)
    os.mkdir(f"{repository}/.git")  # so that it is the top of a repository
    rt.Crate.allowed = rt.handles_of(repository)
    crates = rt.crates_of(repository)
    wanted = next(crate for crate in crates if crate.name == name)
    kept = rt.Kept(crates)
    for crate in [*wanted.below(), wanted]:
        key = kept.key(crate)
        if not kept.give(crate, False, key):
            raise NotKept(f"`rt ci` kept no proof of {crate.name} as it stands here")
        kept.is_built(crate)
    return wanted


def kept_in(repository, top, name):
    """The folder of a crate in a copy of the crates, which it makes, with what was kept of it and of those below it."""
    try:
        with contextlib.redirect_stdout(io.StringIO()):
            return given(kit(), os.path.abspath(top), name, repository).folder
    except (AttributeError, TypeError, OSError, StopIteration, SystemExit) as fault:
        raise NotKept(f"what `rt ci` keeps can't be taken by this kit: {fault}") from None


def main(top, program, file):
    with tempfile.TemporaryDirectory(prefix="sift-gate-") as room:
        try:
            folder = kept_in(f"{room}/repository", top, program)
            shutil.copyfile(f"{folder}/out/{program}", file)
            os.chmod(file, 0o755)
        except (NotKept, OSError) as fault:
            print(f"build: {fault}", file=sys.stderr)
            return 1
    return 0


if __name__ == "__main__":
    sys.exit(main(*sys.argv[1:]))
