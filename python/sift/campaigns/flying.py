"""What flies here: the program's library where it is built, else the program."""
import os

from sift import where
from sift.campaigns.flyer import Flyer


def library_of(program):
    """The library that flies in a program's place: ours in place of our program, or None. A program that is named flies itself."""
    return where.library() if program == where.program() else None


def flyer_for(program):
    """What flies in a program's place."""
    library = library_of(program)
    if not library:
        return Flyer(os.path.abspath(program))
    from sift.campaigns.library import LibraryFlyer  # ctypes, which the program does without

    return LibraryFlyer(library)
