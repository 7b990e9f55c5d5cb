"""Ways to ask the program: its C library in this process, or the program itself. Both give the same statuses and the same bytes."""
from __future__ import annotations

import os
from _thread import LockType, allocate_lock  # as threading has them, which takes as long to load as a flight
from collections import namedtuple
from functools import lru_cache

from sift import where

TYPE_CHECKING = False  # as typing has it, which takes as long to load as a flight
if TYPE_CHECKING:
    from typing import Any, Dict, NamedTuple, Optional, Protocol, Sequence, Tuple
else:
    Protocol = object

NO_MEMORY, NO_ROOM = 10, 100
ROOM = 65536  # bytes with which the room for a text begins
EXPLAINED = (0, 2, 3, 4, 5, 6, 7, 11, 12, 13, 14, 15, 16, 17)  # statuses with a whole text


if TYPE_CHECKING:

    class Answer(NamedTuple):
        """What the program answers: its exit status, and the bytes that it writes."""

        status: int
        text: bytes

else:
    Answer = namedtuple("Answer", "status text")


class NotAnswered(Exception):
    """Why there is no answer: nothing that could be asked is there, or it ended before it had one."""


class Caller(Protocol):
    """What can be asked."""

    def answer(self, words: Sequence[str], given: bytes = b"") -> Answer:
        """What the program answers to command words, such as `["run", "--report", "1"]`, with this input.

        Raises MemoryError where memory is wanting, and NotAnswered.
        """
        ...


@lru_cache(maxsize=64)  # a campaign asks the same two again and again
def lines_of(words: Tuple[str, ...]) -> Optional[bytes]:
    """Command words as the library takes them, one a line; None where one of them isn't one line."""
    if any("\n" in word for word in words):
        return None
    return "".join(f"{word}\n" for word in words).encode(errors="surrogateescape")


class Library:
    """`sift_call` of a shared library, in this process. Where several threads ask, one call waits for another."""

    locks: Dict[str, LockType] = {}  # one for each library that is loaded, however often

    def __init__(self, path: str) -> None:
        import ctypes  # which takes as long to load as a flight

        self.path = os.path.realpath(path)
        try:
            self._call = ctypes.CDLL(self.path).sift_call
        except (OSError, AttributeError) as fault:
            raise NotAnswered(f"{path} is no library of sift: {fault}") from None
        bytes_and_length = [ctypes.c_char_p, ctypes.c_size_t]
        self._call.argtypes = [*bytes_and_length, *bytes_and_length, ctypes.c_void_p, ctypes.c_size_t, ctypes.POINTER(ctypes.c_size_t)]
        self._call.restype = ctypes.c_uint8
        self._lock = Library.locks.setdefault(self.path, allocate_lock())
        self._room: Any = ctypes.create_string_buffer(ROOM)
        self._count = ctypes.c_size_t()
        self._of_count = ctypes.byref(self._count)
        self._text = ctypes.string_at

    def answer(self, words: Sequence[str], given: bytes = b"") -> Answer:
        """What the program answers. A room that is too small grows, and stays as large."""
        asked = lines_of(tuple(words))
        if asked is None:
            return Answer(2, b"usage\n")  # as the program answers; here its words are lines
        with self._lock:
            while True:
                size = len(self._room)
                status = self._call(asked, len(asked), given, len(given), self._room, size, self._of_count)
                if status != NO_ROOM:
                    break
                import ctypes

                self._room = ctypes.create_string_buffer(max(self._count.value, 2 * size))
            text = self._text(self._room, self._count.value)
        if status == NO_MEMORY:
            raise MemoryError("memory is wanting for this answer")
        return Answer(status, text)


class Program:
    """The program itself, or its launcher, which is started for each answer."""

    def __init__(self, path: str) -> None:
        self.path = path

    def answer(self, words: Sequence[str], given: bytes = b"") -> Answer:
        """What the program answers."""
        import subprocess  # which the library does without

        quiet = {**os.environ, "SIFT_OFFERS": "no"}
        try:
            ended = subprocess.run([self.path, *words], input=given, stdout=subprocess.PIPE, stderr=subprocess.PIPE, env=quiet, check=False)
        except OSError as fault:
            raise NotAnswered(f"{self.path}: {fault.strerror}") from None
        if ended.returncode == NO_MEMORY:
            raise MemoryError("memory is wanting for this answer")
        if ended.returncode not in EXPLAINED:
            said = ended.stderr.decode(errors="replace").strip()
            raise NotAnswered(f"{self.path} ends with status {ended.returncode}" + (f": {said}" if said else ""))
        return Answer(ended.returncode, ended.stdout)


_used: Optional[Caller] = None


def use(caller: Optional[Caller]) -> None:
    """Lets all that is asked from here on be asked by this; by what `found` finds, where it is None."""
    global _used
    _used = caller


def used() -> Caller:
    """What is asked."""
    global _used
    if _used is None:
        _used = found()
    return _used


def built() -> Optional[Caller]:
    """The library where it is built, else the program, or None."""
    library, program = where.library(), where.program()
    if library:
        return Library(library)
    return Program(program) if os.access(program, os.X_OK) else None


def found() -> Caller:
    """What is built, else in a clone the launcher, which compiles the program for each call."""
    caller = built() or (Program(where.launcher()) if where.IN_CLONE else None)
    if not caller:
        raise NotAnswered("there is neither the library nor the program of sift: build them, or name one by SIFT_LIBRARY or SIFT_PROGRAM")
    return caller
