"""Runs the program on documents by its library, within this process."""
import ctypes
import time

from sift.callers import Library
from sift.campaigns.flyer import FLY, Caller, NoFlight, report_of
from sift.campaigns.reader import reader_beside

TRIM_THRESHOLD = -1  # M_TRIM_THRESHOLD of the C library
KEPT = 1 << 26  # bytes


def keep_memory():
    """Lets this process keep the memory that a flight gives back, for the next one: to have it anew from the system takes as long as
    a seventh of a short flight. It is for processes that do nothing but fly."""
    adjust = getattr(ctypes.CDLL(None), "mallopt", None)  # of glibc
    if adjust:
        adjust(TRIM_THRESHOLD, KEPT)


class LibraryFlyer(Caller):
    """Calls the library, and keeps count of the processor time that it takes."""

    def __init__(self, path):
        self.library = Library(path)
        self.path, self.readers = path, {}

    def reader_of(self, schedule):
        """The C reader that lies beside the library, or None."""
        if schedule not in self.readers:
            self.readers[schedule] = reader_beside(self.path, schedule)
        return self.readers[schedule]

    def run(self, words, text):
        begun = time.thread_time()
        try:
            return self.library.answer(words, text)
        except MemoryError:
            raise NoFlight("memory is wanting") from None
        finally:
            self.seconds += time.thread_time() - begun

    def begin_flight(self, document):
        """Keeps a document until `end_flight` flies it: nothing flies meanwhile."""
        return document

    def end_flight(self, begun):
        """The bytes of the report of a document."""
        return report_of(*self.run(FLY, begun))
