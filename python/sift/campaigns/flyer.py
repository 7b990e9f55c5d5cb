"""Runs the program on documents, started for each of them; library.py has how its library is called."""
import os

DIVIDER = b"--- report ---\n"  # between a document and its report, where the program's judge reads both
USAGE = 2  # the status of a command that the program doesn't have
# One worker flies a document. Many flights at once keep all processors busy as it is.
FLY = ("run", "--workers", "1")


class NoFlight(Exception):
    """Why a document has no report."""


def report_of(status, text):
    """The bytes of the report, where the program ends well."""
    if status:
        line = text.decode(errors="replace").strip()
        raise NoFlight(f"the program ends with status {status}" + (f": {line}" if line else ""))
    return text


class Caller:
    """What flyers share. One has `run`, which gives the status of the program with words, and what it writes."""

    seconds = 0.0  # of processor time that its runs took

    def fly(self, document):
        """The report of a document."""
        return report_of(*self.run(FLY, document)).decode("ascii")

    def judge(self, document, report):
        """What the program's judge says of a report, both as bytes."""
        return self.run(("judge",), document + DIVIDER + report)[1].decode().strip()

    def reader_of(self, schedule):
        """The C reader of its reports of a schedule, or None."""
        return None

    def has_judge(self):
        """Whether the program has the command."""
        return self.run(("judge",), b"")[0] != USAGE


class Flyer(Caller):
    """Starts the program for each run, and keeps count of the processor time that it takes."""

    def __init__(self, program):
        self.program = program
        self.environment = dict(os.environb)
        self.files = []  # for programs to come: pairs of one that is read and one that is written

    def begin(self, words, text):
        """Lets the program begin with words on a text. `end` tells what came of it."""
        source, sink = self.files.pop() if self.files else map(os.memfd_create, ("document", "report"))
        os.pwrite(source, text, 0)
        os.truncate(source, len(text))
        for file in (source, sink):
            os.lseek(file, 0, os.SEEK_SET)
        actions = [(os.POSIX_SPAWN_DUP2, source, 0), (os.POSIX_SPAWN_DUP2, sink, 1)]
        return os.posix_spawn(self.program, [self.program, *words], self.environment, file_actions=actions), source, sink

    def end(self, begun):
        """The status of a program that has begun, and what it writes."""
        child, source, sink = begun
        _, status, used = os.wait4(child, 0)
        self.seconds += used.ru_utime + used.ru_stime
        # It wrote over what another one wrote, up to here.
        written = os.pread(sink, os.lseek(sink, 0, os.SEEK_CUR), 0)
        self.files.append((source, sink))
        return os.waitstatus_to_exitcode(status), written

    def run(self, words, text):
        return self.end(self.begin(words, text))

    def begin_flight(self, document):
        """Lets a document begin to fly."""
        return self.begin(FLY, document)

    def end_flight(self, begun):
        """The bytes of the report of a document that has begun to fly."""
        return report_of(*self.end(begun))
