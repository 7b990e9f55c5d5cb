"""Processes of this machine that fly a campaign by the program's library, and start no program."""
import ctypes
import os
import struct
import sys
# As signal has them, which takes as long to load as some flights.
from _signal import SIG_DFL, SIG_IGN, SIGINT, SIGKILL, getsignal, signal  # type: ignore[import]

from sift.campaigns.flights import NoRow, batches_text
from sift.campaigns.library import keep_memory
from sift.campaigns.journal import append

SHARE = struct.Struct("=qq")  # how a share stands in a pipe: the place of its first batch among those to be flown, and how many
AHEAD = 2  # shares of each process that are given out, so that none waits for its next one
DIE_WITH_PARENT = 1  # PR_SET_PDEATHSIG


class Pool:
    """So many processes. Each takes shares of batches from one pipe, writes their rows to a file, and tells by another pipe.

    They begin to fly at once, and to write where `fly` is called: by then the campaign has all that its folder is to have.
    """

    def __init__(self, campaign, flyer, output, batches, processes):
        self.campaign, self.output = campaign, output
        self.batches = batches
        wanted, given = os.pipe()
        done, told = os.pipe()
        closed, self.closes = os.pipe()  # what is read from it comes to its end when rows may be written
        self.hands = Hands(len(batches), min(processes, len(batches)), given, done)
        self.children = []
        try:
            for _ in range(self.hands.processes):
                self.children.append(self.started(flyer, wanted, told, closed, (given, done, self.closes)))
        except BaseException:
            self.end()
            raise
        for file in (wanted, told, closed):
            os.close(file)

    def fly(self, progress=lambda done, of: None):
        """Has the batches flown, and tells 0, or 1 where one of them wasn't flown to its end."""
        append(self.output, "\n")  # behind what may be cut off
        os.close(self.closes)
        try:
            count = self.hands.give_all(progress)
        except BaseException:
            self.end()
            raise
        return 0 if not any(self.statuses()) and count == len(self.batches) else 1

    def end(self):
        """Ends its processes, where there are some."""
        if self.children:
            for child in self.children:
                os.kill(child, SIGKILL)
            self.statuses()

    def statuses(self):
        """The statuses of the processes, which are waited for."""
        children, self.children = self.children, []
        return [os.waitpid(child, 0)[1] for child in children]

    def started(self, flyer, wanted, told, closed, others):
        """A process that flies what it is given until there is no more."""
        parent = os.getpid()
        child = os.fork()
        if child:
            return child
        status = 1
        try:
            if getsignal(SIGINT) != SIG_IGN:  # as it is where a shell began the tool in the background: then it is ignored here, too
                signal(SIGINT, SIG_DFL)
            ctypes.CDLL(None).prctl(DIE_WITH_PARENT, SIGKILL)
            keep_memory()
            if os.getppid() == parent:
                for file in others:
                    os.close(file)
                status = self.work(flyer, wanted, told, closed)
        except OSError as fault:
            print(f"sweep: {fault.strerror}", file=sys.stderr, flush=True)
        finally:
            os._exit(status)

    def work(self, flyer, wanted, told, closed):
        """Flies share after share; the status."""
        status = 0
        while share := os.read(wanted, SHARE.size):
            begin, count = SHARE.unpack(share)
            try:
                text = batches_text(self.campaign, flyer, self.batches[begin : begin + count])
                os.read(closed, 1)
                append(self.output, text)
                os.write(told, share)
            except NoRow as fault:
                print(fault, file=sys.stderr, flush=True)
                status = 1
                os.write(told, SHARE.pack(begin, 0))
        return status


class Hands:
    """Gives batches out to so many processes.

    Shares are large at first and small at the end, so that all processes end together. A process that ends before its time leaves
    its share to be flown later, and the others go on.
    """

    def __init__(self, batches, processes, given, done):
        self.batches, self.processes = batches, processes
        self.given, self.done = given, done
        self.begin = 0  # of the next share
        for _ in range(AHEAD * processes):
            self.give()

    def give(self):
        """Gives one more share, if any is left."""
        count = min(max(1, (self.batches - self.begin) // (2 * self.processes)), self.batches - self.begin)
        if count:
            os.write(self.given, SHARE.pack(self.begin, count))
            self.begin += count
        return count > 0

    def give_all(self, progress):
        """Gives out the rest, and tells how many batches were flown to their end."""
        flown, is_open = 0, True
        try:
            while told := os.read(self.done, SHARE.size):
                flown += SHARE.unpack(told)[1]
                if is_open and not self.give():
                    os.close(self.given)  # behind the last one: then the processes end
                    is_open = False
                progress(flown, self.batches)
        except BrokenPipeError:
            pass  # no process is left
        if is_open:
            os.close(self.given)
        os.close(self.done)
        return flown
