#!/usr/bin/env python3
"""Says on standard error how far `rt run` is, from what it says itself, which comes on standard input.

usage: progress.py CRATES PROGRAM LOG [SECONDS]      CRATES is crates.txt; all that was said goes to the file LOG; where nothing
                                                     was to be said for SECONDS, 60 where none are given, it says where it is
"""
import re
import sys
import threading
import time

sys.dont_write_bytecode = True
BEGUN = re.compile(r"rt: chose --jobs \d+ for (\w+)")
CHECKED = re.compile(r"crate (\w+): modules loaded=(\d+) checked=(\d+)")
WAITS = re.compile(r"rt: (\w+): another copy of the repository is building this library; waiting for it")
WAITS_HERE = re.compile(r"rt: waiting for another rt to finish in (.*)")


def order(lines, program):
    """The crates that a program stands on and itself, each behind those that it uses, as rt takes them."""
    uses = {}
    for line in lines:
        name, _, deps = line.partition("#")[0].partition(":")
        if name.split():
            uses[name.split()[0]] = deps.split()
    found = []

    def add(name):
        for dep in uses.get(name, []):
            if dep in uses and dep not in found:
                add(dep)
        found.append(name)

    add(program)
    return found


class Progress:
    """How far a build is: what it does now, and since when nothing was said."""

    def __init__(self, crates):
        self.crates = crates
        self.begin = self.spoken = time.monotonic()
        self.now = "at the begin"

    def spent(self):
        """The time so far, in words."""
        minutes, seconds = divmod(int(time.monotonic() - self.begin), 60)
        return f"{minutes} min {seconds} s so far" if minutes else f"{seconds} s so far"

    def say(self, words):
        self.spoken = time.monotonic()
        print(f"build: {words}", file=sys.stderr, flush=True)

    def place(self, crate):
        """Which crate of how many one is."""
        return f"crate {self.crates.index(crate) + 1} of {len(self.crates)}, {crate}"

    def hear(self, line):
        """Says what is to be said of a line of rt."""
        begun, checked, waits, waits_here = (form.match(line) for form in (BEGUN, CHECKED, WAITS, WAITS_HERE))
        if begun and begun[1] in self.crates:
            self.now = f"at {self.place(begun[1])}"
            self.say(f"{self.place(begun[1])}, {self.spent()}")
        elif checked and checked[1] in self.crates:
            self.say(how_checked(checked[1], int(checked[2]), int(checked[3])))
        elif waits and waits[1] in self.crates:
            self.now = f"waiting at {self.place(waits[1])}, which another copy of the repository on this machine proves and builds"
            self.say(f"waits at {self.place(waits[1])}: another copy of the repository on this machine proves and builds it, half an hour at most, and its work is then used")
        elif waits_here:
            self.now = f"waiting for another rt in {waits_here[1]}"
            self.say(f"waits for another rt to finish in {waits_here[1]}")

    def watch(self, seconds):
        """Says where it is whenever nothing was said for some seconds."""
        while True:
            time.sleep(max(0.1, self.spoken + seconds - time.monotonic()))
            if time.monotonic() - self.spoken >= seconds:
                self.say(f"still {self.now}, {self.spent()}")


def how_checked(crate, loaded, new):
    """How a crate was checked: with so many parts of an earlier check, and so many anew."""
    if loaded == 0:
        return f"{crate} is checked from nothing"
    how = "all" if new == 0 else f"{loaded} of {loaded + new} parts"
    return f"{crate} is checked, {how} as an earlier check of the same files kept it"


def main(crates_file, program, log, seconds="60"):
    with open(crates_file, encoding="utf-8") as lines:
        progress = Progress(order(lines, program))
    progress.say(f"{len(progress.crates)} crates; those that stand here proved and built are passed over")
    threading.Thread(target=progress.watch, args=(float(seconds),), daemon=True).start()
    with open(log, "w", encoding="utf-8") as kept:
        for line in sys.stdin:
            kept.write(line)
            kept.flush()
            progress.hear(line)


if __name__ == "__main__":
    sys.stdin.reconfigure(errors="replace")
    main(*sys.argv[1:])
