"""Flies a batch of a campaign's runs, and writes their rows. It is what GNU parallel calls as a job, `flights.py` of a kit.

usage: flights.py BATCH [MORE]                    so many more runs fly while one is waited for; none where it isn't given
       flights.py --share BATCHES OUTPUT PLACE OF  of the batches that a file lists each OF-th from PLACE on, appended to OUTPUT

Beside this file lie the campaign's mission, its options, the program, and of the package what flights stand on.
"""
import os
import sys

KIT = os.path.dirname(os.path.realpath(__file__))

if __name__ == "__main__":
    sys.path.insert(0, os.path.join(KIT, "python"))
    from sift.campaigns.flights import main, share

    shared = sys.argv[1:2] == ["--share"]
    status = share(KIT, *sys.argv[2:4], *map(int, sys.argv[4:])) if shared else main(KIT, *map(int, sys.argv[1:]))
    os._exit(status)  # at once: what was kept of reports is many things to let go
