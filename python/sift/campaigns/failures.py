"""What a document's flight loses, and the smallest document that still loses it."""
from sift.campaigns.faults import Schedule, outline_of
from sift.campaigns.flyer import FLY
from sift.campaigns.outcomes import wrong_words
from sift.campaigns.reduction import Reduction
from sift.documents import places
from sift.documents.mission import Mission
from sift.documents.printing import text_of
from sift.reports.reading import read_ideal, read_report

MARGIN, OUTPUT = "the margin", "an output"


def losses_of(data, flyer, required):
    """What is lost where a document's values are flown: nothing where it is none of a mission."""
    text = text_of(data).encode()
    status, report = flyer.run(FLY, text)
    if status:
        return frozenset()
    schedule = Schedule(outline_of(Mission(places.read(text)[1])), read_ideal(flyer.run(("ideal",), text)[1].decode()))
    flight = read_report(report.decode())
    harmed = is_broken(flight, schedule, required) if required else bool(wrong_words(flight, schedule))
    return frozenset(([] if flight.margin else [MARGIN]) + ([OUTPUT] if harmed else []))


def is_broken(flight, schedule, required):
    """Whether a requirement is broken whose word, and whose sensor, the mission still has."""
    sensors = {None, *(name for name, _ in schedule.sensors)}
    return any(each.find(flight, schedule).broken for each in required if each.word in schedule.names and each.sensor in sensors)


def smallest(data, flyer, required=()):
    """The smallest document that loses what a document loses, what that is, and how many were tried; None where it loses nothing."""
    lost = losses_of(data, flyer, required)
    if not lost:
        return None
    reduction = Reduction(data, lambda smaller: lost <= losses_of(smaller, flyer, required))
    return reduction.reduce(), sorted(lost), reduction.tried
