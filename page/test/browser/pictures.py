"""Pictures of the page's panels, to be looked at: at two sizes, in light and dark."""
import os
import re
import tempfile

from chromium import Chromium
from scenarios import read, swept
from waiting import chosen, flown, opened, show, wait

SIZES = {"wide": (1400, 900), "narrow": (420, 900)}


def flight(page, top):
    show(page, "flight-view")


def fault(page, top):
    show(page, "flight-view")
    chosen(page, "#fault select[name=slot]", "report")
    page.run("document.getElementById('fault').scrollIntoView()")


def schedule(page, top):
    show(page, "schedule")


def campaign(page, top):
    show(page, "campaign")
    swept(page)
    opened(page, "placed_reader.toml", read(f"{top}/missions/placed_reader.toml"))
    swept(page)
    page.run("document.querySelector('#campaign .result').scrollIntoView()")


def judge(page, top):
    show(page, "judge")
    report = re.sub(r"(f=2 u=3 .*)0073", r"\g<1>0074", read(f"{top}/missions/placed_reader.report"))
    page.run("document.getElementById('judged-report').value = arguments[0]; document.querySelector('#judge button.main').click()", report)
    wait(page, "return document.querySelector('#judge .verdict strong')")
    page.run("document.querySelector('#judge .tools').scrollIntoView()")


def laboratories(page, top):
    show(page, "corner")
    page.run("document.querySelectorAll('#corner button.main').forEach((each) => each.click())")
    wait(page, "return [...document.querySelectorAll('#corner .laboratory-result')].every((each) => each.textContent)")


def take(page, top):
    show(page, "take")


PANELS = [flight, fault, schedule, campaign, judge, laboratories, take]


def taken(address, folder, top):
    """Takes all pictures into a folder."""
    os.makedirs(folder, exist_ok=True)
    with tempfile.TemporaryDirectory(ignore_cleanup_errors=True) as scratch:
        page = Chromium(scratch)
        try:
            for size, (width, height) in SIZES.items():
                for dark in (False, True):
                    page.sized(width, height, dark)
                    page.open(address)
                    flown(page)
                    for panel in PANELS:
                        panel(page, top)
                        page.answer("await new Promise((resolve) => setTimeout(resolve, 250)); return 0;")
                        page.picture(f"{folder}/{panel.__name__}_{size}_{'dark' if dark else 'light'}.png")
        finally:
            page.close()
