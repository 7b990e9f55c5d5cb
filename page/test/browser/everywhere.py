"""Scenarios of each browser: the first example, and the cases of the repository."""
import os
import subprocess
import tempfile

from waiting import REPORT, demand, flown, opened, pressed, show, wait

PLAIN = (["run"], ["check"])  # the words of the cases that a document in the editor is


def first_example(page, address, top):
    """The page opens, and the first example is flown."""
    page.open(address)
    flown(page)
    with open(f"{top}/missions/first_5_liar.report", encoding="utf-8") as file:
        demand(page.run(REPORT) == file.read(), "the first example has another report")


def cases(page, address, top):
    """Each case whose words are run or check: its report, or the line of its refusal."""
    page.open(address)
    flown(page)
    compared, without, differing = 0, 0, []
    with tempfile.TemporaryDirectory() as folder:
        subprocess.run([f"{top}/tools/cases", folder], check=True)
        for name in sorted(entry[:-5] for entry in os.listdir(f"{folder}/cases") if entry.endswith(".args")):
            given, words, due = (read(f"{folder}/cases/{name}{end}") for end in ("", ".args", ".stdout"))
            if words.split("\n")[:-1] not in PLAIN:
                continue
            if not is_text(given):
                without += 1
                continue
            compared += 1
            if not agrees(page, name, given, words.strip(), due):
                differing.append(name)
    demand(compared > 800, f"only {compared} cases were compared")
    demand(not differing, f"{len(differing)} of {compared} cases have another text: {', '.join(differing[:12])}")
    return f"{compared} cases; {without} aren't UTF-8, and no page opens them"


def read(path):
    with open(path, encoding="utf-8", errors="surrogateescape", newline="") as file:
        return file.read()


def is_text(text):
    """Whether it is UTF-8 that a page is handed as it is: readers of files take a byte order mark away."""
    return not any(0xD800 <= ord(letter) < 0xE000 for letter in text)


def agrees(page, name, given, word, due):
    """Whether the page tells of a document what the case has."""
    told = opened(page, f"{name}.toml", given)
    if told["told"] == "refused":
        return told["refusal"] + "\n" == due
    return due == "ok\n" if word == "check" else page.run(REPORT) == due


def campaign_and_link(page, address, top):
    """A campaign is flown by workers, and a link opens to the same flight."""
    page.open(address)
    flown(page)
    show(page, "campaign")
    pressed(page, "campaign", "Fly all")
    wait(page, "return document.querySelector('#campaign .campaigns table')", 120, "the campaign is flown")
    told = page.run("return document.querySelector('#campaign h3').textContent")
    demand("132 runs with a single fault: an output was lost in 3, the margin in 0" in told, f"the campaign tells: {told}")
    marks = page.run("return [...document.querySelectorAll('#campaign tbody tr:nth-child(2) td')].map((each) => each.textContent).join(' ').trim()")
    demand(marks.split() == ["b*", "."] * 3, f"the marks of the sensor are: {marks}")
    with open(f"{top}/missions/count.toml", encoding="utf-8") as file:
        opened(page, "count.toml", file.read())
    report = page.run(REPORT)
    link = wait(page, "return document.getElementById('link').value")
    page.open(link)
    flown(page)
    demand(page.run(REPORT) == report, "the link opens another flight")


SCENARIOS = [first_example, campaign_and_link, cases]
