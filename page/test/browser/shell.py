"""Scenarios of Chromium: what holds the panels together, the opened frame, the schedule, and the pages of help."""
import re

from waiting import demand, flown, opened, show, wait

EDITOR = "document.querySelector('.CodeMirror').CodeMirror"
LARGE = 40_000  # letters that the pages of help have at least


def read(path):
    with open(path, encoding="utf-8", newline="") as file:
        return file.read()


def a_frame_is_opened(page, address, top):
    """The frame in which unit 4 says 7 to two units alone: who said what, which word won, and who differs."""
    page.open(address)
    flown(page)
    opened(page, "two_catchers.toml", read(f"{top}/missions/two_catchers.toml"))
    rows = wait(page, """
        const table = [...document.querySelectorAll('#frame table')].find((each) => each.caption.textContent === 'Who said what');
        return table && [...table.tBodies[0].rows].map((row) => [...row.cells].map((cell) => cell.textContent).join(' '))""")
    demand(rows == ["count.0 0 1 0010 0010 0010 0010 0007 0010 unit 4", "2 3 0010 0010 0010 0010 0010 0010 –"], f"the votes are told as {rows}")
    page.click("#frame input[type=checkbox]")
    wait(page, "return [...document.querySelectorAll('#frame td.differs')].map((each) => each.textContent).join(' ') === '7'", what="the word that differs, in decimal")


def the_planner_writes_tables(page, address, top):
    """The button plans what the page on tables shows, and the document with it flies."""
    page.open(address)
    flown(page)
    opened(page, "planned.toml", read(f"{top}/missions/planned.toml"))
    show(page, "schedule")
    before = page.run(f"return {EDITOR}.getValue()")
    page.run("document.getElementById('plan-copies').value = 4; document.getElementById('plan-subframes').value = 20")
    page.click("#schedule form button")
    wait(page, f"return {EDITOR}.getValue() !== arguments[0]".replace("arguments[0]", repr(before)))
    flown(page)
    text = page.run(f"return {EDITOR}.getValue()")
    demand(re.search(r"^subframes = 20$", text, re.M) and text.count("[[table]]") == 3, "the tables of the plan don't stand in the document")
    demand("0123" in text, "the plan has no four copies")
    page.run("document.getElementById('plan-copies').value = 3; document.getElementById('plan-subframes').value = 16")
    page.click("#schedule form button")
    told = wait(page, "const told = document.querySelector('#schedule [role=status]').textContent; return told.startsWith('no room') && told")
    demand("no room 4 task 3" in told and "servo" in told, f"a plan that has no room is told as: {told}")


def help_is_inside(page, address, top):
    """The pages of help open, with their links and pictures."""
    page.open(address)
    flown(page)
    show(page, "help")
    letters = page.run("return [...document.querySelectorAll('template')].reduce((sum, each) => sum + each.content.textContent.length, 0)")
    demand(letters > LARGE, f"the pages of help have {letters} letters")
    page.run("[...document.querySelectorAll('.help nav button')].find((each) => each.textContent === 'The first mission').click()")
    wait(page, "return document.querySelector('.help img')?.naturalWidth > 300", what="the picture of the first mission is shown")
    page.run("[...document.querySelectorAll('.help article a')].find((each) => each.dataset.page === 'refusals').click()")
    demand(page.run("return document.querySelector('.help article h1').textContent") == "Refusals", "a link doesn't open its page")
    lost = page.run("""
        const pages = new Map([...document.querySelectorAll('template')].map((each) => [each.id.slice(5), each.content]));
        return [...pages].flatMap(([name, page]) => [...page.querySelectorAll('a[data-anchor]')].filter((link) => {
          const other = pages.get(link.dataset.page ?? name);
          return link.dataset.anchor && ![...other.querySelectorAll('[id]')].some((each) => each.id === link.dataset.anchor);
        }).map((link) => `${name}: ${link.textContent}`))""")
    demand(not lost, f"links lead nowhere: {lost}")


def a_browser_that_cannot_says_so(page, address, top):
    """Where no module with 64 bits of memory runs, the page says which browsers can, and shows missions and help."""
    script = page.command("Page.addScriptToEvaluateOnNewDocument", source="WebAssembly.validate = () => false")
    try:
        page.open(address)
        told = wait(page, "const told = document.getElementById('status').textContent; return told.startsWith('This browser') && told")
        demand("Firefox" in told and "Chromium" in told, f"it is told: {told}")
        demand(page.run(f"return {EDITOR}.getValue()") == read(f"{top}/missions/first_5_liar.toml"), "the mission isn't shown")
        demand(page.run("return document.querySelector('.help article h1').textContent"), "no page of help is shown")
    finally:
        page.command("Page.removeScriptToEvaluateOnNewDocument", identifier=script["identifier"])


def what_is_no_text_is_refused(page, address, top):
    """A file that isn't UTF-8 is told, and nothing else changes."""
    page.open(address)
    flown(page)
    page.answer("""
        const input = document.getElementById('open'), files = new DataTransfer();
        files.items.add(new File([new Uint8Array([117, 255, 10])], 'odd.toml'));
        input.files = files.files;
        input.dispatchEvent(new Event('change', {bubbles: true}));""")
    told = wait(page, "const told = document.getElementById('notice'); return !told.hidden && told.textContent")
    demand("odd.toml isn't UTF-8" in told, f"it is told: {told}")
    demand(page.run(f"return {EDITOR}.getValue()") == read(f"{top}/missions/first_5_liar.toml"), "the document changed")


SCENARIOS = [a_frame_is_opened, the_planner_writes_tables, help_is_inside, a_browser_that_cannot_says_so, what_is_no_text_is_refused]
