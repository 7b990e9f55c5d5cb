"""Scenarios of Chromium: what a user does in the page, and what comes of it."""
import json
import os
import re
import shutil
import subprocess

from selenium.webdriver.common.keys import Keys
from waiting import REPORT, Fault, chosen, demand, flown, opened, pressed, show, wait

EDITOR = "document.querySelector('.CodeMirror').CodeMirror"
LARGEST = 3_000_000  # bytes of the page
FIRST_FLIGHT = 1500  # milliseconds from the opening to the first flight
LONGEST_DRAWING = 2000  # milliseconds
LONGEST_CHECK = 100  # milliseconds from a keystroke to what is said of it
LONGEST_FAULT = 1000  # milliseconds from a fault by hand to its flight


def read(path):
    with open(path, encoding="utf-8", newline="") as file:
        return file.read()


def names(top):
    return sorted(name[:-5] for name in os.listdir(f"{top}/missions") if name.endswith(".toml"))


def slack():
    """How many times longer all may take where other processes want the processors."""
    return 1 + 2 * max(0.0, os.getloadavg()[0] / (os.cpu_count() or 1) - 0.75)


def in_time(what, milliseconds, most):
    """Demands a time, with slack where the machine is busy, and tells it."""
    demand(milliseconds <= most * slack(), f"{what} took {milliseconds:.0f} ms, and {most} are allowed (on a busy machine {most * slack():.0f})")
    return f"{what} {milliseconds:.0f} ms"


def cell(unit, frame):
    """What the drawing has of a unit in a frame, as an expression."""
    return f"document.querySelector('#flight [aria-rowindex=\"{unit + 1}\"] [aria-colindex=\"{frame + 1}\"]')"


def looks(unit, frame, look):
    return f"{cell(unit, frame)}?.getAttribute('class') === '{look}'"


def text_of(page):
    return page.run(f"return {EDITOR}.getValue()")


# Opening.


def the_file_is_small(page, address, top):
    size = os.path.getsize(address.removeprefix("file://"))
    demand(size < LARGEST, f"the page has {size:,} bytes, and is to have less than {LARGEST:,}")
    return f"{size:,} bytes"


def it_opens_soon_and_loads_nothing(page, address, top):
    page.open(address)
    flown(page)
    loaded = page.run("return performance.getEntriesByType('resource').map((each) => each.name).filter((name) => !/^(blob|data):/.test(name))")
    demand(not loaded, f"the page loads {loaded}")
    demand(not (said := page.complaints()), f"the browser complains: {said}")
    return in_time("the first flight", page.run("return seen.flown"), FIRST_FLIGHT)


def each_example_has_its_report(page, address, top):
    page.open(address)
    flown(page)
    show(page, "take")
    for name in names(top):
        chosen(page, "#examples", name)
        text = json.dumps(read(f"{top}/missions/{name}.toml"))
        wait(page, f"return document.getElementById('status').textContent === 'flown' && {EDITOR}.getValue() === {text}", 60, name)
        page.click("#take .row:nth-of-type(2) button")
        demand(page.saved(f"{name}.report") == read(f"{top}/missions/{name}.report").encode(), f"{name} has another report")
    page.click("#take .row:nth-of-type(1) button")
    demand(page.saved(f"{name}.toml") == read(f"{top}/missions/{name}.toml").encode(), "another document is taken away")
    return f"{len(names(top))} examples"


# What is written.


def a_mistake_is_marked_where_it_stands(page, address, top):
    page.open(address)
    flown(page)
    page.run(f"{EDITOR}.focus(); {EDITOR}.setCursor({{line: 3, ch: 9}})")
    page.keys("5")
    wait(page, "return document.getElementById('status').textContent === 'refused'", what="units = 55 is refused")
    demand("units = 55\n" in text_of(page), "the keystroke isn't in the text")
    refusal = page.run("return document.getElementById('refusal').textContent")
    demand("scenario rule 2 at 0" in refusal and "line 4" in refusal and "What to do" in refusal, f"the refusal is told as: {refusal}")
    marked = page.run("return [...document.querySelectorAll('.CodeMirror .refused-here')].map((each) => each.textContent).join('')")
    demand("55" in marked, f"what is marked is: {marked}")
    page.keys(Keys.BACKSPACE)
    flown(page)
    demand(not page.run("return document.querySelector('.CodeMirror .refused-here') || document.getElementById('refusal').textContent"), "the mark stays")


def each_mistake_has_its_line(page, address, top):
    """The line of the program, and the place where tools/explain shows it."""
    page.open(address)
    flown(page)
    folder, tried, elsewhere = f"{top}/cases/mistakes", 0, []
    for name in sorted(os.listdir(folder)):
        if not name.endswith(".toml"):
            continue
        try:
            text = read(f"{folder}/{name}")
        except UnicodeDecodeError:
            continue
        explained = read(f"{folder}/{name[:-5]}.txt").split("\n")
        told = opened(page, name, text)
        demand(told["refusal"] == explained[0], f"{name}: {told['refusal']}, where {explained[0]} is due")
        tried += 1
        place = re.search(r"\.toml:(\d+):", explained[1]) if len(explained) > 1 else None
        shown = page.run("return document.querySelector('#refusal .where')?.textContent ?? ''")
        if place and f"line {place[1]}," not in shown:
            elsewhere.append(f"{name} ({shown}, not line {place[1]})")
    demand(tried > 100, f"only {tried} mistakes were tried")
    demand(not elsewhere, f"{len(elsewhere)} of {tried} are shown in another line: {', '.join(elsewhere)}")
    return f"{tried} mistakes"


def a_keystroke_is_checked_soon(page, address, top):
    page.open(address)
    flown(page)
    worst = 0, ""
    for name in names(top):
        opened(page, f"{name}.toml", read(f"{top}/missions/{name}.toml") + "\n# more\n")
        took = page.answer(f"""
          const box = document.getElementById("refusal");
          const code = {EDITOR};
          const times = [];
          for (let stroke = 0; stroke < 3; stroke += 1) {{
            const began = performance.now();
            const end = {{line: code.lastLine(), ch: 0}};
            const told = new Promise((resolve) => {{
              const watch = new MutationObserver(() => {{ if (box.textContent) {{ watch.disconnect(); resolve(); }} }});
              watch.observe(box, {{childList: true, subtree: true}});
            }});
            code.replaceRange("x", end, end, "+input");
            await told;
            times.push(performance.now() - began);
            code.undo();
            await new Promise((resolve) => setTimeout(resolve, 30));
            while (document.getElementById("status").textContent !== "flown") await new Promise((resolve) => setTimeout(resolve, 10));
          }}
          return Math.min(...times);
        """)
        demand(not isinstance(took, dict), f"{name}: {took}")
        worst = max(worst, (took, name))
    return in_time(f"the slowest check of a keystroke, of {worst[1]},", worst[0], LONGEST_CHECK)


# Faults.


def a_fault_is_clicked(page, address, top):
    page.open(address)
    flown(page)
    before = text_of(page)
    page.click('#flight [aria-rowindex="4"] [aria-colindex="2"]')
    demand(page.run("return document.querySelector('#fault select[name=unit]').value") == "3", "the panel has another unit")
    demand(page.run(f"return {looks(3, 1, 'works')}"), "unit 3 doesn't work before")
    chosen(page, "#fault select[name=slot]", "out elevator.0")
    took = page.answer(f"""
      const began = performance.now();
      document.querySelector("#fault button[type=submit]").click();
      while (!({looks(3, 1, "faulty")})) await new Promise((resolve) => setTimeout(resolve, 5));
      return performance.now() - began;
    """)
    added = '\n[[fault]]\nunit = 3\nfrom = 1\n\n[[fault.say]]\nslot = "out"\nindex = 1\nword = 0\nto = "0124"\nvalue = 999\n'
    demand(text_of(page) == before + added, f"the document is another one: {text_of(page)[len(before):]}")
    page.click("#fault .stated > p button")
    wait(page, f"return {looks(3, 1, 'works')}", what="unit 3 works again")
    demand(text_of(page) == before, "the document isn't what it was")
    return in_time("the flight with the fault", took, LONGEST_FAULT)


def a_unit_turns_stray(page, address, top):
    page.open(address)
    flown(page)
    page.run("document.querySelector('#fault input[value=storm]').click()")
    page.click("#fault button[type=submit]")
    frame = page.run("return document.querySelector('#fault input[type=number]').value")
    wait(page, f"return {looks(0, int(frame), 'faulty')}", what="unit 0 is faulty")
    demand(f"unit = 0\nfrom = {frame}\n\n[fault.storm]\nnumber = 1\nstrays = 100000\n" in text_of(page), "there is no storm in the document")


# Campaigns.


def swept(page, seconds=120):
    """Flies the campaign, and waits for its end."""
    page.run("document.querySelector('#campaign .result').replaceChildren()")
    page.click("#campaign button[type=submit]")
    wait(page, "return document.querySelector('#campaign .campaigns table')", seconds, "the campaign is flown")


def judged(rows):
    """A stored table as one of a program that has a judge: each of its reports is taken."""
    cells = [line.split("\t") for line in rows.splitlines()]
    return "".join("\t".join([*line[:10], "yes" if place else line[10], *line[11:]]) + "\n" for place, line in enumerate(cells))


def rows_of(page, top, name, moments="0"):
    """The rows that the page has of a mission with faults from some frames on."""
    if text_of(page) != read(f"{top}/missions/{name}.toml"):
        opened(page, f"{name}.toml", read(f"{top}/missions/{name}.toml"))
    show(page, "campaign")
    page.run("document.querySelector('#campaign input[type=text]').value = arguments[0]", moments)
    swept(page)
    pressed(page, "campaign", "Rows as TSV")
    return page.saved(f"{name}.tsv").decode()


def a_campaign_is_the_stored_one(page, address, top):
    page.open(address)
    flown(page)
    for name in ("first_5_liar", "placed_reader"):
        demand(rows_of(page, top, name) == judged(read(f"{top}/cases/sweeps/{name}.tsv")), f"{name} has other rows than the stored ones")
    told = page.run("return document.querySelector('#campaign .result').textContent")
    demand(re.search(r"Of the cells \d+ better, 0 worse, \d+ as before", told), f"the campaigns are compared as: {told[:300]}")
    demand(page.run("return document.querySelector('#campaign td.better .before').textContent") == "b* →", "the believed reader isn't shown as better now")


def a_campaign_is_that_of_tools_sweep(page, address, top):
    """To the byte, with faults from several frames on, a table that sheds, and clocks."""
    program = os.environ.get("SIFT", f"{top}/out/sift")
    if not os.path.exists(program) or not shutil.which("parallel"):
        return "skipped: there is no program out/sift, or no GNU parallel"
    page.open(address)
    flown(page)
    for name, moments in (("shed_display", "0,3"), ("two_faults_in_turn", "0-2,4"), ("two_faced_clock", "0")):
        out = f"{page.folder}/sweep_{name}"
        words = [f"{top}/tools/sweep", f"{top}/missions/{name}.toml", "--from", moments, "--program", program, "--out", out]
        told = subprocess.run(words, capture_output=True, text=True, check=False)
        demand(told.returncode in (0, 1), f"tools/sweep ends with status {told.returncode}: {told.stderr}")
        demand(rows_of(page, top, name, moments) == read(f"{out}/runs.tsv"), f"{name} has other rows than tools/sweep has")


def a_cell_opens_its_flight(page, address, top):
    page.open(address)
    flown(page)
    show(page, "campaign")
    swept(page)
    page.run("document.querySelector('#campaign td.end-believed a').focus()")
    link = wait(page, "return document.querySelector('#campaign td.end-believed a[href^=\"#document\"]')?.href", what="the cell has a link")
    page.click("#campaign td.end-believed a")
    flown(page)
    demand(page.run("return !document.getElementById('flight-view').hidden"), "the flight isn't shown")
    text, report = text_of(page), page.run(REPORT)
    demand('slot = "sense"\nindex = 0\nto = "1234"\nvalue = 999\n' in text, "the fault of the cell isn't in the document")
    page.open(link)
    flown(page)
    demand((text_of(page), page.run(REPORT)) == (text, report), "the link of the cell opens another flight")


def a_campaign_is_stopped_and_goes_on(page, address, top):
    page.open(address)
    flown(page)
    opened(page, "large.toml", largest(200))
    show(page, "campaign")
    page.click("#campaign button[type=submit]")
    wait(page, "return document.querySelector('#campaign progress').value > 2", 120, "the campaign goes on")
    pressed(page, "campaign", "Stop")
    wait(page, "return document.querySelector('#campaign [role=status]').textContent.startsWith('stopped: ')", 20, "the campaign is stopped")
    demand("It isn't whole" in page.run("return document.querySelector('#campaign .result').textContent"), "it isn't said that the campaign isn't whole")
    before = page.run("return document.querySelector('#campaign progress').value")
    pressed(page, "campaign", "Go on")
    wait(page, f"return document.querySelector('#campaign progress').value > {before} + 2", 120, "the campaign goes on after it was stopped")
    pressed(page, "campaign", "Stop")
    wait(page, "return document.querySelector('#campaign [role=status]').textContent.startsWith('stopped: ')", 20, "the campaign is stopped again")


# Large missions.


def sensor_of(number):
    words = ", ".join(str((number * 77 + step * 13) % 500) for step in range(40))
    return f'[[sensor]]\nname = "s{number}"\nwords = [{words}]\n'


def task_of(number):
    computes = f"out 0 = last t{number}.0 + sense s{number % 8}; out 1 = last t{number}.0; out 2 = last t{number}.1;"
    return f'[[task]]\nname = "t{number}"\nstart = [{number}, 1, 2, 3]\ntext = "{computes} out 3 = sense s{(number + 3) % 8} * 3;"\n'


def fault_of(unit, begin):
    to = "".join(str(each) for each in range(8) if each != unit)
    return f'[[fault]]\nunit = {unit}\nfrom = {begin}\n[[fault.say]]\nslot = "out"\nindex = {unit}\nword = 0\nto = "{to}"\nvalue = 999\n'


def largest(frames):
    """A mission with all units, sensors and output words, and so many frames; four units fail in turn."""
    sensors, tasks = "".join(map(sensor_of, range(8))), "".join(map(task_of, range(16)))
    begins = (7, frames // 5), (6, frames // 3), (5, frames // 2), (4, frames * 2 // 3)
    return f"units = 8\nframes = {frames}\n{sensors}{tasks}{''.join(fault_of(*each) for each in begins)}"


def a_thousand_frames_are_drawn_and_scrolled(page, address, top):
    page.open(address)
    flown(page)
    page.run("seen.steps = []")
    told = opened(page, "largest.toml", largest(1000))
    demand(told["told"] == "flown", f"the largest mission is refused: {told['refusal']}")
    page.answer("await new Promise((resolve) => setTimeout(resolve, 300)); return 0;")
    drawing = page.run("return seen.steps.reduce((sum, each) => sum + each, 0)")
    gaps = page.answer("""
      const grid = document.querySelector("#flight .grid");
      const gaps = [];
      let before = await new Promise(requestAnimationFrame);
      const step = Math.max(10, grid.scrollWidth / 200);
      for (let left = 0; left <= grid.scrollWidth; left += step) {
        grid.scrollLeft = left;
        const now = await new Promise(requestAnimationFrame);
        gaps.push(now - before);
        before = now;
      }
      return gaps.sort((one, other) => one - other);
    """)
    demand(not isinstance(gaps, dict), str(gaps))
    demand(page.run(f"return {cell(7, 999)} !== null"), "the last frame isn't drawn at the end")
    middle, worst = gaps[len(gaps) // 2], gaps[-3]
    in_time("a step of scrolling, in the middle,", middle, 34)
    drawn = in_time("reading and drawing", drawing, LONGEST_DRAWING)
    return f"{drawn}; flown in {told['milliseconds']:.0f} ms; a step of scrolling {middle:.0f} ms, and of the slowest {worst:.0f}"


# Keys, and readers of screens.


def active(page):
    """What is focused: its tag, id, role, whether it is the editor, and its first letters."""
    return page.run("""
      const it = document.activeElement;
      return [it.tagName, it.id, it.getAttribute("role") ?? "", it.closest(".CodeMirror") ? "editor" : "", it.textContent.slice(0, 30)].join(" ");
    """)


def tabbed(page, wanted, most=60):
    """Presses Tab until something is focused."""
    passed = []
    for _ in range(most):
        page.keys(Keys.TAB)
        passed.append(active(page))
        if re.search(wanted, passed[-1]):
            return
    raise Fault(f"no Tab comes to {wanted}: {passed}")


def all_is_done_by_keys(page, address, top):
    """A mistake and its mend, a frame, a fault, a campaign and one of its cells, and a link: no pointer is needed."""
    page.open(address)
    flown(page)
    tabbed(page, "^SELECT examples")
    page.keys("count", Keys.ENTER)
    wait(page, f"return {EDITOR}.getValue().includes('name = \"count\"')", what="the example is chosen by letters")
    flown(page)
    tabbed(page, "editor")
    page.chord(Keys.CONTROL, Keys.END)
    page.keys("x")
    wait(page, "return document.getElementById('status').textContent === 'refused'")
    page.keys(Keys.BACKSPACE)
    flown(page)
    tabbed(page, "tab .*Flight")
    page.keys(Keys.ARROW_RIGHT, Keys.ARROW_LEFT)
    tabbed(page, " grid ")
    page.keys(Keys.ARROW_DOWN, Keys.ARROW_DOWN)
    demand(page.run("return document.querySelector('#fault select[name=unit]').value") == "1", "arrow keys choose no unit")
    tabbed(page, "Write it into")
    page.keys(Keys.ENTER)
    wait(page, f"return {looks(1, 0, 'faulty')}", what="the fault by keys is flown")
    page.run("document.getElementById('flight-view-tab').focus()")
    page.keys(Keys.ARROW_RIGHT, Keys.ARROW_RIGHT)
    demand(page.run("return !document.getElementById('campaign').hidden"), "arrow keys don't open a view")
    tabbed(page, "Fly all")
    page.keys(Keys.ENTER)
    wait(page, "return document.querySelector('#campaign .campaigns table')", 60)
    tabbed(page, "^A ")
    page.keys(Keys.ENTER)
    wait(page, "return !document.getElementById('flight-view').hidden", what="Enter on a cell opens its flight")


def everything_has_a_name(page, address, top):
    """Each field and button has a name, each drawing a role and a name, and no id stands twice."""
    page.open(address)
    flown(page)
    show(page, "campaign")
    swept(page)
    nameless = page.run("""
      const named = (it) => ["aria-label", "aria-labelledby", "title"].some((name) => it.getAttribute(name))
        || it.labels?.length || it.textContent.trim() || it.closest("[aria-hidden=true]");
      return [...document.querySelectorAll("button, select, input, textarea, a, [role=grid], [role=img], [role=tabpanel], progress")]
        .filter((it) => !it.closest("template") && !named(it)).map((it) => it.outerHTML.slice(0, 120));
    """)
    demand(not nameless, f"without a name: {nameless}")
    twice = page.run("const ids = [...document.querySelectorAll('[id]')].map((each) => each.id); return ids.filter((id, place) => ids.indexOf(id) !== place)")
    demand(not twice, f"ids that stand twice: {twice}")
    demand(page.run("return document.documentElement.lang === 'en' && document.querySelector('h1') !== null"), "the page has no language or no heading")


VIEWS = ("flight-view", "schedule", "campaign", "judge", "corner", "take", "help")


def narrow_windows_hold_it_all(page, address, top):
    """No view is wider than a narrow window: what is wide scrolls in its own box."""
    page.sized(360, 740, False)
    try:
        page.open(address)
        flown(page)
        show(page, "campaign")
        swept(page)
        for view in VIEWS:
            show(page, view)
            page.answer("await new Promise((resolve) => setTimeout(resolve, 60)); return 0;")
            width = page.run("return document.scrollingElement.scrollWidth")
            demand(width <= 360, f"{view} is {width} wide in a window of 360")
    finally:
        page.sized(1400, 900, False)


CONTRASTS = r"""
const channels = (colour) => (colour.match(/[\d.]+/g) ?? []).map(Number);
const light = (rgb) => {
  const [red, green, blue] = rgb.map((each) => { const part = each / 255; return part <= 0.04045 ? part / 12.92 : ((part + 0.055) / 1.055) ** 2.4; });
  return 0.2126 * red + 0.7152 * green + 0.0722 * blue;
};
const ground = (it) => {
  for (let each = it; each; each = each.parentElement) {
    const [red, green, blue, opacity = 1] = channels(getComputedStyle(each).backgroundColor);
    if (opacity > 0.9) return [red, green, blue];
  }
  return [255, 255, 255];
};
const found = new Map();
for (const it of document.querySelectorAll("body *")) {
  const own = [...it.childNodes].some((node) => node.nodeType === 3 && node.textContent.trim());
  if (!own || it.closest("svg, template, script, style, option, [hidden], :disabled") || !it.checkVisibility()) continue;
  const style = getComputedStyle(it);
  const [one, other] = [light(channels(style.color)), light(ground(it))];
  const ratio = (Math.max(one, other) + 0.05) / (Math.min(one, other) + 0.05);
  if (ratio < 4.5) found.set(`${it.tagName.toLowerCase()}.${it.className} ${ratio.toFixed(1)}`, it.textContent.trim().slice(0, 30));
}
return [...found].map((each) => each.join(": "));
"""


def words_stand_out_in_light_and_dark(page, address, top):
    """All words have a contrast of 4.5 to 1 and more to what is behind them."""
    try:
        for dark in (False, True):
            page.sized(1400, 900, dark)
            page.open(address)
            flown(page)
            show(page, "campaign")
            swept(page)
            swept(page)
            for view in VIEWS:
                show(page, view)
                pale = page.run(CONTRASTS)
                demand(not pale, f"in {'dark' if dark else 'light'} colours {view} has pale words: {pale}")
    finally:
        page.sized(1400, 900, False)


# What is hostile.

MARKUP = '<img src=x onerror="window.harmed=1"><script>window.harmed=1</script>'


def no_markup_of_a_document_runs(page, address, top):
    page.open(address)
    flown(page)
    base = read(f"{top}/missions/first_5_liar.toml")
    markup = MARKUP.replace('"', "'")
    for text in (
        base.replace('name = "pitch"', f'name = "{markup}"'),
        base.replace('name = "target"', f'name = "{markup}"'),
        base.replace('text = "', f'text = "{markup}'),
        f"# {MARKUP}\n{base}",
        f'"{markup}" = 1\n{base}',
        MARKUP,
    ):
        opened(page, f"{MARKUP.replace('/', '-')}.toml", text)
        for view in ("flight-view", "schedule", "campaign", "judge", "take"):
            show(page, view)
    show(page, "judge")
    for report in (MARKUP, f"{read(f'{top}/missions/first_5_liar.report')}{MARKUP}\n"):
        page.run("document.getElementById('judged-report').value = arguments[0]; document.querySelector('#judge button.main').click()", report)
        wait(page, "return document.querySelector('#judge .verdict strong')")
    show(page, "corner")
    page.run("document.querySelector('#corner textarea').value = arguments[0]; document.querySelectorAll('#corner button.main').forEach((each) => each.click())", MARKUP)
    page.answer("await new Promise((resolve) => setTimeout(resolve, 500)); return 0;")
    page.open(f"{address}#document={MARKUP}")
    flown(page)
    demand(page.run("return window.harmed === undefined"), "markup of a document ran")
    made = page.run("""
      const made = [...document.querySelectorAll("img, script:not([id^=data-])")].filter((each) => !each.closest("#help"));
      return made.map((each) => each.outerHTML.slice(0, 80));
    """)
    demand(len(made) == 1, f"markup of a document became elements: {made[1:]}")


def no_code_runs_by_the_policy(page, address, top):
    """Were text ever taken as markup, the page's policy would stop it."""
    page.open(address)
    flown(page)
    page.run("try { const box = document.createElement('div'); box.innerHTML = arguments[0]; document.body.append(box); } catch {}", MARKUP)
    page.run("try { const code = document.createElement('script'); code.textContent = 'window.harmed = 1'; document.body.append(code); } catch {}")
    fetched = page.answer("return await fetch('https://example.org/').then(() => 'fetched', () => 'refused');")
    demand(page.run("return window.harmed === undefined"), "the page's policy lets other code run")
    demand(fetched == "refused", "the page's policy lets the page load")
    page.complaints()


# What is taken away, the judge, and the laboratories.


def a_link_opens_to_the_same_flight(page, address, top):
    page.open(address)
    flown(page)
    other = wait(page, "return document.getElementById('link').value")
    opened(page, "mine.toml", read(f"{top}/missions/shed_display.toml") + "# \u00e9 \U0001f680 mine\n")
    text, report = text_of(page), page.run(REPORT)
    wait(page, "return document.getElementById('link').value.includes('#document=')")
    link = page.run("return document.getElementById('link').value")
    page.open(link)
    flown(page)
    demand((text_of(page), page.run(REPORT)) == (text, report), "the link opens another flight")
    page.run("location.hash = '#document=none'")
    wait(page, "return !document.querySelector('.alert').hidden", what="a link that is no link says so")
    page.run("location.hash = arguments[0].split('#')[1]", other)
    wait(page, "return document.querySelector('.alert').hidden", what="another link opens in the same page")
    flown(page)
    demand(text_of(page) == read(f"{top}/missions/first_5_liar.toml"), "another link opens another document")
    show(page, "take")
    page.run("document.getElementById('received').value = `file:///elsewhere/sift.html#${arguments[0].split('#')[1]}`", link)
    pressed(page, "take", "Open it")
    wait(page, f"return {EDITOR}.getValue() === arguments[0]".replace("arguments[0]", json.dumps(text)), what="a link that was sent opens")
    page.open(link[:-20])
    flown(page)
    demand("was cut off or changed" in page.run("return document.querySelector('.alert').textContent"), "it isn't said that a link was cut off")
    demand(text_of(page) == read(f"{top}/missions/first_5_liar.toml"), "the first example isn't opened behind a link that was cut off")


def a_picture_and_a_campaign_are_taken_away(page, address, top):
    page.open(address)
    flown(page)
    show(page, "campaign")
    swept(page)
    show(page, "take")
    wait(page, "return !document.querySelector('#take .row:nth-of-type(4) button').disabled", what="the campaign can be taken away")
    page.click("#take .row:nth-of-type(4) button")
    demand(page.saved("first_5_liar.tsv").decode() == judged(read(f"{top}/cases/sweeps/first_5_liar.tsv")), "another campaign is taken away")
    page.click("#take .row:nth-of-type(3) button")
    picture = page.saved("first_5_liar.svg").decode()
    demand(picture.startswith("<svg") and "var(" not in picture and "5 units, 6 frames" in picture, "the picture isn't whole")
    path = f"{page.folder}/picture.svg"
    with open(path, "w", encoding="utf-8") as file:
        file.write(picture)
    page.open(f"file://{path}")
    colour = page.run("return getComputedStyle(document.querySelector('.faulty')).fill")
    demand(colour == "rgb(215, 48, 31)", f"a faulty unit is drawn in {colour}")
    os.remove(path)


def a_report_is_judged(page, address, top):
    page.open(address)
    flown(page)
    show(page, "judge")
    report = read(f"{top}/missions/first_5_liar.report")
    changes = [
        (report, "yes", ""),
        (report.replace("\n", "\r\n"), "yes", ""),
        (re.sub(r"(f=2 u=3 .*)0073", r"\g<1>0074", report), "no frame 2 rule 4", "target.0 is 0074 (116), and 0073 (115) is due"),
        (re.sub(r"(?m)^(f=4 .*)in=0068", r"\1in=0069", report), "no frame 4 rule 3", "sense.pitch is 0069 (105), and 0068 (104) is due"),
        (re.sub(r"(f=2 u=0 .*)1p", r"\g<1>4p", report), "no frame 2 rule 5", "it catches unit 4, which works"),
        (re.sub(r"(f=2 u=[023] .*)1p", r"\1-", report), "no frame 2 rule 6", "the configuration is 0234, and 01234 is due"),
        (re.sub(r"(f=1 u=2 .*)clk=-1", r"\1clk=-2", report), "no frame 1 rule 7", "is due"),
        (re.sub(r"(f=1 skew.*)ok", r"\1lost", report), "no frame 1 rule 8", "the margin that is due is ok"),
        (re.sub(r"f=2 u=1 .*\n", "", report), "no frame 2 rule 1", ""),
        (re.sub(r"(f=2 u=0 .*)fffa", r"\1FFFA", report), "report line 13", "Line 13"),
        ("", "no frame 0 rule 1", ""),
        ("f=0 u=0 cfg=01234 clk=0\n", "report line 1", "Line 1"),
    ]
    for given, line, words in changes:
        page.run("document.querySelector('#judge .verdict').replaceChildren(); document.getElementById('judged-report').value = arguments[0]", given)
        pressed(page, "judge", "Judge")
        told = wait(page, "return document.querySelector('#judge .verdict strong')?.textContent")
        demand(told == line, f"the verdict is {told}, and {line} is due")
        whole = page.run("return document.querySelector('#judge .verdict').textContent")
        demand(words in whole, f"of {line} is said: {whole}")
        if line.startswith("no frame") and "rule 1" not in line:
            demand(page.run("return document.querySelector('#judge .mark') !== null"), f"{line} has no mark in the drawing")


def the_laboratories_answer(page, address, top):
    page.open(address)
    flown(page)
    opened(page, "count.toml", read(f"{top}/missions/count.toml"))
    show(page, "corner")
    results = []
    for place, words in enumerate(("buses bad=0", "most=", "u=2 vector=0000,0002,0003,0004,0005,ffff,0007")):
        page.run("document.querySelectorAll('#corner button.main')[arguments[0]].click()", place)
        results.append(wait(page, f"return document.querySelectorAll('#corner .laboratory-result')[{place}].textContent"))
        demand(words in results[-1], f"laboratory {place} tells: {results[-1][:300]}")
    demand("byte for byte" in results[0], "it isn't said that the report is the same over three buses")
    page.run("document.querySelector('#corner textarea').value = 'units = 3'; document.querySelectorAll('#corner button.main')[2].click()")
    wait(page, "return document.querySelectorAll('#corner .laboratory-result')[2].textContent.includes('byz rule 2 at 0')", what="a plan that is refused says so")


def no_complaint_is_left(page, address, top):
    demand(not (said := page.complaints()), f"the browser complains: {said}")


SCENARIOS = [
    the_file_is_small,
    it_opens_soon_and_loads_nothing,
    each_example_has_its_report,
    a_mistake_is_marked_where_it_stands,
    each_mistake_has_its_line,
    a_keystroke_is_checked_soon,
    a_fault_is_clicked,
    a_unit_turns_stray,
    a_campaign_is_the_stored_one,
    a_campaign_is_that_of_tools_sweep,
    a_cell_opens_its_flight,
    a_campaign_is_stopped_and_goes_on,
    a_thousand_frames_are_drawn_and_scrolled,
    all_is_done_by_keys,
    everything_has_a_name,
    narrow_windows_hold_it_all,
    words_stand_out_in_light_and_dark,
    a_link_opens_to_the_same_flight,
    a_picture_and_a_campaign_are_taken_away,
    a_report_is_judged,
    the_laboratories_answer,
    no_complaint_is_left,
    no_markup_of_a_document_runs,
    no_code_runs_by_the_policy,
]
