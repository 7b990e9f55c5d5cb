"""What scenarios of both browsers share: files that are opened, and the page's answer to them."""
import time

# Opens a document as a file that the user chose, and waits until the page has flown or refused it: what it tells then.
OPEN = """
const [name, text] = given;
const status = document.getElementById("status");
const settled = () => ["flown", "refused"].includes(status.textContent);
const input = document.getElementById("open");
const files = new DataTransfer();
files.items.add(new File([text], name));
input.files = files.files;
const began = performance.now();
let busy = false;
await new Promise((resolve, reject) => {
  const watch = new MutationObserver(() => {
    busy ||= !settled();
    if (busy && settled()) { watch.disconnect(); resolve(); }
  });
  watch.observe(status, {childList: true, characterData: true, subtree: true});
  setTimeout(() => { watch.disconnect(); reject(new Error(`${name}: the page says ${status.textContent} after a minute`)); }, 60000);
  input.dispatchEvent(new Event("change", {bubbles: true}));
});
const milliseconds = performance.now() - began;
return {told: status.textContent, refusal: document.querySelector("#refusal strong")?.textContent ?? "", milliseconds};
"""

# The report of the flight, as the judge's panel takes it.
REPORT = """
[...document.querySelectorAll("#judge button")].find((each) => each.textContent.startsWith("Take")).click();
return document.getElementById("judged-report").value;
"""


class Fault(Exception):
    """What a scenario finds wrong."""


def demand(holds, words):
    if not holds:
        raise Fault(words)


def wait(page, script, seconds=20, what=None):
    """Waits until a script in the page returns something."""
    end = time.monotonic() + seconds
    while True:
        value = page.run(script)
        if value:
            return value
        demand(time.monotonic() < end, f"in vain after {seconds} s: {what or script}")
        time.sleep(0.02)


def flown(page, seconds=20):
    wait(page, "return document.getElementById('status').textContent === 'flown'", seconds, "the mission is flown")


def opened(page, name, text):
    """Opens a document as a file: what the page says of it."""
    told = page.answer(OPEN, name, text)
    demand("failed" not in told, told.get("failed"))
    return told


def show(page, view):
    """Opens a view of the page."""
    page.run("document.getElementById(arguments[0] + '-tab').click()", view)


def chosen(page, selector, value):
    """Chooses a value of a list."""
    page.run("const list = document.querySelector(arguments[0]); list.value = arguments[1]; list.dispatchEvent(new Event('change', {bubbles: true}))", selector, value)


def pressed(page, view, words):
    """Presses the button of a view that has these words."""
    page.run("[...document.querySelectorAll(`#${arguments[0]} button`)].find((each) => each.textContent === arguments[1]).click()", view, words)
