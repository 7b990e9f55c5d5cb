"""Chromium without a window, by its driver."""
import os
import shutil
import time

from selenium import webdriver
from selenium.webdriver.chrome.options import Options
from selenium.webdriver.chrome.service import Service
from selenium.webdriver.common.action_chains import ActionChains

# When the page has said `flown` first, in milliseconds since it was opened, and how long the longest step of its thread took.
WATCH = """
window.seen = {flown: null, steps: []};
new PerformanceObserver((list) => seen.steps.push(...list.getEntries().map((each) => each.duration))).observe({type: "longtask", buffered: true});
new MutationObserver(() => {
  if (seen.flown === null && document.getElementById("status")?.textContent === "flown") seen.flown = performance.now();
}).observe(document, {subtree: true, childList: true, characterData: true});
"""


class Chromium:
    """A window of Chromium; what it saves goes to a folder."""

    name = "Chromium"

    def __init__(self, folder, width=1400, height=900, dark=False):
        options = Options()
        options.binary_location = shutil.which("chromium")
        options.add_argument("--headless=new")
        options.add_argument("--force-prefers-reduced-motion")
        if os.geteuid() == 0:
            options.add_argument("--no-sandbox")
        options.add_experimental_option("prefs", {"profile.default_content_setting_values.automatic_downloads": 1})
        options.set_capability("goog:loggingPrefs", {"browser": "ALL"})
        self.folder = folder
        self.driver = webdriver.Chrome(service=Service(shutil.which("chromedriver")), options=options)
        self.driver.set_script_timeout(900)
        self.command("Browser.setDownloadBehavior", behavior="allow", downloadPath=folder)
        self.command("Page.addScriptToEvaluateOnNewDocument", source=WATCH)
        self.sized(width, height, dark)

    def command(self, name, **words):
        return self.driver.execute_cdp_cmd(name, words)

    def sized(self, width, height, dark):
        """Gives the window a size, and light or dark colours."""
        self.command("Emulation.setDeviceMetricsOverride", width=width, height=height, deviceScaleFactor=1, mobile=False)
        self.command("Emulation.setEmulatedMedia", features=[{"name": "prefers-color-scheme", "value": "dark" if dark else "light"}])

    def open(self, address):
        self.driver.get("about:blank")
        self.driver.get(address)

    def run(self, script, *given):
        """What a script in the page returns."""
        return self.driver.execute_script(script, *given)

    def answer(self, script, *given):
        """What a promise of the page comes to."""
        whole = f"const [tell] = [...arguments].slice(-1); (async (...given) => {{ {script} }})(...arguments).then(tell, (why) => tell({{failed: String(why)}}))"
        return self.driver.execute_async_script(whole, *given)

    def keys(self, *keys):
        """Presses keys, one after the other."""
        ActionChains(self.driver).send_keys(*keys).perform()

    def chord(self, held, key):
        """Presses a key while another one is held."""
        ActionChains(self.driver).key_down(held).send_keys(key).key_up(held).perform()

    def click(self, selector):
        self.driver.find_element("css selector", selector).click()

    def give(self, selector, text):
        """Types into a field, or hands a file's path over."""
        self.driver.find_element("css selector", selector).send_keys(text)

    def saved(self, name, seconds=60):
        """The bytes of a file that the page saves, when they are whole; it is taken away then."""
        path, size, end = os.path.join(self.folder, name), -1, time.monotonic() + seconds
        while size <= 0 or size != os.path.getsize(path):
            if time.monotonic() > end:
                raise TimeoutError(f"{name} wasn't saved: {os.listdir(self.folder)}")
            size = os.path.getsize(path) if os.path.exists(path) else -1
            time.sleep(0.03)
        with open(path, "rb") as file:
            told = file.read()
        os.remove(path)
        return told

    def complaints(self):
        """What the page and the browser said of errors since they were asked last."""
        return [each["message"] for each in self.driver.get_log("browser") if each["level"] in ("SEVERE", "WARNING")]

    def picture(self, path):
        self.driver.save_screenshot(path)

    def close(self):
        self.driver.quit()
