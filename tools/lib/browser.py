"""Chromium, without a window, on a page of a folder."""
import functools
import http.server
import os
import shutil
import sys
import threading

try:
    from selenium import webdriver
    from selenium.webdriver.chrome.options import Options
    from selenium.webdriver.chrome.service import Service
except ImportError:
    print("this Python has no selenium, which drives the browser: tools/setup installs it", file=sys.stderr)
    sys.exit(1)

PATIENCE = 900  # seconds that a page may take for an answer


class Quiet(http.server.SimpleHTTPRequestHandler):
    """Hands out the files of a folder, and says nothing of it."""

    protocol_version = "HTTP/1.1"

    def log_message(self, *words):
        pass


class Browser:
    """A page of a folder, which is served on this machine while the browser is open."""

    def __init__(self, folder, page):
        self.server = http.server.ThreadingHTTPServer(("127.0.0.1", 0), functools.partial(Quiet, directory=folder))
        threading.Thread(target=self.server.serve_forever, daemon=True).start()
        if not shutil.which("chromium") or not shutil.which("chromedriver"):
            print("there is no chromium, or no chromedriver: tools/setup installs both", file=sys.stderr)
            sys.exit(1)
        options = Options()
        options.binary_location = shutil.which("chromium")
        options.add_argument("--headless=new")
        options.add_argument("--disable-dev-shm-usage")  # which is small in containers
        if os.geteuid() == 0:
            options.add_argument("--no-sandbox")
        self.driver = webdriver.Chrome(service=Service(shutil.which("chromedriver")), options=options)
        self.driver.set_script_timeout(PATIENCE)
        self.driver.get(f"http://127.0.0.1:{self.server.server_port}/{page}")

    def answer(self, words):
        """What a promise of the page comes to, or what was thrown."""
        script = f"const tell = arguments[0]; Promise.resolve({words}).then(tell, (error) => tell([String(error)]))"
        return self.driver.execute_async_script(script)

    def __enter__(self):
        return self

    def __exit__(self, *why):
        self.driver.quit()
        self.server.shutdown()
