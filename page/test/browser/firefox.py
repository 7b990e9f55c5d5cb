"""Firefox without a window, by its own protocol Marionette: the distribution has no driver for it."""
import json
import os
import shutil
import socket
import subprocess
import tempfile
import time

PREFERENCES = {
    "marionette.port": 0,  # a free one, which Firefox writes into its profile
    "app.update.auto": False,
    "browser.shell.checkDefaultBrowser": False,
    "datareporting.policy.dataSubmissionEnabled": False,
    "toolkit.telemetry.enabled": False,
    "security.sandbox.content.level": 0 if os.geteuid() == 0 else 4,
}


def preference(name, value):
    return f"user_pref({json.dumps(name)}, {json.dumps(value)});\n"


class Firefox:
    """A window of Firefox."""

    name = "Firefox"

    def __init__(self, folder):
        self.profile = tempfile.mkdtemp(dir=folder)
        with open(os.path.join(self.profile, "user.js"), "w", encoding="utf-8") as file:
            file.writelines(preference(*each) for each in PREFERENCES.items())
        words = [shutil.which("firefox-esr"), "--headless", "--marionette", "--no-remote", "--profile", self.profile, "about:blank"]
        home = {**os.environ, "HOME": self.profile, "MOZ_HEADLESS": "1"}
        self.process = subprocess.Popen(words, stdout=subprocess.DEVNULL, stderr=subprocess.DEVNULL, env=home)
        self.socket = self.connected()
        self.number = 0
        self.receive()  # what Firefox is
        self.command("WebDriver:NewSession")
        self.command("WebDriver:SetTimeouts", script=900_000, pageLoad=120_000)

    def connected(self, seconds=60):
        """The connection, when Firefox has written on which port it listens."""
        path = os.path.join(self.profile, "MarionetteActivePort")
        end = time.monotonic() + seconds
        while True:
            try:
                with open(path, encoding="ascii") as file:
                    return socket.create_connection(("127.0.0.1", int(file.read())))
            except (OSError, ValueError):
                if time.monotonic() > end or self.process.poll() is not None:
                    raise TimeoutError("Firefox doesn't answer") from None
                time.sleep(0.1)

    def receive(self):
        """A message: how many bytes it has, a colon, and these."""
        count = b""
        while not count.endswith(b":"):
            count += self.received(1)
        return json.loads(self.received(int(count[:-1])))

    def received(self, count):
        told = b""
        while len(told) < count:
            part = self.socket.recv(count - len(told))
            if not part:
                raise ConnectionError("Firefox has gone")
            told += part
        return told

    def command(self, name, **words):
        self.number += 1
        message = json.dumps([0, self.number, name, words]).encode()
        self.socket.sendall(b"%d:%s" % (len(message), message))
        _, _, fault, value = self.receive()
        if fault:
            raise RuntimeError(f"{name}: {fault['error']}: {fault['message']}")
        return value

    def open(self, address):
        self.command("WebDriver:Navigate", url="about:blank")
        self.command("WebDriver:Navigate", url=address)

    def run(self, script, *given):
        """What a script in the page returns."""
        return self.command("WebDriver:ExecuteScript", script=script, args=list(given), sandbox=None)["value"]

    def answer(self, script, *given):
        """What a promise of the page comes to."""
        whole = f"const [tell] = [...arguments].slice(-1); (async (...given) => {{ {script} }})(...arguments).then(tell, (why) => tell({{failed: String(why)}}))"
        return self.command("WebDriver:ExecuteAsyncScript", script=whole, args=list(given), sandbox=None)["value"]

    def close(self):
        try:
            self.command("Marionette:Quit", flags=["eForceQuit"])
        except (OSError, RuntimeError):
            pass
        self.socket.close()
        try:
            self.process.wait(20)
        except subprocess.TimeoutExpired:
            self.process.kill()
            self.process.wait()
        shutil.rmtree(self.profile, ignore_errors=True)
