"""Drives Debian's firefox-esr over its Marionette protocol: what web/test.py needs of it."""
import base64
import json
import socket
import subprocess
import tempfile
import time
from pathlib import Path

from browser import Browser, ended

START_SECONDS = 60
KEYS = {"ArrowLeft": "\ue012", "ArrowUp": "\ue013", "ArrowRight": "\ue014", "ArrowDown": "\ue015", "Tab": "\ue004"}


def free_port():
    with socket.socket() as found:
        found.bind(("127.0.0.1", 0))
        return found.getsockname()[1]


class Firefox:
    """A browser with one page. A message is its length, a colon and JSON."""

    downloaded = Browser.downloaded

    def __init__(self, program="firefox-esr"):
        self.folder = tempfile.TemporaryDirectory(prefix="threefield-firefox-", ignore_cleanup_errors=True)
        self.downloads = Path(self.folder.name) / "downloads"
        self.downloads.mkdir()
        self.port = free_port()
        settings = {"intl.accept_languages": "en-GB", "marionette.port": self.port, "browser.download.folderList": 2,
                    "browser.download.dir": str(self.downloads), "browser.download.alwaysOpenPanel": False}
        lines = [f"user_pref({json.dumps(name)}, {json.dumps(value)});\n" for name, value in settings.items()]
        Path(self.folder.name, "user.js").write_text("".join(lines))
        words = [program, "--headless", "--marionette", "--profile", self.folder.name, "about:blank"]
        self.process = subprocess.Popen(words, stdout=subprocess.DEVNULL, stderr=subprocess.DEVNULL)
        self.last, self.buffer, self.problems, self.requests = 0, b"", [], []
        try:
            self.socket = self.connected()
            self.receive()
            self.call("WebDriver:NewSession")
        except (OSError, EOFError, RuntimeError):
            ended(self.process, self.folder, seconds=0)
            raise

    def connected(self):
        deadline = time.monotonic() + START_SECONDS
        while time.monotonic() < deadline and self.process.poll() is None:
            try:
                return socket.create_connection(("127.0.0.1", self.port), timeout=START_SECONDS)
            except OSError:
                time.sleep(0.1)
        raise EOFError("it has ended" if self.process.poll() is not None else "it does not answer")

    def close(self):
        try:
            self.call("Marionette:Quit", flags=["eForceQuit"])
        except (OSError, EOFError, RuntimeError):
            pass
        ended(self.process, self.folder)

    # ---- messages ----

    def call(self, method, **parameters):
        self.last += 1
        text = json.dumps([0, self.last, method, parameters]).encode()
        self.socket.sendall(str(len(text)).encode() + b":" + text)
        while True:
            kind, number, error, result = self.receive()
            if (kind, number) == (1, self.last):
                if error:
                    raise RuntimeError(f"{method}: {error['message']}")
                return result

    def receive(self):
        while b":" not in self.buffer:
            self.more()
        length, _, self.buffer = self.buffer.partition(b":")
        while len(self.buffer) < int(length):
            self.more()
        text, self.buffer = self.buffer[:int(length)], self.buffer[int(length):]
        return json.loads(text)

    def more(self):
        some = self.socket.recv(1 << 16)
        if not some:
            raise EOFError("the browser has ended")
        self.buffer += some

    # ---- the page ----

    def open(self, address):
        """Opens an address; pages of before keep no work for it."""
        keeps = True
        while keeps:
            self.call("WebDriver:Navigate", url="about:blank")
            self.call("WebDriver:Navigate", url=address)
            keeps = self.run("localStorage.getItem('threefield')") != "off"
            self.run("localStorage.setItem('threefield', 'off')")

    def run(self, script):
        """Runs a script in the page and gives its value; a promise is awaited."""
        return self.call("WebDriver:ExecuteScript", script=f"return ({script});", args=[])["value"]

    def wait(self, condition, seconds=60):
        """Waits until a condition holds in the page."""
        deadline = time.monotonic() + seconds
        while time.monotonic() < deadline:
            if self.run(f"Boolean({condition})"):
                return
            time.sleep(0.02)
        raise TimeoutError(f"not true within {seconds} s: {condition}")

    # ---- a person ----

    def click(self, selector):
        found = self.call("WebDriver:FindElement", using="css selector", value=selector)["value"]
        self.call("WebDriver:ElementClick", id=next(iter(found.values())))

    def mouse(self, kind, x, y):
        """Moves the mouse, and presses or releases its button there."""
        steps = {"mousePressed": ["pointerDown"], "mouseReleased": ["pointerUp"], "mouseMoved": []}[kind]
        self.act("pointer", [{"type": "pointerMove", "x": round(x), "y": round(y), "duration": 0},
                             *({"type": step, "button": 0} for step in steps)])

    def press(self, key):
        self.act("key", [{"type": step, "value": KEYS.get(key, key)} for step in ("keyDown", "keyUp")])

    def act(self, kind, steps):
        self.call("WebDriver:PerformActions", actions=[{"type": kind, "id": kind, "actions": steps}])

    def type(self, selector, text):
        """Puts a text into a field in place of what is there."""
        self.put(selector, text, "input")

    def choose(self, selector, value):
        self.put(selector, value, "input")
        self.run(f"document.querySelector({json.dumps(selector)})?.dispatchEvent(new Event('change', {{ bubbles: true }}))")

    def put(self, selector, text, event):
        self.run(f"""(() => {{
            const it = document.querySelector({json.dumps(selector)});
            it.focus();
            it.value = {json.dumps(text)};
            it.dispatchEvent(new Event({json.dumps(event)}, {{ bubbles: true }}));
        }})()""")

    def open_file(self, selector, path):
        found = self.call("WebDriver:FindElement", using="css selector", value=selector)["value"]
        self.call("WebDriver:ElementSendKeys", id=next(iter(found.values())), text=str(path))

    def screenshot(self, path):
        Path(path).write_bytes(base64.b64decode(self.call("WebDriver:TakeScreenshot", full=False)["value"]))
