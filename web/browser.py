"""Drives Debian's chromium over its DevTools protocol, through a pipe: what web/test.py needs of a browser."""
import base64
import json
import os
import select
import subprocess
import tempfile
import time
from pathlib import Path

FLAGS = ["--headless", "--no-sandbox", "--disable-gpu", "--hide-scrollbars", "--no-first-run", "--disable-extensions",
         "--disable-background-networking", "--remote-debugging-pipe", "--accept-lang=en-GB", "about:blank"]
KEYS = {"Enter": ("Enter", 13, "\r"), "Tab": ("Tab", 9, None), "Escape": ("Escape", 27, None),
        "ArrowDown": ("ArrowDown", 40, None), "ArrowUp": ("ArrowUp", 38, None),
        "ArrowLeft": ("ArrowLeft", 37, None), "ArrowRight": ("ArrowRight", 39, None)}


def ended(process, folder, seconds=20):
    """Waits until a browser that was started here has ended, or else ends it, and removes its folder."""
    try:
        process.wait(timeout=seconds)
    except subprocess.TimeoutExpired:
        process.kill()
        process.wait()
    folder.cleanup()


class Browser:
    """A browser with one page. Messages are JSON, each ended by a zero byte."""

    def __init__(self, program="chromium"):
        self.folder = tempfile.TemporaryDirectory(prefix="threefield-browser-", ignore_cleanup_errors=True)
        self.downloads = Path(self.folder.name) / "downloads"
        self.downloads.mkdir()
        read_end, self.write_to = os.pipe()
        self.read_from, write_end = os.pipe()
        command = f'exec "$@" 3<&{read_end} 4>&{write_end}'
        profile = f"--user-data-dir={self.folder.name}/profile"
        words = ["sh", "-c", command, "sh", program, profile, *FLAGS]
        self.process = subprocess.Popen(words, pass_fds=(read_end, write_end),
                                        stderr=subprocess.DEVNULL, stdout=subprocess.DEVNULL)
        os.close(read_end)
        os.close(write_end)
        self.last, self.buffer, self.problems, self.requests = 0, b"", [], []
        self.session = self.context = None
        try:
            self.call("Browser.getVersion")
        except (OSError, EOFError, RuntimeError):
            ended(self.process, self.folder, seconds=0)
            raise

    def close(self):
        try:
            self.call("Browser.close")
        except (OSError, EOFError):
            pass
        ended(self.process, self.folder)

    # ---- messages ----

    def call(self, method, **parameters):
        self.last += 1
        message = {"id": self.last, "method": method, "params": parameters}
        if self.session and not method.startswith(("Target.", "Browser.", "SystemInfo.")):
            message["sessionId"] = self.session
        os.write(self.write_to, json.dumps(message).encode() + b"\0")
        deadline = time.monotonic() + 90
        while True:
            answer = self.receive(deadline)
            if answer.get("id") == self.last:
                if "error" in answer:
                    raise RuntimeError(f"{method}: {answer['error']}")
                return answer["result"]

    def receive(self, deadline):
        while b"\0" not in self.buffer:
            ready, _, _ = select.select([self.read_from], [], [], max(0, deadline - time.monotonic()))
            if not ready:
                raise TimeoutError("the browser does not answer")
            some = os.read(self.read_from, 1 << 20)
            if not some:
                raise EOFError("the browser has ended")
            self.buffer += some
        text, _, self.buffer = self.buffer.partition(b"\0")
        message = json.loads(text)
        self.note(message)
        return message

    def note(self, message):
        """Remembers errors of the page, and what it asks of a network."""
        method, parameters = message.get("method"), message.get("params", {})
        if method == "Runtime.exceptionThrown":
            details = parameters["exceptionDetails"]
            self.problems.append(details.get("exception", {}).get("description") or details["text"])
        elif method == "Log.entryAdded" and parameters["entry"]["level"] == "error":
            self.problems.append(parameters["entry"]["text"])
        elif method == "Network.requestWillBeSent":
            self.requests.append(parameters["request"]["url"])

    # ---- the page ----

    def open(self, address, width=1400, height=1000):
        """Opens an address in a page of its own; the page before is closed without being asked."""
        if self.context:
            self.call("Target.disposeBrowserContext", browserContextId=self.context)
        self.session = None
        self.context = self.call("Target.createBrowserContext")["browserContextId"]
        target = self.call("Target.createTarget", url="about:blank", browserContextId=self.context)["targetId"]
        self.session = self.call("Target.attachToTarget", targetId=target, flatten=True)["sessionId"]
        for domain in ("Page", "Runtime", "Log", "Network"):
            self.call(f"{domain}.enable")
        self.call("Browser.setDownloadBehavior", behavior="allow", downloadPath=str(self.downloads),
                  browserContextId=self.context)
        self.size(width, height)
        self.call("Page.navigate", url=address)
        self.wait(f"location.href === {json.dumps(address)} && document.readyState === 'complete'", 90)

    def run(self, script):
        """Runs a script in the page and gives its value; a promise is awaited."""
        result = self.call("Runtime.evaluate", expression=script, awaitPromise=True, returnByValue=True)
        if "exceptionDetails" in result:
            details = result["exceptionDetails"]
            raise RuntimeError(details.get("exception", {}).get("description") or details["text"])
        return result["result"].get("value")

    def wait(self, condition, seconds=20):
        """Waits until a condition holds in the page."""
        deadline = time.monotonic() + seconds
        while time.monotonic() < deadline:
            try:
                if self.run(f"Boolean({condition})"):
                    return
            except RuntimeError as error:
                if "ontext" not in str(error) and "navigated" not in str(error):  # the page is just being left
                    raise
            time.sleep(0.02)
        raise TimeoutError(f"not true within {seconds} s: {condition}")

    def size(self, width, height, scale=1):
        self.call("Emulation.setDeviceMetricsOverride",
                  width=width, height=height, deviceScaleFactor=scale, mobile=False)

    def touchable(self, width, height):
        """A phone: touch takes the place of the mouse."""
        self.call("Emulation.setDeviceMetricsOverride", width=width, height=height, deviceScaleFactor=1, mobile=True)
        self.call("Emulation.setTouchEmulationEnabled", enabled=True, maxTouchPoints=1)

    def dark(self, is_dark):
        scheme = "dark" if is_dark else "light"
        self.call("Emulation.setEmulatedMedia", features=[{"name": "prefers-color-scheme", "value": scheme}])

    # ---- a person ----

    def click(self, selector):
        place = self.run(f"""(() => {{
            const element = document.querySelector({json.dumps(selector)});
            element.scrollIntoView({{ block: "center" }});
            const box = element.getBoundingClientRect();
            return [box.left + box.width / 2, box.top + box.height / 2];
        }})()""")
        for kind in ("mousePressed", "mouseReleased"):
            self.call("Input.dispatchMouseEvent", type=kind, x=place[0], y=place[1], button="left", clickCount=1)

    def type(self, selector, text):
        """Puts a text into a field in place of what is there."""
        self.run(f"document.querySelector({json.dumps(selector)}).focus()")
        self.run("document.activeElement.select?.()")
        if text:
            self.call("Input.insertText", text=text)
        else:
            self.press("Delete")

    def mouse(self, kind, x, y):
        """Moves the mouse with its button held, or presses or releases it."""
        self.call("Input.dispatchMouseEvent", type=kind, x=x, y=y, button="left", buttons=1, clickCount=1)

    def touch(self, points):
        """Puts a finger on the first point, moves it over the others, and lifts it."""
        for k, (x, y) in enumerate(points):
            self.call("Input.dispatchTouchEvent", type="touchMove" if k else "touchStart", touchPoints=[{"x": x, "y": y}])
            time.sleep(0.02)
        self.call("Input.dispatchTouchEvent", type="touchEnd", touchPoints=[])

    def press(self, key, modifiers=0):
        name, code, text = KEYS.get(key, (key, ord(key[0].upper()), key if len(key) == 1 else None))
        code = {"Delete": 46}.get(key, code)
        down = {"type": "keyDown", "key": name, "windowsVirtualKeyCode": code, "modifiers": modifiers}
        self.call("Input.dispatchKeyEvent", **down, **({"text": text} if text else {}))
        self.call("Input.dispatchKeyEvent", type="keyUp", key=name, windowsVirtualKeyCode=code)

    def choose(self, selector, value):
        self.run(f"""(() => {{
            const it = document.querySelector({json.dumps(selector)});
            it.value = {json.dumps(value)};
            it.dispatchEvent(new Event("input", {{ bubbles: true }}));
            it.dispatchEvent(new Event("change", {{ bubbles: true }}));
        }})()""")

    def paste(self, selector, text):
        self.run(f"""(() => {{
            const clipboardData = new DataTransfer();
            clipboardData.setData("text/plain", {json.dumps(text)});
            document.querySelector({json.dumps(selector)}).dispatchEvent(
                new ClipboardEvent("paste", {{ clipboardData, bubbles: true, cancelable: true }}));
        }})()""")

    def open_file(self, selector, path):
        document = self.call("DOM.getDocument")["root"]["nodeId"]
        node = self.call("DOM.querySelector", nodeId=document, selector=selector)["nodeId"]
        self.call("DOM.setFileInputFiles", nodeId=node, files=[str(path)])

    def downloaded(self, name, seconds=20):
        """The bytes of a file that the page saved."""
        deadline = time.monotonic() + seconds
        path = self.downloads / name
        while time.monotonic() < deadline:
            if path.exists() and path.stat().st_size > 0:
                content = path.read_bytes()
                path.unlink()
                return content
            self.run("0")
            time.sleep(0.05)
        raise TimeoutError(f"{name} was not saved; there are {[each.name for each in self.downloads.iterdir()]}")

    # ---- pictures ----

    def screenshot(self, path, selector=None):
        parameters = {"format": "png"}
        if selector:
            box = self.run(f"""(() => {{
                const box = document.querySelector({json.dumps(selector)}).getBoundingClientRect();
                const {{ width, height }} = box;
                return {{ x: box.left + scrollX, y: box.top + scrollY, width, height, scale: 1 }};
            }})()""")
            parameters |= {"clip": box, "captureBeyondViewport": True}
        Path(path).write_bytes(base64.b64decode(self.call("Page.captureScreenshot", **parameters)["data"]))

    def pdf(self, path):
        data = self.call("Page.printToPDF", preferCSSPageSize=True, printBackground=True)["data"]
        Path(path).write_bytes(base64.b64decode(data))
