"""Headless Chromium, driven over its debugging pipe.

The browser reads JSON from file descriptor 3 and writes JSON to 4, with a zero byte after each message. So nothing
but the standard library is needed.
"""

import base64
import fcntl
import json
import os
import select
import shutil
import subprocess
import tempfile
import time

NAMES = ("chromium", "chromium-browser", "google-chrome")
KEY_CODES = {"ArrowLeft": 37, "ArrowRight": 39, "Home": 36, "End": 35, "Tab": 9, "Enter": 13, " ": 32, "n": 78,
             "p": 80, "z": 90}
SECONDS = 120


def browser_program():
    """Returns the path of a Chromium, or None."""
    return next(filter(None, map(shutil.which, NAMES)), None)


class Browser:
    """One Chromium with one page."""

    def __init__(self, program):
        self.folder = tempfile.mkdtemp(prefix="golf-page-")
        self.number, self.buffer, self.events, self.session = 0, b"", [], None
        self.start(program)
        target = self.call("Target.createTarget", {"url": "about:blank"})["targetId"]
        self.session = self.call("Target.attachToTarget", {"targetId": target, "flatten": True})["sessionId"]
        for domain in ("Page", "Runtime", "Log"):
            self.call(domain + ".enable")
        self.call("Performance.enable", {"timeDomain": "threadTicks"})

    def start(self, program):
        read_far, self.write_near = os.pipe()
        self.read_near, write_far = os.pipe()
        # The far ends become descriptors 3 and 4, by way of numbers that are neither.
        far = [fcntl.fcntl(each, fcntl.F_DUPFD_CLOEXEC, 10) for each in (read_far, write_far)]
        command = [program, "--headless=new", "--no-sandbox", "--disable-gpu", "--hide-scrollbars", "--no-first-run",
                   "--disable-background-networking", "--disable-extensions", "--remote-debugging-pipe",
                   f"--user-data-dir={self.folder}", "about:blank"]
        self.process = subprocess.Popen(command, close_fds=False, stdin=subprocess.DEVNULL, stdout=subprocess.DEVNULL,
                                        stderr=subprocess.DEVNULL,
                                        preexec_fn=lambda: (os.dup2(far[0], 3), os.dup2(far[1], 4)))
        for each in (read_far, write_far, *far):
            os.close(each)

    def message(self):
        until = time.monotonic() + SECONDS
        while b"\0" not in self.buffer:
            ready, _, _ = select.select([self.read_near], [], [], max(0, until - time.monotonic()))
            if not ready:
                raise TimeoutError("the browser does not answer")
            piece = os.read(self.read_near, 1 << 20)
            if not piece:
                raise EOFError("the browser has ended")
            self.buffer += piece
        text, _, self.buffer = self.buffer.partition(b"\0")
        return json.loads(text)

    def call(self, method, parameters=None):
        self.number += 1
        sent = {"id": self.number, "method": method, "params": parameters or {}}
        if self.session:
            sent["sessionId"] = self.session
        text = json.dumps(sent).encode() + b"\0"
        while text:
            text = text[os.write(self.write_near, text):]
        while True:
            got = self.message()
            if got.get("id") == self.number:
                if "error" in got:
                    raise AssertionError(f"{method}: {got['error']}")
                return got["result"]
            self.events.append(got)

    def open(self, path, width=1280, height=900, dark=False, fragment=""):
        """Opens a file. Returns the seconds until it is loaded and its script has run."""
        self.call("Emulation.setDeviceMetricsOverride",
                  {"width": width, "height": height, "deviceScaleFactor": 1, "mobile": width < 600})
        self.call("Emulation.setEmulatedMedia",
                  {"media": "", "features": [{"name": "prefers-color-scheme", "value": "dark" if dark else "light"}]})
        self.load("about:blank")
        began = time.monotonic()
        self.load(f"file://{path}{fragment}")
        return time.monotonic() - began

    def processor_seconds(self):
        """Returns the seconds of processor time that the page has taken so far. They do not depend on other work."""
        metrics = self.call("Performance.getMetrics")["metrics"]
        return next(metric["value"] for metric in metrics if metric["name"] == "TaskDuration")

    def load(self, address):
        self.events.clear()
        self.call("Page.navigate", {"url": address})
        while not any(event.get("method") == "Page.loadEventFired" for event in self.events):
            self.events.append(self.message())
        self.value("document.title")

    def value(self, code):
        """Returns the value of an expression; of a promise that to which it resolves."""
        result = self.call("Runtime.evaluate", {"expression": code, "returnByValue": True, "awaitPromise": True})
        if "exceptionDetails" in result:
            raise AssertionError(f"{code}: {result['exceptionDetails']}")
        return result["result"].get("value")

    def press(self, key, shift=False):
        event = {"key": key, "windowsVirtualKeyCode": KEY_CODES[key], "modifiers": 8 if shift else 0}
        text = {"Enter": "\r", " ": " "}.get(key)
        self.call("Input.dispatchKeyEvent",
                  {"type": "keyDown" if text else "rawKeyDown", **event, **({"text": text} if text else {})})
        self.call("Input.dispatchKeyEvent", {"type": "keyUp", **event})

    def faults(self):
        """Returns what was logged as an error, or thrown."""
        self.value("1")
        found = []
        for event in self.events:
            method, parameters = event.get("method"), event.get("params", {})
            if method == "Runtime.exceptionThrown":
                details = parameters["exceptionDetails"]
                found.append(f"{details.get('text', '')} {details.get('exception', {}).get('description', '')}")
            if method == "Log.entryAdded" and parameters["entry"]["level"] == "error":
                found.append(parameters["entry"]["text"])
            if method == "Runtime.consoleAPICalled" and parameters["type"] == "error":
                found.append(str(parameters["args"]))
        return found

    def shot(self, path, height=None):
        """Writes a picture of the whole page, or of its upper part."""
        size = self.value("[innerWidth, Math.max(document.body.scrollHeight, document.documentElement.scrollHeight)]")
        clip = {"x": 0, "y": 0, "width": size[0], "height": height or min(size[1], 6000), "scale": 1}
        data = self.call("Page.captureScreenshot",
                         {"format": "png", "captureBeyondViewport": True, "clip": clip})["data"]
        with open(path, "wb") as file:
            file.write(base64.b64decode(data))

    def pdf(self):
        """Returns the printed page."""
        return base64.b64decode(self.call("Page.printToPDF", {"printBackground": True})["data"])

    def close(self):
        try:
            self.call("Browser.close")
        except (EOFError, TimeoutError, OSError, AssertionError):
            self.process.terminate()
        self.process.wait()
        for each in (self.read_near, self.write_near):
            os.close(each)
        shutil.rmtree(self.folder, ignore_errors=True)
