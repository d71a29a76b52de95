"""Debian's chromium without a window, driven over its debugging pipe: the standard library alone.

The browser reads messages from descriptor 3 and writes to 4; each is JSON and ends with a NUL."""

import base64
import json
import os
import shutil
import subprocess
import tempfile
from pathlib import Path

CODES = {"Enter": 13, "Escape": 27, "ArrowUp": 38, "ArrowDown": 40, "ArrowLeft": 37, "ArrowRight": 39, "Tab": 9,
         " ": 32, "End": 35, "Home": 36, "-": 189, ".": 190, "/": 191}
SHIFT = 8
COMPLAINTS = ("Runtime.exceptionThrown", "Log.entryAdded", "Runtime.consoleAPICalled")


class Tally:
    """What passed and what failed."""

    def __init__(self):
        self.passed = self.failed = 0

    def ask(self, holds, what, found=""):
        """Counts one question, and shows it where it doesn't hold."""
        self.passed += bool(holds)
        self.failed += not holds
        if not holds:
            print(f"{what}: {found}", flush=True)


class Browser:
    """One browser with one page."""

    def __init__(self):
        program = shutil.which("chromium")
        if program is None:
            raise FileNotFoundError("chromium is not installed: apt-get install chromium")
        self.folder = tempfile.TemporaryDirectory(prefix="chromium-", ignore_cleanup_errors=True)
        read, self.write_end = os.pipe()
        self.read_end, write = os.pipe()

        def lay_pipes():
            first, second = os.dup(read), os.dup(write)  # out of the way: 3 or 4 may be one of them
            first, second = os.dup2(first, 103), os.dup2(second, 104)
            os.dup2(first, 3)
            os.dup2(second, 4)

        words = ["--headless", "--no-sandbox", "--disable-gpu", "--hide-scrollbars", "--remote-debugging-pipe",
                 f"--user-data-dir={self.folder.name}", "--no-first-run", "--disable-background-networking"]
        self.process = subprocess.Popen([program, *words], preexec_fn=lay_pipes, close_fds=False,
                                        stdout=subprocess.DEVNULL, stderr=subprocess.DEVNULL)
        os.close(read)
        os.close(write)
        self.number, self.rest, self.events, self.session = 0, b"", [], None
        target = self.call("Target.createTarget", url="about:blank")["targetId"]
        self.session = self.call("Target.attachToTarget", targetId=target, flatten=True)["sessionId"]
        for domain in ("Page", "Runtime", "Log", "Network", "Accessibility", "Performance"):
            self.call(domain + ".enable")

    def __enter__(self):
        return self

    def __exit__(self, *_):
        try:
            self.session = None
            self.call("Browser.close")
        except (EOFError, BrokenPipeError):
            pass
        self.process.wait(30)
        os.close(self.read_end)
        os.close(self.write_end)
        self.folder.cleanup()

    def message(self):
        """The next message."""
        while b"\0" not in self.rest:
            data = os.read(self.read_end, 1 << 20)
            if not data:
                raise EOFError("chromium ended")
            self.rest += data
        text, self.rest = self.rest.split(b"\0", 1)
        return json.loads(text)

    def call(self, method, **given):
        """What a method answers; events meanwhile are kept."""
        self.number += 1
        asked = {"id": self.number, "method": method, "params": given}
        if self.session:
            asked["sessionId"] = self.session
        data = json.dumps(asked).encode() + b"\0"
        while data:
            data = data[os.write(self.write_end, data):]
        while True:
            found = self.message()
            if found.get("id") != self.number:
                self.events.append(found)
            elif "error" in found:
                raise RuntimeError(f"{method}: {found['error']}")
            else:
                return found["result"]

    def media(self, dark=False, printed=False, forced=False):
        """The colours that the viewer likes, or whose own few there are alone, and whether it is paper."""
        features = [{"name": "prefers-color-scheme", "value": "dark" if dark else "light"},
                    {"name": "forced-colors", "value": "active" if forced else "none"}]
        self.call("Emulation.setEmulatedMedia", media="print" if printed else "", features=features)

    def size(self, width, height):
        """The size of what is seen; one that is narrow is a telephone's."""
        self.call("Emulation.setDeviceMetricsOverride", width=width, height=height, deviceScaleFactor=1,
                  mobile=width < 500)

    def open(self, path, width=1440, height=900, dark=False, scripts=True):
        """Opens a file, and answers how many seconds of a processor it took until it was drawn."""
        self.size(width, height)
        self.call("Emulation.setScriptExecutionDisabled", value=not scripts)
        self.media(dark)
        self.go("about:blank")
        began = self.seconds()
        self.go(Path(path).resolve().as_uri())
        if scripts:
            self.js("new Promise(done => requestAnimationFrame(() => setTimeout(done)))")
        return self.seconds() - began

    def seconds(self):
        """What the page took of a processor; others may use the machine."""
        found = self.call("Performance.getMetrics")["metrics"]
        return next(one["value"] for one in found if one["name"] == "ThreadTime")

    def go(self, url):
        """Goes to an address and waits until it is loaded."""
        self.events = []
        self.call("Page.navigate", url=url)
        while not any(one.get("method") == "Page.loadEventFired" for one in self.events):
            self.events.append(self.message())

    def js(self, text):
        """The value of an expression in the page."""
        found = self.call("Runtime.evaluate", expression=text, returnByValue=True, awaitPromise=True)
        if "exceptionDetails" in found:
            raise RuntimeError(f"{text}: {found['exceptionDetails']}")
        return found["result"].get("value")

    def key(self, key, times=1, modifiers=0):
        """Presses and releases a key."""
        typed = "\r" if key == "Enter" else key if len(key) == 1 else ""
        code = CODES.get(key, ord(key[0].upper()))
        for _ in range(times):
            down = {"text": typed} if typed else {}
            for kind, more in (("keyDown", down), ("keyUp", {})):
                self.call("Input.dispatchKeyEvent", type=kind, key=key, code=key if len(key) > 1 else "",
                          windowsVirtualKeyCode=code, modifiers=modifiers, **more)

    def type(self, text):
        """Types letters."""
        for letter in text:
            self.key(letter)

    def point(self, x, y):
        """Moves the pointer."""
        self.call("Input.dispatchMouseEvent", type="mouseMoved", x=x, y=y)

    def picture(self, path, whole=False):
        """Keeps a picture of what is seen, or of the whole page."""
        more = {}
        if whole:
            size = self.call("Page.getLayoutMetrics")["cssContentSize"]
            more = {"captureBeyondViewport": True, "clip": {**size, "x": 0, "y": 0, "scale": 1}}
        data = self.call("Page.captureScreenshot", format="png", **more)["data"]
        Path(path).write_bytes(base64.b64decode(data))

    def pdf(self):
        """The page as it is printed."""
        found = self.call("Page.printToPDF", preferCSSPageSize=True, printBackground=False)
        return base64.b64decode(found["data"])

    def complaints(self):
        """What the console was told, and what was asked of another place, since the page was opened."""
        found = [one["params"] for one in self.events if one.get("method") in COMPLAINTS]
        asked = [one["params"]["request"]["url"] for one in self.events
                 if one.get("method") == "Network.requestWillBeSent"]
        return found + [url for url in asked if not url.startswith(("file:", "data:", "about:"))]

    def names(self):
        """What a screen reader hears of each control: role, name."""
        found = self.call("Accessibility.getFullAXTree")["nodes"]
        return [(one["role"]["value"], one.get("name", {}).get("value", "")) for one in found if not one["ignored"]]
