"""A headless Chromium, driven over two pipes: it opens a page, presses keys, answers questions and makes pictures of what it shows."""
import base64
import json
import os
import shutil
import subprocess
import tempfile
import time

NAMES = ["chromium", "chromium-browser", "google-chrome", "google-chrome-stable"]
CODES = {"Tab": 9, "Enter": 13, "Escape": 27, " ": 32, "PageUp": 33, "PageDown": 34, "End": 35, "Home": 36}
CODES.update({"ArrowLeft": 37, "ArrowUp": 38, "ArrowRight": 39, "ArrowDown": 40, "F8": 119})
OPTIONS = ["--headless=new", "--no-sandbox", "--disable-gpu", "--no-first-run", "--hide-scrollbars", "--remote-debugging-pipe"]


class NoBrowser(Exception):
    """Why no browser runs."""


def found():
    """The path of Chromium: CHROMIUM names it, else it is looked for by its names."""
    named = os.environ.get("CHROMIUM")
    for name in [named] if named else NAMES:
        if shutil.which(name):
            return shutil.which(name)
    raise NoBrowser("%s: not found. Chromium is needed: `apt-get install chromium`, or CHROMIUM=PATH" % (named or "chromium"))


class Browser:
    """A Chromium with one page. It keeps what the page logs as an error."""

    def __init__(self):
        self.errors, self.number = [], 0
        self.folder = tempfile.TemporaryDirectory()
        read, self.out = os.pipe()
        self.into, write = os.pipe()
        words = [found(), *OPTIONS, "--user-data-dir=" + self.folder.name, "about:blank"]
        shell = 'exec "$0" "$@" 3<&%d 4>&%d' % (read, write)
        self.process = subprocess.Popen(["sh", "-c", shell, *words], pass_fds=(read, write), stdout=subprocess.DEVNULL, stderr=subprocess.DEVNULL)
        os.close(read)
        os.close(write)
        self.rest, self.session = b"", None
        target = self.ask("Target.createTarget", url="about:blank")["targetId"]
        self.session = self.ask("Target.attachToTarget", targetId=target, flatten=True)["sessionId"]
        for domain in ("Page", "Runtime", "Log", "Network"):
            self.ask(domain + ".enable")

    def message(self):
        """The next message that Chromium sends."""
        while b"\0" not in self.rest:
            came = os.read(self.into, 1 << 20)
            if not came:
                raise NoBrowser("Chromium has ended")
            self.rest += came
        text, _, self.rest = self.rest.partition(b"\0")
        return json.loads(text)

    def ask(self, method, **words):
        """What Chromium answers to a command. What it tells meanwhile is noted."""
        self.number += 1
        said = {"id": self.number, "method": method, "params": words}
        if self.session:
            said["sessionId"] = self.session
        os.write(self.out, json.dumps(said).encode() + b"\0")
        while True:
            came = self.message()
            if came.get("id") == self.number:
                if "error" in came:
                    raise NoBrowser("%s: %s" % (method, came["error"]["message"]))
                return came["result"]
            self.note(came)

    def note(self, came):
        """Keeps errors, and whatever the page asks from elsewhere."""
        words = came.get("params", {})
        if came.get("method") == "Runtime.exceptionThrown":
            self.errors.append(words["exceptionDetails"].get("exception", {}).get("description", "an exception"))
        elif came.get("method") == "Log.entryAdded" and words["entry"]["level"] in ("error", "warning"):
            self.errors.append(words["entry"]["text"])
        elif came.get("method") == "Runtime.consoleAPICalled" and words["type"] in ("error", "warning", "assert"):
            self.errors.append("console: %s" % words["args"])
        elif came.get("method") == "Network.requestWillBeSent" and not words["request"]["url"].startswith(("file:", "about:", "data:", "blob:")):
            self.errors.append("asks for " + words["request"]["url"])

    def open(self, path, wide=1280, high=900, dark=False):
        """Opens a file, in a window of this size. It answers how many seconds that took."""
        self.ask("Emulation.setDeviceMetricsOverride", width=wide, height=high, deviceScaleFactor=1, mobile=False)
        self.ask("Emulation.setEmulatedMedia", features=[{"name": "prefers-color-scheme", "value": "dark" if dark else "light"}])
        begun = time.time()
        self.ask("Page.navigate", url="about:blank")
        path, mark, turn = path.partition("#")
        self.ask("Page.navigate", url="file://" + os.path.abspath(path) + mark + turn)
        while not self.value("document.readyState === 'complete' && location.protocol === 'file:'"):
            time.sleep(0.02)
        return time.time() - begun

    def value(self, text):
        """What an expression gives in the page."""
        came = self.ask("Runtime.evaluate", expression=text, returnByValue=True, awaitPromise=True)
        if "exceptionDetails" in came:
            raise AssertionError("%s: %s" % (text, came["exceptionDetails"].get("exception", {}).get("description")))
        return came["result"].get("value")

    def press(self, *keys):
        """Presses keys, as "Home" or "Control+Enter"."""
        for key in keys:
            held, _, key = key.rpartition("+")
            name = "Space" if key == " " else key
            words = {"key": key, "code": name, "windowsVirtualKeyCode": CODES[key], "modifiers": 2 if held else 0}
            text = {"text": " "} if key == " " else {"text": "\r"} if key == "Enter" else {}
            self.ask("Input.dispatchKeyEvent", type="keyDown", **words, **text)
            self.ask("Input.dispatchKeyEvent", type="keyUp", **words)

    def picture(self, path, high=None):
        """Writes what the window shows as a PNG."""
        clip = {"clip": {"x": 0, "y": 0, "width": self.value("innerWidth"), "height": high, "scale": 1}, "captureBeyondViewport": True} if high else {}
        came = self.ask("Page.captureScreenshot", format="png", **clip)
        with open(path, "wb") as file:
            file.write(base64.b64decode(came["data"]))

    def close(self):
        """Ends it, by its own number."""
        try:
            self.session = None
            self.ask("Browser.close")
            self.process.wait(10)
        except (NoBrowser, OSError, subprocess.TimeoutExpired):
            self.process.kill()
            self.process.wait()
        for it in (self.out, self.into):
            os.close(it)
        try:
            self.folder.cleanup()
        except OSError:
            pass
