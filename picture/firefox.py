"""A headless Firefox, driven by WebDriver BiDi over a socket: it opens a page, answers questions and makes pictures, as browser.py does with Chromium."""
import base64
import json
import os
import secrets
import shutil
import socket
import subprocess
import tempfile
import time

from browser import NoBrowser

NAMES = ["firefox-esr", "firefox"]
KEYS = {"Tab": "\ue004", "Enter": "\ue007", "Control": "\ue009", "Escape": "\ue00c", "F8": "\ue038"}
PREFERENCES = {"browser.shell.checkDefaultBrowser": False, "datareporting.policy.dataSubmissionEnabled": False, "app.update.enabled": False, "browser.startup.page": 0,
               "network.captive-portal-service.enabled": False, "network.connectivity-service.enabled": False, "remote.prefs.recommended": True}


def found():
    """The path of Firefox: FIREFOX names it, else it is looked for by its names."""
    named = os.environ.get("FIREFOX")
    for name in [named] if named else NAMES:
        if shutil.which(name):
            return shutil.which(name)
    raise NoBrowser("%s: not found. `apt-get install firefox-esr`, or FIREFOX=PATH" % (named or "firefox-esr"))


class Socket:
    """A WebSocket to this machine, for texts."""

    def __init__(self, port, path):
        self.socket, self.rest = socket.create_connection(("127.0.0.1", port)), b""
        key = base64.b64encode(secrets.token_bytes(16)).decode()
        lines = ["GET %s HTTP/1.1" % path, "Host: 127.0.0.1:%d" % port, "Upgrade: websocket", "Connection: Upgrade", "Sec-WebSocket-Key: " + key, "Sec-WebSocket-Version: 13", "", ""]
        self.socket.sendall("\r\n".join(lines).encode())
        while b"\r\n\r\n" not in self.rest:
            self.rest += self.more()
        head, _, self.rest = self.rest.partition(b"\r\n\r\n")
        if b" 101 " not in head.split(b"\r\n")[0]:
            raise NoBrowser("Firefox answers %s" % head.split(b"\r\n")[0].decode())

    def more(self):
        came = self.socket.recv(1 << 20)
        if not came:
            raise NoBrowser("Firefox has ended")
        return came

    def take(self, count):
        parts, have = [self.rest], len(self.rest)
        while have < count:
            parts.append(self.more())
            have += len(parts[-1])
        data = b"".join(parts)
        self.rest = data[count:]
        return data[:count]

    def send(self, text, kind=1):
        data, mask = text.encode(), secrets.token_bytes(4)
        length = len(data)
        size = bytes([128 | length]) if length < 126 else bytes([254]) + length.to_bytes(2, "big") if length < 65536 else bytes([255]) + length.to_bytes(8, "big")
        repeated = int.from_bytes((mask * (length // 4 + 1))[:length], "big") if length else 0
        masked = (int.from_bytes(data, "big") ^ repeated).to_bytes(length, "big")
        self.socket.sendall(bytes([128 | kind]) + size + mask + masked)

    def receive(self):
        """The next text, which may come in parts."""
        parts = []
        while True:
            first, second = self.take(2)
            length = second & 127
            if length > 125:
                length = int.from_bytes(self.take(2 if length == 126 else 8), "big")
            data, kind = self.take(length), first & 15
            if kind == 8:
                raise NoBrowser("Firefox has ended")
            if kind == 9:
                self.send(data.decode("latin-1"), 10)
            elif kind < 3:
                parts.append(data)
                if first & 128:
                    return b"".join(parts).decode()


class Firefox:
    """A Firefox with one page. It keeps what the page logs as an error."""

    def __init__(self):
        self.errors, self.number = [], 0
        self.folder = tempfile.TemporaryDirectory()
        with open(os.path.join(self.folder.name, "user.js"), "w", encoding="utf-8") as file:
            file.writelines("user_pref(%s, %s);\n" % (json.dumps(name), json.dumps(value)) for name, value in PREFERENCES.items())
        words = [found(), "--headless", "--no-remote", "--profile", self.folder.name, "--remote-debugging-port=0", "about:blank"]
        self.process = subprocess.Popen(words, stdout=subprocess.DEVNULL, stderr=subprocess.DEVNULL, env=dict(os.environ, MOZ_HEADLESS="1", HOME=self.folder.name))
        self.socket = Socket(self.port(), "/session")
        self.ask("session.new", capabilities={"alwaysMatch": {"acceptInsecureCerts": True}})
        self.context = self.ask("browsingContext.getTree")["contexts"][0]["context"]
        self.ask("session.subscribe", events=["log.entryAdded"])

    def port(self):
        """The port on which it listens, which it writes into its folder."""
        place, begun = os.path.join(self.folder.name, "WebDriverBiDiServer.json"), time.time()
        while time.time() - begun < 300:
            if self.process.poll() is not None:
                raise NoBrowser("Firefox ends with status %d" % self.process.returncode)
            try:
                with open(place, encoding="utf-8") as file:
                    return int(json.load(file)["ws_port"])
            except (OSError, ValueError, KeyError):
                time.sleep(0.2)
        raise NoBrowser("Firefox doesn't listen")

    def ask(self, method, **words):
        """What Firefox answers to a command."""
        self.number += 1
        self.socket.send(json.dumps({"id": self.number, "method": method, "params": words}))
        while True:
            came = json.loads(self.socket.receive())
            if came.get("method") == "log.entryAdded" and came["params"]["level"] == "error":
                self.errors.append(came["params"]["text"])
            if came.get("id") == self.number:
                if came.get("type") == "error":
                    raise NoBrowser("%s: %s" % (method, came["message"]))
                return came["result"]

    def open(self, path, wide=1280, high=900, dark=False):
        """Opens a file, in a window of this size."""
        begun = time.time()
        self.ask("browsingContext.setViewport", context=self.context, viewport={"width": wide, "height": high})
        path, mark, rest = path.partition("#")
        self.ask("browsingContext.navigate", context=self.context, url="about:blank", wait="complete")
        self.ask("browsingContext.navigate", context=self.context, url="file://" + os.path.abspath(path) + mark + rest, wait="complete")
        return time.time() - begun

    def value(self, text):
        """What an expression gives in the page."""
        wrapped = "(async () => JSON.stringify([await (%s)]))()" % text
        came = self.ask("script.evaluate", expression=wrapped, target={"context": self.context}, awaitPromise=True, resultOwnership="none")
        if came["type"] != "success":
            raise AssertionError("%s: %s" % (text[:200], came["exceptionDetails"]["text"]))
        found = json.loads(came["result"]["value"])
        return found[0] if found else None

    def press(self, *keys):
        """Presses keys, as "F8" or "Control+Enter"."""
        for key in keys:
            names = [KEYS[name] for name in key.split("+")]
            steps = [{"type": kind, "value": name} for kind, order in (("keyDown", names), ("keyUp", names[::-1])) for name in order]
            self.ask("input.performActions", context=self.context, actions=[{"type": "key", "id": "keys", "actions": steps}])

    def picture(self, path):
        with open(path, "wb") as file:
            file.write(base64.b64decode(self.ask("browsingContext.captureScreenshot", context=self.context)["data"]))

    def close(self):
        """Ends it, by its own number."""
        try:
            self.ask("browser.close")
            self.process.wait(20)
        except (NoBrowser, OSError, subprocess.TimeoutExpired):
            self.process.kill()
            self.process.wait()
        try:
            self.folder.cleanup()
        except OSError:
            pass
