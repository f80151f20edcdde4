"""Chromium without a window, for the tests of pages: it is told what to do over a pipe, by the protocol of its developer tools."""

import base64
import json
import os
import shutil
import subprocess
import tempfile

CHROMIUM = shutil.which("chromium") or shutil.which("chromium-browser")
OPTIONS = ["--headless=new", "--no-sandbox", "--disable-gpu", "--no-first-run", "--disable-extensions", "--remote-debugging-pipe"]


class Browser:
    """One page in a browser of its own."""

    def __init__(self):
        self.room = tempfile.TemporaryDirectory(prefix="rx10 browser ", ignore_cleanup_errors=True)
        its_in, self.out = os.pipe()
        self.back, its_out = os.pipe()
        # (the browser reads from its descriptor 3 and writes to its 4)
        program = 'exec 3<&%d 4>&%d; exec "$0" "$@"' % (its_in, its_out)
        words = ["bash", "-c", program, CHROMIUM, *OPTIONS, "--user-data-dir=" + self.room.name, "about:blank"]
        self.process = subprocess.Popen(words, pass_fds=(its_in, its_out), stdin=subprocess.DEVNULL, stdout=subprocess.DEVNULL,
                                        stderr=subprocess.DEVNULL)
        os.close(its_in)
        os.close(its_out)
        self.last, self.kept, self.session = 0, b"", None
        page = next(it for it in self.call("Target.getTargets")["targetInfos"] if it["type"] == "page")
        self.session = self.call("Target.attachToTarget", targetId=page["targetId"], flatten=True)["sessionId"]
        self.call("Page.enable")

    def send(self, method, **what):
        self.last += 1
        message = {"id": self.last, "method": method, "params": what}
        if self.session:
            message["sessionId"] = self.session
        os.write(self.out, json.dumps(message).encode() + b"\0")

    def receive(self):
        """The next message of the browser."""
        while b"\0" not in self.kept:
            more = os.read(self.back, 1 << 20)
            if not more:
                raise EOFError("the browser has ended")
            self.kept += more
        message, self.kept = self.kept.split(b"\0", 1)
        return json.loads(message)

    def call(self, method, **what):
        """What the browser answers."""
        self.send(method, **what)
        while True:
            message = self.receive()
            if message.get("id") == self.last:
                if "error" in message:
                    raise ValueError(message["error"])
                return message["result"]

    def size(self, width, height, dark=False):
        self.call("Emulation.setDeviceMetricsOverride", width=width, height=height, deviceScaleFactor=1, mobile=False)
        feature = {"name": "prefers-color-scheme", "value": "dark" if dark else "light"}
        self.call("Emulation.setEmulatedMedia", features=[feature])

    def open(self, path):
        """Opens a file, and waits until it is loaded."""
        self.send("Page.navigate", url=path.resolve().as_uri())
        while self.receive().get("method") != "Page.loadEventFired":
            pass

    def evaluate(self, words):
        """The value of a JavaScript expression, which may be a promise."""
        got = self.call("Runtime.evaluate", expression=words, awaitPromise=True, returnByValue=True)
        if "exceptionDetails" in got:
            raise ValueError(got["exceptionDetails"])
        return got["result"].get("value")

    def press(self, key):
        text = {"text": key} if len(key) == 1 else {}
        shift = 8 if key.isupper() and len(key) == 1 else 0
        self.call("Input.dispatchKeyEvent", type="keyDown", key=key, modifiers=shift, **text)
        self.call("Input.dispatchKeyEvent", type="keyUp", key=key, modifiers=shift)

    def move(self, x, y):
        self.call("Input.dispatchMouseEvent", type="mouseMoved", x=x, y=y)

    def picture(self, path):
        """Writes what is in sight to a PNG."""
        path.write_bytes(base64.b64decode(self.call("Page.captureScreenshot", format="png")["data"]))

    def close(self):
        self.process.kill()
        self.process.wait()
        os.close(self.out)
        os.close(self.back)
        self.room.cleanup()
