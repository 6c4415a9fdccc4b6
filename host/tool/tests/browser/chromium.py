"""A page in headless Chromium, driven over the browser's debugging pipe (standard library only).

chromium.py CHROMIUM FILE tries whether the browser opens a page whose title is `probe`.
"""

import fcntl
import json
import os
import select
import shutil
import subprocess
import sys
import tempfile
import time

FLAGS = [
    "--headless",
    "--no-sandbox",
    "--disable-gpu",
    "--disable-dev-shm-usage",
    "--disable-extensions",
    "--disable-background-networking",
    "--no-first-run",
    "--hide-scrollbars",
    "--remote-debugging-pipe",
]


# The status of a program that the browser let down.
UNUSABLE = 77
# How many seconds a browser that works may be silent while something is waited for.
SILENCE = 60


class Trouble(Exception):
    """The browser has ended, did not answer, or answered that it cannot: this says nothing about a page."""


def pipes():
    """Two pipes: this side's ends, and the browser's, which lie above descriptors 3 and 4."""
    commands, to = os.pipe()
    answers, replies = os.pipe()
    theirs = [fcntl.fcntl(end, fcntl.F_DUPFD_CLOEXEC, 10) for end in (commands, replies)]
    os.close(commands)
    os.close(replies)
    return (to, answers, *theirs)


class Page:
    """A page of a browser of its own, which lives no longer than `limit` seconds."""

    def __init__(self, chromium, limit):
        self.deadline = time.monotonic() + limit
        self.folder = tempfile.mkdtemp(prefix="ruzkemp-browser-")
        self.to, self.answers, commands, replies = pipes()
        # The browser reads commands from descriptor 3 and writes answers to descriptor 4.
        wires = f"exec 3<&{commands} 4>&{replies} {commands}<&- {replies}>&-; exec \"$@\""
        limited = ["timeout", "--kill-after=5", str(limit), chromium]
        flags = [*FLAGS, f"--user-data-dir={self.folder}", "about:blank"]
        self.process = subprocess.Popen(
            ["bash", "-c", wires, "bash", *limited, *flags],
            pass_fds=(commands, replies),
            stdin=subprocess.DEVNULL,
            stdout=subprocess.DEVNULL,
            stderr=subprocess.DEVNULL,
        )
        os.close(commands)
        os.close(replies)
        self.number, self.rest, self.events = 0, b"", []
        self.session = None
        try:
            self.attach()
        except BaseException:
            self.close()
            raise

    def attach(self):
        target = self.call("Target.createTarget", url="about:blank")["targetId"]
        self.session = self.call("Target.attachToTarget", targetId=target, flatten=True)["sessionId"]
        for domain in ["Page", "Runtime", "Log", "Network"]:
            self.call(f"{domain}.enable")

    def close(self):
        try:
            os.close(self.to)
            os.close(self.answers)
            self.process.wait(timeout=10)
        except subprocess.TimeoutExpired:
            self.process.terminate()
            self.process.wait()
        finally:
            shutil.rmtree(self.folder, ignore_errors=True)

    def message(self):
        """The next message of the browser; messages end with a zero byte."""
        while b"\0" not in self.rest:
            left = min(self.deadline - time.monotonic(), SILENCE)
            if left <= 0 or not select.select([self.answers], [], [], left)[0]:
                raise Trouble("the browser does not answer")
            read = os.read(self.answers, 1 << 16)
            if not read:
                raise Trouble("the browser has ended")
            self.rest += read
        one, self.rest = self.rest.split(b"\0", 1)
        return json.loads(one)

    def call(self, method, **params):
        """Sends a command and waits for its answer; events on the way are kept."""
        self.number += 1
        command = {"id": self.number, "method": method, "params": params}
        if self.session:
            command["sessionId"] = self.session
        data = json.dumps(command).encode() + b"\0"
        try:
            while data:
                data = data[os.write(self.to, data):]
        except BrokenPipeError:
            raise Trouble("the browser has ended") from None
        while True:
            message = self.message()
            if message.get("id") == self.number:
                if "error" in message:
                    raise Trouble(f"{method}: {message['error']['message']}")
                return message["result"]
            self.events.append(message)

    def wait(self, event):
        """Waits for an event that has not been waited for."""
        while True:
            for place, message in enumerate(self.events):
                if message.get("method") == event:
                    return self.events.pop(place)
            self.events.append(self.message())

    def open(self, path, width=1400, height=900, dark=False, script=True):
        """Opens a file of the host."""
        self.size(width, height)
        scheme = {"name": "prefers-color-scheme", "value": "dark" if dark else "light"}
        self.call("Emulation.setEmulatedMedia", features=[scheme])
        self.call("Emulation.setScriptExecutionDisabled", value=not script)
        self.events.clear()
        answer = self.call("Page.navigate", url="file://" + os.path.abspath(path))
        if answer.get("errorText"):
            raise Trouble(f"{path}: {answer['errorText']}")
        self.wait("Page.loadEventFired")

    def size(self, width, height):
        self.call(
            "Emulation.setDeviceMetricsOverride",
            width=width, height=height, deviceScaleFactor=1, mobile=False,
        )

    def value(self, expression):
        """The value of a script's expression."""
        answer = self.call("Runtime.evaluate", expression=expression, returnByValue=True, awaitPromise=True)
        if "exceptionDetails" in answer:
            raise AssertionError(f"{expression}: {answer['exceptionDetails']}")
        return answer["result"].get("value")

    def mouse(self, kind, x, y, **more):
        self.call("Input.dispatchMouseEvent", type=kind, x=x, y=y, **more)

    def hover(self, x, y):
        self.mouse("mouseMoved", x, y)

    def click(self, x, y):
        self.hover(x, y)
        self.mouse("mousePressed", x, y, button="left", clickCount=1)
        self.mouse("mouseReleased", x, y, button="left", clickCount=1)

    def tap(self, x, y):
        """A short touch, and the click that the browser makes of it after a while."""
        click = "new Promise((done) => { addEventListener('click', () => done(), { once: true }); setTimeout(done, 10000); })"
        self.value(f"void (window.tapped = {click})")
        self.call("Emulation.setTouchEmulationEnabled", enabled=True)
        self.call("Input.dispatchTouchEvent", type="touchStart", touchPoints=[{"x": x, "y": y}])
        self.call("Input.dispatchTouchEvent", type="touchEnd", touchPoints=[])
        self.value("window.tapped")
        self.call("Emulation.setTouchEmulationEnabled", enabled=False)

    def press(self, key, text=""):
        codes = {"Enter": 13, "Tab": 9, "Escape": 27, " ": 32}
        code = codes.get(key, 0)
        text = text or {"Enter": "\r", " ": " "}.get(key, "")
        kind = "keyDown" if text else "rawKeyDown"
        self.call("Input.dispatchKeyEvent", type=kind, key=key, text=text, windowsVirtualKeyCode=code)
        self.call("Input.dispatchKeyEvent", type="keyUp", key=key, windowsVirtualKeyCode=code)

    def complaints(self):
        """What the console, the log and the network have told since the page was opened."""
        told = []
        for message in self.events:
            method, params = message.get("method"), message.get("params", {})
            if method == "Runtime.exceptionThrown":
                told.append(f"exception: {params['exceptionDetails']}")
            elif method == "Runtime.consoleAPICalled":
                told.append(f"console: {params['args']}")
            elif method == "Log.entryAdded":
                told.append(f"log: {params['entry']['text']}")
            elif method == "Network.requestWillBeSent":
                url = params["request"]["url"]
                if params.get("type") != "Document" or not url.startswith("file:"):
                    told.append(f"request: {url}")
        return told


def guarded(main):
    """Runs a program; if the browser lets it down, it says so and ends with the status that tells it."""
    try:
        main()
    except Trouble as trouble:
        print(trouble)
        sys.exit(UNUSABLE)


def probe(chromium, path):
    page = Page(chromium, 60)
    try:
        page.open(path)
        title = page.value("document.title")
        if title != "probe":
            raise Trouble(f"{path}: a page with the title {title!r} is shown")
    finally:
        page.close()


if __name__ == "__main__":
    guarded(lambda: probe(*sys.argv[1:]))
