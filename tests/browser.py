"""browser: a page in headless Chromium, which is spoken to over a pipe by its protocol for developers' tools."""
import base64
import contextlib
import json
import os
import select
import shutil
import signal
import subprocess
import tempfile
import time

NAMES = ("chromium", "chromium-browser", "google-chrome")
WORDS = ("--headless", "--no-sandbox", "--disable-gpu", "--no-first-run", "--disable-background-networking",
         "--disable-component-update", "--disable-sync", "--disable-extensions", "--force-device-scale-factor=1",
         "--host-resolver-rules=MAP * ~NOTFOUND", "--remote-debugging-pipe")
CODES = {"ArrowLeft": 37, "ArrowUp": 38, "ArrowRight": 39, "ArrowDown": 40, "Home": 36, "End": 35, "Enter": 13, "Escape": 27,
         "Tab": 9, " ": 32}
ENDS = 60  # seconds in which each answer has to come


def found():
    """Where Chromium is, or nothing."""
    return next(filter(None, map(shutil.which, NAMES)), None)


class Browser:
    """A browser with one page. What it asked of any server, and each error of a script, is kept."""

    def __init__(self, width=1366, height=900):
        self.folder = tempfile.TemporaryDirectory(prefix="story-browser-", ignore_cleanup_errors=True)
        to_browser, self.out = os.pipe()
        self.into, from_browser = os.pipe()
        words = [found(), *WORDS, f"--user-data-dir={self.folder.name}", f"--window-size={width},{height}", "about:blank"]
        shell = f'exec "$@" 3<&{to_browser} 4>&{from_browser}'
        quiet = dict.fromkeys(("stdin", "stdout", "stderr"), subprocess.DEVNULL)
        self.process = subprocess.Popen(["bash", "-c", shell, "browser", *words], pass_fds=(to_browser, from_browser),
                                        start_new_session=True, **quiet)
        os.close(to_browser)
        os.close(from_browser)
        self.rest, self.number, self.session, self.errors, self.requests = b"", 0, None, [], []
        self.loaded = False
        target = self.ask("Target.createTarget", url="about:blank")["targetId"]
        self.session = self.ask("Target.attachToTarget", targetId=target, flatten=True)["sessionId"]
        for domain in ("Page", "Runtime", "Log", "Network"):
            self.ask(f"{domain}.enable")
        self.ask("Emulation.setDeviceMetricsOverride", width=width, height=height, deviceScaleFactor=1, mobile=False)

    def __enter__(self):
        return self

    def __exit__(self, *_):
        self.close()

    def close(self):
        """Ends the browser, with all processes that it began, and takes away its folder."""
        self.session = None
        with contextlib.suppress(AssertionError, OSError):
            self.ask("Browser.close")
            while True:
                self.message()
        with contextlib.suppress(ProcessLookupError):
            os.killpg(self.process.pid, signal.SIGKILL)
        self.process.wait(ENDS)
        os.close(self.out)
        os.close(self.into)
        self.folder.cleanup()

    def ask(self, method, **words):
        """What the browser answers to a call; events that come before are taken in."""
        self.number += 1
        call = {"id": self.number, "method": method, "params": words}
        if self.session:
            call["sessionId"] = self.session
        os.write(self.out, json.dumps(call).encode() + b"\0")
        while True:
            message = self.message()
            if message.get("id") == self.number:
                if "error" in message:
                    raise AssertionError(f"{method}: {message['error']}")
                return message["result"]
            self.take_in(message)

    def message(self):
        """The next message of the browser."""
        until = time.monotonic() + ENDS
        while b"\0" not in self.rest:
            if not select.select([self.into], [], [], max(0, until - time.monotonic()))[0]:
                raise AssertionError("the browser doesn't answer")
            piece = os.read(self.into, 1 << 16)
            if not piece:
                raise AssertionError("the browser has ended")
            self.rest += piece
        message, self.rest = self.rest.split(b"\0", 1)
        return json.loads(message)

    def take_in(self, message):
        """Keeps what an event tells of errors and of requests."""
        kind, told = message.get("method"), message.get("params", {})
        if kind == "Runtime.exceptionThrown":
            self.errors.append(json.dumps(told["exceptionDetails"])[:2000])
        elif kind == "Runtime.consoleAPICalled" or kind == "Log.entryAdded":
            self.errors.append(json.dumps(told)[:2000])
        elif kind == "Network.requestWillBeSent":
            self.requests.append(told["request"]["url"])
        elif kind == "Page.loadEventFired":
            self.loaded = True

    def open(self, url):
        """Opens a page and waits until it is there."""
        self.errors, self.requests, self.loaded = [], [], False
        self.ask("Page.navigate", url=url)
        while not self.loaded:
            self.take_in(self.message())

    def value(self, expression):
        """What an expression comes to in the page."""
        result = self.ask("Runtime.evaluate", expression=expression, returnByValue=True)
        if "exceptionDetails" in result:
            raise AssertionError(f"{expression}: {result['exceptionDetails']}")
        return result["result"].get("value")

    def press(self, key):
        """Presses a key."""
        words = {"key": key, "code": "Space" if key == " " else key, "windowsVirtualKeyCode": CODES[key]}
        if key in ("Enter", " "):
            words["text"] = "\r" if key == "Enter" else " "
        self.ask("Input.dispatchKeyEvent", type="keyDown", **words)
        self.ask("Input.dispatchKeyEvent", type="keyUp", key=key)

    def click(self, selector):
        """Clicks in the midst of an element, which is first brought into view."""
        x, y = self.value(
            f"(() => {{ const it = document.querySelector({json.dumps(selector)}); it.scrollIntoView({{block: 'center'}});"
            "const box = it.getBoundingClientRect(); return [box.x + box.width / 2, box.y + box.height / 2]; })()")
        for kind in ("mousePressed", "mouseReleased"):
            self.ask("Input.dispatchMouseEvent", type=kind, x=x, y=y, button="left", clickCount=1)

    def still(self):
        """What is seen of the page, as PNG."""
        return base64.b64decode(self.ask("Page.captureScreenshot", format="png")["data"])
