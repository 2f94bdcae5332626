"""Opens pages in a browser without a window, by the pipe through which Chromium is debugged. For bin/check-pictures."""
import base64
import json
import os
import select
import shutil
import subprocess
import tempfile

SECONDS = 60  # for an answer of the browser
NAMES = ("chromium", "chromium-browser", "google-chrome", "google-chrome-stable", "chrome")
WORDS = ["--headless=new", "--remote-debugging-pipe", "--no-first-run", "--disable-gpu", "--disable-dev-shm-usage", "--disable-extensions"]
WORDS += ["--disable-background-networking", "--hide-scrollbars=false", "--force-color-profile=srgb"]


def installed():
    """The browser that is on this machine, or None."""
    return next((found for name in NAMES if (found := shutil.which(name))), None)


class Browser:
    """A browser with one page. Errors of the page's script, and what it asked a network for, are kept."""

    def __init__(self, program):
        self.folder = tempfile.TemporaryDirectory(ignore_cleanup_errors=True)
        to_browser, self.told = os.pipe()
        self.heard, from_browser = os.pipe()
        words = [program, *WORDS, f"--user-data-dir={self.folder.name}"] + (["--no-sandbox"] if os.geteuid() == 0 else [])
        self.process = subprocess.Popen(
            words, pass_fds=(3, 4), preexec_fn=lambda: place_pipes(to_browser, from_browser), stdin=subprocess.DEVNULL,
            stdout=subprocess.DEVNULL, stderr=subprocess.DEVNULL,
        )
        os.close(to_browser)
        os.close(from_browser)
        self.left, self.count, self.session, self.errors, self.happened = b"", 0, None, [], []

    def __enter__(self):
        try:
            self.attach()
        except BaseException:
            self.__exit__()
            raise
        return self

    def attach(self):
        """Makes the page."""
        target = self.ask("Target.createTarget", url="about:blank")["targetId"]
        self.session = self.ask("Target.attachToTarget", targetId=target, flatten=True)["sessionId"]
        for domain in ("Page", "Runtime", "Log", "Network"):
            self.ask(f"{domain}.enable")

    def __exit__(self, *_):
        os.close(self.told)
        self.process.kill()
        self.process.wait()
        os.close(self.heard)
        self.folder.cleanup()

    def receive(self):
        """The next message of the browser."""
        while b"\0" not in self.left:
            ready, _, _ = select.select([self.heard], [], [], SECONDS)
            more = os.read(self.heard, 1 << 20) if ready else b""
            if not more:
                raise OSError("it ended" if ready else f"it gave no answer in {SECONDS} seconds")
            self.left += more
        message, _, self.left = self.left.partition(b"\0")
        message = json.loads(message)
        self.keep(message)
        return message

    def keep(self, message):
        """Keeps what happened in the page."""
        method, told = message.get("method"), message.get("params", {})
        self.happened.append(method)
        if method == "Runtime.exceptionThrown":
            details = told["exceptionDetails"]
            self.errors.append(details.get("exception", {}).get("description", details["text"]))
        elif method == "Log.entryAdded" and told["entry"]["level"] == "error":
            self.errors.append(told["entry"]["text"])
        elif method == "Network.requestWillBeSent" and not told["request"]["url"].startswith(("file:", "data:", "about:")):
            self.errors.append(f"asks for {told['request']['url']}")

    def ask(self, method, **told):
        """What the browser answers to this."""
        self.count += 1
        message = {"id": self.count, "method": method, "params": told} | ({"sessionId": self.session} if self.session else {})
        os.write(self.told, json.dumps(message).encode() + b"\0")
        while (answer := self.receive()).get("id") != self.count:
            pass
        if "error" in answer:
            raise OSError(f"{method}: {answer['error']['message']}")
        return answer["result"]

    def open(self, path, width=1280, height=800):
        """Opens a file in a window of this size, and waits until it is there."""
        self.ask("Emulation.setDeviceMetricsOverride", width=width, height=height, deviceScaleFactor=1, mobile=False)
        self.errors.clear()
        self.happened.clear()
        self.ask("Page.navigate", url=path.absolute().as_uri())
        while "Page.loadEventFired" not in self.happened:
            self.receive()

    def value(self, script):
        """The value of an expression in the page, once it is there."""
        done = self.ask("Runtime.evaluate", expression=script, returnByValue=True, awaitPromise=True)
        if "exceptionDetails" in done:
            raise ValueError(f"{script}: {done['exceptionDetails'].get('exception', {}).get('description')}")
        return done["result"].get("value")

    def mouse(self, kind, x, y, **more):
        """An event of the mouse: mouseMoved, mousePressed, mouseReleased or mouseWheel."""
        self.ask("Input.dispatchMouseEvent", type=kind, x=x, y=y, **more)

    def click(self, x, y):
        for kind in ("mousePressed", "mouseReleased"):
            self.mouse(kind, x, y, button="left", clickCount=1)

    def picture(self, path):
        """Writes what is seen, as a PNG."""
        path.write_bytes(base64.b64decode(self.ask("Page.captureScreenshot", format="png")["data"]))


def place_pipes(to_browser, from_browser):
    """Puts the ends of the pipes where the browser has them."""
    spare = os.dup(from_browser)  # the one end may be in the place of the other
    os.dup2(to_browser, 3)
    os.dup2(spare, 4)
