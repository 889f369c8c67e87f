"""Drives Debian's chromium without a window, by its DevTools protocol over two pipes: JSON, each message ended by a zero byte."""

import json
import os
import select
import shutil
import subprocess
from time import monotonic

PROGRAM = "chromium"
PATIENCE = 60  # seconds for an answer
WORDS = [
    "--headless=new",
    "--disable-gpu",
    "--no-first-run",
    "--disable-background-networking",
    "--disable-dev-shm-usage",
    "--remote-debugging-pipe",
]


class Failed(Exception):
    """What the browser said in the place of an answer."""


def is_here():
    """Is there a browser?"""
    return shutil.which(PROGRAM) is not None


class Browser:
    """A browser with one page, whose folder is its own."""

    def __init__(self, folder):
        self.read_end, theirs_out = os.pipe()
        theirs_in, self.write_end = os.pipe()
        words = [PROGRAM, *WORDS, *(["--no-sandbox"] if os.geteuid() == 0 else []), f"--user-data-dir={folder}", "about:blank"]
        line = f'exec "$@" 3<&{theirs_in} 4>&{theirs_out}'
        quiet = {"stdin": subprocess.DEVNULL, "stdout": subprocess.DEVNULL, "stderr": subprocess.DEVNULL}
        self.process = subprocess.Popen(["bash", "-c", line, "-", *words], pass_fds=(theirs_in, theirs_out), **quiet)
        os.close(theirs_in)
        os.close(theirs_out)
        self.number, self.rest, self.session, self.events = 0, b"", None, []
        target = next(one for one in self.ask("Target.getTargets")["targetInfos"] if one["type"] == "page")
        self.session = self.ask("Target.attachToTarget", targetId=target["targetId"], flatten=True)["sessionId"]
        for name in ("Page", "Runtime", "Network", "Log", "DOM"):
            self.ask(f"{name}.enable")

    def __enter__(self):
        return self

    def __exit__(self, *_):
        self.session = None
        try:
            self.ask("Browser.close")
        except (Failed, OSError):
            pass  # it is gone already
        os.close(self.write_end)
        os.close(self.read_end)
        try:
            self.process.wait(10)
        except subprocess.TimeoutExpired:
            self.process.kill()
            self.process.wait()

    def message(self, until):
        """The next message of the browser."""
        while b"\0" not in self.rest:
            ready, _, _ = select.select([self.read_end], [], [], max(until - monotonic(), 0))
            more = os.read(self.read_end, 2**16) if ready else b""
            if not more:
                raise Failed("the browser does not answer")
            self.rest += more
        first, _, self.rest = self.rest.partition(b"\0")
        return json.loads(first)

    def ask(self, method, **parameters):
        """What the browser answers; what it tells besides is kept in `events`."""
        self.number += 1
        asked = {"id": self.number, "method": method, "params": parameters} | ({"sessionId": self.session} if self.session else {})
        whole = json.dumps(asked).encode() + b"\0"
        while whole:
            whole = whole[os.write(self.write_end, whole) :]
        until = monotonic() + PATIENCE
        while True:
            found = self.message(until)
            if found.get("id") == self.number:
                if "error" in found:
                    raise Failed(f"{method}: {found['error']['message']}")
                return found["result"]
            self.events.append(found)

    def evaluate(self, expression):
        """The value of an expression of JavaScript in the page."""
        found = self.ask("Runtime.evaluate", expression=expression, awaitPromise=True, returnByValue=True)
        if "exceptionDetails" in found:
            raise Failed(f"{expression}: {found['exceptionDetails'].get('exception', {}).get('description')}")
        return found["result"].get("value")

    def wait(self, expression, seconds=PATIENCE):
        """Waits until an expression is true in the page."""
        until = monotonic() + seconds
        while not self.evaluate(expression):
            if monotonic() > until:
                raise Failed(f"{expression} does not come true")
            select.select([], [], [], 0.02)

    def press(self, key, code, text=""):
        """A key, down and up."""
        named = {"key": key, "code": key if key != " " else "Space", "windowsVirtualKeyCode": code}
        self.ask("Input.dispatchKeyEvent", type="keyDown", **named, **({"text": text} if text else {}))
        self.ask("Input.dispatchKeyEvent", type="keyUp", **named)

    def drop(self, x, y, *paths):
        """Drops files at a place of the page, as a hand does."""
        self.drag(x, y, {"items": [], "files": list(map(str, paths)), "dragOperationsMask": 1})

    def drag(self, x, y, data):
        """Drags data to a place of the page, and drops it there."""
        for kind in ("dragEnter", "dragOver", "drop"):
            self.ask("Input.dispatchDragEvent", type=kind, x=x, y=y, data=data)

    def picture(self):
        """The whole page as a PNG in base64."""
        return self.ask("Page.captureScreenshot", format="png", captureBeyondViewport=True)["data"]
