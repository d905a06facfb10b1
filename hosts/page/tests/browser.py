"""`Browser`: Debian's chromium without a window, driven over two pipes by its DevTools protocol; `Tab`: one page."""

from __future__ import annotations

import base64
import json
import os
import select
import shutil
import subprocess
import tempfile
import time
from collections import deque
from pathlib import Path
from typing import Any

# No answer takes so long, in seconds, on a machine that is busy with proofs either.
PATIENCE = 240
FLAGS = ["--headless", "--disable-gpu", "--no-first-run", "--hide-scrollbars", "--remote-debugging-pipe"]
THROWN, ASKED = "Runtime.exceptionThrown", "Network.requestWillBeSent"
KEYS = {"ArrowLeft": 37, "ArrowRight": 39, "Home": 36, "End": 35, "Enter": 13, "Escape": 27}


def chromium() -> str | None:
    """The browser, if there is one."""
    return shutil.which("chromium")


class Browser:
    """Begins a chromium of its own, with a folder of its own, which ends with the block."""

    def __init__(self) -> None:
        self._folder = tempfile.TemporaryDirectory()
        # What was told beside answers: all of it, and what nobody has waited for yet.
        self.told: list[dict[str, Any]] = []
        self._events: deque[dict[str, Any]] = deque()
        self._rest, self._number = b"", 0
        self._tabs: list[Tab] = []
        theirs_in, self._out = os.pipe()
        self._in, theirs_out = os.pipe()
        # It may be root, whom chromium gives no sandbox.
        root = ["--no-sandbox"] if os.getuid() == 0 else []
        words = [chromium() or "chromium", *FLAGS, *root, f"--user-data-dir={self._folder.name}", "about:blank"]
        shell = f'exec "$@" 3<&{theirs_in} 4>&{theirs_out}'
        quiet = subprocess.DEVNULL
        ends = theirs_in, theirs_out
        command = ["sh", "-c", shell, "sh", *words]
        self._process = subprocess.Popen(command, pass_fds=ends, stdin=quiet, stdout=quiet, stderr=quiet)
        os.close(theirs_in)
        os.close(theirs_out)

    def __enter__(self) -> Browser:
        return self

    def __exit__(self, *_: object) -> None:
        self.call("Browser.close")
        self._process.wait(PATIENCE)
        os.close(self._in)
        os.close(self._out)
        self._folder.cleanup()

    def call(self, method: str, session: str | None = None, **given: Any) -> Any:
        """The result of a call. RuntimeError if it fails."""
        self._number += 1
        message = {"id": self._number, "method": method, "params": given}
        if session:
            message["sessionId"] = session
        self._write(json.dumps(message).encode() + b"\0")
        while (answer := self._next()).get("id") != self._number:
            self._events.append(answer)
            self.told.append(answer)
        if "error" in answer:
            raise RuntimeError(f"{method}: {answer['error']}")
        return answer["result"]

    def wait_for(self, method: str, session: str) -> Any:
        """What the next event of this name says, of those that have come or will."""
        while True:
            if not self._events:
                self._events.append(self._next())
                self.told.append(self._events[0])
            event = self._events.popleft()
            if event.get("method") == method and event.get("sessionId") == session:
                return event["params"]

    def _write(self, message: bytes) -> None:
        while message:
            message = message[os.write(self._out, message) :]

    def _next(self) -> Any:
        """The next message. Each ends in a byte of number 0."""
        limit = time.monotonic() + PATIENCE
        while b"\0" not in self._rest:
            ready, _, _ = select.select([self._in], [], [], max(0, limit - time.monotonic()))
            piece = os.read(self._in, 1 << 20) if ready else b""
            if not piece:
                raise TimeoutError("chromium doesn't answer")
            self._rest += piece
        message, _, self._rest = self._rest.partition(b"\0")
        return json.loads(message)

    def open(self, path: Path, width: int = 1400, height: int = 1000) -> Tab:
        """A page of a file, once it is there."""
        made = self.call("Target.createTarget", url="about:blank", width=width, height=height, newWindow=True)
        target = made["targetId"]
        session = self.call("Target.attachToTarget", targetId=target, flatten=True)["sessionId"]
        self._tabs.append(Tab(self, target, session, path))
        return self._tabs[-1]

    def close_tabs(self) -> None:
        """Closes the pages that are open."""
        while self._tabs:
            self._tabs.pop().close()


class Tab:
    """A page of a file, in a window of its own."""

    def __init__(self, browser: Browser, target: str, session: str, path: Path) -> None:
        self._browser, self._target, self._session = browser, target, session
        for part in ("Page", "Runtime", "Network"):
            self.call(f"{part}.enable")
        self.reopen(path)

    def call(self, method: str, **given: Any) -> Any:
        return self._browser.call(method, self._session, **given)

    def reopen(self, path: Path) -> None:
        """Opens another page in its place."""
        self.path, self._begin = path, len(self._browser.told)
        self.call("Page.navigate", url=path.as_uri())
        self.wait_for("Page.loadEventFired")
        self.settle()

    def settle(self) -> None:
        """Waits until the next frame is drawn."""
        self.evaluate("new Promise((done) => requestAnimationFrame(() => setTimeout(done)))")

    def wait_for(self, method: str) -> Any:
        """What the next event of this name says."""
        return self._browser.wait_for(method, self._session)

    def close(self) -> None:
        self._browser.call("Target.closeTarget", targetId=self._target)

    def faults(self) -> list[str]:
        """What the page's script threw since it was opened, and the addresses that it asked for."""
        events = [it for it in self._browser.told[self._begin :] if it.get("sessionId") == self._session]
        of = {name: [it["params"] for it in events if it["method"] == name] for name in (THROWN, ASKED)}
        addresses = [it["request"]["url"] for it in of[ASKED]]
        thrown = [str(it["exceptionDetails"]) for it in of[THROWN]]
        return thrown + [it for it in addresses if it not in (self.path.as_uri(), "about:srcdoc")]

    def evaluate(self, text: str) -> Any:
        """The value of an expression in the page. RuntimeError if it throws."""
        result = self.call("Runtime.evaluate", expression=text, returnByValue=True, awaitPromise=True)
        if "exceptionDetails" in result:
            raise RuntimeError(f"{text}: {result['exceptionDetails']}")
        return result["result"].get("value")

    def move(self, x: float, y: float) -> None:
        """Moves the pointer there."""
        self._mouse("mouseMoved", x, y)

    def click(self, x: float, y: float) -> None:
        """Clicks there with the left button."""
        self._mouse("mouseMoved", x, y)
        self._mouse("mousePressed", x, y, button="left", clickCount=1)
        self._mouse("mouseReleased", x, y, button="left", clickCount=1)

    def drag(self, x: float, y: float, to_x: float, to_y: float) -> None:
        """Presses the left button at one place, and lets it go at another."""
        self._mouse("mouseMoved", x, y)
        self._mouse("mousePressed", x, y, button="left", clickCount=1)
        self._mouse("mouseMoved", (x + to_x) / 2, (y + to_y) / 2, button="left", buttons=1)
        self._mouse("mouseMoved", to_x, to_y, button="left", buttons=1)
        self._mouse("mouseReleased", to_x, to_y, button="left", clickCount=1)

    def _mouse(self, kind: str, x: float, y: float, **given: Any) -> None:
        self.call("Input.dispatchMouseEvent", type=kind, x=x, y=y, **given)

    def press(self, key: str) -> None:
        """Presses a key, and lets it go."""
        code = KEYS.get(key, ord(key[0].upper()))
        text = {"text": key} if len(key) == 1 else {}
        self.call("Input.dispatchKeyEvent", type="keyDown", key=key, windowsVirtualKeyCode=code, **text)
        self.call("Input.dispatchKeyEvent", type="keyUp", key=key, windowsVirtualKeyCode=code)

    def be_dark(self, is_dark: bool) -> None:
        """What the user prefers."""
        feature = {"name": "prefers-color-scheme", "value": "dark" if is_dark else "light"}
        self.call("Emulation.setEmulatedMedia", features=[feature])
        # The page hears of it in the frame after the one that is under way.
        self.settle()
        self.settle()

    def screenshot(self, path: Path) -> None:
        """Writes what is seen as PNG."""
        path.write_bytes(base64.b64decode(self.call("Page.captureScreenshot", format="png")["data"]))
