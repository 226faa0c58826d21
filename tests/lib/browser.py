"""A headless Chromium, driven by its debugging protocol over two pipes."""

import base64
import json
import os
import select
import signal
import subprocess
import tempfile
import time
from contextlib import suppress
from shutil import which

NAMES = ["chromium", "chromium-browser", "google-chrome"]
NEEDS = f"one of these on the path: {', '.join(NAMES)} (in Debian, `apt install chromium`)"
# The seconds after which something counts as not to come.
SOON = 20
OPTIONS = ["--headless=new", "--no-sandbox", "--disable-gpu", "--no-first-run", "--window-size=900,800", "--remote-debugging-pipe"]


# The codes of the keys that are no characters.
CODES = {"Enter": 13, "Tab": 9, "Escape": 27, "End": 35, "Home": 36, "ArrowLeft": 37, "ArrowRight": 39}


class Silent(Exception):
    """The browser does not answer, or reports an error."""


def installed():
    """Returns the path of a browser, or None."""
    return next(filter(None, map(which, NAMES)), None)


class Page:
    """A browser with one page. It reads commands from its file 3, and writes answers and events to its file 4."""

    def __init__(self):
        (theirs_in, self._writer), (self._reader, theirs_out) = os.pipe(), os.pipe()
        self._profile = tempfile.TemporaryDirectory(prefix="browser-")
        script = f'exec "$@" 3<&{theirs_in} 4>&{theirs_out}'
        words = ["bash", "-c", script, "bash", installed(), *OPTIONS, f"--user-data-dir={self._profile.name}", "about:blank"]
        how = {"stdin": subprocess.DEVNULL, "stdout": subprocess.DEVNULL, "stderr": subprocess.DEVNULL}
        self._run = subprocess.Popen(words, pass_fds=[theirs_in, theirs_out], start_new_session=True, **how)
        os.close(theirs_in), os.close(theirs_out)
        self._count, self._come, self._session, self.events = 0, b"", None, []
        target = next(one for one in self.send("Target.getTargets")["targetInfos"] if one["type"] == "page")["targetId"]
        self._session = self.send("Target.attachToTarget", targetId=target, flatten=True)["sessionId"]
        for domain in ("Page", "Runtime", "Network", "Log"):
            self.send(f"{domain}.enable")

    def __enter__(self):
        return self

    def __exit__(self, *_):
        with suppress(Silent, OSError, subprocess.TimeoutExpired):
            self.send("Browser.close")
            self._run.wait(SOON)
        with suppress(ProcessLookupError):
            os.killpg(self._run.pid, signal.SIGKILL)
        self._run.wait()
        os.close(self._writer), os.close(self._reader)
        self._profile.cleanup()

    def send(self, method, **params):
        """Sends a command, and returns its result."""
        self._count += 1
        command = {"id": self._count, "method": method, "params": params, **({"sessionId": self._session} if self._session else {})}
        os.write(self._writer, json.dumps(command).encode() + b"\0")
        while True:
            answer = self._next()
            if answer.get("id") == self._count:
                if "error" in answer:
                    raise Silent(f"{method}: {answer['error']}")
                return answer["result"]
            self.events.append(answer)

    def _next(self):
        end = time.monotonic() + SOON
        while b"\0" not in self._come:
            if not select.select([self._reader], [], [], max(0, end - time.monotonic()))[0]:
                raise Silent("the browser does not answer")
            piece = os.read(self._reader, 1 << 16)
            if not piece:
                raise Silent("the browser has ended")
            self._come += piece
        message, _, self._come = self._come.partition(b"\0")
        return json.loads(message)

    def eval(self, text):
        """Returns the value of an expression on the page."""
        result = self.send("Runtime.evaluate", expression=text, returnByValue=True, awaitPromise=True)
        if "exceptionDetails" in result:
            raise Silent(f"{text}: {result['exceptionDetails']}")
        return result["result"].get("value")

    def key(self, key):
        """Presses a key: a character, or the name of another one."""
        more = {"text": "\r"} if key == "Enter" else {"text": key} if len(key) == 1 else {}
        code = CODES.get(key, ord(key.upper()) if len(key) == 1 else 0)
        self.send("Input.dispatchKeyEvent", type="keyDown", key=key, windowsVirtualKeyCode=code, **more)
        self.send("Input.dispatchKeyEvent", type="keyUp", key=key, windowsVirtualKeyCode=code)

    def click(self, id_):
        """Clicks the middle of an element."""
        self.click_at(f"document.getElementById({json.dumps(id_)})")

    def click_at(self, which):
        """Clicks the middle of the element that an expression names."""
        box = self.eval(f"(() => {{ const e = {which}; e.scrollIntoView({{ block: 'center' }});"
                        " const r = e.getBoundingClientRect(); return [r.x + r.width / 2, r.y + r.height / 2]; })()")
        for kind in ("mousePressed", "mouseReleased"):
            self.send("Input.dispatchMouseEvent", type=kind, x=box[0], y=box[1], button="left", clickCount=1)

    def type(self, text):
        """Types a text where the focus is."""
        self.send("Input.insertText", text=text)

    def window(self, width, height=740):
        """Makes the window so large, in points, and a telephone's if it is narrow."""
        self.send("Emulation.setDeviceMetricsOverride", width=width, height=height, deviceScaleFactor=2, mobile=width < 500)
        self.send("Emulation.setTouchEmulationEnabled", enabled=width < 500)

    def settings(self, **features):
        """Sets what the system's settings are, as `prefers_color_scheme="dark"`."""
        named = [{"name": name.replace("_", "-"), "value": value} for name, value in features.items()]
        self.send("Emulation.setEmulatedMedia", features=named)

    def screenshot(self, path):
        self.eval("scrollTo(0, 0)")
        path.write_bytes(base64.b64decode(self.send("Page.captureScreenshot", format="png")["data"]))

    def pdf(self, path):
        """Prints the page."""
        path.write_bytes(base64.b64decode(self.send("Page.printToPDF", printBackground=True)["data"]))
