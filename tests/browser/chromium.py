"""A headless Chromium, and what it answers of a page."""

import base64
import json
import os
import select
import shutil
import subprocess
import time

NAMES = ("chromium", "chromium-browser", "google-chrome")
SIZE = (1400, 800)
SECONDS_TO_ANSWER = 240


class NoBrowser(Exception):
    """No Chromium is here, or it does not start."""


class Browser:
    """A headless Chromium, which is told what to do over a pipe, a JSON text with a zero byte after it for each command and each answer."""

    def __init__(self, folder, helpers=""):
        """With the files of the browser in a folder; each page that it opens gets the helpers."""
        program = next((it for it in map(shutil.which, NAMES) if it), None)
        if not program:
            raise NoBrowser
        told, self.told = os.pipe()
        self.heard, heard = os.pipe()
        # The browser reads commands from file 3 and writes answers to file 4.
        words = [program, "--headless=new", "--no-sandbox", "--disable-gpu", "--disable-dev-shm-usage", "--no-first-run", "--disable-background-networking"]
        words += ["--remote-debugging-pipe", f"--user-data-dir={folder}", f"--window-size={SIZE[0]},{SIZE[1]}", "--force-color-profile=srgb"]
        script = f"exec 3<&{told} 4>&{heard}; exec \"$@\""
        quiet = {"stdin": subprocess.DEVNULL, "stdout": subprocess.DEVNULL, "stderr": subprocess.DEVNULL}
        self.process = subprocess.Popen(["bash", "-c", script, "bash", *words], pass_fds=(told, heard), **quiet)
        os.close(told)
        os.close(heard)
        self.number, self.rest, self.session, self.helpers = 0, b"", None, helpers
        try:
            self.tell("Browser.getVersion")
        except (OSError, RuntimeError) as why:
            self.close()
            raise NoBrowser from why

    def tell(self, method, **given):
        """The result of a command."""
        self.number += 1
        message = {"id": self.number, "method": method, "params": given}
        if self.session:
            message["sessionId"] = self.session
        os.write(self.told, json.dumps(message).encode() + b"\0")
        while True:
            answer = self.next()
            if answer.get("id") == self.number:
                if "error" in answer:
                    raise RuntimeError(f"{method}: {answer['error']}")
                return answer["result"]

    def next(self):
        while b"\0" not in self.rest:
            if not select.select([self.heard], [], [], SECONDS_TO_ANSWER)[0]:
                raise RuntimeError("the browser does not answer")
            piece = os.read(self.heard, 1 << 16)
            if not piece:
                raise RuntimeError("the browser has ended")
            self.rest += piece
        text, _, self.rest = self.rest.partition(b"\0")
        return json.loads(text)

    def open(self, page):
        """Shows a page, in place of the one before."""
        if not self.session:
            target = self.tell("Target.createTarget", url="about:blank")["targetId"]
            self.session = self.tell("Target.attachToTarget", targetId=target, flatten=True)["sessionId"]
            self.tell("Emulation.setDeviceMetricsOverride", width=SIZE[0], height=SIZE[1], deviceScaleFactor=1, mobile=False)
        self.tell("Page.navigate", url=page.resolve().as_uri())
        end = time.monotonic() + SECONDS_TO_ANSWER
        while not self.value("document.readyState === 'complete' && Boolean(window.page)"):
            if time.monotonic() > end:
                raise RuntimeError("the page is not ready")
            time.sleep(0.05)
        self.value(self.helpers)

    def value(self, expression):
        result = self.tell("Runtime.evaluate", expression=expression, returnByValue=True, awaitPromise=True)
        if "exceptionDetails" in result:
            raise RuntimeError(f"{expression}: {result['exceptionDetails']['exception']['description'].splitlines()[0]}")
        return result["result"].get("value")

    def call(self, function, *words):
        """What one of the helpers answers."""
        return self.value(f"helpers.{function}({', '.join(map(json.dumps, words))})")

    def mouse(self, kind, x, y, **more):
        self.tell("Input.dispatchMouseEvent", type=kind, x=x, y=y, **more)

    def click(self, x, y, modifiers=0):
        self.mouse("mousePressed", x, y, button="left", clickCount=1, modifiers=modifiers)
        self.mouse("mouseReleased", x, y, button="left", clickCount=1, modifiers=modifiers)

    def key(self, key):
        self.tell("Input.dispatchKeyEvent", type="keyDown", key=key)
        self.tell("Input.dispatchKeyEvent", type="keyUp", key=key)

    def picture(self, file):
        file.write_bytes(base64.b64decode(self.tell("Page.captureScreenshot", format="png")["data"]))

    def close(self):
        try:
            self.session = None
            self.tell("Browser.close")
            self.process.wait(10)
        except (OSError, RuntimeError, subprocess.TimeoutExpired):
            self.process.kill()
        self.process.wait()
