"""A headless Chromium that is told what to do through two pipes: no port is opened, and nothing but
Python is needed.
"""

import base64
import json
import os
import select
import shutil
import subprocess
import tempfile
import time

NAMES = ("chromium", "chromium-browser", "google-chrome")
SECONDS = 60
#: The codes of keys that have a meaning besides their letter.
CODES = {"Enter": 13, "ArrowLeft": 37, "ArrowUp": 38, "ArrowRight": 39, "ArrowDown": 40}


def find_chromium():
    """The path of the browser, or None."""
    return next((found for found in map(shutil.which, NAMES) if found), None)


class Browser:
    """A window with one page. It is a context manager."""

    def __init__(self, width=1000, height=700):
        self.folder = tempfile.mkdtemp()
        words = [
            find_chromium(),
            "--headless=new",
            "--no-sandbox",
            "--disable-gpu",
            "--remote-debugging-pipe",
            "--no-first-run",
            "--disable-background-networking",
            "--disable-component-update",
            "--disable-sync",
            "--disable-extensions",
            "--disable-dev-shm-usage",
            "--hide-scrollbars",
            "--force-device-scale-factor=1",
            f"--window-size={width},{height}",
            f"--user-data-dir={self.folder}",
            "about:blank",
        ]
        hears, self.writes = os.pipe()
        self.reads, says = os.pipe()
        # The browser listens on descriptor 3 and answers on 4.
        self.process = subprocess.Popen(
            ["sh", "-c", f'exec "$@" 3<&{hears} 4>&{says}', "sh", *words],
            pass_fds=(hears, says),
            stdin=subprocess.DEVNULL,
            stdout=subprocess.DEVNULL,
            stderr=subprocess.DEVNULL,
        )
        os.close(hears)
        os.close(says)
        self.rest, self.number, self.session = b"", 0, None
        pages = [
            target
            for target in self.call("Target.getTargets")["targetInfos"]
            if target["type"] == "page"
        ]
        self.session = self.call(
            "Target.attachToTarget", targetId=pages[0]["targetId"], flatten=True
        )["sessionId"]
        self.call(
            "Emulation.setDeviceMetricsOverride",
            width=width,
            height=height,
            deviceScaleFactor=1,
            mobile=False,
        )

    def call(self, method, **params):
        """Calls a method of the browser's protocol, and gives its result."""
        self.number += 1
        message = {"id": self.number, "method": method, "params": params}
        if self.session:
            message["sessionId"] = self.session
        data = json.dumps(message).encode() + b"\0"
        while data:
            data = data[os.write(self.writes, data) :]
        end = time.monotonic() + SECONDS
        while True:
            while b"\0" in self.rest:
                one, _, self.rest = self.rest.partition(b"\0")
                reply = json.loads(one)
                if reply.get("id") == self.number:
                    if "error" in reply:
                        raise RuntimeError(f"{method}: {reply['error']}")
                    return reply["result"]
            if not select.select([self.reads], [], [], max(0.0, end - time.monotonic()))[0]:
                raise TimeoutError(f"{method}: no answer in {SECONDS} s")
            chunk = os.read(self.reads, 1 << 20)
            if not chunk:
                raise RuntimeError(f"{method}: the browser has ended")
            self.rest += chunk

    def open(self, address):
        self.call("Page.enable")
        self.call("Page.navigate", url=address)

    def value(self, expression):
        """The value of an expression on the page."""
        result = self.call(
            "Runtime.evaluate", expression=expression, returnByValue=True, awaitPromise=True
        )
        if "exceptionDetails" in result:
            raise RuntimeError(f"{expression}: {result['exceptionDetails']}")
        return result["result"].get("value")

    def wait(self, expression):
        """Waits until an expression is true."""
        end = time.monotonic() + SECONDS
        while not self.value(expression):
            if time.monotonic() > end:
                raise TimeoutError(f"{expression}: not within {SECONDS} s")
            time.sleep(0.01)

    def press(self, key):
        words = {"key": key, "windowsVirtualKeyCode": CODES.get(key, ord(key[0].upper()))}
        if key == "Enter":
            words["text"] = "\r"
        self.call(
            "Input.dispatchKeyEvent", type="keyDown" if "text" in words else "rawKeyDown", **words
        )
        self.call("Input.dispatchKeyEvent", type="keyUp", **words)

    def write(self, text):
        self.call("Input.insertText", text=text)

    def click(self, x, y):
        for kind in ("mousePressed", "mouseReleased"):
            self.call("Input.dispatchMouseEvent", type=kind, x=x, y=y, button="left", clickCount=1)

    def picture(self, x, y, width, height, scale=0.5):
        """The bytes of a PNG file of a part of the page, half as large."""
        clip = {"x": x, "y": y, "width": width, "height": height, "scale": scale}
        return base64.b64decode(
            self.call("Page.captureScreenshot", format="png", clip=clip)["data"]
        )

    def close(self):
        self.process.kill()
        self.process.wait()
        os.close(self.writes)
        os.close(self.reads)
        shutil.rmtree(self.folder, ignore_errors=True)

    def __enter__(self):
        return self

    def __exit__(self, *_):
        self.close()
