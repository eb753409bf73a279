"""Drives Chromium through a pipe, with no package, port or driver; and how well a text is read."""
import json
import os
import re
import shutil
import subprocess
import tempfile
import unittest

PROGRAMS = ("chromium", "chromium-browser", "google-chrome")
CODES = {"ArrowLeft": 37, "ArrowRight": 39, "Home": 36, "End": 35, "Tab": 9}
FLAGS = ("--headless", "--no-sandbox", "--disable-gpu", "--hide-scrollbars", "--no-first-run",
         "--disable-dev-shm-usage", "--remote-debugging-pipe", "about:blank")


# Of a text to what it is on.
LEAST_CONTRAST = 4.5


def luminance(colour):
    """As WCAG has it, of `#rrggbb`, `rgb(R, G, B)` or `white`."""
    numbers = [255] * 3 if colour == "white" else re.findall(r"\d+", colour)[:3]
    if colour.startswith("#"):
        numbers = bytes.fromhex(colour[1:])
    parts = [int(number) / 255 for number in numbers]
    return sum(share * (part / 12.92 if part <= 0.04045 else ((part + 0.055) / 1.055) ** 2.4)
               for share, part in zip((0.2126, 0.7152, 0.0722), parts))


def contrast(one, other):
    low, high = sorted(luminance(colour) + 0.05 for colour in (one, other))
    return high / low


def program():
    found = next(filter(None, map(shutil.which, PROGRAMS)), None)
    if not found:
        raise unittest.SkipTest("chromium is not on the PATH")
    return found


class Browser:
    """One page of a browser without a window, by the DevTools protocol."""

    def __init__(self):
        chromium = program()
        to_read, self.out = os.pipe()
        self.heard_from, to_write = os.pipe()
        self.folder = tempfile.TemporaryDirectory(prefix="browser-", ignore_cleanup_errors=True)
        # The browser reads its descriptor 3 and writes its 4.
        line = f'exec "$0" "$@" 3<&{to_read} 4>&{to_write}'
        self.process = subprocess.Popen(["bash", "-c", line, chromium, f"--user-data-dir={self.folder.name}", *FLAGS],
                                        pass_fds=(to_read, to_write), stdout=subprocess.DEVNULL,
                                        stderr=subprocess.DEVNULL)
        os.close(to_read)
        os.close(to_write)
        self.number, self.session, self.held, self.problems = 0, None, b"", []
        page = self.call("Target.createTarget", url="about:blank")["targetId"]
        self.session = self.call("Target.attachToTarget", targetId=page, flatten=True)["sessionId"]
        for domain in ("Page", "Runtime", "Log"):
            self.call(f"{domain}.enable")

    def call(self, method, **given):
        self.number += 1
        said = {"id": self.number, "method": method, "params": given}
        os.write(self.out,
                 json.dumps({**said, **({"sessionId": self.session} if self.session else {})}).encode() + b"\0")
        while (heard := self.heard()).get("id") != self.number:
            if heard.get("method") in ("Runtime.exceptionThrown", "Log.entryAdded"):
                self.problems.append(json.dumps(heard["params"])[:400])
        if "error" in heard:
            raise RuntimeError(f"{method}: {heard['error']}")
        return heard["result"]

    def heard(self):
        while b"\0" not in self.held:
            piece = os.read(self.heard_from, 1 << 16)
            if not piece:
                raise RuntimeError("the browser ended")
            self.held += piece
        one, self.held = self.held.split(b"\0", 1)
        return json.loads(one)

    def open(self, path, fragment=""):
        self.call("Page.navigate", url="about:blank")
        self.call("Page.navigate", url=f"file://{os.path.abspath(path)}{fragment}")
        while self.value("document.readyState") != "complete" or self.value("location.href") == "about:blank":
            pass

    def value(self, expression):
        found = self.call("Runtime.evaluate", expression=expression, returnByValue=True, awaitPromise=True)
        if "exceptionDetails" in found:
            raise RuntimeError(found["exceptionDetails"])
        return found["result"].get("value")

    def key(self, name, times=1):
        for _ in range(times):
            for kind in ("keyDown", "keyUp"):
                self.call("Input.dispatchKeyEvent", type=kind, key=name, code=name, windowsVirtualKeyCode=CODES[name])

    def size(self, width, height):
        self.call("Emulation.setDeviceMetricsOverride", width=width, height=height, deviceScaleFactor=1, mobile=False)

    def seen_on(self, media="", scheme="light"):
        self.call("Emulation.setEmulatedMedia", media=media,
                  features=[{"name": "prefers-color-scheme", "value": scheme}])

    def tree(self):
        """What a screen reader meets: role and name of each part."""
        nodes = self.call("Accessibility.getFullAXTree")["nodes"]
        return [(node["role"]["value"], node.get("name", {}).get("value", ""))
                for node in nodes if not node.get("ignored")]

    def close(self):
        self.session = None
        try:
            self.call("Browser.close")
        except (RuntimeError, OSError):
            self.process.kill()
        self.process.wait()
        os.close(self.out)
        os.close(self.heard_from)
        self.folder.cleanup()
