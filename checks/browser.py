"""Drives a headless Chromium by its DevTools protocol, over two pipes."""
import base64
import json
import os
import select
import shutil
import subprocess
import tempfile
import time

LONGEST = 60  # seconds that an answer may take
KEYS = {"ArrowLeft": 37, "ArrowUp": 38, "ArrowRight": 39, "ArrowDown": 40}
KEYS |= {"Enter": 13, "Escape": 27, "End": 35, "Home": 36}


def installed():
    return next(filter(None, map(shutil.which, ("chromium", "chromium-browser", "google-chrome"))), None)


class Browser:
    """One window with one page. `errors` are what its console and its network had to complain of."""

    def __init__(self, width=1440, height=900):
        self.folder = tempfile.TemporaryDirectory(prefix="gfxcap-browser-")
        inward, self.sink = os.pipe()
        self.source, outward = os.pipe()
        words = [
            installed(), "--headless", "--no-sandbox", "--disable-gpu", "--no-first-run", "--disable-dev-shm-usage",
            "--remote-debugging-pipe", f"--user-data-dir={self.folder.name}", f"--window-size={width},{height}",
            "--force-device-scale-factor=1", "about:blank",
        ]  # fmt: skip
        # The protocol's pipes are file descriptors 3 and 4 of the browser.
        shell = f'exec 3<&{inward} 4>&{outward}; exec "$@"'
        nothing = {"stdout": subprocess.DEVNULL, "stderr": subprocess.DEVNULL}
        self.process = subprocess.Popen(["bash", "-c", shell, "bash", *words], pass_fds=(inward, outward), **nothing)
        os.close(inward)
        os.close(outward)
        self.number, self.pending, self.errors, self.session = 0, b"", [], None
        self.attach(width, height)

    def attach(self, width, height):
        target = next(one for one in self.ask("Target.getTargets")["targetInfos"] if one["type"] == "page")
        words = {"targetId": target["targetId"], "flatten": True}
        self.session = self.ask("Target.attachToTarget", **words)["sessionId"]
        for domain in ("Page", "Runtime", "Log", "Network"):
            self.ask(f"{domain}.enable")
        self.ask("Emulation.setDeviceMetricsOverride", width=width, height=height, deviceScaleFactor=1, mobile=False)

    def message(self):
        """The next message of the browser."""
        while b"\0" not in self.pending:
            if not select.select([self.source], [], [], LONGEST)[0]:
                raise TimeoutError(f"the browser says nothing for {LONGEST} seconds")
            piece = os.read(self.source, 1 << 20)
            if not piece:
                raise EOFError("the browser ended")
            self.pending += piece
        text, self.pending = self.pending.split(b"\0", 1)
        return json.loads(text)

    def ask(self, method, **words):
        self.number += 1
        asked = {"id": self.number, "method": method, "params": words}
        if self.session:
            asked["sessionId"] = self.session
        os.write(self.sink, json.dumps(asked).encode() + b"\0")
        while True:
            told = self.message()
            if told.get("id") == self.number:
                if "error" in told:
                    raise RuntimeError(f"{method}: {told['error']['message']}")
                return told["result"]
            self.note(told)

    def note(self, told):
        """Keeps what a page complains of, and what it asks of a network."""
        method, words = told.get("method"), told.get("params", {})
        if method == "Runtime.exceptionThrown":
            self.errors.append(json.dumps(words["exceptionDetails"])[:500])
        elif method == "Runtime.consoleAPICalled" and words["type"] in ("error", "warning", "assert"):
            self.errors.append(json.dumps(words["args"])[:500])
        elif method == "Log.entryAdded" and words["entry"]["level"] in ("error", "warning"):
            self.errors.append(words["entry"]["text"][:500])
        elif method == "Network.requestWillBeSent":
            url = words["request"]["url"]
            if not url.startswith(("file:", "data:", "about:", "blob:")):
                self.errors.append(f"asks for {url}")

    def open(self, path):
        """Opens a page from disk, and waits until it says that it is ready."""
        self.ask("Page.navigate", url=f"file://{os.path.abspath(path)}")
        self.wait("document.documentElement?.classList.contains('ready')")

    def value(self, expression):
        """What an expression gives in the page, awaited where it is a promise."""
        told = self.ask("Runtime.evaluate", expression=expression, awaitPromise=True, returnByValue=True)
        if "exceptionDetails" in told:
            raise RuntimeError(f"{expression[:100]}: {json.dumps(told['exceptionDetails'])[:500]}")
        return told["result"].get("value")

    def wait(self, expression, seconds=LONGEST):
        end = time.monotonic() + seconds
        while not self.value(f"Boolean({expression})"):
            if time.monotonic() > end:
                raise TimeoutError(f"{expression} isn't so after {seconds} seconds")
            time.sleep(0.02)

    def key(self, name, text=None):
        code = KEYS.get(name, ord(name[0].upper()))
        words = {"key": name, "windowsVirtualKeyCode": code}
        if len(name) == 1 or text:
            words["text"] = text or name
        self.ask("Input.dispatchKeyEvent", type="keyDown", **words)
        self.ask("Input.dispatchKeyEvent", type="keyUp", key=name, windowsVirtualKeyCode=code)

    def type(self, text):
        self.ask("Input.insertText", text=text)

    def move(self, x, y):
        self.ask("Input.dispatchMouseEvent", type="mouseMoved", x=x, y=y)

    def click(self, x, y):
        self.move(x, y)
        for kind in ("mousePressed", "mouseReleased"):
            self.ask("Input.dispatchMouseEvent", type=kind, x=x, y=y, button="left", clickCount=1)

    def wheel(self, x, y, down):
        self.ask("Input.dispatchMouseEvent", type="mouseWheel", x=x, y=y, deltaX=0, deltaY=down)

    def box(self, selector):
        """Left, top, width and height of an element."""
        words = "const box = one.getBoundingClientRect(); return [box.left, box.top, box.width, box.height];"
        return self.value(f"((one) => {{ {words} }})(document.querySelector({json.dumps(selector)}))")

    def middle(self, selector):
        left, top, width, height = self.box(selector)
        return left + width / 2, top + height / 2

    def picture(self, path):
        data = self.ask("Page.captureScreenshot", format="png")["data"]
        with open(path, "wb") as file:
            file.write(base64.b64decode(data))

    def __enter__(self):
        return self

    def __exit__(self, *_):
        if self.process.poll() is None:
            try:
                self.session = None
                self.ask("Browser.close")
                self.process.wait(10)
            except (OSError, EOFError, TimeoutError, RuntimeError, subprocess.TimeoutExpired):
                self.process.kill()
                self.process.wait()
        os.close(self.sink)
        os.close(self.source)
        for _ in range(50):
            try:
                self.folder.cleanup()
                break
            except OSError:
                time.sleep(0.1)
