"""A page in headless Chromium, driven by its DevTools protocol over two pipes: no driver and no port is needed."""
import base64
import contextlib
import json
import os
import select
import subprocess
import time

WORDS = ["--headless", "--no-sandbox", "--disable-gpu", "--hide-scrollbars", "--no-first-run", "--disable-dev-shm-usage",
         "--remote-debugging-pipe"]
PATIENCE = 30  # seconds


class Page:
    """A page that is open. `requests` are the addresses that it asked for, and `faults` what it wrote to the console or threw."""

    def __init__(self, to, at):
        self.to, self.at, self.rest, self.number, self.session = to, at, b"", 0, None
        self.requests, self.faults = [], []
        target = self.command("Target.createTarget", url="about:blank")["targetId"]
        self.session = self.command("Target.attachToTarget", targetId=target, flatten=True)["sessionId"]
        for domain in ("Page", "Runtime", "Network", "Log", "Accessibility"):
            self.command(f"{domain}.enable")

    def message(self):
        """Returns the next message of the browser."""
        deadline = time.monotonic() + PATIENCE
        while b"\0" not in self.rest:
            if not select.select([self.at], [], [], max(0, deadline - time.monotonic()))[0]:
                raise TimeoutError("Chromium is silent")
            part = os.read(self.at, 1 << 20)
            if not part:
                raise EOFError("Chromium has ended")
            self.rest += part
        first, self.rest = self.rest.split(b"\0", 1)
        return json.loads(first)

    def command(self, method, **parameters):
        self.number += 1
        asked = {"id": self.number, "method": method, "params": parameters, **({"sessionId": self.session} if self.session else {})}
        left = json.dumps(asked).encode() + b"\0"
        while left:
            left = left[os.write(self.to, left):]
        while True:
            said = self.message()
            if said.get("id") == self.number:
                if "error" in said:
                    raise RuntimeError(f"{method}: {said['error']['message']}")
                return said["result"]
            self.note(said)

    def note(self, said):
        kind, it = said.get("method"), said.get("params", {})
        if kind == "Network.requestWillBeSent":
            self.requests.append(it["request"]["url"])
        elif kind == "Runtime.exceptionThrown":
            self.faults.append(it["exceptionDetails"].get("exception", {}).get("description", it["exceptionDetails"]["text"]))
        elif kind == "Log.entryAdded" and it["entry"]["level"] == "error":
            self.faults.append(it["entry"]["text"])

    def value(self, script):
        """Returns the value of an expression in the page."""
        said = self.command("Runtime.evaluate", expression=script, returnByValue=True, awaitPromise=True, userGesture=True)
        if "exceptionDetails" in said:
            raise RuntimeError(said["exceptionDetails"]["exception"].get("description"))
        return said["result"].get("value")

    def until(self, script):
        """Waits until an expression is true."""
        deadline = time.monotonic() + PATIENCE
        while not self.value(script):
            if time.monotonic() > deadline:
                raise TimeoutError(script)
            time.sleep(0.02)

    def open(self, address):
        self.command("Page.navigate", url=address)
        self.until("document.readyState === 'complete' && location.protocol !== 'about:'")

    def press(self, key, text=""):
        """Presses a key, and lets it go. Keys that write have a text."""
        for kind in ("keyDown", "keyUp"):
            self.command("Input.dispatchKeyEvent", type=kind, key=key, **({"text": text} if text and kind == "keyDown" else {}))

    def clear(self, name):
        """Goes to a field and selects what it contains, so that the next key replaces it."""
        self.value(f"document.getElementById('{name}').focus(), document.getElementById('{name}').select()")

    def put(self, name, text):
        """Puts a text into a field at once, as from the clipboard."""
        self.clear(name)
        self.command("Input.insertText", text=text)

    def click(self, name):
        """Clicks on the middle of an element."""
        place = self.value(f"(() => {{ const it = document.getElementById('{name}'); it.scrollIntoView({{ block: 'center' }}); const at ="
                           " it.getBoundingClientRect(); return [at.x + at.width / 2, at.y + at.height / 2] })()")
        for kind in ("mousePressed", "mouseReleased"):
            self.command("Input.dispatchMouseEvent", type=kind, x=place[0], y=place[1], button="left", clickCount=1)

    def screenshot(self, path, scheme="light", width=1200, height=900):
        self.command("Emulation.setDeviceMetricsOverride", width=width, height=height, deviceScaleFactor=1, mobile=False)
        self.command("Emulation.setEmulatedMedia", features=[{"name": "prefers-color-scheme", "value": scheme}])
        with open(path, "wb") as it:
            it.write(base64.b64decode(self.command("Page.captureScreenshot", captureBeyondViewport=True)["data"]))

    def pdf(self, path):
        with open(path, "wb") as it:
            it.write(base64.b64decode(self.command("Page.printToPDF", paperWidth=8.27, paperHeight=11.69)["data"]))


@contextlib.contextmanager
def opened(chromium, room, *more):
    """Yields a page of a Chromium that is started with a profile of its own, and with more words, and ends it."""
    (theirs_at, to), (at, theirs_to) = os.pipe(), os.pipe()
    words = ["sh", "-c", f'exec "$@" 3<&{theirs_at} 4>&{theirs_to}', "sh", chromium, *WORDS, *more, f"--user-data-dir={room}/profile"]
    silent = {"stdin": subprocess.DEVNULL, "stdout": subprocess.DEVNULL, "stderr": subprocess.DEVNULL}
    ran = subprocess.Popen(words, pass_fds=[theirs_at, theirs_to], **silent)
    os.close(theirs_at)
    os.close(theirs_to)
    try:
        yield Page(to, at)
    finally:
        os.close(to)
        os.close(at)
        ran.terminate()
        with contextlib.suppress(subprocess.TimeoutExpired):
            ran.wait(10)
        ran.kill()
