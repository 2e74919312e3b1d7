"""Drives a headless Chromium through a pair of pipes, for tests. It needs nothing but the browser."""
import base64
import json
import os
import select
import subprocess
import tempfile
import time

WORDS = ["--headless=new", "--remote-debugging-pipe", "--no-sandbox", "--disable-gpu", "--disable-dev-shm-usage", "--no-first-run",
         "--disable-background-networking", "--disable-component-update", "--disable-extensions", "--disable-sync", "--mute-audio",
         "--hide-scrollbars", "--no-default-browser-check", "--disable-features=Translate,OptimizationHints,MediaRouter"]


class Browser:
    """A browser with one page. `complaints` has all that the page printed as an error or a warning."""

    def __init__(self, program, seconds=60):
        self.seconds, self.number, self.rest, self.complaints, self.session = seconds, 0, b"", [], None
        self.room = tempfile.TemporaryDirectory(ignore_cleanup_errors=True)
        to_read, self.to = os.pipe()
        self.of, to_write = os.pipe()

        def lay():
            # the browser reads from 3 and writes to 4; copies first, since one of them may be 3 or 4 itself
            one, other = os.dup(to_read), os.dup(to_write)
            high_one, high_other = os.dup2(one, 100), os.dup2(other, 101)
            os.dup2(high_one, 3)
            os.dup2(high_other, 4)

        self.process = subprocess.Popen([program, *WORDS, f"--user-data-dir={self.room.name}", "about:blank"], stdin=subprocess.DEVNULL,
                                        stdout=subprocess.DEVNULL, stderr=subprocess.DEVNULL, close_fds=False, preexec_fn=lay)
        os.close(to_read)
        os.close(to_write)
        try:
            target = self.call("Target.createTarget", url="about:blank")["targetId"]
            self.session = self.call("Target.attachToTarget", targetId=target, flatten=True)["sessionId"]
            for domain in ("Page", "Runtime", "Log", "Network"):
                self.call(f"{domain}.enable")
            self.call("Performance.enable", timeDomain="threadTicks")
        except (OSError, TimeoutError):
            self.__exit__()
            raise

    def __enter__(self):
        return self

    def __exit__(self, *_):
        self.process.terminate()
        try:
            self.process.wait(10)
        except subprocess.TimeoutExpired:
            self.process.kill()
            self.process.wait()
        os.close(self.to)
        os.close(self.of)
        self.room.cleanup()

    def message(self, end):
        """The next message, which must come before the moment `end`."""
        while b"\0" not in self.rest:
            if not select.select([self.of], [], [], max(0, end - time.monotonic()))[0]:
                raise TimeoutError("the browser doesn't answer")
            more = os.read(self.of, 2**20)
            if not more:
                raise OSError("the browser ended")
            self.rest += more
        text, _, self.rest = self.rest.partition(b"\0")
        return json.loads(text)

    def note(self, it):
        """Keeps what the page complains of."""
        method, words = it.get("method"), it.get("params", {})
        if method == "Runtime.exceptionThrown":
            self.complaints.append(words["exceptionDetails"].get("exception", {}).get("description") or words["exceptionDetails"]["text"])
        elif method == "Log.entryAdded" and words["entry"]["level"] in ("error", "warning"):
            self.complaints.append(words["entry"]["text"])
        elif method == "Runtime.consoleAPICalled":
            self.complaints.append(f"console.{words['type']}")
        elif method == "Network.requestWillBeSent" and not words["request"]["url"].startswith(("file:", "data:", "blob:", "about:")):
            self.complaints.append(f"asks for {words['request']['url']}")

    def call(self, method, **words):
        self.number += 1
        asked = {"id": self.number, "method": method, "params": words, **({"sessionId": self.session} if self.session else {})}
        os.write(self.to, json.dumps(asked).encode() + b"\0")
        end = time.monotonic() + self.seconds
        while True:
            it = self.message(end)
            if it.get("id") == self.number:
                if "error" in it:
                    raise OSError(f"{method}: {it['error']['message']}")
                return it["result"]
            self.note(it)

    def ask(self, text):
        """The value of an expression in the page, which may be a promise."""
        found = self.call("Runtime.evaluate", expression=text, awaitPromise=True, returnByValue=True)
        if "exceptionDetails" in found:
            raise OSError(f"{text}: {found['exceptionDetails'].get('exception', {}).get('description')}")
        return found["result"].get("value")

    def wait(self, text):
        """Waits until an expression is true."""
        end = time.monotonic() + self.seconds
        while not self.ask(text):
            if time.monotonic() > end:
                raise TimeoutError(f"never true: {text}")
            time.sleep(0.02)

    def size(self, wide, high, scale=1):
        self.call("Emulation.setDeviceMetricsOverride", width=wide, height=high, deviceScaleFactor=scale, mobile=False)

    def colours(self, scheme):
        self.call("Emulation.setEmulatedMedia", features=[{"name": "prefers-color-scheme", "value": scheme}])

    def open(self, path):
        self.call("Page.navigate", url="file://" + os.path.abspath(path))
        self.wait("document.readyState === 'complete' && document.body.dataset.ready")

    def work(self):
        """The processor time in seconds that the page's own thread has taken for the page that is open."""
        return next(it["value"] for it in self.call("Performance.getMetrics")["metrics"] if it["name"] == "TaskDuration")

    def point(self, x, y):
        self.call("Input.dispatchMouseEvent", type="mouseMoved", x=x, y=y)

    def click(self, x, y):
        for kind in ("mousePressed", "mouseReleased"):
            self.call("Input.dispatchMouseEvent", type=kind, x=x, y=y, button="left", clickCount=1)

    def picture(self, path, whole=True):
        """A screenshot, of the whole page or of what is seen."""
        found = self.call("Page.captureScreenshot", format="png", captureBeyondViewport=whole)
        with open(path, "wb") as file:
            file.write(base64.b64decode(found["data"]))
