"""A Chromium without a window, spoken to through a pipe: what a page shows, clicks and keys, what it says on the console."""
import base64
import contextlib
import json
import os
import select
import shutil
import subprocess
import sys
import tempfile
import time

PATIENCE = 60
FLAGS = [
    "--headless", "--no-sandbox", "--disable-gpu", "--disable-dev-shm-usage", "--no-first-run", "--disable-background-networking",
    "--remote-debugging-pipe", "about:blank",
]


def find_browser():
    return shutil.which("chromium") or shutil.which("chromium-browser")


class Browser:
    """One page of a browser, with what was said on its console."""

    def __init__(self, process, writer, reader):
        self.process, self.writer, self.reader = process, writer, reader
        self.kept, self.number, self.session, self.console = b"", 0, None, []

    def call(self, method, **params):
        """The result of a command."""
        self.number += 1
        message = {"id": self.number, "method": method, "params": params}
        if self.session:
            message["sessionId"] = self.session
        os.write(self.writer, json.dumps(message).encode() + b"\0")
        while True:
            answer = self.next_message()
            self.note(answer)
            if answer.get("id") == self.number:
                assert "error" not in answer, (method, answer["error"])
                return answer["result"]

    def next_message(self):
        until = time.monotonic() + PATIENCE
        while b"\0" not in self.kept:
            ready, _, _ = select.select([self.reader], [], [], max(0, until - time.monotonic()))
            assert ready, "the browser doesn't answer"
            more = os.read(self.reader, 1 << 20)
            assert more, "the browser has ended"
            self.kept += more
        message, _, self.kept = self.kept.partition(b"\0")
        return json.loads(message)

    def note(self, message):
        """What is said on the console, an error that nobody caught, or a request that is sent."""
        method, params = message.get("method"), message.get("params", {})
        if method == "Runtime.consoleAPICalled":
            self.console.append(" ".join(str(it.get("value")) for it in params["args"]))
        elif method == "Runtime.exceptionThrown":
            details = params["exceptionDetails"]
            self.console.append(details.get("exception", {}).get("description") or details["text"])
        elif method == "Log.entryAdded":
            self.console.append(params["entry"]["text"])
        elif method == "Network.requestWillBeSent" and not params["request"]["url"].startswith(("file:", "data:")):
            self.console.append(f"asks for {params['request']['url']}")

    def open(self, file, width=1280, height=900, link=""):
        target = self.call("Target.createTarget", url="about:blank")["targetId"]
        self.session = self.call("Target.attachToTarget", targetId=target, flatten=True)["sessionId"]
        for domain in ("Page", "Runtime", "Log", "Network"):
            self.call(f"{domain}.enable")
        self.call("Emulation.setDeviceMetricsOverride", width=width, height=height, deviceScaleFactor=1, mobile=False)
        self.call("Page.navigate", url=f"file://{os.path.abspath(file)}{link}")
        self.until("document.readyState === 'complete'")

    def theme(self, name):
        self.call("Emulation.setEmulatedMedia", features=[{"name": "prefers-color-scheme", "value": name}])

    def see(self, expression):
        """The value of an expression in the page."""
        found = self.call("Runtime.evaluate", expression=expression, returnByValue=True, awaitPromise=True)
        assert "exceptionDetails" not in found, found["exceptionDetails"]
        return found["result"].get("value")

    def until(self, expression):
        until = time.monotonic() + PATIENCE
        while not self.see(expression):
            assert time.monotonic() < until, f"never: {expression}"
            time.sleep(0.02)

    def click(self, x, y):
        for kind in ("mouseMoved", "mousePressed", "mouseReleased"):
            self.call("Input.dispatchMouseEvent", type=kind, x=x, y=y, button="left", clickCount=1)

    def click_on(self, selector):
        box = self.see(f"(() => {{ const it = document.querySelector({selector!r}); it.scrollIntoView({{block: 'center'}});"
                       " const box = it.getBoundingClientRect(); return [box.x + box.width / 2, box.y + box.height / 2]; })()")
        self.click(*box)

    def key(self, key, text=None):
        words = {"text": text} if text else {}
        self.call("Input.dispatchKeyEvent", type="keyDown", key=key, **words)
        self.call("Input.dispatchKeyEvent", type="keyUp", key=key)

    def screenshot(self, name):
        taken = self.call("Page.captureScreenshot", format="png")["data"]
        with open(name, "wb") as it:
            it.write(base64.b64decode(taken))


@contextlib.contextmanager
def browser():
    """A browser with a folder of its own, which ends with the block."""
    read_there, writer = os.pipe()
    reader, write_there = os.pipe()
    folder = tempfile.mkdtemp(prefix="rtosim-browser-")
    # (a shell may know no descriptor above 9)
    start = "import os, sys; os.dup2(int(sys.argv[1]), 3); os.dup2(int(sys.argv[2]), 4); os.execv(sys.argv[3], sys.argv[3:])"
    words = [sys.executable, "-c", start, str(read_there), str(write_there), find_browser(), f"--user-data-dir={folder}", *FLAGS]
    env = {**os.environ, "HOME": folder, "TMPDIR": folder}
    quiet = {"stdin": subprocess.DEVNULL, "stdout": subprocess.DEVNULL, "stderr": subprocess.DEVNULL}
    process = subprocess.Popen(words, env=env, pass_fds=(read_there, write_there), **quiet)
    os.close(read_there)
    os.close(write_there)
    try:
        yield Browser(process, writer, reader)
    finally:
        process.terminate()
        process.wait(PATIENCE)
        os.close(writer)
        os.close(reader)
        shutil.rmtree(folder, ignore_errors=True)
