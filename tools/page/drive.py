"""Drives headless Chromium over a pipe, by the protocol of its developer tools: no driver, no socket, Python alone."""
import atexit
import base64
import json
import os
import select
import shutil
import subprocess
import tempfile
import time

# The keys that tests press beside letters: name, and code of Windows by which Chromium knows it.
KEYS = {"Tab": 9, "Enter": 13, "End": 35, "Home": 36, "ArrowRight": 39, "ArrowDown": 40, "Delete": 46}
SHIFT, CONTROL = 8, 2
# How long something is waited for, also on a machine that has much else to do: what comes sooner is taken at once.
SECONDS = 300


def find():
    """The path of Chromium, or None."""
    found = (shutil.which(name) for name in ("chromium", "chromium-browser", "google-chrome"))
    return next((path for path in found if path), None)


def processor_seconds(root):
    """How many seconds of a processor a process and all those below it have used, or None where the system doesn't tell."""
    below, used, tick = {}, {}, os.sysconf("SC_CLK_TCK")
    for number in filter(str.isdigit, os.listdir("/proc") if os.path.isdir("/proc") else []):
        try:
            with open(f"/proc/{number}/stat", encoding="utf-8", errors="replace") as file:
                parts = file.read().rpartition(")")[2].split()
        except OSError:  # it has ended meanwhile
            continue
        below.setdefault(int(parts[1]), []).append(int(number))
        used[int(number)] = sum(map(int, parts[11:15])) / tick
    if root not in used:
        return None
    total, left = 0, [root]
    while left:
        one = left.pop()
        total += used.get(one, 0)
        left += below.get(one, [])
    return total


class Fault(Exception):
    """The browser ended, or refused a call, or an expression threw."""


class Browser:
    """A browser with one page, whose window has a size. What the page reports, as errors, is kept in `events`."""

    def __init__(self, width=1440, height=900):
        self.profile = tempfile.mkdtemp(prefix="test-page.")
        # Faults are passed over: a process of the browser that is still at its end may write there.
        atexit.register(shutil.rmtree, self.profile, ignore_errors=True)
        theirs_in, self.write_end = os.pipe()
        self.read_end, theirs_out = os.pipe()

        def wire():
            # Chromium reads calls from descriptor 3, and writes to 4.
            os.dup2(theirs_in, 103)
            os.dup2(theirs_out, 104)
            os.dup2(103, 3)
            os.dup2(104, 4)

        words = [find(), "--headless", "--no-sandbox", "--disable-gpu", "--remote-debugging-pipe", "--no-first-run"]
        words += ["--disable-background-networking", "--disable-dev-shm-usage", "--hide-scrollbars=false"]
        words += [f"--window-size={width},{height}", f"--user-data-dir={self.profile}", "about:blank"]
        quiet = {"stdin": subprocess.DEVNULL, "stdout": subprocess.DEVNULL, "stderr": subprocess.DEVNULL}
        self.process = subprocess.Popen(words, preexec_fn=wire, close_fds=False, **quiet)
        os.close(theirs_in)
        os.close(theirs_out)
        self.kept, self.number, self.session, self.events = b"", 0, None, []
        self.session = self.call("Target.attachToTarget", targetId=self.first_page(), flatten=True)["sessionId"]
        for domain in ("Page", "Runtime", "Log"):
            self.call(f"{domain}.enable")
        self.resize(width, height)

    def first_page(self):
        """The page that the browser opens of itself, which may come some time behind its first answer."""
        end = time.monotonic() + SECONDS
        while time.monotonic() < end:
            for it in self.call("Target.getTargets")["targetInfos"]:
                if it["type"] == "page":
                    return it["targetId"]
            time.sleep(0.03)
        raise Fault("chromium opens no page")

    def spent(self):
        """How many seconds of a processor the browser has used: what the clock says depends on what else the machine does."""
        used = processor_seconds(self.process.pid)
        return time.monotonic() if used is None else used

    def call(self, method, **params):
        """Calls a method of the protocol, and answers its result. What else arrives meanwhile goes to `events`."""
        self.number += 1
        message = {"id": self.number, "method": method, "params": params}
        if self.session:
            message["sessionId"] = self.session
        data = json.dumps(message).encode() + b"\0"
        while data:
            data = data[os.write(self.write_end, data[:30000]):]
        while True:
            said = self.receive()
            if said.get("id") == self.number:
                if "error" in said:
                    raise Fault(f"{method}: {said['error']}")
                return said["result"]
            self.events.append(said)

    def receive(self):
        while b"\0" not in self.kept:
            if not select.select([self.read_end], [], [], SECONDS)[0]:
                raise Fault(f"chromium says nothing for {SECONDS} seconds")
            more = os.read(self.read_end, 1 << 20)
            if not more:
                raise Fault("chromium ended")
            self.kept += more
        one, self.kept = self.kept.split(b"\0", 1)
        return json.loads(one)

    def resize(self, width, height):
        self.call("Emulation.setDeviceMetricsOverride", width=width, height=height, deviceScaleFactor=1, mobile=False)

    def eval(self, text):
        """The value of an expression, which is waited for where it is a promise."""
        result = self.call("Runtime.evaluate", expression=text, awaitPromise=True, returnByValue=True)
        if "exceptionDetails" in result:
            raise Fault(f"{text[:200]}: {result['exceptionDetails'].get('exception', {}).get('description')}")
        return result["result"].get("value")

    def wait(self, text, seconds=SECONDS):
        """Whether an expression comes to hold within some seconds."""
        end = time.monotonic() + seconds
        while time.monotonic() < end:
            if self.eval(text) is True:
                return True
            time.sleep(0.03)
        return False

    def go(self, url, ready):
        self.call("Page.navigate", url=url)
        return self.wait(ready)

    def press(self, key, count=1, held=0):
        """Presses a key, some times, with other keys held."""
        what = {"key": key, "code": key, "windowsVirtualKeyCode": KEYS[key], "modifiers": held}
        text = {"text": "\r"} if key == "Enter" else {}
        for _ in range(count):
            self.call("Input.dispatchKeyEvent", type="keyDown", **what, **text)
            self.call("Input.dispatchKeyEvent", type="keyUp", **what)

    def type(self, text):
        for letter in text:
            self.call("Input.dispatchKeyEvent", type="char", text=letter)

    def picture(self, path):
        with open(path, "wb") as file:
            file.write(base64.b64decode(self.call("Page.captureScreenshot", format="png")["data"]))

    def errors(self):
        """What the page threw, or the browser logged as an error."""
        self.eval("0")
        found = []
        for it in self.events:
            if it.get("method") == "Runtime.exceptionThrown":
                found.append(it["params"]["exceptionDetails"].get("exception", {}).get("description", "an exception"))
            if it.get("method") == "Log.entryAdded" and it["params"]["entry"]["level"] == "error":
                found.append(it["params"]["entry"]["text"])
        return found

    def close(self):
        try:
            self.session = None
            self.call("Browser.close")
        except (Fault, OSError):
            pass
        try:
            self.process.wait(timeout=60)
        except subprocess.TimeoutExpired:
            self.process.kill()
            self.process.wait()
