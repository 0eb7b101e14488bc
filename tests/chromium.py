"""Drives Debian's chromium, headless, over the pipe of its debugging protocol: no port, no network, nothing but the standard library."""

import fcntl
import json
import os
import select
import signal
import subprocess
import tempfile
import time

import programs

WAIT = 90  # seconds for one answer, on a machine that is busy
OPTIONS = ("--headless=new", "--remote-debugging-pipe", "--no-sandbox", "--disable-gpu", "--disable-dev-shm-usage", "--no-first-run",
           "--disable-background-networking", "--disable-component-update", "--disable-sync", "--host-resolver-rules=MAP * ~NOTFOUND",
           "--window-size=1400,900")


class BrowserFailed(Exception):
    """The browser did not answer, or answered with an error."""


def high(descriptor):
    """The same descriptor with a number that the two of the protocol, 3 and 4, cannot meet."""
    moved = fcntl.fcntl(descriptor, fcntl.F_DUPFD, 20)
    os.close(descriptor)
    return moved


class Browser:
    """One browser with one tab; a context, which ends both."""

    def __init__(self):
        programs.install("chromium", "chromium")
        self.folder = tempfile.TemporaryDirectory(ignore_cleanup_errors=True)
        (its_in, self.to), (self.come, its_out) = (map(high, pair) for pair in (os.pipe(), os.pipe()))
        browser = ["chromium", *OPTIONS, f"--user-data-dir={self.folder.name}", "about:blank"]
        words = ["bash", "-c", f'exec "$@" 3<&{its_in} 4>&{its_out}', "bash", *browser]
        quiet = {"stdin": subprocess.DEVNULL, "stdout": subprocess.DEVNULL, "stderr": subprocess.DEVNULL}
        self.process = subprocess.Popen(words, pass_fds=(its_in, its_out), start_new_session=True, **quiet)
        os.close(its_in)
        os.close(its_out)
        self.rest, self.count, self.session, self.events = b"", 0, None, []

    def __enter__(self):
        target = self.ask("Target.createTarget", url="about:blank")["targetId"]
        self.session = self.ask("Target.attachToTarget", targetId=target, flatten=True)["sessionId"]
        for part in ("Page", "Runtime", "Network", "Log"):
            self.ask(f"{part}.enable")
        return self

    def __exit__(self, *_):
        try:
            self.session = None
            self.ask("Browser.close")
            self.process.wait(10)
        except (BrowserFailed, OSError, subprocess.TimeoutExpired):
            os.killpg(self.process.pid, signal.SIGKILL)  # the group that this browser leads
            self.process.wait()
        self.folder.cleanup()

    def receive(self, until):
        """The next message; what is no answer is kept as an event."""
        while b"\0" not in self.rest:
            if not select.select([self.come], [], [], max(0, until - time.time()))[0]:
                raise BrowserFailed("the browser does not answer")
            part = os.read(self.come, 1 << 20)
            if not part:
                raise BrowserFailed("the browser has ended")
            self.rest += part
        message, self.rest = self.rest.split(b"\0", 1)
        message = json.loads(message)
        if "id" not in message:
            self.events.append(message)
        return message

    def ask(self, method, **parameters):
        """Sends one message and gives the answer."""
        self.count += 1
        message = {"id": self.count, "method": method, "params": parameters} | ({"sessionId": self.session} if self.session else {})
        data = memoryview(json.dumps(message).encode() + b"\0")
        while data:
            data = data[os.write(self.to, data):]
        until = time.time() + WAIT
        while True:
            answer = self.receive(until)
            if answer.get("id") == self.count:
                if "error" in answer:
                    raise BrowserFailed(f"{method}: {answer['error']}")
                return answer["result"]

    def navigate(self, address):
        """Goes to an address and waits until it is loaded; only what happened since is kept."""
        self.events.clear()
        self.ask("Page.navigate", url=address)
        until = time.time() + WAIT
        while not any(event["method"] == "Page.loadEventFired" for event in self.events):
            self.receive(until)

    def open(self, path):
        """Loads a file as a page, and gives the seconds that it took."""
        self.navigate("about:blank")
        began = time.time()
        self.navigate(path.resolve().as_uri())
        return time.time() - began

    def value(self, expression):
        """What an expression is on the page."""
        answer = self.ask("Runtime.evaluate", expression=expression, returnByValue=True, awaitPromise=True)
        if "exceptionDetails" in answer:
            raise BrowserFailed(f"{expression}: {answer['exceptionDetails']}")
        return answer["result"].get("value")

    def press(self, key, modifiers=0):
        """A key, as a person presses it."""
        text = {"text": key} if len(key) == 1 else {"text": "\r"} if key == "Enter" else {}
        for kind in ("keyDown", "keyUp"):
            self.ask("Input.dispatchKeyEvent", type=kind, key=key, modifiers=modifiers, **(text if kind == "keyDown" else {}))

    def type(self, words):
        self.ask("Input.insertText", text=words)

    def click(self, x, y):
        for kind in ("mousePressed", "mouseReleased"):
            self.ask("Input.dispatchMouseEvent", type=kind, x=x, y=y, button="left", clickCount=1)

    def click_on(self, selector, across=0.5):
        """A click on an element, so far across it."""
        x, y = self.value(f"(() => {{ const r = document.querySelector({json.dumps(selector)}).getBoundingClientRect();"
                          f" return [r.left + {across} * r.width, r.top + r.height / 2]; }})()")
        self.click(x, y)

    def wrongs(self):
        """What the page threw, logged as an error, or asked of the network."""
        found = []
        for event in self.events:
            method, said = event["method"], event.get("params", {})
            if method == "Runtime.exceptionThrown" or method == "Log.entryAdded" and said["entry"]["level"] == "error":
                found.append(str(said)[:500])
            if method == "Network.requestWillBeSent" and not said["request"]["url"].startswith(("file:", "about:", "data:")):
                found.append(f"asked the network for {said['request']['url']}")
        return found
