"""A browser without a window, for tests: Chromium, by its own protocol.

Run by itself, it tells by its exit status whether there is one.

Messages go through two pipes, so nothing but Python's own modules is needed:
each is a JSON text and a zero byte. All waiting has a limit, and closing ends
every process that was started.
"""

import base64
import fcntl
import json
import os
import pathlib
import select
import shutil
import signal
import sys
import tempfile
import time

NAMES = ("chromium", "chromium-headless-shell", "google-chrome",
         "chromium-browser")
OPTIONS = ("--headless", "--no-sandbox", "--disable-gpu",
           "--remote-debugging-pipe", "--no-first-run",
           "--disable-background-networking", "--disable-breakpad",
           "--disable-dev-shm-usage", "--hide-scrollbars")

LIMIT = 60  # seconds for one answer; a busy machine may need many
LIMIT_TO_END = 10

# The numbers by which Chromium knows the keys that type nothing.
KEY_CODES = {"ArrowLeft": 37, "ArrowUp": 38, "ArrowRight": 39,
             "ArrowDown": 40, "PageUp": 33, "PageDown": 34, "End": 35,
             "Home": 36, "Tab": 9, "Enter": 13, "Escape": 27}
TYPED = {"Enter": "\r"}
SHIFT = 8


class Failed(Exception):
    """The browser did not do what it was told, or not in time."""


def program():
    """The path of a Chromium, or None."""
    return next(filter(None, map(shutil.which, NAMES)), None)


def apart(end):
    """A pipe's end under a number that is not wanted for anything else."""
    moved = fcntl.fcntl(end, fcntl.F_DUPFD_CLOEXEC, 10)
    os.close(end)
    return moved


def started(path, profile):
    """Start the program; its number, and the pipes to and from it.

    It reads at descriptor 3 and writes at 4. It gets a process group of its
    own, by which all that it starts can be ended.
    """
    its_input, ours = map(apart, os.pipe())
    from_it, its_output = map(apart, os.pipe())
    nothing = os.open(os.devnull, os.O_RDWR | os.O_CLOEXEC)
    dup = os.POSIX_SPAWN_DUP2
    number = os.posix_spawn(
        path, [path, *OPTIONS, "--user-data-dir=" + profile], os.environ,
        setpgroup=0, file_actions=[
            *((dup, nothing, standard) for standard in (0, 1, 2)),
            (dup, its_input, 3), (dup, its_output, 4)])
    for end in (its_input, its_output, nothing):
        os.close(end)
    return number, ours, from_it


class Browser:
    """A browser with one page open; to be used by 'with'."""

    def __init__(self):
        self.profile = tempfile.mkdtemp(prefix="foqheran-browser-")
        self.number, self.to, self.of = started(program(), self.profile)
        os.set_blocking(self.to, False)
        self.pending, self.last_sent, self.session = b"", 0, None
        self.events = []  # what it told without being asked
        try:
            target = self.call("Target.createTarget", url="about:blank")
            self.session = self.call("Target.attachToTarget", flatten=True,
                                     targetId=target["targetId"])["sessionId"]
            for domain in ("Page", "Runtime", "Log", "Network"):
                self.call(domain + ".enable")
        except BaseException:
            self.close()
            raise

    def __enter__(self):
        return self

    def __exit__(self, *_):
        self.close()

    def close(self):
        """End it: ask, give it some time, then end what is still there.

        It is waited for at last, so that its number stays its own till then.
        """
        try:
            self.send("Browser.close", {}, None)
            self.wait_for_end()
        except (Failed, OSError):
            pass
        os.killpg(self.number, signal.SIGKILL)
        os.waitpid(self.number, 0)
        os.close(self.to)
        os.close(self.of)
        shutil.rmtree(self.profile, ignore_errors=True)

    def wait_for_end(self):
        until = time.monotonic() + LIMIT_TO_END
        look = os.WEXITED | os.WNOHANG | os.WNOWAIT
        while os.waitid(os.P_PID, self.number, look) is None:
            if time.monotonic() > until:
                raise Failed("the browser does not end")
            time.sleep(0.01)

    # Messages.

    def send(self, method, parameters, session):
        self.last_sent += 1
        message = {"id": self.last_sent, "method": method,
                   "params": parameters}
        if session:
            message["sessionId"] = session
        rest = json.dumps(message).encode() + b"\0"
        until = time.monotonic() + LIMIT
        while rest:
            left = max(until - time.monotonic(), 0)
            if not select.select((), (self.to,), (), left)[1]:
                raise Failed("the browser does not read")
            rest = rest[os.write(self.to, rest):]
        return self.last_sent

    def receive(self, until):
        """The next message, whatever it is."""
        while b"\0" not in self.pending:
            left = until - time.monotonic()
            if left <= 0 or not select.select((self.of,), (), (), left)[0]:
                raise Failed("the browser does not answer")
            read = os.read(self.of, 1 << 16)
            if not read:
                raise Failed("the browser has ended")
            self.pending += read
        message, _, self.pending = self.pending.partition(b"\0")
        return json.loads(message)

    def call(self, method, **parameters):
        """The result of one command."""
        number = self.send(method, parameters, self.session)
        until = time.monotonic() + LIMIT
        while True:
            message = self.receive(until)
            if message.get("id") == number:
                break
            self.events.append(message)
        if "error" in message:
            raise Failed("%s: %s" % (method, message["error"]["message"]))
        return message["result"]

    def wait_for(self, event, since):
        """Wait for an event that comes after so many others."""
        until = time.monotonic() + LIMIT
        while all(told.get("method") != event for told in self.events[since:]):
            self.events.append(self.receive(until))

    # What a reader does.

    def open(self, path, fragment=""):
        """Open a file and wait until it is there."""
        url = pathlib.Path(path).resolve().as_uri() + fragment
        # From an empty page, or a fragment alone would not load anything.
        for address in ("about:blank", url):
            self.load("Page.navigate", url=address)
        return url

    def load(self, method, **parameters):
        since = len(self.events)
        answer = self.call(method, **parameters)
        if answer.get("errorText"):
            raise Failed(answer["errorText"])
        self.wait_for("Page.loadEventFired", since)

    def reload(self):
        self.load("Page.reload")

    def evaluate(self, expression):
        """The value of an expression in the page, as by JSON."""
        answer = self.call("Runtime.evaluate", expression=expression,
                           returnByValue=True, awaitPromise=True)
        if "exceptionDetails" in answer:
            raise Failed("%s: %s" % (expression,
                                     answer["exceptionDetails"]))
        return answer["result"].get("value")

    def key(self, name, shift=False):
        """Press a key, by its name or the letter it types."""
        typed = TYPED.get(name, name if len(name) == 1 else "")
        press = {"key": name, "modifiers": SHIFT if shift else 0,
                 "windowsVirtualKeyCode": KEY_CODES.get(name)
                 or ord(name.upper())}
        self.call("Input.dispatchKeyEvent", text=typed,
                  type="keyDown" if typed else "rawKeyDown", **press)
        self.call("Input.dispatchKeyEvent", type="keyUp", **press)

    def click(self, selector, across=0.5):
        """Click on an element, so far across it from the left."""
        x, y = self.evaluate("""(() => {
            const element = document.querySelector(%s);
            element.scrollIntoView({block: 'nearest'});
            const box = element.getBoundingClientRect();
            return [box.left + %r * box.width, box.top + box.height / 2];
            })()""" % (json.dumps(selector), across))
        for kind in ("mousePressed", "mouseReleased"):
            self.call("Input.dispatchMouseEvent", type=kind, x=x, y=y,
                      button="left", clickCount=1)

    def view(self, width, height, dark=False):
        """The size of the window, and which colours the reader prefers."""
        self.call("Emulation.setDeviceMetricsOverride", width=width,
                  height=height, deviceScaleFactor=1, mobile=False)
        self.call("Emulation.setEmulatedMedia", features=[
            {"name": "prefers-color-scheme",
             "value": "dark" if dark else "light"}])

    def screenshot(self, path, width, height, dark=False):
        self.view(width, height, dark)
        image = self.call("Page.captureScreenshot")["data"]
        pathlib.Path(path).write_bytes(base64.b64decode(image))

    # What it told.

    def told(self, method):
        return [event["params"] for event in self.events
                if event.get("method") == method]

    def complaints(self):
        """Exceptions, and what was written to the console or the log."""
        return [*self.told("Runtime.exceptionThrown"),
                *self.told("Runtime.consoleAPICalled"),
                *self.told("Log.entryAdded")]

    def requests(self):
        """The addresses that were asked for, besides the empty page's."""
        return [told["request"]["url"]
                for told in self.told("Network.requestWillBeSent")
                if told["request"]["url"] != "about:blank"]


if __name__ == "__main__":
    sys.exit(0 if program() else 1)
