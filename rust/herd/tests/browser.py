"""Chromium driven through its debugging pipe: a page is opened, looked at, and touched as a person would.

Run by itself it says in its status whether there is one.
"""
import base64
import fcntl
import json
import os
import select
import shutil
import signal
import sys
import time

NAMES = ["chromium", "chromium-browser", "google-chrome", "chrome"]
SECONDS = 60
KEYS = {"Backspace": 8, "Enter": 13, "End": 35, "Home": 36, "ArrowLeft": 37, "ArrowUp": 38, "ArrowRight": 39,
        "ArrowDown": 40}
COMPLAINTS = ("Runtime.exceptionThrown", "Runtime.consoleAPICalled", "Log.entryAdded")
DRAWN = "new Promise(done => requestAnimationFrame(() => requestAnimationFrame(done)))"


def find():
    """Where a browser is, or nothing."""
    return next(filter(None, map(shutil.which, NAMES)), None)


class Browser:
    """Chromium, spoken to by JSON messages that end in a zero byte, on its descriptors 3 and 4."""

    def __init__(self, program, folder):
        to_browser, self.to = self.pipe()
        self.back, from_browser = self.pipe()
        nothing = os.open(os.devnull, os.O_RDWR)
        flags = ["--headless=new", "--no-sandbox", "--disable-gpu", "--remote-debugging-pipe", "--no-first-run",
                 "--disable-dev-shm-usage", "--hide-scrollbars", f"--user-data-dir={folder}", "about:blank"]
        copies = [(nothing, 0), (nothing, 1), (nothing, 2), (to_browser, 3), (from_browser, 4)]
        actions = [(os.POSIX_SPAWN_DUP2, old, new) for old, new in copies]
        self.process = os.posix_spawn(program, [program, *flags], os.environ, file_actions=actions, setpgroup=0)
        for descriptor in (to_browser, from_browser, nothing):
            os.close(descriptor)
        self.sent, self.bytes, self.events = 0, b"", []

    @staticmethod
    def pipe():
        """Both ends above the descriptors that the browser takes."""
        low = os.pipe()
        high = [fcntl.fcntl(end, fcntl.F_DUPFD_CLOEXEC, 16) for end in low]
        for end in low:
            os.close(end)
        return high

    def call(self, method, session=None, **parameters):
        self.sent += 1
        message = {"id": self.sent, "method": method, "params": parameters}
        if session:
            message["sessionId"] = session
        os.write(self.to, json.dumps(message).encode() + b"\0")
        while True:
            reply = self.message(SECONDS)
            if reply.get("id") == self.sent:
                break
            self.events.append(reply)
        if "error" in reply:
            raise RuntimeError(f"{method}: {reply['error']['message']}")
        return reply["result"]

    def message(self, seconds):
        end = time.monotonic() + seconds
        while b"\0" not in self.bytes:
            if not select.select([self.back], [], [], max(0, end - time.monotonic()))[0]:
                raise RuntimeError("the browser does not answer")
            read = os.read(self.back, 1 << 16)
            if not read:
                raise RuntimeError("the browser ended")
            self.bytes += read
        message, self.bytes = self.bytes.split(b"\0", 1)
        return json.loads(message)

    def wait_for(self, method, session):
        """Until an event came, be it one that came before."""
        is_it = lambda event: event.get("method") == method and event.get("sessionId") == session
        while not any(map(is_it, self.events)):
            self.events.append(self.message(SECONDS))

    def close(self):
        try:
            self.call("Browser.close")
        except RuntimeError:
            os.killpg(self.process, signal.SIGKILL)
        os.waitpid(self.process, 0)


class Page:
    """A page in a tab of its own, with what a person can do to it."""

    def __init__(self, browser, file, width=1000, height=900, is_phone=False):
        self.browser = browser
        target = browser.call("Target.createTarget", url="about:blank")["targetId"]
        self.session = browser.call("Target.attachToTarget", targetId=target, flatten=True)["sessionId"]
        self.target, self.url = target, file.resolve().as_uri()
        for domain in ("Page", "Runtime", "Log", "Network"):
            self.call(f"{domain}.enable")
        self.size(width, height, is_phone)
        begun = time.monotonic()
        self.call("Page.navigate", url=self.url)
        browser.wait_for("Page.loadEventFired", self.session)
        self.see(DRAWN)
        self.seconds = time.monotonic() - begun

    def call(self, method, **parameters):
        return self.browser.call(method, self.session, **parameters)

    def size(self, width, height, is_phone=False):
        self.call("Emulation.setDeviceMetricsOverride", width=width, height=height, deviceScaleFactor=1,
                  mobile=is_phone)
        self.see(DRAWN)

    def see(self, expression):
        """What an expression is on the page. It reads; it does not act."""
        reply = self.call("Runtime.evaluate", expression=expression, returnByValue=True, awaitPromise=True)
        if "exceptionDetails" in reply:
            raise RuntimeError(f"{reply['exceptionDetails']['exception']['description']}\n{expression}")
        return reply["result"].get("value")

    def text(self, selector):
        return self.see(f"document.querySelector({json.dumps(selector)})?.innerText")

    def texts(self, selector):
        elements = f"[...document.querySelectorAll({json.dumps(selector)})]"
        return self.see(f"{elements}.map(element => element.innerText.trim())")

    def rows(self, table):
        return self.see(f"[...document.querySelectorAll('{table} > tbody > tr')].map(row => "
                        "[...row.cells].map(cell => cell.innerText.trim()))")

    def click(self, selector, nth=0, across=0.5):
        """In the middle of an element, or at another part of its width; of a slot, in its rectangle."""
        x, y = self.see(f"""(() => {{
            const element = document.querySelectorAll({json.dumps(selector)})[{nth}];
            element.scrollIntoView({{ block: "center" }});
            const box = (element.matches("g") ? element.querySelector("rect") : element).getBoundingClientRect();
            return [box.x + box.width * {across}, box.y + box.height / 2];
        }})()""")
        for kind in ("mousePressed", "mouseReleased"):
            self.call("Input.dispatchMouseEvent", type=kind, x=x, y=y, button="left", clickCount=1)

    def focus(self, selector):
        self.see(f"document.querySelector({json.dumps(selector)}).focus()")

    def key(self, name):
        for kind in ("keyDown", "keyUp"):
            code = KEYS[name]
            more = {"text": "\r"} if name == "Enter" and kind == "keyDown" else {}
            self.call("Input.dispatchKeyEvent", type=kind, key=name, code=name, windowsVirtualKeyCode=code, **more)

    def type(self, selector, text):
        """In place of what is there."""
        self.click(selector)
        self.call("Input.dispatchKeyEvent", type="keyDown", key="a", code="KeyA", windowsVirtualKeyCode=65, modifiers=2,
                  commands=["selectAll"])
        self.key("Backspace")
        if text:
            self.call("Input.insertText", text=text)

    def picture(self, width, height):
        """The top of it as a PNG."""
        clip = {"x": 0, "y": 0, "width": width, "height": height, "scale": 1}
        return base64.b64decode(self.call("Page.captureScreenshot", captureBeyondViewport=True, clip=clip)["data"])

    def paper(self):
        """The whole as a PDF."""
        return base64.b64decode(self.call("Page.printToPDF")["data"])

    def told(self):
        """What the browser complained of, and what it asked for, the page itself among it."""
        mine = [event for event in self.browser.events if event.get("sessionId") == self.session]
        complaints = [event["params"] for event in mine if event["method"] in COMPLAINTS]
        asked = [event["params"]["request"]["url"] for event in mine if event["method"] == "Network.requestWillBeSent"]
        return complaints, asked

    def close(self):
        self.browser.call("Target.closeTarget", targetId=self.target)


if __name__ == "__main__":
    sys.exit(find() is None)
