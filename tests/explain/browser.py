"""A real browser, Debian's chromium without a window, led over a pipe by the protocol of its own developer tools."""

import base64
import json
import os
import shutil
import subprocess
import tempfile

CHROMIUM = shutil.which("chromium")
MISSING = "Debian's chromium isn't installed, so the page was not tried in a browser"
LONGEST = 300  # seconds that a browser may take until it is ended
KEYS = {"ArrowLeft": 37, "ArrowUp": 38, "ArrowRight": 39, "ArrowDown": 40, "End": 35, "Home": 36, "Escape": 27}


class Browser:
    """A browser with one page; a with-statement ends it."""

    def __enter__(self):
        self.folder = tempfile.TemporaryDirectory()
        inward, self.sending = os.pipe()
        self.receiving, outward = os.pipe()
        command = [CHROMIUM, "--headless", "--no-sandbox", "--disable-gpu", "--disable-dev-shm-usage", "--remote-debugging-pipe",
                   f"--user-data-dir={self.folder.name}", "about:blank"]
        # The browser wants the pipes as its files 3 and 4, whatever their numbers are here.
        lead = f'exec 3<&{inward} 4>&{outward}; exec timeout {LONGEST} "$@"'
        self.process = subprocess.Popen(["bash", "-c", lead, "browser", *command], pass_fds=(inward, outward),
                                        stdin=subprocess.DEVNULL, stdout=subprocess.DEVNULL, stderr=subprocess.DEVNULL)
        os.close(inward)
        os.close(outward)
        self.incoming, self.number, self.session, self.events = os.fdopen(self.receiving, "rb"), 0, None, []
        self.held = b""
        targets = self.ask("Target.getTargets")["targetInfos"]
        page = next(target["targetId"] for target in targets if target["type"] == "page")
        self.session = self.ask("Target.attachToTarget", targetId=page, flatten=True)["sessionId"]
        for part in ("Page", "Runtime", "Network", "Log"):
            self.ask(f"{part}.enable")
        return self

    def __exit__(self, *_):
        os.close(self.sending)
        self.process.terminate()
        self.process.wait()
        self.incoming.close()
        self.folder.cleanup()

    def ask(self, method, **parts):
        """Asks the browser for something and waits for its answer; what it tells in between is kept in events."""
        self.number += 1
        message = {"id": self.number, "method": method, "params": parts}
        if self.session:
            message["sessionId"] = self.session
        os.write(self.sending, json.dumps(message).encode() + b"\0")
        while True:
            answer = self.next_message()
            if answer.get("id") == self.number:
                if "error" in answer:
                    raise RuntimeError(f"{method}: {answer['error']['message']}")
                return answer["result"]
            self.events.append(answer)

    def next_message(self):
        """The next message of the browser."""
        while b"\0" not in self.held:
            more = os.read(self.receiving, 1 << 20)
            if not more:
                raise RuntimeError("the browser has ended")
            self.held += more
        message, self.held = self.held.split(b"\0", 1)
        return json.loads(message)

    def open(self, path, width=1400, height=900):
        """Opens a file in a window of this size, and waits until it is loaded."""
        self.events.clear()
        self.ask("Emulation.setDeviceMetricsOverride", width=width, height=height, deviceScaleFactor=1, mobile=False)
        self.ask("Page.navigate", url=f"file://{path}")
        while not any(event.get("method") == "Page.loadEventFired" for event in self.events):
            self.events.append(self.next_message())

    def value(self, expression):
        """What an expression is in the page."""
        answer = self.ask("Runtime.evaluate", expression=expression, returnByValue=True)
        if "exceptionDetails" in answer:
            raise RuntimeError(f"{expression}: {answer['exceptionDetails']['exception'].get('description')}")
        return answer["result"].get("value")

    def click(self, x, y):
        """A click of the mouse at a place of the window."""
        for kind in ("mousePressed", "mouseReleased"):
            self.ask("Input.dispatchMouseEvent", type=kind, x=x, y=y, button="left", clickCount=1)

    def key(self, name):
        """A key, pressed and let go: a named one or a letter."""
        known = {"windowsVirtualKeyCode": KEYS[name]} if name in KEYS else {"text": name}
        for kind in ("keyDown", "keyUp"):
            self.ask("Input.dispatchKeyEvent", type=kind, key=name, **known)

    def type(self, words):
        """Some words on the keyboard."""
        for letter in words:
            self.key(letter)

    def picture(self):
        """The window as a PNG picture."""
        return base64.b64decode(self.ask("Page.captureScreenshot", format="png")["data"])

    def printed(self):
        """The page as printed, a PDF file."""
        return base64.b64decode(self.ask("Page.printToPDF", preferCSSPageSize=True)["data"])
