"""Chromium through the DevTools protocol: messages of JSON that end with a NUL, over the pipes 3 and 4 of its process.
"""

import base64
import fcntl
import json
import os
import select
import shutil
import subprocess
import tempfile
import time

NAMES = "chromium", "chromium-browser"
OPTIONS = ("--headless=new", "--remote-debugging-pipe", "--no-first-run", "--disable-gpu", "--disable-dev-shm-usage",
           "--disable-background-networking", "--disable-component-update", "--disable-sync", "--disable-extensions",
           "--no-proxy-server", "--force-device-scale-factor=1", "--window-size=1280,1500")
PATIENCE = 60       # seconds for an answer
FIRST_FREE = 10     # a number of a pipe that is neither 3 nor 4


class Failed(Exception):
    """What the browser answers with an error, or what does not come to be."""


def program():
    """The browser's file, or None."""
    return next(filter(None, map(shutil.which, NAMES)), None)


class Browser:
    """A browser without a window. It has a folder of its own and is ended with it."""

    def __init__(self):
        self.folder = tempfile.mkdtemp()
        theirs_in, self.out = os.pipe()
        self.into, theirs_out = os.pipe()
        kept = [fcntl.fcntl(pipe, fcntl.F_DUPFD, FIRST_FREE) for pipe in (theirs_in, theirs_out)]
        sandbox = ("--no-sandbox",) if os.getuid() == 0 else ()
        self.process = subprocess.Popen(
            [program(), *OPTIONS, *sandbox, f"--user-data-dir={self.folder}", "about:blank"],
            stdin=subprocess.DEVNULL, stdout=subprocess.DEVNULL, stderr=subprocess.DEVNULL, pass_fds=(3, 4),
            preexec_fn=lambda: [os.dup2(pipe, number) for number, pipe in enumerate(kept, 3)])
        for pipe in (theirs_in, theirs_out, *kept):
            os.close(pipe)
        self.read, self.number, self.events = b"", 0, []

    def close(self):
        try:
            self.send("Browser.close")
        except (Failed, OSError):
            self.process.kill()
        self.process.wait(PATIENCE)
        os.close(self.into)
        os.close(self.out)
        for _ in range(50):     # its last children may still write there
            shutil.rmtree(self.folder, ignore_errors=True)
            if not os.path.exists(self.folder):
                break
            time.sleep(0.1)

    def send(self, method, session=None, **given):
        """Sends a command and gives its answer; events that come before it are kept."""
        self.number += 1
        message = {"id": self.number, "method": method, "params": given}
        if session:
            message["sessionId"] = session
        data = json.dumps(message).encode() + b"\0"
        while data:
            data = data[os.write(self.out, data):]
        while True:
            found = self.message()
            if found.get("id") == self.number:
                if "error" in found:
                    raise Failed(f"{method}: {found['error'].get('message')}")
                return found["result"]
            self.events.append(found)

    def message(self):
        while b"\0" not in self.read:
            if not select.select([self.into], [], [], PATIENCE)[0]:
                raise Failed(f"the browser says nothing for {PATIENCE} s")
            part = os.read(self.into, 1 << 16)
            if not part:
                raise Failed("the browser has ended")
            self.read += part
        one, self.read = self.read.split(b"\0", 1)
        return json.loads(one)


class Page:
    """A page of the browser, at an address."""

    def __init__(self, browser, address):
        self.browser = browser
        target = browser.send("Target.createTarget", url="about:blank")["targetId"]
        self.session = browser.send("Target.attachToTarget", targetId=target, flatten=True)["sessionId"]
        self.target = target
        for domain in ("Page", "Runtime", "Network", "Log", "DOM", "Accessibility"):
            self.send(f"{domain}.enable")
        self.go(address)

    def go(self, address):
        self.send("Page.navigate", url=address)
        self.wait("document.body && document.body.dataset.ready === 'yes'")

    def close(self):
        self.browser.send("Target.closeTarget", targetId=self.target)

    def send(self, method, **given):
        return self.browser.send(method, self.session, **given)

    def events(self, name):
        """What the page has reported under this name."""
        return [one["params"] for one in self.browser.events
                if one.get("method") == name and one.get("sessionId") == self.session]

    def value(self, expression):
        """What an expression of JavaScript gives on the page."""
        found = self.send("Runtime.evaluate", expression=expression, returnByValue=True, awaitPromise=True)
        if "exceptionDetails" in found:
            raise Failed(f"{expression}: {found['exceptionDetails']}")
        return found["result"].get("value")

    def wait(self, expression, seconds=PATIENCE):
        """Waits until an expression holds."""
        until = time.monotonic() + seconds
        while not self.value(f"!!({expression})"):
            if time.monotonic() > until:
                raise Failed(f"not so within {seconds} s: {expression}")
            time.sleep(0.02)

    def click(self, x, y, to=None):
        """Presses the mouse at a place of the page; where another is given it is pulled there."""
        for kind, place, buttons in (("mouseMoved", (x, y), 0), ("mousePressed", (x, y), 1),
                                     ("mouseMoved", to or (x, y), 1), ("mouseReleased", to or (x, y), 0)):
            pressed = {} if kind == "mouseMoved" and not buttons else {"button": "left", "clickCount": 1}
            self.send("Input.dispatchMouseEvent", type=kind, x=place[0], y=place[1], buttons=buttons, **pressed)

    def click_on(self, selector):
        """Clicks on the middle of an element, which is brought into view."""
        x, y = self.value(f"""(() => {{
            const one = document.querySelector({json.dumps(selector)});
            one.scrollIntoView({{block: "center"}});
            const box = one.getBoundingClientRect();
            return [box.left + box.width / 2, box.top + box.height / 2]; }})()""")
        self.click(x, y)

    def key(self, name, code=0, text="", modifiers=0):
        given = {"key": name, "windowsVirtualKeyCode": code, "modifiers": modifiers}
        self.send("Input.dispatchKeyEvent", type="keyDown", **given, **({"text": text} if text else {}))
        self.send("Input.dispatchKeyEvent", type="keyUp", **given)

    def type_into(self, selector, text):
        """Puts a text into a field as if it was typed."""
        field = f"document.querySelector({json.dumps(selector)})"
        self.value(f"(() => {{ {field}.focus(); {field}.select(); }})()")
        self.send("Input.insertText", text=str(text))

    def open_file(self, selector, file):
        root = self.send("DOM.getDocument")["root"]["nodeId"]
        node = self.send("DOM.querySelector", nodeId=root, selector=selector)["nodeId"]
        self.send("DOM.setFileInputFiles", files=[str(file)], nodeId=node)

    def screenshot(self, height, scale):
        """The upper part of the page, as PNG."""
        width = self.value("document.documentElement.clientWidth")
        clip = {"x": 0, "y": 0, "width": width, "height": height, "scale": scale}
        return base64.b64decode(self.send("Page.captureScreenshot", format="png", clip=clip)["data"])
