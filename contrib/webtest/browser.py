"""Chromium without a window, driven over a pipe by the DevTools protocol, with clicks and keys as a
person's.
"""
import base64
import json
import os
import select
import subprocess
import time

# How many seconds are waited for something to be on the page, and for the browser to answer.
PATIENCE, ANSWER = 40, 90
# And for a screen, which may read a whole log.
LONG = 300

OPTIONS = [
    "--headless=new",
    "--no-sandbox",
    "--disable-gpu",
    "--disable-dev-shm-usage",
    "--no-first-run",
    "--disable-background-networking",
    "--disable-component-update",
    "--disable-sync",
    "--disable-extensions",
    "--ignore-certificate-errors",
    "--hide-scrollbars",
    "--lang=en",
    "--remote-debugging-pipe",
]

# The middle of an element by its kind and the text or label with which its name begins.
LOCATE = """(kind, text, nth) => {
  const name = e => (e.getAttribute('aria-label') || e.labels?.[0]?.firstChild.textContent || e.textContent || '').trim();
  const found = [...document.querySelectorAll(kind)].filter(e => e.offsetParent !== null && (!text || name(e).startsWith(text)));
  const e = found.at(nth);
  if (!e) return null;
  e.scrollIntoView({block: 'center'});
  const box = e.getClientRects()[0];
  return [box.x + Math.min(box.width / 2, 200), box.y + box.height / 2];
}"""


class Problem(Exception):
    """What the page did not do, or the browser refused."""


class Browser:
    """A browser with a profile of its own in a folder. `hosts` gives the port of this machine for
    each host.
    """

    def __init__(self, folder, hosts):
        told, self.tells = os.pipe()
        self.hears, heard = os.pipe()
        rules = ", ".join(f"MAP {host}:443 127.0.0.1:{port}" for host, port in hosts.items())

        def pipes():
            # The protocol's are 3 and 4. The copies keep one from replacing the other.
            one, other = os.dup(told), os.dup(heard)
            os.dup2(one, 3)
            os.dup2(other, 4)

        words = [
            "chromium",
            *OPTIONS,
            f"--user-data-dir={folder}/profile",
            f"--host-resolver-rules={rules}",
        ]
        with open(f"{folder}/chromium.log", "wb") as log:
            self.child = subprocess.Popen(
                words,
                preexec_fn=pipes,
                close_fds=False,
                stdin=subprocess.DEVNULL,
                stdout=log,
                stderr=log,
            )
        os.close(told)
        os.close(heard)
        self.bytes, self.number, self.events = b"", 0, []

    def read(self, seconds):
        """The next message, or None if none comes in time."""
        while b"\0" not in self.bytes:
            if not select.select([self.hears], [], [], max(0, seconds))[0]:
                return None
            more = os.read(self.hears, 1 << 20)
            if not more:
                raise SystemExit("the browser ended")
            self.bytes += more
        message, self.bytes = self.bytes.split(b"\0", 1)
        return json.loads(message)

    def send(self, method, session=None, **params):
        self.number += 1
        number = self.number
        message = {"id": number, "method": method, "params": params} | (
            {"sessionId": session} if session else {}
        )
        os.write(self.tells, json.dumps(message).encode() + b"\0")
        until = time.monotonic() + ANSWER
        while message := self.read(until - time.monotonic()):
            if message.get("id") == number:
                if "error" in message:
                    raise Problem(f"{method}: {message['error']['message']}")
                return message["result"]
            if "method" in message:
                self.events.append(message)
        raise Problem(f"{method}: no answer")

    def listen(self, seconds):
        """Takes what happens in this time."""
        until = time.monotonic() + seconds
        while (left := until - time.monotonic()) > 0:
            if (message := self.read(left)) and "method" in message:
                self.events.append(message)

    def happened(self, method):
        return [event["params"] for event in self.events if event["method"] == method]

    def end(self):
        try:
            self.send("Browser.close")
            self.child.wait(10)
        except (Problem, SystemExit, OSError, subprocess.TimeoutExpired):
            self.child.kill()
            self.child.wait()
        os.close(self.tells)
        os.close(self.hears)


class Page:
    """A tab whose storage no other tab sees, as one of another person's browser."""

    def __init__(self, browser, width=1000, height=900, mobile=False, scale=1):
        self.browser = browser
        self.context = browser.send("Target.createBrowserContext")["browserContextId"]
        target = browser.send(
            "Target.createTarget", url="about:blank", browserContextId=self.context
        )["targetId"]
        self.session = browser.send("Target.attachToTarget", targetId=target, flatten=True)[
            "sessionId"
        ]
        for domain in ("Page", "Runtime", "Network", "Log", "Accessibility"):
            self.send(f"{domain}.enable")
        self.send(
            "Emulation.setDeviceMetricsOverride",
            width=width,
            height=height,
            deviceScaleFactor=scale,
            mobile=mobile,
        )

    def send(self, method, **params):
        return self.browser.send(method, self.session, **params)

    def close(self):
        self.browser.send("Target.disposeBrowserContext", browserContextId=self.context)

    def eval(self, code):
        """The value of an expression, under the page's own policy."""
        told = self.send(
            "Runtime.evaluate",
            expression=code,
            awaitPromise=True,
            returnByValue=True,
            userGesture=True,
            allowUnsafeEvalBlockedByCSP=False,
        )
        if "exceptionDetails" in told:
            raise Problem(json.dumps(told["exceptionDetails"])[:500])
        return told["result"].get("value")

    def wait(self, code, what=None, seconds=PATIENCE):
        """The value of an expression, once it has one that is true."""
        until = time.monotonic() + seconds
        while time.monotonic() < until:
            try:
                if value := self.eval(code):
                    return value
            except Problem:
                pass  # the page may be going on to another one
            self.browser.listen(0.03)
        raise Problem(f"there is no {what or code}")

    def open(self, url):
        self.send("Page.navigate", url=url)

    def at(self, kind, text=None, nth=0):
        return self.wait(
            f"({LOCATE})({json.dumps(kind)}, {json.dumps(text)}, {nth})", f"{kind} {text or ''}"
        )

    def click(self, kind, text=None, nth=0, times=1):
        x, y = self.at(kind, text, nth)
        for count in range(1, times + 1):
            for event in ("mousePressed", "mouseReleased"):
                self.send(
                    "Input.dispatchMouseEvent",
                    type=event,
                    x=x,
                    y=y,
                    button="left",
                    clickCount=count,
                )

    def fill(self, kind, text, label=None, nth=0):
        self.click(kind, label, nth)
        self.eval("document.activeElement.select?.()")
        self.send("Input.insertText", text=text)

    def type(self, text):
        self.send("Input.insertText", text=text)

    def key(self, key, number, text=None):
        for event in ("keyDown", "keyUp"):
            more = {"text": text} if text and event == "keyDown" else {}
            self.send(
                "Input.dispatchKeyEvent",
                type=event,
                key=key,
                code=key,
                windowsVirtualKeyCode=number,
                **more,
            )

    def tab(self):
        self.key("Tab", 9)

    def enter(self):
        self.key("Enter", 13, "\r")

    def text(self):
        return self.eval("document.body.innerText")

    def has(self, text, seconds=PATIENCE):
        return self.wait(
            f"document.body.innerText.includes({json.dumps(text)})", f"text '{text}'", seconds
        )

    def picture(self, path):
        self.eval("new Promise(done => setTimeout(done, 150))")
        with open(path, "wb") as file:
            file.write(base64.b64decode(self.send("Page.captureScreenshot", format="png")["data"]))

    # ---- the members' page

    def settle(self, turn=-1):
        """Waits until a screen is shown, later than this turn."""
        self.wait(
            f"(m => m?.dataset.view && m.dataset.turn > {turn} && !m.hasAttribute('aria-busy'))(document.getElementById('main'))",
            "screen",
            LONG,
        )

    def go(self, place):
        """Goes to a screen: by the link of this text, or by its address, which begins with #."""
        turn = self.eval("document.getElementById('main').dataset.turn") or 0
        if not place.startswith("#"):
            self.click("nav a", place)
        elif self.eval("location.hash") == place:
            self.eval("dispatchEvent(new Event('hashchange'))")
        else:
            self.eval(f"location.hash = {json.dumps(place)}")
        self.settle(turn)

    def screen(self):
        """The text of the screen, without what is said at the foot of the page."""
        return self.eval("document.getElementById('main').innerText")

    def view(self):
        return self.eval("document.getElementById('main').dataset.view")

    def in_note(self, text, action):
        """What a function of an article does with the one that has this text, once there is one."""
        found = f"[...document.querySelectorAll('article')].find(a => a.textContent.includes({json.dumps(text)}))"
        return self.wait(f"({found}) && ({action})({found})", f"note '{text}'")

    def place_of(self, text):
        """Where the note of this text is, as #/@ana/3."""
        return self.in_note(text, "a => a.querySelector('a.open').getAttribute('href')")

    def press(self, text, button):
        """Clicks a button of the note of this text."""
        self.in_note(
            text,
            "a => { document.querySelectorAll('[data-picked]').forEach(e => delete e.dataset.picked);"
            " a.dataset.picked = ''; return true; }",
        )
        self.click("article[data-picked] button", button)
