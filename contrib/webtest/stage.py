"""Two stores with their sites, a browser, and what is checked of them."""
import os
import subprocess
import sys
import time

from browser import Browser, Page, Problem
from town import HERE, HILL, HOST, OPEN, OTHER, Elsewhere, Town
from proxy import Site

EVIL = "evil.example"


class Caught(Exception):
    """A check that failed where one has to."""


class Checks:
    """What was checked, and how often it held. With `first` the first that fails ends the part."""

    def __init__(self, first=False):
        self.first, self.held, self.failed = first, 0, []

    def check(self, what, holds, more=""):
        if holds:
            self.held += 1
        else:
            self.failed.append(what)
        if self.first and not holds:
            raise Caught(what)
        if not self.first:
            print("ok    " if holds else "FAILED", what, "" if holds else more, flush=True)

    def run(self, stage, steps):
        """Takes the steps in their order. One that cannot go on is a check that failed."""
        for step in steps:
            begun = time.monotonic()
            try:
                step(stage, self.check)
            except Problem as problem:
                self.check(f"{step.__name__}: {problem}", False)
            if not self.first:
                print(f"       {step.__name__} took {time.monotonic() - begun:.1f} s", flush=True)


class Stage:
    """The town club.example, whose page is tried, its peer hill.example, and a page of another
    origin.
    """

    def __init__(self, path, folder, page=None, policy=True, pictures=None):
        self.folder, self.pictures = folder, pictures
        self.town = Town(
            path, f"{folder}/club", HOST, ["ana", "ben", "cleo", "dan"], page, policy, [HILL]
        )
        self.hill = Town(path, f"{folder}/hill", HILL, ["dora"])
        self.shared = f"{folder}/shared.key"
        with open(os.open(self.shared, os.O_WRONLY | os.O_CREAT, 0o600), "w") as file:
            file.write(os.urandom(32).hex())
        with open(self.shared) as file:
            key = file.read()
        self.town.peer(HILL, key)
        self.hill.peer(HOST, key)
        self.town.serve()
        self.hill.serve()
        self.open = Site(f"{folder}/open", self.town.server.port, OPEN, cors=True)
        self.elsewhere = Elsewhere(f"{folder}/open/certificate", f"{folder}/open/key")
        self.browser = Browser(
            folder,
            {
                HOST: self.town.site.tls,
                HILL: self.hill.site.tls,
                OPEN: self.open.tls,
                OTHER: self.elsewhere.port,
                EVIL: self.elsewhere.port,
            },
        )
        self.pages, self.places = {}, {}
        # Hostile contents that are left out, by their names.
        self.without = ()

    def end(self):
        self.browser.end()
        self.elsewhere.end()
        self.open.end()
        self.town.end()
        self.hill.end()

    def visitor(self, path="", **size):
        """The tab of somebody who is not signed in."""
        page = Page(self.browser, **size)
        page.open(f"https://{HOST}/{path}")
        return page

    def member(self, name, **size):
        """The tab of a member who has signed in."""
        page = self.visitor(**size)
        page.settle()
        self.sign_in(page, name)
        return page

    def sign_in(self, page, name):
        page.fill("input[name=name]", name)
        page.fill("input[name=key]", self.town.keys[name])
        page.click("button[type=submit]", "Sign in")
        page.wait("document.getElementById('main').dataset.view === 'home'", "home")
        page.settle()

    def write(self, page, text, sees=None, names=None, warning=None, times=1):
        """Writes a note on home, and returns its place."""
        page.go("Home")
        page.fill("main > form textarea", text)
        if warning or names:
            page.click("main > form summary")
        if warning:
            page.fill("main > form input[name=warning]", warning)
        if names:
            page.fill("main > form input[name=names]", names)
        if sees:
            page.eval(f"document.querySelector('main > form select').value = {sees!r}")
        turn = page.eval("document.getElementById('main').dataset.turn")
        page.click("main > form button[type=submit]", "Post", times=times)
        page.settle(turn)
        return page.place_of(text[:30])

    def picture(self, page, name):
        if self.pictures:
            page.picture(os.path.join(self.pictures, f"{name}.png"))

    def deliver(self, sender, receiver, name, activity):
        """Delivers an activity to a member's inbox, as the server of `sender` would."""
        words = [
            os.path.join(os.path.dirname(HERE), "deliver-to"),
            "--host",
            sender.host,
            "--key",
            self.shared,
            "--timeout",
            "60",
            f"http://127.0.0.1:{receiver.server.port}",
            f"/users/{name}/inbox",
            "-",
        ]
        done = subprocess.run(
            [sys.executable, *words], input=activity, capture_output=True, text=True
        )
        return done.stdout.startswith("202")
