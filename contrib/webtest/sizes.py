"""How many requests each screen takes over a store of 5,000 activities."""
import hashlib
import random
from collections import Counter

from browser import Browser, Page
from serving import HOST
from stores import (
    ACCEPT,
    ADD,
    ANNOUNCE,
    FOLLOW,
    LIKE,
    PUBLIC,
    hosted,
    id_of,
    local,
    made,
    name_of,
    note,
    of,
    write,
)
from town import Town

MEMBERS, NOTES, ACTIVITIES, LIMIT = 12, 2300, 5000, 12
# Boosts in a row, each showing a note that has to be read, and notes on boards.
BOOSTS, PINS = 30, 10
BEGUN = 1_700_000_000
KEY = "5a" * 32
WORDS = "the quick brown fox of the town hall said that tea is at four and the choir sings on Sunday in the old mill by the lake".split()


class Log:
    """The entries of a store, and how many activities each member has."""

    def __init__(self, members):
        digest = (
            lambda member: hashlib.sha256(bytes.fromhex(KEY)).digest()
            if member == 0
            else member.to_bytes(32, "big")
        )
        self.at = BEGUN
        self.entries = [
            hosted(BEGUN),
            *(
                made(name_of(member), digest(member), BEGUN, locked=member == 0)
                for member in range(members)
            ),
        ]
        self.counts, self.notes = [0] * members, []

    def post(self, member, activity, seconds=60):
        self.at += seconds
        self.counts[member] += 1
        self.entries.append(local(name_of(member), activity, at=self.at))
        return self.counts[member]


def lively(members, notes):
    """A town whose members follow each other, and write, answer, like and boost. The first is
    locked, and two wait for an answer. The newest activities are boosts, after pins.
    """
    draw, log = random.Random(1), Log(members)
    for one in range(members):
        for other in range(members):
            if one == other:
                continue
            follow = log.post(one, of(FOLLOW, id_of(other)))
            if other != 0:
                log.counts[other] += 1  # its Accept
            elif one < members - 2:
                log.post(0, of(ACCEPT, f"{id_of(one)}/a/{follow}"))
    for number in range(notes):
        one = draw.randrange(members)
        answered = (
            "%s/o/%d" % draw.choice(log.notes[-40:]) if log.notes and number % 4 == 0 else None
        )
        content = f"<p>{' '.join(draw.choices(WORDS, k=40))}</p>"
        place = log.post(
            one,
            note(
                [PUBLIC],
                [f"{id_of(one)}/followers"] + ([answered.split("/o/")[0]] if answered else []),
                content,
                answered,
            ),
        )
        log.notes.append((id_of(one), place))
        log.post(draw.randrange(members), of(LIKE, "%s/o/%d" % draw.choice(log.notes[-40:])))
        if number % 8 == 0:
            two = draw.randrange(members)
            log.post(two, boost(log, draw, two))
    for number in range(PINS):
        for board in ("featured", "best", f"board_{number}"):
            log.post(3, pin(log, draw, 3, board))
    for _ in range(BOOSTS):
        log.post(3, boost(log, draw, 3))
    return log


def pin(log, draw, member, board):
    followers, target = f"{id_of(member)}/followers", f"{id_of(member)}/c/{board}"
    return of(ADD, "%s/o/%d" % draw.choice(log.notes[-400:]), [PUBLIC], [followers], target)


def boost(log, draw, member):
    return of(
        ANNOUNCE, "%s/o/%d" % draw.choice(log.notes[-40:]), [PUBLIC], [f"{id_of(member)}/followers"]
    )


class Screens:
    """What each screen asks for: at the first visit, and at a second one after the page was loaded
    again.
    """

    def __init__(self, page, check):
        self.page, self.check = page, check

    def asked(self, act):
        """The paths that are asked for while something is done, until nothing more is."""
        browser = self.page.browser
        browser.listen(0.3)
        browser.events.clear()
        act()
        self.page.settle()
        paths = None
        while paths != (more := self.paths()):
            paths = more
            browser.listen(0.5)
        return paths

    def paths(self):
        urls = [
            event["request"]["url"]
            for event in self.page.browser.happened("Network.requestWillBeSent")
        ]
        return [
            url.split(HOST, 1)[1]
            for url in urls
            if f"{HOST}/users/" in url or f"{HOST}/.well-known/" in url
        ]

    def visit(self, name, act, shows="document.querySelectorAll('article, .line').length > 0"):
        first = self.asked(act)
        self.check(f"{name} shows something at the first visit", self.page.eval(shows))
        twice = [
            path for path, count in Counter(first).items() if count > 1 and "box?page=" in path
        ]
        second = self.asked(self.load_again)
        self.check(f"{name} shows something at a second visit", self.page.eval(shows))
        print(f"       {name}: {len(first)} requests, then {len(second)}", flush=True)
        self.check(
            f"{name} takes {LIMIT} requests or fewer at a second visit",
            len(second) <= LIMIT,
            f"{second}",
        )
        self.check(f"{name} asks for no page of a log twice", not twice, f"{twice}")

    def load_again(self):
        self.page.eval("window.isOld = true")
        self.page.send("Page.reload")
        self.page.wait("!window.isOld")


def place_of(object):
    """Where the page shows an object: #/@name/number."""
    return "#/@" + object.removeprefix(f"https://{HOST}/users/").replace("/o/", "/")


def member_screens(page, log, check):
    me = name_of(0)

    def sign_in():
        page.fill("input[name=name]", me)
        page.fill("input[name=key]", KEY)
        page.click("button[type=submit]", "Sign in")
        page.wait("document.getElementById('main').dataset.view === 'home'", "home", 300)

    def older():
        count = page.eval("document.querySelectorAll('article').length")
        page.click("button", "Older")
        page.wait(f"document.querySelectorAll('article').length > {count} + 4", "older notes", 60)

    def press(told):
        page.click("article button", "Like")
        page.has(told)

    def write_note():
        page.fill("main > form textarea", "A new note for @m000001")
        page.click("main > form button[type=submit]", "Post")
        page.place_of("A new note for")

    def go(place):
        return lambda: page.go(place)

    screens = Screens(page, check)
    screens.visit("home", sign_in, "document.querySelectorAll('article').length >= 4")
    own = [object for object in log.notes if object[0] == id_of(0)][-5]
    other = [object for object in log.notes if object[0] == id_of(3)][-5]
    for name, place in (
        ("notices", "Notices"),
        ("people", "People"),
        ("requests", "Requests"),
        ("one's own profile", f"#/@{me}"),
        ("another's profile", f"#/@{name_of(3)}"),
        ("another's board", f"#/@{name_of(3)}/c/best"),
        ("one's own note", place_of("%s/o/%d" % own)),
        ("another's note", place_of("%s/o/%d" % other)),
    ):
        screens.visit(name, go(place))
    page.go("Requests")
    check("two wait for an answer", page.eval("document.querySelectorAll('.line').length") == 2)
    acts = (
        ("older notes", older),
        ("a Like", lambda: press("Liked.")),
        ("taking it back", lambda: press("Taken back.")),
        ("a note", write_note),
    )
    for name, act in acts:
        page.go("Home")
        count = len(screens.asked(act))
        print(f"       {name}: {count} requests", flush=True)
        check(f"{name} takes {LIMIT} requests or fewer", count <= LIMIT, f"{count}")


def stranger_screens(page, log, check):
    screens = Screens(page, check)
    for name, place in (
        ("a profile for strangers", f"#/@{name_of(3)}"),
        ("a board for strangers", f"#/@{name_of(3)}/c/best"),
        ("a note for strangers", place_of("%s/o/%d" % log.notes[-5])),
    ):
        screens.visit(name, lambda: page.go(place))


def sizes(path, folder, check):
    """A store that is written for this, a member who was never here, and a stranger."""
    log = lively(MEMBERS, NOTES)
    write(f"{folder}/lively", log.entries)
    town = Town(
        path, f"{folder}/large", HOST, [], store=f"{folder}/lively", keys={name_of(0): KEY}
    ).serve()
    browser = Browser(folder, {HOST: town.site.tls})
    try:
        for part in (member_screens, stranger_screens):
            page = Page(browser)
            page.open(f"https://{HOST}/")
            page.settle()
            part(page, log, check)
    finally:
        browser.end()
        count = town.end()
    check(f"the store had {ACTIVITIES} activities or more", count >= ACTIVITIES, f"{count}")
