"""contrib/fedi-post and contrib/deliver-to, against a served store, and against one that lies."""
import json
import os
import runpy
import socketserver
import subprocess
import sys
import threading

from serving import HOST
from town import HERE, HILL, Town

COMMAND = os.path.join(os.path.dirname(HERE), "fedi-post")
DELIVER = os.path.join(os.path.dirname(HERE), "deliver-to")
# The key that the town shares with hill.example.
SHARED = "0123456789abcdef" * 4


class Person:
    """Somebody at a terminal, whose key is kept in a file of their own."""

    def __init__(self, town, folder, name):
        self.kept = f"{folder}/kept-{name}"
        self.signed = self.says(
            "sign-in",
            name,
            HOST,
            f"http://127.0.0.1:{town.server.port}",
            given=town.keys[name] + "\n",
        )

    def runs(self, *words, given=""):
        return subprocess.run(
            [sys.executable, COMMAND, *words],
            input=given,
            capture_output=True,
            text=True,
            env=os.environ | {"FEDI_MEMBER": self.kept},
        )

    def says(self, *words, given=""):
        """What a command prints that ends well, or its status and problem."""
        done = self.runs(*words, given=given)
        return (
            done.stdout.strip()
            if done.returncode == 0
            else f"{done.returncode} {done.stderr.strip()}"
        )


def command(path, folder, check):
    town = Town(path, f"{folder}/club", HOST, ["ana", "ben", "dan"])
    town.peer(HILL, SHARED)
    town.serve()
    try:
        ana, ben, dan = (Person(town, folder, name) for name in ("ana", "ben", "dan"))
        check("members sign in", ana.signed == ben.signed == dan.signed == "signed in", ana.signed)
        check("the key is for its owner alone", os.stat(ana.kept).st_mode & 0o777 == 0o600)
        stranger = Person(town, folder, "ana")
        stranger.kept += "x"
        check("who has not signed in is told so", "sign in first" in stranger.says("timeline"))
        wrong = ana.says(
            "sign-in",
            "ben",
            HOST,
            f"http://127.0.0.1:{town.server.port}",
            given=town.keys["dan"] + "\n",
        )
        check("another's key is refused", "403 NotOwner" in wrong, wrong)
        writes(town, ana, ben, check)
        follows(town, ana, ben, dan, check)
        recipients(town, ana, check)
        answers(town, ana, ben, dan, check)
        boards(town, ana, ben, dan, check)
        deliveries(town, ben, dan, check)
        lengths(town, ana, check)
        lies(f"{folder}/kept-liar", check)
        refusals(town, ana, check)
    finally:
        town.end()


def writes(town, ana, ben, check):
    note = ana.says("post", "Good morning <b>&\nall\n\nof you")
    place = note.removeprefix(f"https://{HOST}")
    check(
        "a note is posted",
        town.ask("GET", place)[2]["content"]
        == "<p>Good morning &lt;b&gt;&amp;<br>all</p><p>of you</p>",
        note,
    )
    ana.says("post", "--to", "@ben", "--warning", "End", given="From the standard input")
    check(
        "a note to one with a warning is posted",
        "[End]" in ben.says("timeline") and "From the standard input" in ben.says("timeline"),
    )
    check(
        "an answer is posted",
        ben.says("post", "--answer", note, "And to you").startswith("https://"),
    )
    check(
        "its author is told",
        "And to you" in ana.says("timeline") and f"in answer to {note}" in ana.says("timeline"),
    )
    short = f"ana/{note.split('/')[-1]}"
    ben.says("like", short)
    ben.says("like", note)
    ben.says("boost", short)
    read = ana.says("read", short)
    check(
        "likes and boosts are read",
        all(f"{path}:  https://{HOST}/users/ben" in read for path in ("likes", "shares")),
        read,
    )
    ben.says("unlike", short)
    ben.says("unboost", short)
    check(
        "a Like that was given twice is taken back",
        town.total(f"ana/o/{note.split('/')[-1]}/likes", "ben") == 0,
    )
    check(
        "what was taken back is not there to be taken back",
        "no Announce of this stands" in ben.says("unboost", short),
    )
    ana.says("edit", short, "Good evening")
    check("a note is changed", "Good evening" in ben.says("read", short))
    ana.says("delete", short)
    check("and deleted", "was deleted" in ben.says("read", short))
    town.post(
        "ben", {"type": "Note", "content": "red \x1b[31mink\x1b[0m \u202e", "to": [town.id("ana")]}
    )
    check(
        "no command comes to the terminal",
        "\x1b" not in ana.says("timeline") and "red [31mink" in ana.says("timeline"),
    )


def follows(town, ana, ben, dan, check):
    ben.says("follow", "@ana@club.example")
    ben.says("follow", "@dan")
    check(
        "who is not locked is followed at once",
        town.total("ana/followers", "ana") == 1 and town.total("dan/followers", "dan") == 0,
    )
    asked = dan.says("requests").split("\n")
    check(
        "who is locked is asked",
        len(asked) == 1 and asked[0].startswith(f"https://{HOST}/users/ben"),
    )
    dan.says("accept", asked[0].split()[-1])
    check("and accepts", town.total("dan/followers", "dan") == 1 and dan.says("requests") == "")
    ana.says("post", "--followers", "To my followers")
    check("followers get what is for them", "To my followers" in ben.says("timeline", "5"))
    ben.says("unfollow", "@ana")
    check("a Follow is taken back", town.total("ana/followers", "ana") == 0)
    ana.says("block", "@ben")
    check("who is blocked cannot follow", "403 Blocked" in ben.says("follow", "@ana"))
    ana.says("unblock", "@ben")
    check("a Block is taken back", ben.says("follow", "@ana").startswith("https://"))


def recipients(town, ana, check):
    """Words from which it is not sure whom a note is for."""
    posted = town.total("ana/outbox", "ana")
    for words in (
        ("post", "--to", "", "x"),
        ("post", "--to", " , ,", "x"),
        ("post", "--to", "@ben", "--followers", "x"),
        ("post", "--to", "@ben", "--to", "@dan", "x"),
        ("post", "--to", "@ben@club.example@hill.example", "x"),
        ("boost", "--to", "@ben", "ana/1"),
    ):
        done = ana.runs(*words)
        check(
            f"'{' '.join(words)}' is not accepted, and a line says why",
            done.returncode == 2 and len(done.stderr.splitlines()) == 1,
            f"{done.returncode} {done.stdout} {done.stderr}",
        )
    check("and nothing was posted", town.total("ana/outbox", "ana") == posted)


def answers(town, ana, ben, dan, check):
    """Whom notes and answers are for, as the server shows it."""
    ids = {name: town.id(name) for name in town.keys}
    followers, everybody = f"{ids['ana']}/followers", "https://www.w3.org/ns/activitystreams#Public"

    def goes(what, person, words, to, cc=()):
        told = person.says("post", *words)
        place = told.removeprefix(f"https://{HOST}")
        name = os.path.basename(person.kept).removeprefix("kept-")
        note = town.ask("GET", place, name)[2] if place.startswith("/users/") else {}
        shown = [note.get("to", []), note.get("cc", [])]
        tags = [tag["href"] for tag in note.get("tag", [])]
        named = [id for id in (*to, *cc) if id in ids.values()]
        check(what, shown == [to, list(cc)] and tags == named, f"{told} {shown} {tags}")
        status = town.ask("GET", place)[0] if note else None
        check(f"{what}: strangers", status == (200 if everybody in to else 404), f"{status}")
        return told

    both = ["--to", "@ben, @dan@club.example", "to two"]
    goes("names are split at blanks and commas", ana, both, [ids["ben"], ids["dan"]])
    secret = goes("a note to one", ben, ["--to", "@ana", "secret"], [ids["ana"]])
    words = ["--answer", secret, "my private answer"]
    mine = goes("an answer to a note to one is for its author", ana, words, [ids["ben"]])
    check("who gets it", "my private answer" in ben.says("timeline", "5"))
    again = ["--answer", mine, "once more"]
    goes("and an answer to one's own for who is named", ana, again, [ids["ben"]])
    group = goes("a note to two", ben, ["--to", "@ana @dan", "us"], [ids["ana"], ids["dan"]])
    words = ["--answer", group, "yes"]
    goes("an answer is for who is named too", ana, words, [ids["ben"], ids["dan"]])
    words = ["--to", "@dan", "--answer", group, "hush"]
    goes("an answer with --to is for these alone", ana, words, [ids["dan"]])
    words = ["--followers", "--answer", secret, "all of mine"]
    goes("an answer with --followers is for these", ana, words, [followers], [ids["ben"]])
    ana.says("follow", "@ben")
    theirs = ben.says("post", "--followers", "to mine")
    words = ["--answer", theirs, "to you"]
    goes("an answer to another's followers is for the author", ana, words, [ids["ben"]])
    own = ana.says("post", "--followers", "to mine")
    words = ["--answer", own, "more"]
    goes("an answer to one's own followers is for these", ana, words, [followers])
    public = ben.says("post", "to all")
    words = ["--answer", public, "hear, hear"]
    goes("a public answer", ana, words, [everybody], [followers, ids["ben"]])
    alone = ana.says("post", "--to", "@ana", "for me")
    told = ana.says("post", "--answer", alone, "x")
    check("an answer for nobody is not posted", told.startswith("1 ") and "--to" in told, told)
    ben.says("delete", public)
    told = ana.says("post", "--answer", public, "x")
    check("nor one to what was deleted", told.startswith("1 ") and "deleted" in told, told)


def boards(town, ana, ben, dan, check):
    """What goes on boards and comes off them, for whom."""
    total = lambda board, name=None: town.total(f"ana/c/{board}", name)
    public = ana.says("post", "One for the board")
    other = ana.says("post", "Another for the board")
    private = ana.says("post", "--followers", "One for followers")
    short = f"ana/{public.split('/')[-1]}"
    pinned = ana.says("pin", short)
    check("a note is pinned", total("featured") == 1, pinned)
    add = town.ask("GET", pinned.removeprefix(f"https://{HOST}"))[2]
    people = ["https://www.w3.org/ns/activitystreams#Public"], [f"{town.id('ana')}/followers"]
    check("by an Add to everybody", (add.get("to"), add.get("cc")) == people, f"{add}")
    for note in (public, other, private):
        ana.says("pin", note, "best")
    counts = [total("best", name) for name in (None, "ana", "ben", "dan")]
    check("what is for followers is on the board for them", counts == [2, 3, 3, 2], f"{counts}")
    shown = ben.says("board", "@ana", "best")
    texts = ("One for followers", "Another for the board", "One for the board")
    places = [shown.find(text) for text in texts]
    check("a board is read, the newest first", -1 not in places and places == sorted(places), shown)
    own = ana.says("board", "best")
    check("one's own by its name alone", own == shown, own)
    pins = dan.says("board", "@ana@club.example")
    check("and pins by the member's alone", pins == ana.says("board") and texts[2] in pins, pins)
    listed = [f"{town.id('ana')}/c/{board}" for board in ("best", "featured")]
    check("the boards of a member are listed", dan.says("boards", "@ana").split() == listed)
    check("who has none has none", dan.says("boards") == "")
    ana.says("pin", short, "best")
    shown = dan.says("board", "@ana", "best")
    fine = 0 < shown.find(texts[2]) < shown.find(texts[1])
    check("a pin of what is there moves it up", fine, shown)
    check("and doubles nothing", total("best", "ana") == 3)
    for note in (private, short):
        ana.says("unpin", note, "best")
    counts = [total("best", name) for name in (None, "ana", "ben", "dan")]
    check("what is taken off is off for all who saw it", counts == [1, 1, 1, 1], f"{counts}")
    removed = [act for act in town.newest("outbox", "ana") if act["type"] == "Remove"][1]
    check("a Remove goes to whom the Add named", removed["to"] == people[1], f"{removed}")
    told = ana.says("unpin", short, "best")
    check("what is not there is not taken off", told.startswith("1 ") and "is not on" in told, told)
    far = "https://far.example/o/1"
    for note in (far, f"{town.id('ana')}/o/9999"):
        told = ana.says("pin", note)
        check(f"{note} is pinned or refused", told.startswith("https://") == (note == far), told)
    check("an id that cannot be read is shown", ana.says("board").split("\n")[0] == far)
    ana.says("delete", other)
    check("and what was deleted", f"{other}  was deleted" in dan.says("board", "@ana", "best"))
    told = ana.says("pin", other)
    check("which is not pinned", told.startswith("1 ") and "was deleted" in told, told)
    for words in (("pin", short, "Best"), ("unpin", short, "a" * 31), ("board", "a/b"), ("pin",)):
        told = ana.says(*words)
        check(f"'{' '.join(words)}' is not accepted", told.startswith("2 "), told)


def delivered(url, activity):
    """What contrib/deliver-to to the inbox of dan comes to, as hill.example."""
    return subprocess.run(
        [sys.executable, DELIVER, "--host", HILL, "--timeout", "60", url, "/users/dan/inbox", "-"],
        input=json.dumps(activity).encode(),
        capture_output=True,
        env=os.environ | {"FEDI_PEER_KEY": SHARED},
    )


def deliveries(town, ben, dan, check):
    """What a peer may deliver, and a member may post, must not end what shows it."""
    dora, url = f"https://{HILL}/users/dora", f"http://127.0.0.1:{town.server.port}"
    note = {"id": f"{dora}/o/1", "type": "Note", "content": "from the hill", "attributedTo": dora}
    broken = {"id": f"{dora}/o/2", "type": "Note", "content": "<![wide[ open ]]>"}
    acts = [
        {"type": "View"},
        {"type": "Create", "object": note},
        {"type": "Create", "object": note | {"content": "once more"}},
        {"type": "Create", "object": broken},
        {"type": "Follow", "object": town.id("dan")},
    ]
    for number, act in enumerate(acts):
        act |= {"id": f"{dora}/a/{number}", "actor": dora, "to": [town.id("dan")]}
        check(f"delivered: {act['type']}", delivered(url, act).stdout.startswith(b"202"))
    check("posted: Travel", town.post("ben", {"type": "Travel", "to": [town.id("dan")]}))
    asked = dan.says("requests").split("\n")
    check("requests are shown after these", asked[0].startswith(f"{dora}  "), f"{asked}")
    check("and these alone", len(asked) == 1 and asked[0].endswith("/a/4"), f"{asked}")
    shown = dan.says("timeline", "50")
    for text in ("from the hill", "<![wide[ open ]]>", f"Create  {dora}/o/1", "View", "Travel"):
        check(f"the timeline has '{text}'", text in shown, shown)


# Ids in normal form, and others, which the server writes longer.
NORMAL = [f"https://{HILL}/users/{number}" for number in range(300)]
NORMAL += [f"http://{HILL}:81/@d?a=%20&b=!$()*+,;~#x", f"https://x-1.example/{'y' * 2000}"]
OTHERS = ["https://1/", f"https://{HILL}", f"https://bücher.example/{'é' * 300}"]
OTHERS += [f"https://{HILL}/#" + "\\" * 1500, f"https://{HILL}/ '^|`{{}}<>[]\"\\"]
SIGNS = "".join(map(chr, range(128))) + "é\u2028😀"


def lengths(town, ana, check):
    """How long the documents of notes are, as fedi-post reckons and as the server writes them."""
    module = runpy.run_path(COMMAND)
    me = module["Member"]("ana", HOST, town.keys["ana"])
    tags = [{"type": "Mention", "href": id, "name": SIGNS} for id in NORMAL[:9]]
    notes = {
        "a short note": {"content": "x", "to": [module["PUBLIC"]]},
        "a note with all fields": {
            **{"content": SIGNS, "summary": SIGNS, "name": SIGNS, "inReplyTo": NORMAL[-1]},
            **{"url": NORMAL[0], "to": NORMAL[:9], "cc": NORMAL[9:], "audience": NORMAL[:50]},
            "tag": tags,
        },
        "a note with no normal id": {"content": "x", "to": OTHERS, "inReplyTo": OTHERS[0]},
    }
    for what, note in notes.items():
        note["type"] = "Note"
        id = town.post("ana", note)
        _, fields, create = town.ask("GET", (id or "").removeprefix(f"https://{HOST}"), "ana")
        length, reckoned = int(fields["Content-Length"]), module["size_of"](me, note)
        more = 4 * (10 - len((id or "").split("/")[-1]))
        fine = reckoned > length if note["to"] is OTHERS else reckoned == length + more
        check(f"the length of {what}", id and fine, f"{reckoned} {length} {more}")
        reckoned = module["size_of"](me, create["object"])
        fine = reckoned > length if note["to"] is OTHERS else reckoned == length
        check(f"and of {what} that has its id", fine, f"{reckoned} {length}")
    with Liar() as liar:
        person = Person.__new__(Person)
        person.kept = f"{ana.kept}-liar"
        with open(person.kept, "w") as file:
            json.dump({"name": "ana", "host": HOST, "key": "00" * 32, "url": liar.url}, file)
        href = f"https://{HOST}/users/{'b' * 2000}"
        liar.says({"links": [{"rel": "self", "href": href}]})
        done = person.runs("post", "--to", ",".join(f"@b{number}" for number in range(150)), "x")
        fine = done.returncode == 1 and "other servers take 262,144 bytes" in done.stderr
        check("a note that is too long for other servers is not posted", fine, f"{done}")
        liar.shutdown()


class Liar(socketserver.ThreadingTCPServer):
    """A server that gives everybody the same bytes."""

    daemon_threads = True

    def __init__(self):
        super().__init__(("127.0.0.1", 0), LiarsReply)
        self.reply, self.url = b"", f"http://127.0.0.1:{self.server_address[1]}"
        threading.Thread(target=self.serve_forever, daemon=True).start()

    def says(self, body, head="200 OK"):
        text = body if isinstance(body, bytes) else json.dumps(body).encode()
        length = f"Content-Type: application/json\r\nContent-Length: {len(text)}"
        self.reply = f"HTTP/1.1 {head}\r\n{length}\r\n\r\n".encode("latin-1") + text


class LiarsReply(socketserver.StreamRequestHandler):
    def handle(self):
        while self.rfile.readline().strip():
            pass
        self.wfile.write(self.server.reply)


ESCAPE = "\x1b]0;owned\x07\x1b[31m\x9b2J\u202e"
# Items of an inbox, each of which is to be passed over or shown.
ITEMS = [
    *(None, 5, "x", [], {}, {"type": {}, "object": []}, {"type": "Create"}),
    {"type": "Create", "object": 5},
    {"type": "Create", "object": {"type": "Note", "content": [], "summary": 5, "inReplyTo": {}}},
    {"type": "Undo", "object": {"id": []}},
    {"type": "Follow", "object": {}, "actor": [], "id": {}, "published": 5},
]
BOX = {"first": f"https://{HOST}/users/ana/inbox?page=0", "orderedItems": ITEMS}
LIES = [
    *(b"", b"{", b"\xff\xfe\xff", b"[" * 99_999, b"1" * 9_999),
    *(["x"], 5, {}, {"first": 5}, {"first": {}}),
    BOX | {"orderedItems": None, "links": 5},
    BOX | {"orderedItems": [[], {}], "type": [], "links": [5, {"rel": "self", "href": 5}]},
    {"error": {}, "fault": [ESCAPE], "type": {}, "attributedTo": 5, "tag": 5, "to": 5},
]


def lies(kept, check):
    """Whatever a server replies, a line says what was wrong, and the terminal gets no command."""
    with Liar() as liar:
        person = Person.__new__(Person)
        person.kept = kept
        with open(kept, "w") as file:
            json.dump({"name": "ana", "host": HOST, "key": "00" * 32, "url": liar.url}, file)
        answer = ["post", "--answer", "ana/1", "x"]
        for reply in LIES:
            liar.says(reply)
            pins = (["pin", "ana/1"], ["unpin", "ana/1"], ["board"], ["boards", "@ben"])
            for words in (["timeline"], ["requests"], ["follow", "@ben"], answer, *pins):
                told(person, f"{liar.reply[-40:]}", words, check)
            liar.says(reply, "404 Not Found")
            told(person, f"404 {liar.reply[-40:]}", ["read", "a/1"], check)
        liar.says(BOX)
        for word in ("timeline", "requests", "board", "boards"):
            done = person.runs(word)
            check(f"{word} passes over what is no activity", done.returncode == 0, done.stderr)
        terminal(liar, person, check)
        liar.shutdown()


def told(person, what, words, check):
    done = person.runs(*words)
    lines = done.stderr.splitlines()
    fine = (
        (done.returncode == 0 and not lines)
        or (done.returncode in (1, 2) and len(lines) == 1 and lines[0].startswith("fedi-post: "))
        and lines[0].isprintable()
    )
    check(f"{words[0]} of {what}", fine, f"{done.returncode} {done.stdout} {done.stderr}")


def terminal(liar, person, check):
    """Refusals, reasons, bodies and lines that are no HTTP, with commands for a terminal."""
    liar.says({"error": ESCAPE, "fault": ESCAPE}, "404 Not Found")
    done = person.runs("follow", "@x")
    text = "]0;owned[31m2J"
    check("a refusal has no command", done.stderr == f"fedi-post: 404 {text} {text}\n", f"{done}")
    reason = ESCAPE[:-1]
    liar.says({"é": ESCAPE}, f"502 {reason}")
    for what, reply in (("a reason", liar.reply), ("no HTTP", f"{reason}\r\n".encode("latin-1"))):
        liar.reply = reply
        done = person.runs("timeline")
        line = done.stderr.rstrip("\n")
        check(f"{what} has no command", line.isprintable() and "owned" in line, f"{done}")
        done = delivered(liar.url, {})
        lines = (done.stdout + done.stderr).decode().rstrip("\n").split("\n")
        fine = all(line.isprintable() for line in lines) and "owned" in lines[0]
        check(f"{what} has none by deliver-to", fine and done.returncode, f"{done}")
    liar.says(json.dumps({"é": ESCAPE}, ensure_ascii=False).encode(), "200 OK")
    body = delivered(liar.url, {}).stdout.decode().partition("\n")[2]
    fine = body.rstrip("\n").isprintable() and json.loads(body) == {"é": ESCAPE}
    check("a body has no command, and is the same JSON", fine, f"{body!r}")


def refusals(town, ana, check):
    check("a refusal is told", "404 NotFound" in ana.says("read", "zoe/1"))
    check(
        "the key goes to no other host",
        "of another server" in ana.says("read", "https://hill.example/users/dora/o/1"),
    )
    ends = [
        ana.runs(*words).returncode
        for words in ([], ["like"], ["liek", "x"], ["like", "x", "y"], ["post", "--x"])
    ]
    check("words that are not accepted are answered with the usage", set(ends) == {2}, f"{ends}")
    town.server.kill()
    done = ana.runs("timeline")
    check("no answer is told", done.returncode == 1 and "no answer" in done.stderr)
