"""Stores for measurements, written in the format of the journal and of entries (docs/FORMAT.md)."""
import os
import random
import struct
import sys

sys.path.insert(
    0, os.path.join(os.path.dirname(os.path.dirname(os.path.abspath(__file__))), "contrib")
)

from journal import records, write, write_first  # noqa: E402, F401

HOST = "club.example"
MOMENT = 784111777
PUBLIC = "https://www.w3.org/ns/activitystreams#Public"
ACCEPT, ANNOUNCE, BLOCK, CREATE, DELETE, FOLLOW, LIKE, UNDO, UPDATE = 1, 3, 5, 6, 7, 10, 15, 26, 27
ADD, REMOVE = 2, 22


# ---- entries in their format


def number(n):
    return struct.pack(">I", n)


def text(value):
    return number(len(value)) + value.encode()


def optional(value):
    return b"\0" if value is None else b"\1" + text(value)


def texts(values):
    return number(len(values)) + b"".join(text(value) for value in values)


def moment(seconds):
    return struct.pack(">Q", seconds)


def hosted(at=MOMENT):
    return b"\1" + text(HOST) + moment(at)


def made(name, digest, at=MOMENT, locked=False):
    return b"\2" + text(name) + digest + bytes([locked]) + moment(at)


def local(name, activity, repeat=None, at=MOMENT):
    key = b"\0" if repeat is None else b"\1" + text(repeat) + bytes(32)
    return b"\4" + text(name) + key + activity + moment(at)


def peer(host, key, address="127.0.0.1:1", at=MOMENT):
    """A peer that does not relay."""
    return b"\3" + text(host) + key + text(address) + b"\0" + moment(at)


def remote(host, inbox, activity, at=MOMENT):
    return b"\5" + text(host) + text(inbox) + activity + moment(at)


def tried(activity, recipient, status, at=MOMENT):
    """An attempt to deliver, whose post was answered with this status."""
    return (
        b"\x06"
        + text(activity)
        + text(recipient)
        + b"\x01\x03"
        + status.to_bytes(2, "big")
        + moment(at)
    )


def delivered(kind, id, actor, object):
    """An activity of another server about the object of this id, which names nobody."""
    return (
        optional(id)
        + bytes([kind])
        + optional(actor)
        + b"\1"
        + text(object)
        + b"\0"
        + 5 * number(0)
        + 5 * b"\0"
        + number(0)
    )


def delivered_note(id, actor, object, to, content):
    """A Create by another server's actor of a note of this id."""
    fields = texts(to) + 4 * number(0)
    whole = (
        optional(object)
        + text("Note")
        + b"\0"
        + fields
        + b"\0"
        + optional(content)
        + 3 * b"\0"
        + 4 * b"\0"
        + number(0)
    )
    return (
        optional(id)
        + bytes([CREATE])
        + optional(actor)
        + b"\2"
        + whole
        + b"\0"
        + fields
        + 5 * b"\0"
        + number(0)
    )


def note(to, cc, content, answered=None):
    """A Create of a note, which may answer another."""
    fields = texts(to) + texts(cc) + 3 * number(0)
    whole = (
        b"\0"
        + text("Note")
        + b"\0"
        + fields
        + optional(answered)
        + optional(content)
        + 3 * b"\0"
        + 4 * b"\0"
        + number(0)
    )
    return b"\0" + bytes([CREATE]) + b"\0\2" + whole + b"\0" + fields + 5 * b"\0" + number(0)


def about(kind, object, to=(), cc=(), target=None):
    """An activity about this, to nobody if nobody is named."""
    return (
        b"\0"
        + bytes([kind])
        + b"\0"
        + object
        + optional(target)
        + texts(to)
        + texts(cc)
        + 3 * number(0)
        + 5 * b"\0"
        + number(0)
    )


def of(kind, id, to=(), cc=(), target=None):
    """An activity of this type about the object of this id, to nobody if nobody is named."""
    return about(kind, b"\1" + text(id), to, cc, target)


def change(id, content):
    """An Update of the content."""
    return about(UPDATE, b"\3" + text(id) + b"\2" + text(content) + 5 * b"\0")


# ---- members and their posts


def name_of(member):
    return f"m{member:06d}"


def id_of(member):
    return f"https://{HOST}/users/{name_of(member)}"


def post(member, place, length, repeat=None):
    """The entry of a post, which is of this length, with another content at each place."""
    of = lambda content: local(
        name_of(member), note([PUBLIC], [id_of(member) + "/followers"], content), repeat
    )
    return of(f"{place:010d}" + "x" * (length - len(of("")) - 10))



# ---- a town


def lively(entries, members=100):
    """The entries of a town whose members each follow five others, and then post, like, boost and
    change what was posted lately.
    """
    draw, posted, numbers = random.Random(1), [], [0] * members
    yield hosted()
    for member in range(members):
        yield made(name_of(member), member.to_bytes(32, "big"))
    follows = [
        (member, other)
        for member in range(members)
        for other in draw.sample([other for other in range(members) if other != member], 5)
    ]
    for member, other in follows:
        # The Accept takes a number of the one who is followed.
        numbers[member] += 1
        numbers[other] += 1
        yield local(name_of(member), of(FOLLOW, id_of(other)))
    for place in range(entries - 1 - members - len(follows)):
        member, what = draw.randrange(members), draw.random()
        if what < 0.35 or not posted:
            numbers[member] += 1
            posted.append((member, f"{id_of(member)}/o/{numbers[member]}"))
            yield post(member, place, draw.choice([300, 300, 300, 500, 1000]))
            continue
        author, object = posted[-1 - min(len(posted) - 1, int(draw.expovariate(1 / 200)))]
        if what < 0.7:
            numbers[member] += 1
            yield local(name_of(member), of(LIKE, object, [id_of(author)]))
        elif what < 0.85:
            numbers[member] += 1
            yield local(
                name_of(member), of(ANNOUNCE, object, [PUBLIC], [id_of(member) + "/followers"])
            )
        else:
            numbers[author] += 1
            yield local(name_of(author), change(object, f"New {place} " + 100 * "x"))
