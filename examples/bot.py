#!/usr/bin/env python3
"""A bot: answers each note that mentions it, reads the answer as itself and as nobody, and follows
the author. It may be ended at any moment: a post is repeated under its key, and is kept once.

    FEDI_KEY=DIGITS examples/bot.py http://127.0.0.1:8765 NAME
"""
import hashlib
import http.client
import json
import os
import sys
import time

(SCHEME, SERVER), NAME = sys.argv[1].split("://"), sys.argv[2]
MEMBER = {"Authorization": f"Bearer {os.environ['FEDI_KEY']}", "Content-Type": "application/json"}
CONNECT = {"http": http.client.HTTPConnection, "https": http.client.HTTPSConnection}[SCHEME]


def ask(path, fields, activity=None):
    """The status of the reply, and the id of what was posted, or the document."""
    connection = CONNECT(SERVER, timeout=30)
    connection.request(
        "POST" if activity else "GET", path, activity and json.dumps(activity), fields
    )
    reply = connection.getresponse()
    return reply.status, reply.headers["Location"] or json.load(reply)


def post(about, **activity):
    """Posts an activity of which there is to be one about this id, and returns its id."""
    key = hashlib.sha256(f"{activity['type']} {about}".encode()).hexdigest()
    made = ask(f"/users/{NAME}/outbox", MEMBER | {"Idempotency-Key": key}, activity)[1]
    print(activity["type"], made, flush=True)
    return str(made)


def answer(note, author, others):
    made = post(note, type="Note", content="Thank you", inReplyTo=note, to=[author, *others])
    for who, fields in ("as_member", MEMBER), ("as_nobody", {}):
        # The activity a/N made the object o/N.
        status, found = ask(f"/users/{NAME}/o/{made.split('/')[-1]}", fields)
        print(who, status, found.get("content", found.get("error")), flush=True)
    post(author, type="Follow", object=author)


me, page, done = ask(f"/users/{NAME}", {})[1]["id"], 0, set()
while True:
    # A page has up to 20 items, the newest first, and a full one is followed by another.
    items = ask(f"/users/{NAME}/inbox?page={page}", MEMBER)[1].get("orderedItems", [])
    for item in reversed(items):
        note = item["object"] if item["type"] == "Create" else None
        tags = note.get("tag", []) if isinstance(note, dict) else []
        if any(tag.get("href") == me for tag in tags) and note["id"] not in done:
            done.add(note["id"])
            answer(note["id"], item["actor"], [to for to in item.get("to", []) if to != me])
    page += len(items) == 20
    time.sleep(1)
