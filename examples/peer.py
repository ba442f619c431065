#!/usr/bin/env python3
"""A server that shares a key with fedi, with one actor, dora. She delivers a note to a member and
follows her, reads as a peer and as nobody what fedi delivers, and accepts who follows her.

    FEDI_KEY=DIGITS examples/peer.py http://127.0.0.1:8765 ana hill.example 8766

FEDI_KEY is the key that `fedi add-peer STORE hill.example DIGITS 127.0.0.1:8766` was given.
"""
import hmac
import http.client
import http.server
import json
import os
import queue
import sys
import threading

(SCHEME, SERVER), MEMBER, HOST, PORT = sys.argv[1].split("://"), *sys.argv[2:]
KEY, DORA = bytes.fromhex(os.environ["FEDI_KEY"]), f"https://{HOST}/users/dora"
CONNECT = {"http": http.client.HTTPConnection, "https": http.client.HTTPSConnection}[SCHEME]
KIND = 'application/ld+json; profile="https://www.w3.org/ns/activitystreams"'


def sign(host, method, target, body):
    """The code by which the server of this host signs a request (HMAC-SHA-256, RFC 2104)."""
    return hmac.digest(KEY, f"{method} {target}\n{host}\n".encode() + body, "sha256").hex()


def ask(target, body=b"", is_signed=True):
    """Reads, or delivers this body. Returns the status and the document of the reply."""
    method, fields = ("POST", {"Content-Type": KIND}) if body else ("GET", {"Accept": KIND})
    if is_signed:
        fields |= {"Peer-Host": HOST, "Peer-Mac": sign(HOST, method, target, body)}
    connection = CONNECT(SERVER, timeout=30)
    connection.request(method, target, body or None, fields)
    reply = connection.getresponse()
    return reply.status, json.loads(reply.read() or "{}")


def deliver(**activity):
    body = json.dumps({"actor": DORA, **activity}).encode()
    print(activity["type"], ask(f"/users/{MEMBER}/inbox", body)[0], flush=True)


class Inbox(http.server.BaseHTTPRequestHandler):
    """What fedi asks of this server: dora's actor document, and to take a delivery."""

    def answer(self, status, document=None):
        # The connection is closed after each reply, as fedi wants it.
        self.send_response(status)
        self.end_headers()
        self.wfile.write(json.dumps(document).encode() if document else b"")

    def do_GET(self):
        self.answer(200, {"id": DORA, "type": "Person", "inbox": f"{DORA}/inbox"})

    def do_POST(self):
        body = self.rfile.read(int(self.headers["Content-Length"]))
        code = sign(fedi, self.command, self.path, body)
        if not hmac.compare_digest(code, self.headers.get("Peer-Mac", "")):
            return self.answer(401)
        arrivals.put(json.loads(body))
        self.answer(202)

    def log_message(self, *_):
        """Prints nothing."""


member = ask(f"/users/{MEMBER}")[1]["id"]
fedi, arrivals, known = member.split("/")[2], queue.Queue(), set()
server = http.server.HTTPServer(("127.0.0.1", int(PORT)), Inbox)
threading.Thread(target=server.serve_forever, daemon=True).start()
note = {"id": f"{DORA}/o/1", "type": "Note", "content": "Good evening", "to": [member]}
deliver(type="Create", id=f"{DORA}/a/1", object=note, to=[member])
deliver(type="Follow", id=f"{DORA}/a/2", object=member)
while activity := arrivals.get():
    if activity["id"] in known:  # it may come again, and counts once
        continue
    known.add(activity["id"])
    print(activity["type"], activity["id"], flush=True)
    if activity["type"] == "Follow":
        deliver(type="Accept", id=f"{DORA}/accepts?{activity['id']}", object=activity["id"])
    elif activity["type"] == "Create":
        path = activity["object"]["id"].removeprefix(f"https://{fedi}")
        for who, is_signed in ("as_peer", True), ("as_nobody", False):
            status, found = ask(path, is_signed=is_signed)
            print(who, status, found.get("content", found.get("error")), flush=True)
