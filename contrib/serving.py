"""The program as a server, and clients of it, for the scripts that try and measure `fedi serve`."""
import http.server
import json
import os
import secrets
import socket
import struct
import subprocess
import sys
import threading
import time

HOME = os.path.dirname(os.path.dirname(os.path.abspath(__file__)))
BUILT = os.path.join(HOME, "crates/fedi/out/fedi")
RELEASED = os.path.join(HOME, "release/out/fedi")
HOST, FAR = "club.example", "far.example"
# The most connections that are served at a time, and the most requests on one.
BENCHES, REQUESTS = 64, 1000
# The most seconds that anything is waited for.
PATIENCE = 120


class Lost(Exception):
    """A connection that ended before its reply."""


def program(named=None):
    """The program of this path, or the one that `./fedi` runs: the built one, which is built first
    if it is not there, or, where the kit is missing, the released one.
    """
    if named is None:
        subprocess.run([os.path.join(HOME, "fedi"), "usage"], check=True, stdout=subprocess.DEVNULL)
        # Both may be there. The released one is touched whenever it is taken.
        there = [path for path in (BUILT, RELEASED) if os.access(path, os.X_OK)]
        named = max(there, key=os.path.getmtime)
    path = os.path.abspath(named)
    if not os.access(path, os.X_OK):
        sys.exit(f"there is no program {path}")
    return path


def told(path, *words):
    """The words that a command prints, which has to end with 0."""
    done = subprocess.run([path, *words], stdin=subprocess.DEVNULL, capture_output=True, text=True)
    if done.returncode != 0:
        sys.exit(f"{' '.join(words)} ended with {done.returncode}: {done.stdout.strip()}")
    return done.stdout.split()


def activities(path, store):
    """The number of activities that `check` finds."""
    words = told(path, "check", store)
    return int(words[words.index("activities") + 1])


def free_port():
    with socket.socket() as listener:
        listener.bind(("127.0.0.1", 0))
        return listener.getsockname()[1]


class Server:
    """A process that serves a store at this port, or at a free one, until `end` or `kill`."""

    def __init__(self, path, store, port=None, **how):
        self.port = port or free_port()
        words = [path, "serve", store, f"127.0.0.1:{self.port}"]
        self.child = subprocess.Popen(
            words, stdin=subprocess.DEVNULL, stdout=subprocess.DEVNULL, **how
        )

    def connect(self):
        """A connection, once the server listens."""
        until = time.monotonic() + PATIENCE
        while True:
            try:
                return socket.create_connection(("127.0.0.1", self.port), timeout=PATIENCE)
            except ConnectionRefusedError:
                if self.child.poll() is not None:
                    raise Lost(f"serve ended with {self.child.returncode}") from None
                if time.monotonic() > until:
                    raise
                time.sleep(0.01)

    def end(self):
        """Ends it by SIGTERM, and returns its status."""
        self.child.terminate()
        return self.child.wait()

    def kill(self):
        self.child.kill()
        return self.child.wait()

    def __enter__(self):
        return self

    def __exit__(self, *_):
        if self.child.poll() is None:
            self.kill()


class Talk:
    """One connection: requests are sent, and replies come in order."""

    def __init__(self, server):
        self.socket = server.connect()
        self.stream = self.socket.makefile("rb")

    def send(self, *requests):
        try:
            self.socket.sendall(b"".join(requests))
        except OSError as error:
            raise Lost(f"{error}") from None

    def reply(self):
        """The status, the fields and the body of the next reply."""
        try:
            return next_reply(self.stream)
        except OSError as error:
            raise Lost(f"{error}") from None

    def ask(self, request):
        self.send(request)
        return self.reply()

    def close(self):
        self.stream.close()
        self.socket.close()

    def reset(self):
        """Ends it so that the other side is told of a reset."""
        self.socket.setsockopt(socket.SOL_SOCKET, socket.SO_LINGER, struct.pack("ii", 1, 0))
        self.close()

    def __enter__(self):
        return self

    def __exit__(self, *_):
        self.close()


class Steady:
    """Asks on one connection, and on a new one what the last one left unanswered, as it may: while
    others wait, a connection ends that says nothing. So each post has a key.
    """

    def __init__(self, server):
        self.server, self.talk = server, None

    def replies(self, *requests):
        """The replies to these requests, which are sent at once."""
        found, until = [], time.monotonic() + PATIENCE
        while len(found) < len(requests):
            try:
                if not self.talk:
                    self.talk = Talk(self.server)
                self.talk.send(*requests[len(found) :])
                while len(found) < len(requests):
                    found.append(self.talk.reply())
            except Lost:
                self.close()
                if time.monotonic() > until:
                    raise
        return found

    def ask(self, request):
        return self.replies(request)[0]

    def close(self):
        if self.talk:
            self.talk.close()
        self.talk = None

    def __enter__(self):
        return self

    def __exit__(self, *_):
        self.close()


class Peer:
    """Another server, FAR, at a port of its own: whoever is asked for is there, and each post is
    taken. It answers nothing before it is let go.
    """

    def __init__(self):
        # The ids of what it was sent, and whether it was asked for anything.
        self.got, self.asked, self.goes = [], threading.Event(), threading.Event()
        peer = self

        class Handler(http.server.BaseHTTPRequestHandler):
            def do_GET(self):
                peer.asked.set()
                peer.goes.wait()
                iri = f"https://{FAR}{self.path}"
                actor = {"id": iri, "type": "Person", "inbox": f"{iri}/inbox"}
                self.answer(200, json.dumps(actor).encode())

            def do_POST(self):
                body = self.rfile.read(int(self.headers["Content-Length"]))
                peer.got.append(json.loads(body)["id"])
                self.answer(202, b"")

            def answer(self, status, body):
                self.send_response(status)
                self.send_header("Content-Length", str(len(body)))
                self.end_headers()
                self.wfile.write(body)

            def log_message(self, *_):
                pass

        self.server = http.server.ThreadingHTTPServer(("127.0.0.1", 0), Handler)
        self.server.handle_error = lambda *_: None  # who asked may have been killed
        self.address = f"127.0.0.1:{self.server.server_port}"
        threading.Thread(target=self.server.serve_forever, daemon=True).start()


def next_reply(stream):
    head = b""
    while not head.endswith(b"\r\n\r\n"):
        line = stream.readline()
        if not line:
            raise Lost("the connection ended before a reply")
        head += line
    first, *lines = head.decode().split("\r\n")[:-2]
    fields = dict(line.split(": ", 1) for line in lines)
    body = stream.read(int(fields["Content-Length"]))
    if len(body) != int(fields["Content-Length"]):
        raise Lost("the connection ended inside a reply")
    return int(first.split()[1]), fields, body


def get(path, key=None):
    shown = f"Authorization: Bearer {key}\r\n" if key else ""
    return f"GET {path} HTTP/1.1\r\nHost: {HOST}\r\n{shown}\r\n".encode()


def post(name, key, activity):
    body = json.dumps(activity)
    return (
        f"POST /users/{name}/outbox HTTP/1.1\r\nHost: {HOST}\r\nAuthorization: Bearer {key}\r\n"
        f"Content-Type: application/json\r\nContent-Length: {len(body)}\r\n\r\n{body}"
    ).encode()


def repeatable(request):
    """The same post with a key, under which it can be sent again and is kept once."""
    key = b"\r\nIdempotency-Key: %s\r\n\r\n" % secrets.token_hex(8).encode()
    return request.replace(b"\r\n\r\n", key, 1)


def note(content, to="Public"):
    return {"type": "Note", "content": content, "to": [to]}


def path_of(location):
    return location.removeprefix(f"https://{HOST}")


def side_by_side(work, items):
    """Calls `work` with each item, each in a thread of its own, and returns what they return. An
    exception of one is raised here.
    """
    items = list(items)
    results, failures = [None] * len(items), []

    def run(place, item):
        try:
            results[place] = work(item)
        except BaseException as failure:  # an exit in a thread would end that thread alone
            failures.append(failure)

    threads = [threading.Thread(target=run, args=pair, daemon=True) for pair in enumerate(items)]
    for thread in threads:
        thread.start()
    for thread in threads:
        thread.join()
    if failures:
        raise failures[0]
    return results
