"""Stores that are served, with nginx and the members' page in front of each."""
import http.server
import json
import os
import ssl
import subprocess
import sys
import threading

HERE = os.path.dirname(os.path.abspath(__file__))
sys.path[:0] = [
    os.path.dirname(HERE),
    os.path.join(os.path.dirname(os.path.dirname(HERE)), "bench"),
]

from proxy import Site, tool  # noqa: E402, F401
from serving import HOME, HOST, Server, Talk, activities, program, told  # noqa: E402, F401

HILL, OPEN, OTHER = "hill.example", "open.example", "other.example"
PUBLIC = "Public"


class Town:
    """A store that is served, with its members' keys, and the site in front of it."""

    def __init__(
        self, path, folder, host, names, page=None, policy=True, asks=(), store=None, keys=None
    ):
        self.path, self.folder, self.host = path, folder, host
        os.makedirs(folder)
        self.store, self.keys = store, keys
        if store is None:
            self.store = f"{folder}/store"
            told(path, "init", self.store, host)
            self.keys = {
                name: told(
                    path, "add-actor", self.store, name, *(["--locked"] if name == "dan" else [])
                )[1]
                for name in names
            }
        self.page = page or os.path.join(HOME, "contrib/web")
        self.policy, self.asks, self.server, self.site = policy, asks, None, None

    def peer(self, host, key):
        told(self.path, "add-peer", self.store, host, key, "127.0.0.1:1")

    def serve(self):
        self.server = Server(self.path, self.store)
        Talk(self.server).close()
        changes = (
            []
            if self.policy
            else [
                (
                    r'add_header Content-Security-Policy "default-src \'none\'; script-src',
                    'add_header X-Off "',
                )
            ]
        )
        if self.asks:
            changes.append(
                (
                    "connect-src 'self'",
                    " ".join(["connect-src 'self'", *(f"https://{host}" for host in self.asks)]),
                )
            )
        self.site = Site(f"{self.folder}/nginx", self.server.port, self.host, self.page, changes)
        self.site.connect().close()
        return self

    def id(self, name):
        return f"https://{self.host}/users/{name}"

    def ask(self, method, path, name=None, body=None):
        """The status, the fields and the document of a request to the server itself, as a member or
        as nobody.
        """
        shown = f"Authorization: Bearer {self.keys[name]}\r\n" if name else ""
        text = b"" if body is None else json.dumps(body).encode()
        more = (
            ""
            if body is None
            else f"Content-Type: application/activity+json\r\nContent-Length: {len(text)}\r\n"
        )
        with Talk(self.server) as talk:
            status, fields, told = talk.ask(
                f"{method} {path} HTTP/1.1\r\nHost: {self.host}\r\n{shown}{more}\r\n".encode()
                + text
            )
        return status, fields, json.loads(told or "null")

    def post(self, name, body):
        """The id of a post, or None if it was refused."""
        return self.ask("POST", f"/users/{name}/outbox", name, body)[1].get("Location")

    def newest(self, box, name):
        """The newest activities of a member's inbox or outbox, the newest first."""
        first = self.ask("GET", f"/users/{name}/{box}", name)[2]["first"]
        return self.ask("GET", first.removeprefix(f"https://{self.host}"), name)[2]["orderedItems"]

    def list_members(self):
        """Makes the list of members of a copy of the store, as the units of contrib/systemd do, and
        returns whether that went well.
        """
        contrib, programs, copies = (
            os.path.dirname(HERE),
            f"{self.folder}/programs",
            f"{self.folder}/copies",
        )
        for folder in (programs, copies):
            os.makedirs(folder)
        os.symlink(self.path, f"{programs}/fedi")
        found = os.environ | {"PATH": f"{programs}:{os.environ['PATH']}"}
        steps = (
            [f"{contrib}/fedi-copy", self.store, copies, "1"],
            [f"{contrib}/fedi-members", copies, self.list()],
        )
        return all(
            subprocess.run(words, env=found, stdout=subprocess.DEVNULL).returncode == 0
            for words in steps
        )

    def list(self):
        """Where the site has the list of members."""
        return f"{self.site.folder}/members/members.json"

    def total(self, collection, name=None):
        return self.ask("GET", f"/users/{collection}", name)[2].get("totalItems")

    def end(self):
        """Ends what was started, and returns how many activities are in the store, which has to be
        whole.
        """
        if self.site:
            self.site.end()
        if self.server:
            self.server.end()
        return activities(self.path, self.store)


class Elsewhere:
    """A page of another origin, over TLS, which says nothing and counts who asks it."""

    def __init__(self, certificate, key):
        asked = self.asked = []

        class Handler(http.server.BaseHTTPRequestHandler):
            def do_GET(self):
                asked.append(self.path)
                self.send_response(200)
                self.send_header("Content-Type", "text/html")
                self.end_headers()
                self.wfile.write(b"<title>other</title>")

            do_POST = do_GET

            def log_message(self, *_):
                pass

        self.server = http.server.ThreadingHTTPServer(("127.0.0.1", 0), Handler)
        self.port = self.server.server_address[1]
        trust = ssl.SSLContext(ssl.PROTOCOL_TLS_SERVER)
        trust.load_cert_chain(certificate, key)
        self.server.socket = trust.wrap_socket(self.server.socket, server_side=True)
        threading.Thread(target=self.server.serve_forever, daemon=True).start()

    def end(self):
        self.server.shutdown()
        self.server.server_close()
