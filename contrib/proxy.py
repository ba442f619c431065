"""nginx with the site of contrib/nginx in front of `fedi serve`, for the scripts that try it."""
import os
import re
import shutil
import socket
import ssl
import subprocess
import sys
import time

from serving import HOME, HOST, free_port, next_reply

MAIN = """
daemon off;
worker_processes {workers};
{user}
pid {folder}/pid;
error_log {folder}/error.log;
events {{ worker_connections 1024; }}
http {{
    include /etc/nginx/mime.types;
    access_log {folder}/access.log;
    client_body_temp_path {folder}/body;
    proxy_temp_path {folder}/proxy;
    fastcgi_temp_path {folder}/fastcgi;
    uwsgi_temp_path {folder}/uwsgi;
    scgi_temp_path {folder}/scgi;
    include {folder}/site;
    include {folder}/peers*;
}}
"""


def tool(name):
    return shutil.which(name) or shutil.which(name, path="/usr/sbin")


def replaced(name, text, old, new):
    """The text with this put in place of that, which it has to have."""
    text, count = re.subn(old, new, text)
    if count == 0:
        sys.exit(f"contrib/nginx/{name} has no {old}")
    return text


def way_out(port, peer, changes=()):
    """The site for the way out: at this port, to the site of the peer."""
    with open(os.path.join(HOME, "contrib/nginx/fedi-peers.conf")) as file:
        text = file.read()
    for old, new in [
        (r"127\.0\.0\.1:8801", f"127.0.0.1:{port}"),
        (r"https://192\.0\.2\.7", f"https://127.0.0.1:{peer.tls}"),
        (r"hill\.example", peer.host),
        (r"/etc/ssl/certs/ca-certificates\.crt", peer.certificate),
        *changes,
    ]:
        text = replaced("fedi-peers.conf", text, old, new)
    return text


class Site:
    """nginx with the site as it stands, but for its ports, its certificate, its folders and,
    without `limit`, how often one address may ask. What it needs is in a folder of its own.
    `changes` are more texts of the site with what is put in their place. `workers` is the number
    of worker processes.
    """

    def __init__(
        self,
        folder,
        upstream,
        host=HOST,
        page=os.path.join(HOME, "contrib/web"),
        changes=(),
        cors=False,
        limit=False,
        workers=1,
    ):
        self.folder, self.host, self.plain, self.tls = folder, host, free_port(), free_port()
        for name in ("fedi.d", "members"):
            os.makedirs(f"{folder}/{name}", exist_ok=True)
        if cors:
            shutil.copy(os.path.join(HOME, "contrib/nginx/fedi-cors.conf"), f"{folder}/fedi.d")
        self.certificate = f"{folder}/certificate"
        subprocess.run(
            [
                "openssl",
                "req",
                "-x509",
                "-newkey",
                "rsa:2048",
                "-nodes",
                "-days",
                "1",
                "-subj",
                f"/CN={host}",
                "-addext",
                f"subjectAltName=DNS:{host}",
                "-keyout",
                f"{folder}/key",
                "-out",
                self.certificate,
            ],
            check=True,
            capture_output=True,
        )
        with open(os.path.join(HOME, "contrib/nginx/fedi.conf")) as file:
            text = file.read()
        for old, new in [
            (r"server 127\.0\.0\.1:8765 ", f"server 127.0.0.1:{upstream} "),
            (r"listen (\[::\]:)\S+.*;", ""),
            (r"listen 80;", f"listen 127.0.0.1:{self.plain};"),
            (r"listen 443 ", f"listen 127.0.0.1:{self.tls} "),
            (r"/etc/letsencrypt/\S+/fullchain.pem", self.certificate),
            (r"/etc/letsencrypt/\S+/privkey.pem", f"{folder}/key"),
            (r"/var/www/html", f"{folder}/www"),
            (r"/usr/local/share/fedi/web", page),
            (r"/var/lib/fedi-members", f"{folder}/members"),
            (r"/etc/nginx/fedi.d", f"{folder}/fedi.d"),
            (r"rate=50r/s", "rate=50r/s" if limit else "rate=100000r/s"),
            (re.escape(HOST), host),
            *changes,
        ]:
            text = replaced("fedi.conf", text, old, new)
        user = "user root;" if os.geteuid() == 0 else ""
        for name, text in (
            ("site", text),
            ("conf", MAIN.format(folder=folder, user=user, workers=workers)),
        ):
            with open(f"{folder}/{name}", "w") as file:
                file.write(text)
        words = [tool("nginx"), "-p", folder, "-c", f"{folder}/conf", "-e", f"{folder}/error.log"]
        judged = subprocess.run([*words, "-t"], capture_output=True, text=True)
        if judged.returncode != 0:
            sys.exit(judged.stderr)
        self.words = words
        self.child = subprocess.Popen(words, stdin=subprocess.DEVNULL)
        self.trust = ssl.create_default_context(cafile=self.certificate)

    def connect(self, port=None):
        """A connection over TLS, or a plain one to this port."""
        until = time.monotonic() + 20
        while True:
            try:
                plain = socket.create_connection(("127.0.0.1", port or self.tls), timeout=60)
                return plain if port else self.trust.wrap_socket(plain, server_hostname=self.host)
            except ConnectionRefusedError:
                if time.monotonic() > until:
                    raise
                time.sleep(0.05)

    def ask(self, request, port=None):
        with self.connect(port) as line, line.makefile("rb") as stream:
            line.sendall(request)
            return next_reply(stream)

    def lead(self, port, peer, changes=()):
        """Has this port lead to the site of a peer over TLS, by the site for the way out. Of the
        peer it takes the host, the port and the certificate that is trusted. `changes` are as for
        the site.
        """
        with open(f"{self.folder}/peers-{port}", "w") as file:
            file.write(way_out(port, peer, changes))
        self.reload()
        self.connect(port).close()

    def reload(self):
        """Has nginx read its files again, as `systemctl reload nginx` does."""
        subprocess.run([*self.words, "-s", "reload"], check=True, capture_output=True)

    def end(self):
        self.child.terminate()
        self.child.wait()
