"""A small reverse proxy, only for trying the page, on 127.0.0.1 and without TLS, so without Strict-Transport-Security: it serves the files
of `page/` at `/`, passes `/p/` to the hub, and explains files at `/show`. docs/PAGE.md has the real one."""
import http.client
import os
from http.server import BaseHTTPRequestHandler, ThreadingHTTPServer

import show

PAGE = os.path.join(os.path.dirname(os.path.dirname(os.path.dirname(os.path.abspath(__file__)))), "page")
TYPES = {".html": "text/html; charset=utf-8", ".css": "text/css", ".js": "text/javascript", ".svg": "image/svg+xml"}
TYPES[".csv"] = "text/csv"
POLICY = (
    "default-src 'none'; script-src 'self'; style-src 'self'; img-src 'self'; connect-src 'self'; "
    "base-uri 'none'; form-action 'none'; frame-ancestors 'none'; require-trusted-types-for 'script'; trusted-types 'none'"
)
# the longest body that a hub takes, and how long it may take for an answer
LONGEST, PATIENCE = 1_048_576, 60


class Proxy(ThreadingHTTPServer):
    """Listens on a port of 127.0.0.1 (0: a free one), in front of a hub on another."""

    daemon_threads = True
    # a browser asks for many modules at once, and waits a second for each connection that finds no room
    request_queue_size = 128

    def __init__(self, port, hub_port, handler=None, suppliers=None, program=None):
        super().__init__(("127.0.0.1", port), handler or Handler)
        self.hub_port = hub_port
        # the file that is beside the page as suppliers.csv, if there is one
        self.suppliers = suppliers
        # None: files are not explained
        self.explainer = show.Explainer(program) if program else None

    @property
    def address(self):
        return f"http://127.0.0.1:{self.server_port}/"


class Handler(BaseHTTPRequestHandler):
    server_version, sys_version = "edihub-page", ""

    def do_GET(self):
        if self.path.startswith("/p/"):
            self.pass_on(None)
        elif self.explains:
            self.answer(200, show.SERVED)
        else:
            self.give_file()

    def do_POST(self):
        length = self.headers.get("Content-Length", "")
        if not self.path.startswith("/p/") and not self.explains:
            self.answer(404, b"unknown\n")
        elif not length.isdigit():
            self.answer(411, b"length\n")
        elif int(length) > LONGEST:
            self.answer(413, b"too large\n")
        elif self.explains:
            self.answer(*self.server.explainer.of(self.rfile.read(int(length))))
        else:
            self.pass_on(self.rfile.read(int(length)))

    @property
    def explains(self):
        return self.path == show.PATH and self.server.explainer is not None

    def pass_on(self, body):
        """Asks the hub, over a connection of its own, once the request is read whole."""
        try:
            status, answer = self.asked(body)
        except OSError:
            status, answer = 502, b"the hub does not answer\n"
        self.answer(status, answer)

    def asked(self, body):
        hub = http.client.HTTPConnection("127.0.0.1", self.server.hub_port, timeout=PATIENCE)
        try:
            hub.request(self.command, self.path, body, {"X-Hub-Key": self.headers.get("X-Hub-Key", "")})
            response = hub.getresponse()
            return response.status, response.read()
        except http.client.HTTPException as why:
            raise OSError(str(why)) from why
        finally:
            hub.close()

    def give_file(self):
        name = os.path.normpath(self.path.partition("?")[0].lstrip("/") or "index.html")
        kind = TYPES.get(os.path.splitext(name)[1])
        file = self.server.suppliers or "" if name == "suppliers.csv" else os.path.join(PAGE, name)
        if kind and not name.startswith("..") and os.path.isfile(file):
            with open(file, "rb") as opened:
                self.answer(200, opened.read(), kind)
        else:
            self.answer(404, b"unknown\n")

    def answer(self, status, body, kind="application/octet-stream"):
        self.send_response(status)
        for name, value in (
            ("Content-Type", kind),
            ("Content-Length", str(len(body))),
            ("Cache-Control", "no-store"),
            ("Content-Security-Policy", POLICY),
            ("Cross-Origin-Opener-Policy", "same-origin"),
            ("Referrer-Policy", "no-referrer"),
            ("X-Content-Type-Options", "nosniff"),
        ):
            self.send_header(name, value)
        self.end_headers()
        self.wfile.write(body)

    def log_message(self, *_):
        """Nothing is logged."""
