#!/usr/bin/env python3
"""Explains interchanges for the page's screen *Check a file*: `POST /show` answers with the lines that `edihub show` prints of the body,
and `GET /show` says that this is served. It asks no hub, takes no key and keeps nothing.

    python3 show.py PROGRAM PORT     listens on 127.0.0.1, for a front that passes /show on"""
import os
import subprocess
import sys
import threading
from http.server import BaseHTTPRequestHandler, ThreadingHTTPServer

PATH, SERVED = "/show", b"edihub show\n"
# the longest body; the seconds for one run, for the turn before it, and for a client to send its body; and how many run at once
LONGEST, SECONDS, TURN, PATIENCE, AT_ONCE = 1_048_576, 20, 5, 30, 2


class Explainer:
    """Runs the program, without a shell and without an environment, on one body at a time for each of its turns."""

    def __init__(self, program):
        self.program = program
        self.turns = threading.BoundedSemaphore(AT_ONCE)

    def of(self, text):
        """The status and the body of the answer."""
        if not self.turns.acquire(timeout=TURN):
            return 503, b"busy\n"
        try:
            words = {"stdout": subprocess.PIPE, "stderr": subprocess.DEVNULL, "timeout": SECONDS, "env": {}, "cwd": "/"}
            ran = subprocess.run([self.program, "show"], input=text, check=False, **words)
        except subprocess.TimeoutExpired:
            return 504, b"too slow\n"
        except OSError:
            return 500, b"failed\n"
        finally:
            self.turns.release()
        # 1: something is refused, which the lines say
        return (200, ran.stdout) if ran.returncode in (0, 1) else (500, b"failed\n")


class Handler(BaseHTTPRequestHandler):
    server_version, sys_version, timeout = "edihub-show", "", PATIENCE

    def do_GET(self):
        self.answer(*((200, SERVED) if self.path == PATH else (404, b"unknown\n")))

    def do_POST(self):
        length = self.headers.get("Content-Length", "")
        if self.path != PATH:
            self.answer(404, b"unknown\n")
        elif not length.isdigit():
            self.answer(411, b"length\n")
        elif int(length) > LONGEST:
            self.answer(413, b"too large\n")
        else:
            self.answer(*self.server.explainer.of(self.rfile.read(int(length))))

    def answer(self, status, body):
        self.send_response(status)
        head = (("Content-Type", "application/octet-stream"), ("Content-Length", str(len(body))), ("Cache-Control", "no-store"))
        for name, value in (*head, ("X-Content-Type-Options", "nosniff")):
            self.send_header(name, value)
        self.end_headers()
        self.wfile.write(body)

    def log_message(self, *_):
        """Nothing is logged."""


def main(program, port):
    with ThreadingHTTPServer(("127.0.0.1", port), Handler) as server:
        server.daemon_threads, server.explainer = True, Explainer(program)
        print(f"show is at http://127.0.0.1:{server.server_port}{PATH}", flush=True)
        try:
            server.serve_forever()
        except KeyboardInterrupt:
            print()


if __name__ == "__main__":
    main(os.path.abspath(sys.argv[1]), int(sys.argv[2]))
