"""`make page`: what it prints, what its proxy serves and passes on, and that it ends and leaves nothing."""
import http.client
import os
import re
import signal
import subprocess
import sys
import tempfile

from tests.page.stage import ALPHA, BETA, EXAMPLES, KEYS, free_port

# a path, the fields and body of a request, and the status and a part of the answer
ASKED = [
    ("/", {}, None, 200, b'<script type="module" src="start.js">'),
    ("/screens/order.js", {}, None, 200, b"@ts-check"),
    ("/style/page.css", {}, None, 200, b"body {"),
    ("/../Makefile", {}, None, 404, b"unknown"),
    ("/screens/../../examples/page/proxy.py", {}, None, 404, b"unknown"),
    ("/nothing.js", {}, None, 404, b"unknown"),
    ("/suppliers.csv", {}, None, 200, b"4012345500004;Alpha"),
    (f"/p/{ALPHA}/mail/after/0", {"X-Hub-Key": KEYS[ALPHA]}, None, 200, b" 1 ORDERS 128576\nend\n"),
    (f"/p/{BETA}/mail/after/0", {"X-Hub-Key": KEYS[BETA]}, None, 200, b" 1 ORDERS 128577\nend\n"),
    (f"/p/{ALPHA}/mail/after/0", {}, None, 403, b"denied\n"),
    (f"/p/{ALPHA}/interchanges", {"X-Hub-Key": KEYS[ALPHA]}, b"x", 400, b"refused E05\n"),
    (f"/p/{ALPHA}/interchanges", {"X-Hub-Key": KEYS[ALPHA], "Content-Length": "1048577"}, b"", 413, b"too large\n"),
    ("/", {}, b"x", 404, b"unknown"),
    ("/show", {}, None, 200, b"edihub show\n"),
    ("/show", {}, b"x", 200, b"refused E05 tag at offset 0 line 1 segment 1\n"),
    ("/show", {"Content-Length": "1048577"}, b"", 413, b"too large\n"),
    ("/show/", {}, b"x", 404, b"unknown"),
]


def asked(port, path, fields, body):
    proxy = http.client.HTTPConnection("127.0.0.1", port, timeout=30)
    proxy.request("GET" if body is None else "POST", path, body, fields)
    response = proxy.getresponse()
    found = response.status, response.read(), response.headers
    proxy.close()
    return found


def trying(program):
    port = free_port()
    with tempfile.TemporaryDirectory() as folder:
        words = [sys.executable, os.path.join(EXAMPLES, "page", "try.py"), program, str(port)]
        child = subprocess.Popen(words, stdout=subprocess.PIPE, text=True, env={**os.environ, "TMPDIR": folder})
        try:
            first = child.stdout.readline()
            assert first == f"The page is at http://127.0.0.1:{port}/  (^C ends it)\n", first
            for path, fields, body, status, part in ASKED:
                found, answer, headers = asked(port, path, fields, body)
                assert found == status and part in answer, (path, found, answer[:200])
                assert re.match("default-src 'none'; script-src 'self'; ", headers["Content-Security-Policy"]), headers
                # nothing is kept for later, and no other site holds the window; without TLS nobody is told to use TLS
                assert (headers["Cache-Control"], headers["Cross-Origin-Opener-Policy"]) == ("no-store", "same-origin"), headers
                assert headers["Strict-Transport-Security"] is None, headers
        finally:
            # which ends the hub too
            child.send_signal(signal.SIGINT)
            said = child.stdout.read()
        assert child.wait(30) == 0 and "for trying alone" in said, (child.returncode, said)
        assert os.listdir(folder) == [], os.listdir(folder)
    return f"{len(ASKED)} requests, and nothing is left"


TRIALS = {"make page": trying}
