"""The nginx of the whole front passes `/show` on to show.py, but nothing that is too long, and says so if nothing answers there. Needs
nginx and openssl."""
import http.client
import os
import re
import shutil
import ssl
import subprocess
import sys
import tempfile
import time

from tests.harness.tree import EXAMPLES
from tests.page.driver import free_port
from tests.page.headers import HSTS, TYPES, certificate

PLACES = ("client_body", "proxy", "fastcgi", "uwsgi", "scgi")


def configuration(folder, ports):
    """nginx.conf with ports, files and user of this machine."""
    with open(os.path.join(EXAMPLES, "front", "nginx.conf"), encoding="ascii") as file:
        text = file.read()
    certificate(folder)
    with open(os.path.join(folder, "hub.pem"), "w", encoding="ascii") as both:
        for name in ("cert.pem", "key.pem"):
            with open(os.path.join(folder, name), encoding="ascii") as part:
                both.write(part.read())
    changes = {"listen 80;": f"listen 127.0.0.1:{ports[0]};", "listen 443 ssl;": f"listen 127.0.0.1:{ports[1]} ssl;"}
    changes |= {"127.0.0.1:8091": f"127.0.0.1:{ports[2]}", "pid /run/nginx.pid;": f"pid {folder}/pid; daemon off;"}
    changes["http {\n"] = "http {\n" + "".join(f"    {it}_temp_path {folder}/{it};\n" for it in PLACES)
    if not os.path.exists(TYPES):
        changes[f"include {TYPES};"] = ""
    for old, new in changes.items():
        assert text.count(old) == 1, old
        text = text.replace(old, new)
    text = re.sub(r"/var/log/nginx|/etc/nginx(?=/hub)", folder, text)
    return re.sub(r"^user .*$", "user root;" if os.geteuid() == 0 else "", text, flags=re.MULTILINE)


def asked(port, body=None, headers=None):
    unchecked = ssl.create_default_context()
    unchecked.check_hostname, unchecked.verify_mode = False, ssl.CERT_NONE
    for _ in range(100):
        try:
            front = http.client.HTTPSConnection("127.0.0.1", port, timeout=60, context=unchecked)
            front.request("GET" if body is None else "POST", "/show", body, headers or {})
            response = front.getresponse()
            return response.status, response.read(), response.headers["Strict-Transport-Security"]
        except ConnectionRefusedError:
            time.sleep(0.1)
    raise AssertionError("nginx does not listen")


def passed_on(program):
    if not (shutil.which("nginx") and shutil.which("openssl")):
        return "not tried, since nginx or openssl is not here"
    ports = [free_port() for _ in range(3)]
    with tempfile.TemporaryDirectory() as folder:
        path = os.path.join(folder, "nginx.conf")
        with open(path, "w", encoding="ascii") as file:
            file.write(configuration(folder, ports))
        front = subprocess.Popen(["nginx", "-c", path, "-p", folder, "-e", os.path.join(folder, "errors")], stderr=subprocess.DEVNULL)
        words = [sys.executable, os.path.join(EXAMPLES, "page", "show.py"), program, str(ports[2])]
        try:
            # nothing is behind it yet
            assert asked(ports[1])[:2] == (502, b"no answer\n")
            behind = subprocess.Popen(words, stdout=subprocess.PIPE)
            assert behind.stdout.readline().endswith(b"/show\n")
            try:
                assert asked(ports[1]) == (200, b"edihub show\n", HSTS), asked(ports[1])
                found = asked(ports[1], b"x", {"X-Hub-Key": "a key"})
                assert found == (200, b"refused E05 tag at offset 0 line 1 segment 1\n", HSTS), found
                assert asked(ports[1], b"x" * 1_048_577)[:2] == (413, b"too large\n")
            finally:
                behind.terminate()
                behind.communicate()
        finally:
            front.terminate()
            front.wait()
    return "4 answers of nginx"


TRIALS = {"show behind nginx": passed_on}
