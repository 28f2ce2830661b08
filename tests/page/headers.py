"""What browsers are told by the configuration of nginx in docs/SERVING.md and docs/PAGE.md: both blocks in one server, over TLS."""
import http.client
import os
import re
import shutil
import ssl
import subprocess
import tempfile
import time

from tests.harness.tree import ROOT
from tests.page.driver import free_port

TYPES = "/etc/nginx/mime.types"
HSTS = "max-age=31536000"
# a path, and what its answer says of being kept
PATHS = (("/", "no-store"), ("/index.html", "no-store"), ("/start.js", "no-cache"), ("/style/page.css", "no-cache"), ("/none", "no-cache"))
HEAD = """{2}daemon off; worker_processes 1; pid {0}/pid; error_log {0}/errors;
events {{}}
http {{
    include {1}; access_log off;
    client_body_temp_path {0}/t1; proxy_temp_path {0}/t2; fastcgi_temp_path {0}/t3; uwsgi_temp_path {0}/t4; scgi_temp_path {0}/t5;
    ssl_certificate {0}/cert.pem; ssl_certificate_key {0}/key.pem;
"""


def block(name, begins):
    """The indented block of a document that begins so."""
    with open(os.path.join(ROOT, "docs", name), encoding="utf-8") as file:
        found = re.search(rf"^    {re.escape(begins)}.*?(?=^\S)", file.read(), re.MULTILINE | re.DOTALL)
    return found[0].rstrip()


def configuration(folder, port):
    """The server of SERVING.md with the lines of PAGE.md in it, at a port of this machine and with its own certificate."""
    server, page = block("SERVING.md", "server {"), block("PAGE.md", "root /srv/edihub/page;")
    assert server.endswith("}"), server
    text = server[:-1] + page + "\n}\n}\n"
    for old, new in (("listen 443 ssl;", f"listen 127.0.0.1:{port} ssl;"), ("/srv/edihub/page", os.path.join(ROOT, "page"))):
        assert text.count(old) == 1, old
        text = text.replace(old, new)
    # the page's folder need not be readable to others
    return HEAD.format(folder, TYPES, "user root; " if os.geteuid() == 0 else "") + text


def certificate(folder):
    key, path = os.path.join(folder, "key.pem"), os.path.join(folder, "cert.pem")
    words = ["openssl", "req", "-x509", "-newkey", "ec", "-pkeyopt", "ec_paramgen_curve:prime256v1", "-nodes", "-days", "2"]
    subprocess.run([*words, "-subj", "/CN=localhost", "-keyout", key, "-out", path], check=True, capture_output=True)


def asked(port, path):
    unchecked = ssl.create_default_context()
    unchecked.check_hostname, unchecked.verify_mode = False, ssl.CERT_NONE
    for _ in range(100):
        try:
            front = http.client.HTTPSConnection("127.0.0.1", port, timeout=30, context=unchecked)
            front.request("GET", path)
            return front.getresponse()
        except ConnectionRefusedError:
            time.sleep(0.1)
    raise AssertionError("nginx does not listen")


def told(_program):
    if not (shutil.which("nginx") and shutil.which("openssl") and os.path.exists(TYPES)):
        return "not tried, since nginx or openssl is not here"
    port = free_port()
    with tempfile.TemporaryDirectory() as folder:
        certificate(folder)
        path = os.path.join(folder, "nginx.conf")
        with open(path, "w", encoding="utf-8") as file:
            file.write(configuration(folder, port))
        child = subprocess.Popen(["nginx", "-c", path, "-p", folder], stderr=subprocess.DEVNULL)
        try:
            for path, kept in PATHS:
                headers = asked(port, path).headers
                assert headers.get_all("Cache-Control") == [kept], (path, headers.items())
                assert headers.get_all("Strict-Transport-Security") == [HSTS], (path, headers.items())
                assert headers["Cross-Origin-Opener-Policy"] == "same-origin", (path, headers.items())
                assert "trusted-types 'none'" in headers["Content-Security-Policy"], (path, headers.items())
            assert asked(port, "/p/x/status").headers.get_all("Strict-Transport-Security") == [HSTS]
        finally:
            child.terminate()
            child.wait()
    return f"{len(PATHS) + 1} answers of nginx"


TRIALS = {"headers of nginx": told}
