"""nginx, HAProxy and a hub, as examples/front has them together, on ports of their own."""
import os
import re
import shutil
import subprocess

from tests.harness.front_proxy import Front, Served, certificate, instead
from tests.harness.servers import free_port
from tests.harness.tree import EXAMPLES, ROOT

# where the example listens, and the files that it names
PLAIN, SECURE, QUEUE = "listen 80;", "listen 443 ssl;", "http://127.0.0.1:8090;"
FILES = {"/run/nginx.pid": "nginx.pid", "/var/log/nginx/error.log": "error.log", "/var/log/nginx/access.log": "log"}
# what nginx keeps on the disk, for which the example takes where the system has it
KEPT = ("client_body", "proxy", "fastcgi", "uwsgi", "scgi")


def is_there():
    return shutil.which("nginx") and shutil.which("haproxy") and shutil.which("openssl")


class Queue(Front):
    """HAProxy behind nginx."""

    def placed(self, text):
        return instead(text, "bind 127.0.0.1:8090\n", f"bind 127.0.0.1:{self.port}\n")


class WholeFront(Served):
    """nginx, in whose file nothing but ports, files and the user are others, and HAProxy behind it, before a hub on a port."""

    # a client whose head does not come in time finds its connection closed
    late = b""

    def __init__(self, hub_port):
        self.queue = Queue("front/haproxy-behind-nginx.cfg", {"127.0.0.1:880": hub_port})
        super().__init__()
        self.plain = free_port()
        path = os.path.join(self.folder, "nginx.conf")
        with open(path, "w", encoding="ascii") as file:
            file.write(self.text())
        words = ["nginx", "-p", self.folder, "-e", os.path.join(self.folder, "error.log"), "-c", path, "-g", "daemon off;"]
        self.server = subprocess.Popen(words, stdout=subprocess.DEVNULL, stderr=subprocess.DEVNULL)
        self.await_listening()

    @property
    def child(self):
        """Who takes most of the memory."""
        return self.queue.child

    def text(self):
        with open(os.path.join(EXAMPLES, "front", "nginx.conf"), encoding="ascii") as file:
            text = file.read()
        text = instead(text, PLAIN, f"listen 127.0.0.1:{self.plain};")
        text = instead(text, SECURE, f"listen 127.0.0.1:{self.port} ssl;")
        text = instead(text, QUEUE, f"http://127.0.0.1:{self.queue.port};")
        text = instead(text, "/srv/edihub/page", os.path.join(ROOT, "page"))
        for place, name in FILES.items():
            text = instead(text, place, os.path.join(self.folder, name))
        text = text.replace("/etc/nginx/hub.pem", certificate(self.folder))
        paths = "".join(f"    {it}_temp_path {os.path.join(self.folder, it)};\n" for it in KEPT)
        # the workers of root are another user's, who cannot read these folders
        user = "user root;" if os.getuid() == 0 else ""
        return re.sub(r"^user .*$", user, text.replace("http {\n", "http {\n" + paths, 1), flags=re.MULTILINE)

    def __exit__(self, *_):
        self.server.terminate()
        self.server.wait()
        self.queue.__exit__()
        shutil.rmtree(self.folder, ignore_errors=True)
