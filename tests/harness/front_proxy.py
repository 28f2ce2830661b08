"""HAProxy as the examples have it, on ports of its own, and requests of clients through it."""
import asyncio
import os
import re
import shutil
import socket
import ssl
import subprocess
import tempfile
import threading
import time

from tests.harness.database_files import NAME
from tests.harness.hub_scripts import MOMENT
from tests.harness.servers import free_port
from tests.harness.tree import EXAMPLES

# seconds past which no answer comes: those of the queue and of the hub, and some more
LONGEST = 180
# where the examples look for the certificate, and listen
CERTIFICATE, ADDRESS = "/etc/haproxy/hub.pem", ":443"


def is_there():
    """Whether there is an HAProxy, and what makes a certificate."""
    return shutil.which("haproxy") and shutil.which("openssl")


def certificate(folder):
    """The path of a certificate of this machine's own, with its key."""
    key, path = os.path.join(folder, "key.pem"), os.path.join(folder, "hub.pem")
    words = ["openssl", "req", "-x509", "-newkey", "ec", "-pkeyopt", "ec_paramgen_curve:prime256v1", "-nodes", "-days", "2"]
    words += ["-subj", "/CN=localhost", "-addext", "subjectAltName=IP:127.0.0.1", "-keyout", key, "-out", path]
    subprocess.run(words, check=True, capture_output=True)
    with open(key, encoding="ascii") as source, open(path, "a", encoding="ascii") as target:
        target.write(source.read())
    return path


def instead(text, place, words):
    """The text with other words in the one place of these."""
    if text.count(place) != 1:
        raise ValueError(f"{place} stands {text.count(place)} times in the example")
    return text.replace(place, words)


class Supervised:
    """The program, serving over a file, and begun anew whenever its connections are used up, after a second's rest."""

    def __init__(self, program, folder, count):
        self.folder, self.port, self.begun, self.ends = folder, free_port(), 0, []
        self.words = [program, "serve", "--db", NAME, "--port", str(self.port), "--count", str(count), "--moment", MOMENT]
        self.printed, self.over = os.path.join(folder, "printed"), threading.Event()
        self.thread = threading.Thread(target=self.watch, daemon=True)
        self.thread.start()
        while not os.path.exists(self.printed) or b"listening" not in self.lines():
            time.sleep(0.02)

    def watch(self):
        while not self.over.is_set():
            with open(self.printed, "ab") as printed:
                self.child = subprocess.Popen(self.words, cwd=self.folder, stdout=printed)
            self.begun += 1
            self.ends.append(self.child.wait())
            self.over.wait(1)

    def lines(self):
        with open(self.printed, "rb") as printed:
            return printed.read()

    def __enter__(self):
        return self

    def __exit__(self, *_):
        self.over.set()
        self.child.kill()
        self.thread.join()


class Door:
    """How clients come to a front: its port, and the certificate that it shows."""

    def __init__(self, port, path):
        self.port, self.secrets = port, ssl.create_default_context(cafile=path)

    async def connected(self, source):
        """A connection from an address of this machine."""
        return await asyncio.open_connection("127.0.0.1", self.port, ssl=self.secrets, local_addr=(source, 0), limit=1 << 22)

    async def ask(self, request, source="127.0.0.1", pieces=1, pause=0.0):
        """What is answered to a request that is sent in so many pieces with pauses between: its status and its body."""
        reader, writer = await self.connected(source)
        try:
            for place in range(pieces):
                begun, end = (len(request) * it // pieces for it in (place, place + 1))
                writer.write(request[begun:end])
                await writer.drain()
                if place + 1 < pieces:
                    await asyncio.sleep(pause)
            return await answered(reader)
        finally:
            writer.close()

    async def leave(self, request, source="127.0.0.1"):
        """Sends this, and goes away without a look at the answer."""
        _, writer = await self.connected(source)
        writer.write(request)
        await writer.drain()
        writer.transport.abort()


class Served:
    """A front on a port of its own, with a folder for its log and its certificate."""

    def __init__(self):
        self.folder, self.port = tempfile.mkdtemp(), free_port()
        self.log, self.certificate = os.path.join(self.folder, "log"), certificate(self.folder)

    def await_listening(self):
        for _ in range(100):
            try:
                socket.create_connection(("127.0.0.1", self.port), 1).close()
                return
            except OSError:
                time.sleep(0.05)
        raise OSError(f"no front: {self.logged()!r:.300}")

    def __enter__(self):
        return self

    def door(self):
        return Door(self.port, self.certificate)

    def logged(self):
        with open(self.log, "rb") as log:
            return log.read()


class Front(Served):
    """HAProxy with a file of the examples, in which nothing but the addresses of the front and of the hubs, the certificate, the log and
    the user are others. `hubs`: what stands in the file for the address of a hub, and the port that takes its place. `changes`: what
    else is another."""

    # what a client reads whose head does not come in time
    late = b"HTTP/1.1 408 "

    def __init__(self, name, hubs, changes=()):
        super().__init__()
        path = os.path.join(self.folder, "haproxy.cfg")
        with open(path, "w", encoding="ascii") as file:
            file.write(self.text(name, hubs, changes))
        with open(self.log, "wb") as log:
            self.child = subprocess.Popen(["haproxy", "-f", path], stdout=log, stderr=subprocess.STDOUT)
        self.await_listening()

    def text(self, name, hubs, changes):
        """The file, with what is another."""
        with open(os.path.join(EXAMPLES, name), encoding="ascii") as file:
            text = file.read()
        for place, words in dict(changes).items():
            text = instead(text, place, words)
        for address, port in hubs.items():
            text = instead(text, f" {address} ", f" 127.0.0.1:{port} ")
        text = self.placed(text)
        text = instead(text, "log /dev/log local0", "log stdout format raw local0")
        return re.sub(r"^ +(user|group) haproxy\n", "", text, flags=re.MULTILINE)

    def placed(self, text):
        """The file with its own port and certificate."""
        return instead(instead(text, f"bind {ADDRESS} ", f"bind 127.0.0.1:{self.port} "), CERTIFICATE, self.certificate)

    def __exit__(self, *_):
        self.child.kill()
        self.child.wait()
        shutil.rmtree(self.folder, ignore_errors=True)


async def answered(reader):
    """The status and the body of an answer."""
    head = await asyncio.wait_for(reader.readuntil(b"\r\n\r\n"), LONGEST)
    length = re.search(rb"\r\ncontent-length: *(\d+)\r\n", head, re.IGNORECASE)
    if not length or not re.match(rb"HTTP/1\.1 \d{3} ", head):
        raise OSError(f"no answer: {head!r:.200}")
    return int(head[9:12]), await asyncio.wait_for(reader.readexactly(int(length[1])), LONGEST)
