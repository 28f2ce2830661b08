"""The built program, serving on 127.0.0.1, and clients of it."""
import errno
import os
import resource
import shutil
import signal
import socket
import subprocess
import tempfile

from tests.harness.case import SECONDS
from tests.harness.database_files import NAME
from tests.harness.first_order import ORDERS
from tests.harness.http_texts import asking
from tests.harness.hub_scripts import MOMENT
from tests.harness.hub_steps import found, told
from tests.harness.register_texts import RETAILER

# how often a trial begins anew that needs a port, or a machine that is quiet
TRIES = 30


def free_port():
    with socket.socket() as one:
        one.bind(("127.0.0.1", 0))
        return one.getsockname()[1]


def limit(room, seconds):
    """Before a program begins: so many bytes of address space, where that is not 0, and so much processor time, past which a signal ends
    it. A write past the size that a file may have is a fault, and does not end it."""
    signal.signal(signal.SIGXFSZ, signal.SIG_IGN)
    for what, much in ((resource.RLIMIT_AS, room), (resource.RLIMIT_CPU, seconds)):
        if much:
            resource.setrlimit(what, (much, much))


class Server:
    """The program, serving so many connections in a folder of its own, with more words where there are some: over the database file that is
    given or stands there, or over a hub that is founded before."""

    def __init__(self, program, count, moment=MOMENT, data=(), folder=None, output=None, room=0, seconds=0, env=None, more=()):
        self.folder = folder or tempfile.mkdtemp()
        for name, it in dict(data).items():
            with open(os.path.join(self.folder, name), "wb") as file:
                file.write(it)
        if not os.path.exists(os.path.join(self.folder, NAME)):
            found(program, self.folder)
        how = {"stdout": output or subprocess.PIPE, "stderr": subprocess.PIPE, "preexec_fn": lambda: limit(room, seconds), "env": env}
        for _ in range(TRIES):
            self.port = free_port()
            words = ["serve", "--db", NAME, "--port", str(self.port), "--count", str(count)]
            words += ["--moment", moment] if moment else []
            words += more
            self.child = subprocess.Popen([program, *words], cwd=self.folder, **how)
            self.lines = [] if output else [self.child.stdout.readline()]
            self.error = self.child.stderr.read() if self.lines == [b""] else b""
            if self.error != b"listen\n":
                break
            # another program took the port meanwhile
            self.child.communicate()

    def __enter__(self):
        return self

    def __exit__(self, *_):
        if self.child.poll() is None:
            self.child.kill()
        self.child.communicate()
        shutil.rmtree(self.folder, ignore_errors=True)

    def connect(self):
        return socket.create_connection(("127.0.0.1", self.port), SECONDS)

    def ask(self, request, ends=True):
        """What is answered to these bytes, after which the client ends, or does not."""
        with self.connect() as one:
            send(one, request, ends)
            return all_of(one)

    def line(self):
        self.lines.append(self.child.stdout.readline())
        return self.lines[-1]

    def end(self):
        """The exit status, what was printed, and what on standard error."""
        printed, error = self.child.communicate(timeout=SECONDS)
        return self.child.returncode, b"".join(self.lines) + (printed or b""), self.error + error


# what a client is told that is still sending, or says that it ends, when the server has answered and closed
CLOSED_BEFORE = (errno.EPIPE, errno.ECONNRESET, errno.ENOTCONN)


def send(one, request, ends):
    """Sends these bytes, after which the client ends, or does not. The server may answer before it has read all of them, and close: its
    answer can then be read all the same."""
    try:
        one.sendall(request)
        if ends:
            one.shutdown(socket.SHUT_WR)
    except OSError as error:
        if error.errno not in CLOSED_BEFORE:
            raise


def all_of(one):
    """All that a client is sent."""
    found = b""
    while True:
        piece = one.recv(65536)
        if not piece:
            return found
        found += piece


def lines_of(port, statuses):
    """What the program prints of these connections."""
    lines = [f"listening {port}", *(f"connection {k} {status}" for k, status in enumerate(statuses, 1))]
    return "".join(line + "\n" for line in lines).encode()


def exit_of(statuses):
    return max((0 if it == 200 else 3 if it in (503, "fault") else 1 for it in statuses), default=0)


def upload(who, text, *lines, status=200):
    return ("an upload", asking("POST", f"/p/{who}/interchanges", who, text), status, told(*lines))


def accepted(who, reference, kind, text, word="accepted"):
    return upload(who, text, f"interchange {reference} messages 1", f"1 {kind} {word}")


ORDERED = accepted(RETAILER, "1001", "ORDERS", ORDERS)


def get(who, rest, status, body, *fields):
    return (f"GET {rest}", asking("GET", f"/p/{who}/{rest}", who, None, *fields), status, body)


def post(who, rest, body, status, printed):
    return (f"POST {rest}", asking("POST", f"/p/{who}/{rest}", who, body), status, printed)


def listed(*entries, last="end"):
    return told(*(f"{number:>14} {kind} {document}" for number, kind, document in entries), last)
