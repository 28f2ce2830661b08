"""The script of examples/folder, which uploads the files of a folder: to a hub that accepts and refuses, to one that comes late, and to
one that answers as a front or as a broken hub does."""
import os
import stat
import subprocess
import sys
import tempfile
import threading
import time
from contextlib import contextmanager
from http.server import BaseHTTPRequestHandler, ThreadingHTTPServer

from tests.harness.case import SECONDS
from tests.harness.first_order import ORDERS, cut
from tests.harness.hub_scripts import KEYS, SECOND, interchange, order
from tests.harness.hub_steps import told
from tests.harness.register_texts import GAMMA, RETAILER
from tests.harness.servers import Server, free_port
from tests.harness.tree import EXAMPLES

FEED = os.path.join(EXAMPLES, "folder", "feed.py")
OF_NOBODY = interchange(RETAILER, "1003", order("7"), order("8", supplier=GAMMA, reference=2))
CUT, LONG = ORDERS[:90], "x" * 1_048_577
ACCEPTED, REPEATED = (told("interchange 1001 messages 1", f"1 ORDERS {word}") for word in ("accepted", "repeated"))


def put(folder, name, text):
    """Places a file as the guide says: under another name, and then renamed."""
    with open(os.path.join(folder, ".new"), "w", encoding="latin-1") as file:
        file.write(text)
    os.rename(os.path.join(folder, ".new"), os.path.join(os.fsencode(folder), os.fsencode(name)))


def begun(port, folder, patience=30, key=KEYS[RETAILER], mode=0o600, hub="http://127.0.0.1:{}"):
    """A run that has begun."""
    path = f"{folder}.key"
    with open(path, "w", encoding="ascii") as file:
        file.write(key + "\n")
    os.chmod(path, mode)
    words = ["--hub", hub.format(port), "--as", RETAILER, "--key-file", path, "--patience", str(patience), folder]
    return subprocess.Popen([sys.executable, "-B", FEED, *words], stdout=subprocess.PIPE, stderr=subprocess.PIPE)


def run(*of, **how):
    """The status of a run, what it prints, and what on standard error."""
    child = begun(*of, **how)
    printed, error = child.communicate(timeout=SECONDS)
    return child.returncode, printed.decode(), error.decode()


def held(folder):
    """The files of a folder and of those in it, with the text of those that are replies."""
    found = {}
    for where, _, names in os.walk(os.fsencode(folder)):
        for name in names:
            path = os.path.relpath(os.path.join(where, name), os.fsencode(folder))
            found[os.fsdecode(path)] = None
            if path.endswith(b".reply"):
                with open(os.path.join(where, name), encoding="latin-1") as file:
                    found[os.fsdecode(path)] = file.read()
    return found


@contextmanager
def folders():
    with tempfile.TemporaryDirectory() as top:
        os.mkdir(os.path.join(top, "in"))
        yield os.path.join(top, "in")


class Answers:
    """A hub that answers uploads with these in turn, each a status and a body, or `None` where it closes the connection. It keeps what
    came. The first answer waits until it is let go."""

    def __init__(self, *answers):
        self.came, self.go_on, outer = [], threading.Event(), self
        left = list(answers)

        class Handler(BaseHTTPRequestHandler):
            def do_POST(self):
                outer.came.append(self.rfile.read(int(self.headers["Content-Length"])))
                outer.go_on.wait(SECONDS)
                answer = left.pop(0)
                if answer:
                    self.answer(*answer)

            def answer(self, status, body):
                try:
                    self.send_response(status)
                    self.send_header("Content-Length", str(len(body)))
                    self.end_headers()
                    self.wfile.write(body.encode())
                except OSError:
                    # whoever asked was killed
                    pass

            def log_message(self, *_):
                """Nothing is logged."""

        self.server = ThreadingHTTPServer(("127.0.0.1", 0), Handler)
        self.port = self.server.server_port

    def __enter__(self):
        threading.Thread(target=self.server.serve_forever, daemon=True).start()
        return self

    def __exit__(self, *_):
        self.go_on.set()
        self.server.shutdown()
        self.server.server_close()


# what is placed, by its name; what the run prints of it; and the reply, in the order of the bytes of the names
PLACED = (
    ("1.edi", ORDERS, "done 1.edi", ACCEPTED),
    ("2 cut.edi", CUT, f"refused 2 cut.edi: refused {cut(90)}", told(f"refused {cut(90)}")),
    ("Z", OF_NOBODY, "refused Z: 2 ORDERS refused B02", told("interchange 1003 messages 2", "1 ORDERS accepted", "2 ORDERS refused B02")),
    ("a", LONG, "refused a: too large", told("too large")),
    ("b", "", "refused b: refused E06", told("refused E06")),
    ("c\n", ORDERS, "done 'c\\n'", REPEATED),
    ("d" * 250, SECOND, "done " + "d" * 250, told("interchange 1002 messages 1", "1 ORDERS accepted")),
    ("\udcff", ORDERS, "done '\\udcff'", REPEATED),
)
# what is left where it is
LEFT = {"e.part", ".f", "folder/g", "h", "i", "j"}


def placed_files(folder):
    """Places all kinds of files, and what is no file. Returns one that is still open for writing."""
    for name, text, _, _ in PLACED:
        put(folder, name, text)
    for name in ("e.part", ".f"):
        put(folder, name, ORDERS)
    os.mkdir(os.path.join(folder, "folder"))
    put(os.path.join(folder, "folder"), "g", ORDERS)
    os.symlink(os.path.join(folder, "1.edi"), os.path.join(folder, "h"))
    os.mkfifo(os.path.join(folder, "i"))
    half = open(os.path.join(folder, "j"), "w", encoding="latin-1")
    half.write(ORDERS[:100])
    half.flush()
    return half


def a_folder(program):
    """What is wrong with a run over files of all kinds, and with a second over one that was half written, if anything."""
    with folders() as folder, Server(program, 1_000) as server:
        half = placed_files(folder)
        found = run(server.port, folder)
        wanted = dict.fromkeys(LEFT)
        for name, _, line, reply in PLACED:
            path = f"{line.split(' ')[0]}/{name[:200]}"
            wanted |= {path: None, f"{path}.reply": reply}
        if found[:2] != (1, told(*(it[2] for it in PLACED))) or "j is left" not in found[2] or held(folder) != wanted:
            return f"a run ends with {found}, and leaves {held(folder)!r:.1500}"
        half.write(ORDERS[100:])
        half.close()
        put(folder, "1.edi", ORDERS)
        found = run(server.port, folder)
        again = {"done/1.edi.2": None, "done/1.edi.2.reply": REPEATED, "done/j": None, "done/j.reply": REPEATED}
        if found != (0, told("done 1.edi", "done j"), "") or held(folder) != {it: wanted[it] for it in wanted if it != "j"} | again:
            return f"then with {found}, and leaves {held(folder)!r:.1500}"
        mode = stat.S_IMODE(os.stat(os.path.join(folder, "done", "j.reply")).st_mode)
        return None if mode == 0o600 else f"a reply has mode {mode:o}"


def a_late_hub(program):
    """What is wrong where the hub begins after the run, if anything."""
    with folders() as folder, Server(program, 1_000) as server:
        put(folder, "1", ORDERS)
        put(folder, "2", SECOND)
        server.child.kill()
        server.child.communicate()
        child = begun(server.port, folder)
        line = child.stderr.readline()
        words = [program, "serve", "--db", "hub.db", "--port", str(server.port), "--count", "2", "--moment", "1748942400"]
        hub = subprocess.Popen(words, cwd=server.folder, stdout=subprocess.DEVNULL)
        printed = child.communicate(timeout=SECONDS)[0]
        status = hub.wait(SECONDS)
        if (child.returncode, status, printed) != (0, 0, b"done 1\ndone 2\n") or b"sent again in 1 s: no answer" not in line:
            return f"the run ends with {child.returncode}, the hub with {status}: {printed}, {line}"
        return None if held(folder)["done/1.reply"] == ACCEPTED else f"{held(folder)}"


def other_answers(_program):
    """What is wrong with what is sent again, and with what is not, if anything."""
    busy = [None, (503, "busy\n"), (200, ACCEPTED)]
    with folders() as folder, Answers(*busy) as hub:
        hub.go_on.set()
        put(folder, "1", ORDERS)
        found = run(hub.port, folder)
        if found[:2] != (0, "done 1\n") or hub.came != [ORDERS.encode()] * 3 or held(folder)["done/1.reply"] != ACCEPTED:
            return f"a hub that is busy: {found}, {len(hub.came)} came, {held(folder)}"
    for status, patience in ((403, 30), (404, 30), (503, 0), (200, 0)):
        with folders() as folder, Answers((status, "<html>\n"), (200, ACCEPTED)) as hub:
            hub.go_on.set()
            put(folder, "1", ORDERS)
            found = run(hub.port, folder, patience)
            if found[:2] != (3, "") or "1 was not taken" not in found[2] or held(folder) != {"sending/1": None}:
                return f"a hub that answers {status}: {found}, {held(folder)}"
            if run(hub.port, folder) != (0, "done 1\n", "") or "done/1" not in held(folder):
                return f"a run after one that was answered {status}: {held(folder)}"
    return None


def runs_at_once(_program):
    """What is wrong with two runs at once, with what others see of the key, and with a run that is killed, if anything."""
    with folders() as folder, Answers((200, ACCEPTED), (200, REPEATED)) as hub:
        put(folder, "1", ORDERS)
        first = begun(hub.port, folder)
        until = time.monotonic() + SECONDS
        while not hub.came and time.monotonic() < until:
            time.sleep(0.02)
        second = run(hub.port, folder)
        seen = b"".join(open(f"/proc/{first.pid}/{it}", "rb").read() for it in ("cmdline", "environ"))
        first.kill()
        first.communicate()
        hub.go_on.set()
        third = run(hub.port, folder)
        if second != (3, "", "stopped: another run has the folder\n") or KEYS[RETAILER].encode() in seen:
            return f"the second of two runs: {second}; or the key can be seen"
        if third != (0, "done 1\n", "") or held(folder) != {"done/1": None, "done/1.reply": REPEATED} or len(hub.came) != 2:
            return f"the run after one that was killed: {third}, {held(folder)}"
    return None


def wrong_words(_program):
    """What is wrong with runs that are not begun, if anything."""
    cases = (({"mode": 0o604}, "every user"), ({"key": "two keys"}, "a key alone"), ({"hub": "http://example.com"}, "use https"))
    cases += (({"hub": "127.0.0.1:{}"}, "address"), ({"hub": "http://127.0.0.1:x"}, "ort"))
    for how, says in cases:
        with folders() as folder:
            put(folder, "1", ORDERS)
            status, printed, error = run(free_port(), folder, **how)
            if (status, printed) != (2, "") or says not in error or held(folder) != {"1": None}:
                return f"{how}: {status}, {printed}, {error}"
    return None


TRIALS = [
    ("a folder that feeds the hub", a_folder),
    ("a folder that feeds a hub that comes late", a_late_hub),
    ("a folder that is sent again, and one that is not", other_answers),
    ("a folder with two runs at once, and with one that was killed", runs_at_once),
    ("a folder with wrong words", wrong_words),
]
